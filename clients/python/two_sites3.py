"""Two sites of edition 3 that wait for each other, each a process of its own, over a socket. Each is killed once and started
again on its journal, the link goes on, and the deadlock is found and ends.

    two_sites3.py FOLDER      leaves the journals of the run in FOLDER/one.cmhj and FOLDER/two.cmhj

Site 2 dies as it writes its second entry, half of which is in the file; site 1 once its third entry is synced, and before its
message is sent. What a site does next is told by its state, so it does not matter where it was killed.
"""
import os
import signal
import socket
import subprocess
import sys
import time

from libcmh import Entry3, Site3, entry_max, got3, sent3

WORLD = b'two sites, no. 3'         # a program draws it at random, for each run that begins
ROWS = {1: [1], 2: [2]}
NAMES = {1: 'one.cmhj', 2: 'two.cmhj'}


def read(path: str) -> bytes:
    with open(path, 'rb') as file:
        return file.read()


def sync_folder(folder: str) -> None:
    place = os.open(folder, os.O_RDONLY)
    os.fsync(place)
    os.close(place)


class Peer:
    """One site, with its journal and its connection to the other site."""

    def __init__(self, folder: str, number: int, dies_at: int):
        self.folder, self.number, self.other, self.dies_at = folder, number, 3 - number, dies_at
        self.path, self.link, self.listener, self.entries = os.path.join(folder, NAMES[number]), None, None, 0
        if os.path.exists(self.path):
            self.open_again()
        else:
            self.begin()

    def begin(self) -> None:
        """A journal gets its name once it is whole."""
        self.site = Site3(WORLD, ROWS, self.number)
        with open(self.path + '.new', 'wb') as file:
            file.write(self.site.head())
            file.flush()
            os.fsync(file.fileno())
        os.rename(self.path + '.new', self.path)
        sync_folder(self.folder)
        self.journal = open(self.path, 'ab', buffering=0)

    def open_again(self) -> None:
        """What was cut off goes, and what was read is written once more and synced, before anybody hears of it."""
        bytes_ = read(self.path)
        self.site, end = Site3.open(WORLD, ROWS, self.number, bytes_)
        begin = max(end - entry_max(), 0)
        with open(self.path, 'r+b', buffering=0) as file:
            file.truncate(end)
            os.pwrite(file.fileno(), bytes_[begin:end], begin)
            os.fsync(file.fileno())
        self.journal = open(self.path, 'ab', buffering=0)

    def take(self, entry: Entry3) -> None:
        """The append, the sync, and only then the messages."""
        self.entries += 1
        dies = self.entries == self.dies_at
        self.journal.write(entry.bytes[:len(entry.bytes) // 2] if dies and self.number == 2 else entry.bytes)
        os.fsync(self.journal.fileno())
        if dies:
            os.kill(os.getpid(), signal.SIGKILL)
        for _to, message in entry.sendings:     # there is one other site
            self.link.sendall(message)
        if entry.declared:
            print(f'site {self.number} declared {entry.declared} at {entry.stamp}', flush=True)

    def connect(self) -> None:
        """Site 1 listens, and site 2 dials until it is there."""
        path = os.path.join(self.folder, 'link')
        if self.number == 1:
            if not self.listener:
                if os.path.exists(path):
                    os.unlink(path)
                self.listener = socket.socket(socket.AF_UNIX)
                self.listener.bind(path)
                self.listener.listen()
            self.link, _ = self.listener.accept()
            return
        while True:
            self.link = socket.socket(socket.AF_UNIX)
            try:
                return self.link.connect(path)
            except OSError:
                self.link.close()
                time.sleep(0.01)

    def read_exactly(self, length: int) -> bytes:
        """So many bytes, or the fault that the connection has ended."""
        found = b''
        while len(found) < length:
            piece = self.link.recv(length - len(found))
            if not piece:
                raise ConnectionError
            found += piece
        return found

    def resume(self) -> None:
        """Each site tells what it has got, and is sent what it lacks."""
        journal = read(self.path)
        self.link.sendall(b''.join(number.to_bytes(8, 'big') for number in got3(journal, self.other)))
        told = self.read_exactly(16)
        self.link.sendall(sent3(journal, self.other, int.from_bytes(told[:8], 'big'), int.from_bytes(told[8:], 'big')))

    def act(self) -> bool:
        """What the site does by itself in its state; answers whether all is done."""
        site, own, other = self.site, self.number, self.other
        if own == 1:
            if got_nothing_yet(self.path):
                self.take(site.ask(own, [other]))
            return not site.waits(own)
        if site.declared():                                     # the victim gives up, ..
            self.take(site.withdraw(own, site.waits(own)))
        if site.leaving(own) and site.owed(own):                # .. and grants what it holds
            self.take(site.reply(own, other))
        elif site.owed(own) and not site.waits(own):
            self.take(site.ask(own, [other]))
        return not got_nothing_yet(self.path) and not (site.owed(own) or site.waits(own) or site.leaving(own))

    def run(self) -> None:
        done = False
        while not done:
            try:
                self.connect()
                self.resume()
                done = self.act()
                while not done:
                    first = self.read_exactly(1)
                    self.take(self.site.got(self.other, first + self.read_exactly(22 if first == b'\x03' else 12)))
                    done = self.act()
            except ConnectionError:
                self.link.close()               # the other site was killed: it comes again


def got_nothing_yet(path: str) -> bool:
    return os.path.getsize(path) == 71


def start(folder: str, number: int, dies_at: int = 0) -> subprocess.Popen:
    return subprocess.Popen([sys.executable, __file__, folder, str(number), str(dies_at)])


def main() -> None:
    folder = sys.argv[1]
    if len(sys.argv) > 2:
        return Peer(folder, int(sys.argv[2]), int(sys.argv[3])).run()
    sites = {1: start(folder, 1, 3), 2: start(folder, 2, 2)}
    for number in (2, 1):
        if sites[number].wait() != -signal.SIGKILL:
            sys.exit(f'site {number} was not killed')
        print(f'site {number} was killed', flush=True)
        sites[number] = start(folder, number)
    for number in (1, 2):
        if sites[number].wait():
            sys.exit(f'site {number} failed')
    journals = {number: read(os.path.join(folder, name)) for number, name in NAMES.items()}
    for a, b in ((1, 2), (2, 1)):
        count, mark = got3(journals[b], a)
        print(f'site {b} got {count} messages of site {a}, and lacks {len(sent3(journals[a], b, count, mark))} bytes')


if __name__ == '__main__':
    main()
