"""Two sites that wait for each other, each in a thread of its own, over a socket: the run of
examples/cycle-over-two-sites.script.

    two_sites.py FOLDER      leaves the journals of the run in FOLDER/one.cmhj and FOLDER/two.cmhj, and audits them
"""
import os
import socket
import sys
import threading

from libcmh import Entry, Reader, Site, audit, hello

EDITION = 1
TOPOLOGY = b'{"edition":1,"sites":[{"site":1,"processes":[1]},{"site":2,"processes":[2]}]}'


class Peer:
    """One site, with its journal and the socket to the other site."""

    def __init__(self, number: int, link: socket.socket, path: str):
        self.number, self.link, self.other = number, link, 3 - number
        self.site, self.reader = Site.from_json(TOPOLOGY, number), Reader(EDITION, [self.other])
        self.journal = open(path, 'wb', buffering=0)

    def take(self, entry: Entry) -> None:
        """The append, the sync, and only then the frames."""
        self.journal.write(entry.bytes)
        os.fsync(self.journal.fileno())
        for _to, frame in entry.sendings:       # there is one other site
            self.link.sendall(frame)
        if entry.declared:
            print(f'site {self.number} declared {entry.declared}', flush=True)

    def run(self) -> None:
        """Asks, and takes two frames: the request of the other site, and the probe. Site 1 starts a computation between."""
        self.journal.write(self.site.header())
        self.link.sendall(hello(EDITION, self.number))
        self.take(self.site.ask(self.number, [self.other]))
        taken = 0
        while taken < 2:
            for frame in self.reader.feed(self.link.recv(4096)):
                self.take(self.site.got(self.reader.sender, frame))
                taken += 1
                if taken == 1 and self.number == 1:
                    self.take(self.site.start(1))
        self.journal.close()


def main() -> None:
    ends = socket.socketpair()
    paths = [os.path.join(sys.argv[1], name) for name in ('one.cmhj', 'two.cmhj')]
    threads = [threading.Thread(target=Peer(place + 1, ends[place], paths[place]).run) for place in range(2)]
    for thread in threads:
        thread.start()
    for thread in threads:
        thread.join()
    status, text = audit(TOPOLOGY, [open(path, 'rb').read() for path in paths])
    print(text, end='')
    sys.exit(status)


if __name__ == '__main__':
    main()
