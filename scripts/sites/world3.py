"""A world of edition 3 as processes of the program: folders, topologies, relays between the sites, disks that lose what was
not synced, and clients that note what they were answered."""
import json
import os
import random
import shutil
import signal
import socket
import struct
import subprocess
import sys
import tempfile
import threading
import time

sys.path.insert(0, os.path.join(os.path.dirname(os.path.abspath(__file__)), '..', '..', 'clients', 'python'))

import cmh
from world import Collided, Missed, Port, patience, wait_until

HERE = os.path.dirname(os.path.abspath(__file__))
SEGMENT = '0000000000.cmhj'
FAKE = [sys.executable, '-B', os.path.join(HERE, 'fake3.py')]


class effort:
    """How many times as many rounds there are as in the gate."""
    times = 1


_tools = tempfile.TemporaryDirectory()
_making = threading.Lock()


def power_library():
    """The shim of power.c, made once."""
    made = os.path.join(_tools.name, 'power.so')
    with _making:
        if not os.path.exists(made):
            subprocess.run(['cc', '-O1', '-shared', '-fPIC', '-o', made, os.path.join(HERE, 'power.c'), '-lpthread'], check=True)
    return made


# ---- the disk of a site

class Disk:
    """The folder of a journal, of which a power cut leaves what was synced and a beginning of what was not."""

    def __init__(self, folder, kept):
        self.folder, self.kept, self.lost = folder, kept, 0
        os.makedirs(kept)

    def environment(self, microseconds):
        return {**os.environ, 'LD_PRELOAD': power_library(), 'POWER_FOLDER': self.folder, 'POWER_KEPT': self.kept,
                'POWER_SYNC': str(microseconds), 'POWER_MOMENT': self.kept + '.moment'}

    def at_moment(self, what, number):
        """From now on: the call of this number on the folder kills the program, or fails as each later one."""
        with open(self.kept + '.told', 'w') as file:
            file.write('%s %d' % (what, number))
        os.rename(self.kept + '.told', self.kept + '.moment')

    def no_moment(self):
        if os.path.exists(self.kept + '.moment'):
            os.remove(self.kept + '.moment')

    def names(self):
        """The names that last, with their inodes."""
        try:
            with open(os.path.join(self.kept, 'names')) as file:
                return {name: int(inode) for inode, name in (line.split(None, 1) for line in file.read().splitlines())}
        except FileNotFoundError:
            return {}

    def lasting(self, inode):
        try:
            with open(os.path.join(self.kept, 'inode-%d' % inode), 'rb') as file:
                return file.read()
        except FileNotFoundError:
            return b''

    def cut_power(self, draw=None):
        """The program that wrote there has ended. Of what was not synced a beginning may be there; nothing, where none draws."""
        if not self.names():
            raise Missed('the folder %s was never synced' % self.folder)
        written = {}
        for name in os.listdir(self.folder):
            path = os.path.join(self.folder, name)
            with open(path, 'rb') as file:
                written[os.stat(path).st_ino] = file.read()
        found = {}
        for name, inode in self.names().items():
            data, now = self.lasting(inode), written.get(inode, b'')
            if now.startswith(data):
                more = now[len(data):]
                some = more[:draw.choice([0, 0, len(more), draw.randint(0, len(more))])] if draw else b''
                self.lost += len(more) - len(some)
                data += some
            found[name] = data
        shutil.rmtree(self.folder)
        shutil.rmtree(self.kept)
        os.makedirs(self.folder)
        os.makedirs(self.kept)
        with open(os.path.join(self.kept, 'names'), 'w') as names:
            for name, data in found.items():
                path = os.path.join(self.folder, name)
                with open(path, 'wb') as file:
                    file.write(data)
                inode = os.stat(path).st_ino
                names.write('%d %s\n' % (inode, name))
                with open(os.path.join(self.kept, 'inode-%d' % inode), 'wb') as file:
                    file.write(data)


# ---- connections that are cut

class Relay:
    """A port that passes each connection on to another one. It resets connections after so many bytes as `draw` says, in the
    middle of whatever is said, and all of them when it is told to."""

    def __init__(self, target):
        self.target, self.port, self.lock = target, Port(), threading.Lock()
        self.pairs, self.cuts, self.most, self.draw, self.is_shut = [], 0, None, random.Random(target), False
        self.dialled = 0        # connections that came to the site behind
        self.listener = socket.socket()
        self.listener.setsockopt(socket.SOL_SOCKET, socket.SO_REUSEADDR, 1)
        self.listener.bind(('127.0.0.1', self.port.number))
        self.listener.listen(64)
        threading.Thread(target=self.accept, daemon=True).start()

    def accept(self):
        while True:
            try:
                near, _ = self.listener.accept()
            except OSError:
                return
            try:
                far = socket.create_connection(('127.0.0.1', self.target), timeout=5)
            except OSError:
                near.close()
                continue
            for end in (near, far):
                end.settimeout(None)
                end.setsockopt(socket.IPPROTO_TCP, socket.TCP_NODELAY, 1)
            with self.lock:
                self.dialled += 1
                self.pairs.append((near, far))
                left = [self.draw.randint(0, self.most) if self.most else None]
                refused = self.is_shut
            if refused:
                self.cut((near, far))
            for one, other in ((near, far), (far, near)):
                threading.Thread(target=self.carry, args=(one, other, (near, far), left), daemon=True).start()

    def carry(self, one, other, pair, left):
        try:
            while piece := one.recv(4096):
                if left[0] is not None:
                    piece = piece[:left[0]]
                    left[0] -= len(piece)
                other.sendall(piece)
                if left[0] == 0:
                    self.cut(pair)
                    return
        except OSError:
            pass
        self.close(pair)

    def cut(self, pair):
        """By a reset, which drops what was not read yet."""
        with self.lock:
            if pair not in self.pairs:
                return
            self.cuts += 1
        for end in pair:
            try:
                end.setsockopt(socket.SOL_SOCKET, socket.SO_LINGER, struct.pack('ii', 1, 0))
            except OSError:
                pass
        self.close(pair)

    def close(self, pair):
        with self.lock:
            if pair in self.pairs:
                self.pairs.remove(pair)
        for end in pair:
            try:
                end.shutdown(socket.SHUT_RD)    # wakes the thread that reads
            except OSError:
                pass
            end.close()

    def cut_all(self):
        with self.lock:
            pairs = list(self.pairs)
        for pair in pairs:
            self.cut(pair)

    def shut(self, is_shut=True):
        """Nothing passes any more, or again."""
        with self.lock:
            self.is_shut = is_shut
        if is_shut:
            self.cut_all()

    def let_go(self):
        self.listener.close()
        self.cut_all()
        self.port.let_go()


# ---- sites

class World3:
    """A topology of sites, each with its processes, its folder and its ports."""

    def __init__(self, program, sites, relayed=False, world=None):
        self.program = program if isinstance(program, list) else [program]
        self.sites = sites
        self.room = tempfile.TemporaryDirectory()
        self.world = world or os.urandom(16)
        self.ports = {site: Port() for site in sites}
        self.doors = {site: Port() for site in sites}
        self.relays = {}
        if relayed:
            self.relays = {(a, b): Relay(self.ports[b].number) for a in sites for b in sites if a != b}
        self.running = []
        self.disks = {}
        for site in sites:
            os.makedirs(self.folder(site))
            self.write_topology(site)
        self.write_topology(None)

    def __enter__(self):
        return self

    def __exit__(self, *_):
        for site in self.running:
            site.let_go()
        for held in [*self.ports.values(), *self.doors.values(), *self.relays.values()]:
            held.let_go()
        self.room.cleanup()

    def path(self, name):
        return os.path.join(self.room.name, name)

    def folder(self, site):
        return self.path('site-%d' % site)

    def segment(self, site):
        return os.path.join(self.folder(site), SEGMENT)

    def topology(self, site=None):
        return self.path('topology-%s' % site)

    def write_topology(self, site, path=None, **changed):
        """The topology file as a site has it: where there are relays, they stand for the others."""
        rows = [{'site': each, 'port': self.relays[site, each].port.number if (site, each) in self.relays else self.ports[each].number,
                 'processes': processes} for each, processes in self.sites.items()]
        with open(path or self.topology(site), 'w') as file:
            json.dump({'edition': 3, 'world': self.world.hex(), 'sites': rows, **changed}, file)
        return path or self.topology(site)

    def disk(self, site):
        if site not in self.disks:
            self.disks[site] = Disk(self.folder(site), self.path('kept-%d' % site))
        return self.disks[site]

    def start(self, site, **options):
        running = Service3(self, site, **options)
        self.running.append(running)
        return running

    def up(self, site, **options):
        """A site that listens. Its journal is made where there is none."""
        options.setdefault('new', not os.path.exists(self.segment(site)))
        running = self.start(site, **options)
        running.await_listening()
        return running

    def up_all(self, **options):
        return {site: self.up(site, **options) for site in self.sites}

    def call(self, *words):
        """The status, the lines and the fault of a command."""
        done = subprocess.run([*self.program, *words], capture_output=True, text=True, timeout=patience() + 20)
        return done.returncode, done.stdout.splitlines(), done.stderr.strip()

    def audit(self, *more):
        return self.call('audit', '--topology', self.topology(), *more, *[self.folder(site) for site in self.sites])

    def is_accepted(self, *lines):
        status, found, _ = self.audit()
        return status == 0 and found[:1] == ['accepted'] and all(line in found for line in lines)

    def entries(self, site):
        """The entries of a journal, as lines of `cmh show` without their numbers."""
        status, lines, fault = self.call('show', self.folder(site))
        if status or not lines[:1] or lines[0].split()[:4] != ['site', str(site), 'edition', '3']:
            raise Missed('the journal of site %d: %s %s' % (site, fault, lines[-1:]))
        return [line.split(' ', 1)[1] for line in lines[1:] if not line.startswith('cut ')]

    def await_drained(self, running):
        """All links carry, and each message that was sent was got."""
        for site in running.values():
            site.await_links()
        wait_until(lambda: 'drained' in self.audit()[1], 'all messages')


class Service3:
    """A running site of edition 3 that serves clients."""

    def __init__(self, world, number, new=False, limit=None, power=None, folder=None, topology=None, more=(), door=None,
                 port=None, program=None):
        """`power` is how many microseconds a sync takes on a disk that can lose power."""
        self.world, self.number, self.door = world, number, (door or world.doors[number]).number
        words = [*(program or world.program), 'serve', '--topology', topology or world.topology(number), '--site', str(number),
                 '--journal', folder or world.folder(number), '--port', str(self.door), *(('--new',) if new else ()), *more]
        environment = None if power is None else world.disk(number).environment(power)
        self.errors = tempfile.TemporaryFile()
        self.process = subprocess.Popen(words, stdin=subprocess.DEVNULL, stdout=subprocess.PIPE, stderr=self.errors,
                                        preexec_fn=limit, env=environment)

    def await_listening(self):
        end = time.monotonic() + patience()
        os.set_blocking(self.process.stdout.fileno(), False)
        line = b''
        while not line.endswith(b'\n') and time.monotonic() < end:
            line += self.process.stdout.read() or b''
            if self.process.poll() is not None:
                if self.told() == 'fault listen':
                    raise Collided(self.door)
                raise Missed('site %d ended with %s: %s' % (self.number, self.process.returncode, self.told()))
            time.sleep(0.002)
        if line != b'listening\n':
            raise Missed('site %d said %r for its start' % (self.number, line))

    def told(self):
        """What stands on standard error."""
        self.errors.seek(0)
        return self.errors.read().decode().strip()

    def faults(self):
        """Its status and its fault line, once it has ended."""
        try:
            status = self.process.wait(patience())
        except subprocess.TimeoutExpired:
            raise Missed('the end of site %d' % self.number) from None
        lines = [line for line in self.told().splitlines() if line.startswith('fault')]
        return status, lines[-1] if lines else ''

    def client(self, again=20.0):
        return cmh.Site3.at(self.door, patience=patience(), again=again)

    def ask(self, *words):
        """The answer to one line, on a connection of its own."""
        client = cmh.Site.at(self.door)
        client.patience = patience()
        try:
            return client.call(*words)
        finally:
            client._give_back()

    def links(self):
        client = cmh.Site.at(self.door)
        client.patience = patience()
        try:
            return client.links()
        finally:
            client._give_back()

    def status(self):
        words = self.ask('status').split()
        return dict(zip(words[::2], words[1::2]))

    def await_links(self, *states):
        try:
            wait_until(lambda: set(self.links().values()) <= set(states or ('open',)), '')
        except Missed:
            raise Missed('links of site %d that are %s: %s' % (self.number, ' or '.join(states or ('open',)), self.links())) from None

    def await_link(self, way, other, *states):
        wait_until(lambda: self.links()[way, other].startswith(states), 'site %d: %s %d is %s' % (self.number, way, other, states))

    def kill(self):
        self.process.send_signal(signal.SIGKILL)
        self.process.wait()

    def memory(self):
        """The pages that it holds, in bytes."""
        with open('/proc/%d/statm' % self.process.pid) as file:
            return int(file.read().split()[1]) * 4096

    def let_go(self):
        if self.process.poll() is None:
            self.process.send_signal(signal.SIGCONT)
            self.process.kill()
        self.process.wait()
        self.process.stdout.close()
        self.errors.close()


# ---- clients that note what they were answered

class Noting(threading.Thread):
    """A client that speaks for some processes of a site: asks, grants, gives up and starts at random, and goes on after its site
    was started again. It notes each event with its answer, or None where none came."""

    def __init__(self, world, site, own, seed, pause=0.0, ahead=1):
        super().__init__(daemon=True)
        self.world, self.site, self.own, self.pause, self.ahead = world, site, own, pause, ahead
        self.everybody = [process for processes in world.sites.values() for process in processes]
        self.draw = random.Random(seed)
        self.notes, self.ending, self.failed, self.reconnects = [], threading.Event(), None, 0

    def run(self):
        try:
            while not self.ending.is_set():
                try:
                    client = cmh.Site.at(self.world.doors[self.site].number)
                    client.patience = 15.0
                    self.reconnects += 1
                    self.talk(client)
                    client._give_back()
                except (OSError, cmh.Timeout):
                    self.ending.wait(0.01)
                except cmh.Ended:
                    pass
        except Exception as failed:
            self.failed = failed
            raise

    def talk(self, client):
        while not self.ending.is_set():
            processes = [self.draw.choice(self.own) for _ in range(self.ahead)]
            client.send(*['%s %d' % (what, process) for process in processes for what in ('waits', 'owed')])
            known = [client.receive().split() for _ in range(2 * len(processes))]
            lines = [self.line(process, *[[int(word) for word in each[2:]] for each in known[2 * at:2 * at + 2]])
                     for at, process in enumerate(processes)]
            first = len(self.notes)
            self.notes += [[line, None] for line in lines]
            client.send(*lines)
            for at in range(len(lines)):
                self.notes[first + at][1] = answer = client.receive()
                if answer in ('refused 9', 'refused 10'):
                    self.ending.wait(0.02)
            if self.pause:
                self.ending.wait(self.pause * self.draw.random())

    def line(self, process, waits, owed):
        chance = self.draw.random()
        if waits and chance < 0.35:
            return 'withdraw %d' % process if chance < 0.25 else 'withdraw %d %d' % (process, self.draw.choice(waits))
        if waits and chance < 0.45:
            return 'start %d' % process
        if owed and not waits:
            return 'reply %d %d' % (process, self.draw.choice(owed))
        count = min(self.draw.choice([1, 1, 2]), len(self.everybody) - 1)
        chosen = sorted(self.draw.sample([each for each in self.everybody if each != process], count))
        return 'ask %d %s' % (process, ' '.join(map(str, chosen)))

    def answered(self):
        return sum(answer is not None and answer.startswith('ok') for _, answer in self.notes)

    def doubtful(self):
        return sum(answer is None or answer == 'refused 10' for _, answer in self.notes)

    def stop(self):
        self.ending.set()
        self.join(patience() + 5)
        if self.failed or self.is_alive():
            raise Missed('the client of site %d: %r' % (self.site, self.failed))


def is_of(entry, line):
    """Whether an entry is that of an event. One that gives up all waits names them."""
    event, words = entry.split(' sent ')[0].split(' declared ')[0].split(), line.split()
    return event == words or (words[0] == 'withdraw' and len(words) == 2 and event[:2] == words)


def answer_of(entry):
    """What its event was answered, by the line of an entry."""
    words = entry.split()
    declared = words.index('declared') if 'declared' in words else len(words)
    return ' '.join(['ok sent', str(words.count('sent')), *words[declared:]])


def lost_of(notes, entries, own):
    """How many of the events that were answered `ok` are not in the journal at their place, with this answer. Of events without
    an answer each may be there or not; one that was refused is not."""
    mine = [entry for entry in entries if entry.split()[0] in ('ask', 'reply', 'start', 'withdraw') and int(entry.split()[1]) in own]
    places, lost = {0}, 0
    for line, answer in notes:
        if answer is not None and not answer.startswith('ok') and answer != 'refused 10':
            continue
        on = {at + 1 for at in places if at < len(mine) and is_of(mine[at], line)
              and answer in (None, 'refused 10', answer_of(mine[at]))}
        if answer is None or answer == 'refused 10':
            places |= on
        elif on:
            places = on
        else:
            lost += 1
    return lost + (0 if len(mine) in places else 1)


def noted(world, count=1, **options):
    """Clients for all processes of all sites: so many for each site."""
    made = []
    for site, own in world.sites.items():
        for part in range(count):
            made.append(Noting(world, site, own[part::count], seed=100 * site + part, **options))
    return made


def judged(world, running, clients, least=5):
    """What holds at the end: nothing lost, nothing twice, all accepted."""
    for client in clients:
        client.stop()
    world.await_drained(running)
    lost = sum(lost_of(client.notes, world.entries(client.site), client.own) for client in clients)
    answered = sum(client.answered() for client in clients)
    doubtful = sum(client.doubtful() for client in clients)
    yield 'lost %d of %d answered events (%d in doubt)' % (lost, answered, doubtful), lost == 0
    status, lines, fault = world.audit()
    yield 'the audit: %s %s' % (lines[:3], fault), status == 0 and lines[0] == 'accepted' and 'drained' in lines
    yield 'there were some: %d' % answered, answered > least * len(world.sites)


class Told:
    """What a site tells by itself, kept by a thread."""

    def __init__(self, site):
        self.heard, self.client = [], site.client()
        self.client.watch()
        threading.Thread(target=self.listen, daemon=True).start()

    def listen(self):
        try:
            for what in self.client.happenings():
                self.heard.append(what)
        except Exception:   # the site has ended
            pass

    def of(self, kind):
        return [what for what in list(self.heard) if what.kind == kind]

    def awaits(self, kind, *numbers, times=1):
        """Whether it is told so often."""
        return bool(wait_until(lambda: sum(what.numbers == numbers for what in self.of(kind)) >= times, '%s %s' % (kind, numbers)))
