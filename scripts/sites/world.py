"""A world of sites as processes of the program: its files, its ports, and what was said and heard."""
import json
import os
import random
import resource
import select
import signal
import socket
import struct
import subprocess
import tempfile
import time

PATIENCE = 20.0  # seconds that anything may take
SHARED = 64  # lines ahead of their answers that share a sync, at most
ALL_TRIALS = 170.0  # seconds that all trials may take together

_end = time.monotonic() + ALL_TRIALS


def allow(seconds):
    """Lets all trials take so many seconds more."""
    global _end
    _end += seconds


def patience():
    """The seconds that the next thing may take, so that all trials end in time."""
    return max(0.1, min(PATIENCE, _end - time.monotonic()))


class Missed(Exception):
    """What was awaited did not come."""


class Collided(Exception):
    """A stranger took a port that a site was to have."""


# ---- ports

def usable_ports():
    """The ports from which sites get theirs: below those that the system gives to outgoing connections, and below the 12,000
    from which the other scripts choose."""
    try:
        with open('/proc/sys/net/ipv4/ip_local_port_range') as file:
            lowest = int(file.read().split()[0])
    except (OSError, ValueError):
        lowest = 32768
    if lowest < 16000:
        lowest = 32768
    return range(max(2000, lowest - 22000), lowest - 12000)


_ports = random.Random(os.getpid())
_usable = usable_ports()


class Port:
    """A free port that nobody else is given while it is held: it is held as one of UDP, and used as one of TCP."""

    def __init__(self):
        for _ in range(10000):
            self.number = _ports.choice(_usable)
            self.held = socket.socket(socket.AF_INET, socket.SOCK_DGRAM)
            try:
                self.held.bind(('127.0.0.1', self.number))
                with socket.socket() as probe:
                    probe.bind(('127.0.0.1', self.number))
                return
            except OSError:
                self.held.close()
        raise Missed('a free port')

    def let_go(self):
        self.held.close()


# ---- waiting

def wait_until(holds, what):
    """Looks until it holds; answers what it was."""
    end = time.monotonic() + patience()
    while True:
        answer = holds()
        if answer:
            return answer
        if time.monotonic() > end:
            raise Missed(what)
        time.sleep(0.005)


def of_size(limit):
    """No file of the process grows past so many bytes: a write fails, as on a full disk."""
    def apply():
        signal.signal(signal.SIGXFSZ, signal.SIG_IGN)
        resource.setrlimit(resource.RLIMIT_FSIZE, (limit, limit))
    return apply


class World:
    """The files of a topology of sites, each with its processes; all else is kept beside them."""

    def __init__(self, program, sites, edition=1):
        self.program = program
        self.sites = sites
        self.edition = edition
        self.folder = tempfile.TemporaryDirectory()
        self.held = {site: Port() for site in sites}
        self.ports = {site: port.number for site, port in self.held.items()}
        self.running = []
        rows = [{'site': site, 'port': self.ports[site], 'processes': processes} for site, processes in sites.items()]
        with open(self.path('topology'), 'w') as file:
            json.dump({'edition': edition, 'sites': rows}, file)

    def __enter__(self):
        return self

    def __exit__(self, *_):
        for site in self.running:
            site.let_go()
        for port in self.held.values():
            port.let_go()
        self.folder.cleanup()

    def path(self, name):
        return os.path.join(self.folder.name, name)

    def journal(self, site):
        return self.path('journal-%d' % site)

    def start(self, site, kind=None, **options):
        running = (kind or Site)(self, site, **options)
        self.running.append(running)
        return running

    def start_all(self):
        """All sites, listening and then connected."""
        running = {site: self.start(site) for site in self.sites}
        for site in running.values():
            site.await_listening()
        for site in running.values():
            site.say('connect')
        for site in running.values():
            site.expect('connected %d failed 0' % (len(self.sites) - 1))
        return running

    def finish(self, site):
        """A journal whose header was never finished is that of a site which took no step."""
        path = self.journal(site)
        if not os.path.exists(path) or os.path.getsize(path) < 7:
            with open(path, 'wb') as file:
                file.write(b'CMHJ' + bytes([self.edition]) + struct.pack('>H', site))

    def audit(self):
        """The status and the lines of an audit of all journals."""
        for site in self.sites:
            self.finish(site)
        words = [self.program, 'audit', '--topology', self.path('topology')]
        words += [self.journal(site) for site in self.sites]
        done = subprocess.run(words, capture_output=True, text=True, timeout=patience())
        return done.returncode, done.stdout.splitlines() + done.stderr.splitlines()

    def is_accepted(self, *lines):
        """Whether the audit accepts, and has each of these lines."""
        status, found = self.audit()
        return status == 0 and 'accepted' in found and all(line in found for line in lines)

    def steps(self, site):
        """The steps of a journal that were commands of its site: how many frames each sent, and whom it declared."""
        return [entry for entry in self.entries(site) if entry[0] in (1, 2, 3)]

    def entries(self, site):
        """The whole entries of a site's journal."""
        return self.entries_at(self.journal(site))

    def entries_at(self, path):
        """The whole entries of a journal: the kind, the number of frames that were sent, the process that was declared."""
        with open(path, 'rb') as file:
            data = file.read()
        entries = []
        at = 7
        width = 2 if self.edition == 1 else 4
        while at + width <= len(data):
            length = int.from_bytes(data[at:at + width], 'big')
            body = data[at + width:at + width + length]
            at += width + length
            if len(body) < length:
                break
            entries.append(read_entry(body))
        return entries


def read_entry(body):
    kind = body[0]
    frame = {1: 5, 2: 5, 3: 7}
    at = {1: lambda: 4 + 2 * body[3], 2: lambda: 5, 3: lambda: 3, 4: lambda: 3 + frame[body[3]]}[kind]()
    sent, declared = 0, None
    while at < len(body):
        if body[at] == 5:
            sent += 1
            at += 3 + frame[body[at + 3]]
        else:
            declared = int.from_bytes(body[at + 1:at + 3], 'big')
            at += 3
    return kind, sent, declared


def read_answer(line):
    """What an answer to a command that was carried out says: the frames that were sent, and the declaration."""
    words = line.split()
    if words[:2] != ['ok', 'sent']:
        return None
    return int(words[2]), int(words[4]) if len(words) > 3 else None


class Site:
    """A running site."""

    command = 'site'

    def __init__(self, world, number, limit=None, out=subprocess.PIPE, journal=None, before=(), more=()):
        """The words of `before` are those of a program that starts it, those of `more` are further options."""
        self.world = world
        self.number = number
        words = [*before, world.program, self.command, '--topology', world.path('topology'), '--site', str(number)]
        words += ['--journal', journal or world.journal(number), *more]
        self.heard = []
        self.buffer = b''
        self.named = b''
        self.process = subprocess.Popen(words, stdin=subprocess.PIPE, stdout=out, stderr=subprocess.PIPE, preexec_fn=limit)

    def say(self, *lines):
        try:
            self.process.stdin.write(''.join(line + '\n' for line in lines).encode())
            self.process.stdin.flush()
        except BrokenPipeError:
            pass

    def hear(self):
        """The next line, or None at the end."""
        end = time.monotonic() + patience()
        while b'\n' not in self.buffer:
            left = end - time.monotonic()
            if left <= 0 or not select.select([self.process.stdout], [], [], left)[0]:
                raise Missed('a line of site %d' % self.number)
            piece = os.read(self.process.stdout.fileno(), 65536)
            if not piece:
                return None
            self.buffer += piece
        line, self.buffer = self.buffer.split(b'\n', 1)
        line = line.decode()
        self.heard.append(line)
        return line

    def hear_all(self):
        """All lines up to the end."""
        while self.hear() is not None:
            pass
        return self.heard

    def await_listening(self):
        line = self.hear()
        if line is None and self.wait() == 3 and self.process.stderr.read() == b'fault listen\n':
            raise Collided(self.world.ports[self.number])
        if line != 'listening':
            raise Missed('site %d said %r for its start' % (self.number, line))

    def expect(self, wanted):
        line = self.hear()
        if line != wanted:
            raise Missed('site %d said %r for %r' % (self.number, line, wanted))

    def ask(self, line):
        self.say(line)
        return self.hear()

    def links(self):
        """The states of its links by way and site, as 'in 2'."""
        self.say('links')
        others = len(self.world.sites) - 1
        lines = [self.hear().split(' ', 2) for _ in range(2 * others)]
        return {way + ' ' + other: state for way, other, state in lines}

    def await_link(self, link, *states):
        wait_until(lambda: self.links()[link] in states, 'site %d: %s is %s' % (self.number, link, ' or '.join(states)))

    def await_declared(self, wanted):
        wait_until(lambda: self.ask('declared') == wanted, '%r of site %d' % (wanted, self.number))

    def notes(self):
        """The whole lines that it wrote to standard error so far."""
        while select.select([self.process.stderr], [], [], 0)[0]:
            piece = os.read(self.process.stderr.fileno(), 65536)
            if not piece:
                break
            self.named += piece
        return self.named.decode().split('\n')[:-1]

    def await_note(self, *begins):
        """The first note that begins so."""
        wait_until(lambda: any(line.startswith(begins) for line in self.notes()), 'a note %s' % ' or '.join(begins))
        return next(line for line in self.notes() if line.startswith(begins))

    def open_files(self):
        return len(os.listdir('/proc/%d/fd' % self.process.pid))

    def threads(self):
        return len(os.listdir('/proc/%d/task' % self.process.pid))

    def signal(self, number):
        self.process.send_signal(number)

    def wait(self):
        try:
            return self.process.wait(patience())
        except subprocess.TimeoutExpired:
            raise Missed('the end of site %d' % self.number) from None

    def end(self):
        """Whether the site says within seconds that it stopped, ends with status 0, and gives its port back."""
        self.say('quit')
        lines = self.hear_all()
        return (self.wait() == 0 and lines[-1:] == ['stopped'] and self.process.stderr.read() == b''
                and is_free(self.world.ports[self.number]))

    def let_go(self):
        if self.process.poll() is None:
            self.process.send_signal(signal.SIGKILL)
        self.process.wait()
        for stream in (self.process.stdin, self.process.stdout, self.process.stderr):
            try:
                if stream:
                    stream.close()
            except BrokenPipeError:
                pass

    def was_true(self):
        """Whether each answer is that of the entry at its place in the journal, and no more entries than may share a sync
        have no answer."""
        answers = [answer for answer in map(read_answer, self.heard) if answer]
        steps = [entry[1:] for entry in self.world.steps(self.number)]
        return steps[:len(answers)] == answers and len(steps) <= len(answers) + SHARED


def is_free(port):
    """Whether nobody listens."""
    with socket.socket() as probe:
        return probe.connect_ex(('127.0.0.1', port)) != 0
