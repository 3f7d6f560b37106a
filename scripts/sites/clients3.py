"""The trials of clients of sites of edition 3: what they are answered and told, what the client in Python does when its site is
started again, and clients that do not behave."""
import os
import random
import select
import shutil
import signal
import socket
import struct
import subprocess
import sys
import tempfile
import threading
import time

from services import read_lines, shut_among
from world import Missed, of_size, patience, wait_until
from world3 import FAKE, Told, World3, cmh, effort, judged, noted

HERE = os.path.dirname(os.path.abspath(__file__))
PAIR = {1: [1, 3], 2: [2, 4]}


# ---- a run that goes on

def deadlock_ends(program):
    """A deadlock over two sites is found and told, a victim withdraws, and the run goes on; nobody polls."""
    with World3(program, PAIR) as world:
        sites = world.up_all()
        one, two = sites[1].client(), sites[2].client()
        sites[1].await_links()
        sites[2].await_links()
        told = {1: Told(sites[1]), 2: Told(sites[2])}
        yield 'an ask of each', one.ask(1, [2]) is None and two.ask(2, [1]) is None
        found = wait_until(lambda: told[1].of('declared') + told[2].of('declared'), 'a declaration')
        victim, stop = found[0].numbers
        away, client, other = (2, one, two) if victim == 1 else (1, two, one)
        site = 3 - away
        yield 'it is listed: %s' % found, client.declared() == [victim] and stop in (1, 2)
        yield 'the requests were told', told[1].awaits('asked', 1, 2) and told[2].awaits('asked', 2, 1)
        client.withdraw(victim)
        yield 'and is declared no more', client.declared() == [] and client.waits(victim) == []
        yield 'it can ask again once it is told', told[site].awaits('free', victim, away) and client.leaving(victim) == []
        yield 'it grants', client.reply(victim, away) is None
        yield 'the other is told that it goes on', told[away].awaits('active', away) and other.waits(away) == []
        yield 'and again', client.ask(victim, [away]) is None and told[away].awaits('asked', away, victim, times=2)
        yield 'granted', other.reply(away, victim) is None and told[site].awaits('active', victim)
        world.await_drained(sites)
        yield 'accepted', world.is_accepted('drained')


def told_in_order(program):
    """Whoever watches is told each grant, request, freed pair and declaration once, in the journal's order."""
    with World3(program, {1: [1, 11, 12], 2: [2, 21, 22]}) as world:
        running = world.up_all()
        for site in running.values():
            site.await_links()
        told = {site: Told(running[site]) for site in running}
        clients = noted(world)
        for client in clients:
            client.start()
        time.sleep(0.7)
        late = Told(running[1])
        time.sleep(0.8)
        yield from judged(world, running, clients)
        for site in running:
            wanted = told_by(world, site)
            wait_until(lambda: len(lines_of(told[site], world)) >= len(wanted), 'what site %d tells' % site)
            heard = lines_of(told[site], world)
            same = next((at for at, pair in enumerate(zip(heard, wanted)) if pair[0] != pair[1]), min(len(heard), len(wanted)))
            heard, wanted = in_batches(heard), in_batches(wanted)
            yield 'site %d told %d things, %d were to be told; from %d on: %s, %s' % (
                site, len(heard), len(wanted), same, heard[same:same + 3], wanted[same:same + 3]), heard == wanted
        heard = [what for what in lines_of(late, world) if what[0] in ('asked', 'free')]
        wanted = [what for what in told_by(world, 1) if what[0] in ('asked', 'free')]
        yield 'who watches later is told the rest', 0 < len(heard) < len(wanted) and heard == wanted[-len(heard):]


def in_batches(told):
    """Grants behind all else: of messages that were taken together a grant is told where it begins to be known."""
    return [what for what in told if what[0] != 'active'] + sorted(what for what in told if what[0] == 'active')


def lines_of(told, world):
    """What was told, but for links."""
    return [(what.kind, *what.numbers) for what in list(told.heard) if what.kind != 'link']


def told_by(world, site):
    """What the entries of a journal have a site tell."""
    waits, told = set(), []
    for entry in world.entries(site):
        front, *_ = entry.split(' declared ')[0].split(' sent ')
        kind, *words = front.removeprefix('got ').split(' from ')[0].split()
        numbers = [int(word) for word in words]
        here = [k for k in numbers[1:] if k in world.sites[site]]
        if kind == 'ask':
            waits |= {(numbers[0], k) for k in numbers[1:]}
            told += [('asked', k, numbers[0]) for k in here]
        elif kind == 'withdraw' and not front.startswith('got'):
            waits -= {(numbers[0], k) for k in numbers[1:]}
            told += [('free', numbers[0], k) for k in here]
        elif kind == 'request':
            told.append(('asked', numbers[1], numbers[0]))
        elif kind == 'reply' and numbers[1] in world.sites[site]:
            k, j = numbers
            if (j, k) not in waits:
                told.append(('free', j, k))
            elif not {wait for wait in waits if wait[0] == j} - {(j, k)}:
                told.append(('active', j))
            waits.discard((j, k))
        if ' declared ' in entry:
            told.append(('declared', *[int(word) for word in entry.split(' declared ')[1].split(' at ')]))
    return told


# ---- lines

LINES = [('start 1', 'refused 5'), ('', None), ('ask 1 2', 'ok sent 0'), ('waits 1', 'waits 1 2'), ('ask 1 2', 'refused 15'),
         ('what', 'bad line'), ('# no answer', None), ('ask 2 1', 'ok sent 0 declared 2 at 2'), ('owed 1', 'owed 1 2'),
         ('declared', 'site 1 declared 2'), ('start 9', 'refused 1'), ('start 3', 'refused 2'), ('withdraw 2 3', 'refused 16'),
         ('withdraw 2', 'ok sent 0'), ('withdraw 2', 'refused 16'), ('withdraw 9', 'refused 1'), ('ask 1', 'bad line'),
         ('ask 1 1', 'refused 3'), ('ask 1 9', 'refused 3'), ('ask 1 3', 'ok sent 2'), ('reply 2 1', 'ok sent 0'), ('withdraw 1', 'ok sent 1'),
         ('leaving 1', 'leaving 1 3'), ('ask 1 3', 'refused 14'), ('leaving 2', 'leaving 2'), ('waits 3', 'refused 2'), ('owed 0', 'bad line'),
         ('leaving 9', 'refused 1'), ('connect', 'bad line'), ('declared', 'site 1 declared'), ('reply 2 1', 'refused 6'),
         ('ask  2   1\r', 'ok sent 0'), ('reply 1 2', 'ok sent 0'), ('ask 2 1 3 9999', 'refused 3'), ('turn 1', 'bad line')]


def lines_of_clients3(program):
    """Lines that come at once, in pieces, too long, or without an end."""
    with World3(program, {1: [1, 2], 2: [3]}) as world:
        site = world.up(1)
        client = cmh.Site.at(site.door)
        client.patience = patience()
        wanted = [answer for _, answer in LINES if answer]
        client.send(*[line for line, _ in LINES])
        heard = [client.receive() for _ in wanted]
        wrong = [pair for pair in zip([line for line, answer in LINES if answer], heard, wanted) if pair[1] != pair[2]]
        yield 'each in its order: %s' % wrong, not wrong
        client.send('links')
        heard = [client.receive() for _ in range(2)]
        yield 'the links: %s' % heard, heard == ['out 2 down 3', 'in 2 resting']
        peer = socket.create_connection(('127.0.0.1', site.door), timeout=patience())
        for piece in (b'wai', b'ts 1', b'\r', b'\nwaits 2\nwa'):
            peer.sendall(piece)
            time.sleep(0.05)
        yield 'pieces of lines', read_lines(peer, 2) == ['waits 1', 'waits 2']
        peer.shutdown(socket.SHUT_WR)
        yield 'a line without an end is none', peer.recv(1) == b''
        piped = socket.create_connection(('127.0.0.1', site.door), timeout=patience())
        piped.sendall(b'waits 1\nquit\nwaits 2\n')
        yield 'nothing after quit', read_lines(piped, 2) == ['waits 1']
        if program == FAKE:
            return
        long = socket.create_connection(('127.0.0.1', site.door), timeout=patience())
        long.sendall(b'ask 1 ' + b'2' * 4100 + b'\nwaits 1\n')
        yield 'a line too long is a bad one', read_lines(long, 2) == ['bad line', 'waits 1']
        web = socket.create_connection(('127.0.0.1', site.door), timeout=patience())
        web.sendall(b'POST / HTTP/1.1\r\nask 1 2\n')
        yield 'a browser is turned away', read_lines(web, 1) == [] and client.call('waits 1') == 'waits 1'


def tells_its_tail(program):
    """`tail N` has the last entries of the journal, with their numbers, also of a site whose disk is full: there it tells what
    became of the event that was refused with 10."""
    with World3(program, {1: [1, 2], 2: [3]}) as world:
        site = world.up(1)
        client = site.client()
        yield 'a journal without entries', client.tail(10) == []
        client.ask(1, [2])
        client.ask(2, [3])
        client.withdraw(2)
        wanted = ['%d %s' % (at, entry) for at, entry in enumerate(world.entries(1), 1)]
        yield 'the last two: %s' % client.tail(2), client.tail(2) == wanted[1:] and len(wanted) == 3
        yield 'all of them', client.tail(1000) == wanted == client.tail(3) and client.tail(1) == wanted[2:]
        client.send('start 1', 'tail 1', 'waits 1')
        heard = [client.receive() for _ in range(4)]
        yield 'in its order: %s' % heard, heard == ['ok sent 0', '4 start 1', 'ok', 'waits 1 2']
        bad = [site.ask(line) for line in ('tail', 'tail 0', 'tail 1001', 'tail 9999', 'tail 1 1', 'tail -1', 'tail x')]
        yield 'other numbers: %s' % bad, bad == ['bad line'] * 7
    with World3(program, {1: [1, 2], 2: [3]}) as world:
        site = world.up(1, limit=of_size(2000))
        client, answers = site.client(), []
        while answers[-1:] != ['refused 10'] and len(answers) < 200:
            answers.append(client.call(*(('ask', 1, 2) if len(answers) % 2 == 0 else ('reply', 2, 1))))
        yield 'a full disk after %d' % len(answers), answers[-1] == 'refused 10' and client.call('start', 1) == 'refused 9'
        told = client.tail(1000)
        yield 'a sealed site tells its entries', len(told) in (len(answers) - 1, len(answers))
        site.kill()
        again = world.up(1)
        yield 'a restart finds what was told', again.client().tail(1000) == told == ['%d %s' % each for each in enumerate(world.entries(1), 1)]


def waits_for_peers(program):
    """With --wait-for-peers events are refused with 18 until each link has answered; an old backup takes none at all."""
    with World3(program, {1: [1, 4], 2: [2], 3: [3]}) as world:
        site = world.up(1, more=('--wait-for-peers',))
        client = site.client()
        yield 'it takes no event', [client.call(line) for line in ('ask 1 2', 'start 1', 'withdraw 1', 'ask 1 9')] == ['refused 18'] * 4
        yield 'and answers questions', client.waits(1) == [] and client.status()['entries'] == 0 and client.tail(1) == []
        two = world.up(2)
        site.await_link('out', 2, 'open')
        site.await_link('in', 2, 'open')
        yield 'one of two is not enough', client.call('ask', 1, 2) == 'refused 18' and two.ask('ask', 2, 1).startswith('ok')
        begin = time.monotonic()
        world.up(3)
        wait_until(lambda: client.call('ask', 1, 2) != 'refused 18', 'an event that is taken')
        took = time.monotonic() - begin
        yield 'then it takes them: %.1f s' % took, client.waits(1) == [2] and took < 12
        site.kill()
        site = world.up(1)
        yield 'without the option it waits for nobody', site.ask('ask', 4, 1).startswith('ok')
    for lacks in ('sent', 'got'):
        yield from waits_with_a_backup(program, lacks)


def waits_with_a_backup(program, lacks):
    """A backup that lacks what was sent, or what was got."""
    with World3(program, PAIR) as world:
        running = world.up_all()
        one, two = running[1].client(), running[2].client()
        running[1].await_links()
        running[2].await_links()
        running[1].kill()
        shutil.copytree(world.folder(1), world.path('backup'))
        running[1] = world.up(1)
        running[1].await_links()
        asker, client, other = (1, one, 2) if lacks == 'sent' else (2, two, 1)
        client.ask(asker, [other])
        wait_until(lambda: running[other].status()['entries'] == '2', 'both messages')
        wait_until(lambda: running[asker].status()['kept'] == '0', 'an acknowledgement')
        running[1].kill()
        shutil.rmtree(world.folder(1))
        shutil.copytree(world.path('backup'), world.folder(1))
        running[1] = world.up(1, more=('--wait-for-peers',))
        answers = set()
        wait_until(lambda: answers.add(running[1].ask('ask', 1, 3)) or 'refused 9' in answers, 'the seal of a site')
        yield 'a backup that lacks what it %s takes no event: %s' % (lacks, answers), answers <= {'refused 18', 'refused 9'}
        yield 'it is sealed', running[1].status()['sealed'] == 'yes' and world.entries(1) == []


def tells_notes(program):
    """With --notes a site tells how its links change, and why it is sealed; without it it is silent."""
    if program == FAKE:
        return
    with World3(program, PAIR) as world:
        site, silent = world.up(1, more=('--notes',)), world.up(2)
        client = site.client()
        site.await_links()
        notes_of(site, 2)
        client.ask(1, [2])
        wait_until(lambda: silent.status()['entries'] == '2', 'both messages')
        silent.kill()
        notes_of(site, 4)
        two = world.up(2)
        site.await_links()
        found = notes_of(site, 6)
        wanted = [{'note out 2 open', 'note in 2 open'},
                  {'note out 2 down: it is dialled again, and 0 messages are kept for it', 'note in 2 resting: its connection ended'},
                  {'note out 2 open again', 'note in 2 open again'}]
        yield 'open, down, open again: %s' % found, [set(found[at:at + 2]) for at in (0, 2, 4)] == wanted and len(found) == 6
        yield 'without the option nothing is told', two.told() == ''
        two.kill()
        notes_of(site, 8)
        shutil.rmtree(world.folder(2))
        os.mkdir(world.folder(2))
        two = world.up(2, new=True, more=('--notes', '--wait-for-peers'))
        site.await_link('out', 2, 'refused 9')
        wait_until(lambda: two.status()['sealed'] == 'yes', 'the seal of a site')
        found = notes_of(two, 2)
        yield 'a site that lost its journal: %s' % found, found[0] == 'note no event is taken until each link has answered' \
            and 'note sealed: this journal and that of site 1 do not fit, by 9' in found
        yield 'the other names it: %s' % site.told().splitlines()[-1:], \
            'note out 2 refused 9: it lacks messages that it acknowledged, so its journal is too old, and it is sealed' in site.told().splitlines()
    with World3(program, PAIR) as world:
        site = world.up(1, limit=of_size(600), more=('--notes',))
        while site.ask('ask', 1, 3).startswith('ok') and site.ask('reply', 3, 1).startswith('ok'):
            pass
        yield 'a full disk: %s' % notes_of(site, 1), notes_of(site, 1)[-1] == 'note sealed: the disk failed or is full'
    with World3(program, PAIR) as world:
        site = world.up(1, more=('--notes',))
        for turn in range(12):
            world.up(2).kill()
        time.sleep(1.2)
        site.ask('status')
        found = notes_of(site, 1)
        yield 'at most ten in a second: %d' % len(found), len(found) <= 48


def notes_of(site, least):
    """The notes that a site has told, at least so many."""
    wait_until(lambda: len(site.told().splitlines()) >= least, '%d notes of site %d: %s' % (least, site.number, site.told()))
    return site.told().splitlines()


# ---- lines of standard input

class Piped3:
    """A `cmh site` of edition 3 whose lines come from a pipe or a file."""

    def __init__(self, world, number, lines=subprocess.PIPE, new=True, more=()):
        self.errors = tempfile.TemporaryFile()
        words = [*world.program, 'site', '--topology', world.topology(number), '--site', str(number), '--journal', world.folder(number),
                 *(('--new',) if new else ()), *more]
        self.process = subprocess.Popen(words, bufsize=0, stdin=lines, stdout=subprocess.PIPE, stderr=self.errors)
        self.heard = b''

    def say(self, text):
        self.process.stdin.write(text.encode())

    def hear(self, count=1):
        """The next lines."""
        while self.heard.count(b'\n') < count:
            ready, _, _ = select.select([self.process.stdout], [], [], patience())
            piece = os.read(self.process.stdout.fileno(), 65536) if ready else b''
            if not piece:
                raise Missed('%d lines of a site: %s' % (count, self.heard))
            self.heard += piece
        *lines, self.heard = self.heard.split(b'\n', count)
        return [line.decode() for line in lines]

    def hear_events(self, count=1):
        """The next lines that tell of no link."""
        lines = []
        while len(lines) < count:
            lines += [line for line in self.hear() if not line.startswith('! link ')]
        return lines

    def ends(self, text=''):
        """Its status, the rest of its lines, and what stands on standard error, once its input has ended."""
        rest, _ = self.process.communicate(text.encode() if self.process.stdin else None, timeout=patience())
        self.errors.seek(0)
        return self.process.returncode, (self.heard + rest).decode().splitlines(), self.errors.read().decode().strip()

    def __enter__(self):
        return self

    def __exit__(self, *_):
        self.process.kill()
        self.process.wait()
        for end in (self.process.stdin, self.process.stdout, self.errors):
            if end:
                end.close()


def has_ended(site):
    """Whether the site has ended. It is asked for one more answer: a child that another trial is just starting has our end of
    the pipe for a moment, and takes an answer then."""
    try:
        site.say('waits 1\n')
    except BrokenPipeError:
        pass
    return site.process.poll() is not None


def lines_of_input(program):
    """`cmh site` of edition 3: the lines of a service from standard input, a pipe or a file, to its end or `quit`."""
    if program == FAKE:
        return
    with World3(program, {1: [1, 2, 4], 2: [3]}) as world:
        with Piped3(world, 1) as site, Piped3(world, 2, more=('--notes',)) as other:
            yield 'both listen', site.hear() == other.hear() == ['listening']
            other.say('watch\n')
            yield 'it watches', other.hear() == ['ok']
            site.say('ask 1 3\nwaits 1\nconn')
            yield 'two answers', site.hear(2) == ['ok sent 2', 'waits 1 3']
            site.say('ect\nstatus\n')
            heard = site.hear(2)
            yield 'the rest of a line: %s' % heard, heard[0] == 'bad line' and heard[1].split()[4:6] == ['clients', '1']
            yield 'and is told', other.hear_events() == ['! asked 3 1']
            other.say('ask 3 1\n')
            heard = other.hear_events(2)
            yield 'an ask over two sites: %s' % heard, heard == ['ok sent 2', '! declared 3 at 2']
            site.say('declared\ntail 1\n')
            heard = site.hear(3)
            yield 'the last entry: %s' % heard, heard[0::2] == ['site 1 declared', 'ok']
            status, rest, fault = site.ends('quit\nwaits 1\n')
            yield 'quit ends it: %d %s %s' % (status, rest, fault), (status, rest, fault) == (0, ['stopped'], '')
            status, rest, notes = other.ends('withdraw 3\nwaits 3')
            yield 'so does the end of the input: %d %s' % (status, rest), status == 0 and rest[-1] == 'stopped' \
                and [line for line in rest if line[0] != '!'][:2] == ['ok sent 1', 'waits 3']
            yield 'it told notes: %s' % notes, 'note out 1 open' in notes.splitlines()
        lines = ''.join('ask 2 4\nreply 4 2\n' for _ in range(50))
        with open(world.path('lines'), 'w') as file:
            file.write('# a comment\n\n' + lines + 'waits 1\r\n' + 'waits 1' + ' ' * 5000 + '\nowed 2\r')
        with open(world.path('lines')) as file, Piped3(world, 1, lines=file, new=False) as site:
            status, rest, fault = site.ends()
            yield 'a file of lines: %d, %d lines, %s' % (status, len(rest), rest[-4:]), status == 0 and len(rest) == 105 \
                and set(rest[1:101]) == {'ok sent 0'} and rest[101:] == ['waits 1 3', 'bad line', 'bad line', 'stopped'] and fault == ''
        with Piped3(world, 1, new=False) as site:
            time.sleep(0.3)
            site.process.stdin.write(lines.encode())
            status, rest, _ = site.ends()
            yield 'lines ahead of a slow reader', status == 0 and len(rest) == 102 and rest.count('ok sent 0') == 100
        for lines, wanted in ((subprocess.DEVNULL, (0, ['listening', 'stopped'], '')),):
            with Piped3(world, 1, lines=lines, new=False) as site:
                yield 'no line at all', site.ends() == wanted
        with Piped3(world, 1, lines=os.open(world.room.name, os.O_RDONLY), new=False) as site:
            found = site.ends()
            yield 'an input that can not be read: %s' % (found,), found == (3, ['listening'], 'fault input')
        with Piped3(world, 1, new=False) as site:
            site.hear()
            site.process.stdout.close()
            wait_until(lambda: has_ended(site), 'an end of a site that nobody reads')
            yield 'nobody reads', site.process.returncode == 3
            site.process.stdout = None
        with Piped3(world, 1) as site:
            yield '--new over a journal', site.ends() == (3, [], 'fault journal disk')
        yield 'accepted', world.is_accepted()


def hostile_clients3(program):
    """Noise, parts of lines, a client that reads nothing, and a crowd: others go on."""
    if program == FAKE:
        return
    with World3(program, {1: [1, 2], 2: [3]}) as world:
        site = world.up(1)
        good, turns = site.client(), []

        def dial():
            return socket.create_connection(('127.0.0.1', site.door), timeout=patience())

        def go_on():
            begin = time.monotonic()
            good.ask(1, [2])
            good.reply(2, 1)
            turns.append(time.monotonic() - begin)
        noise = dial()
        try:
            noise.sendall(random.Random(1).randbytes(1 << 20))
        except OSError:
            pass
        go_on()
        partial = dial()
        partial.sendall(b'ask 1 2')
        partial.setsockopt(socket.SOL_SOCKET, socket.SO_LINGER, struct.pack('ii', 1, 0))
        partial.close()
        go_on()
        yield 'a part of a line does nothing', good.waits(1) == []
        yield 'one that never reads is closed', is_shut_out(site, go_on)
        crowd = [dial() for _ in range(300)]
        wait_until(lambda: len(shut_among(crowd)) >= 44, 'closed connections')
        go_on()
        for peer in crowd + [noise]:
            peer.close()
        wait_until(lambda: good.status()['clients'] <= 2, 'all others gone')
        yield 'there is room again', site.ask('waits', 1) == 'waits 1'
        yield 'a good client goes on: %.2f s at most' % max(turns), max(turns) < 2
        yield 'each turn is in the journal', len(world.entries(1)) == 2 * len(turns)
        memory = site.memory() >> 10
        yield 'it holds %d KB' % memory, memory < 100_000


def is_shut_out(site, go_on):
    """Whether a client that sends lines and reads no answer is closed, while another goes on."""
    deaf = socket.socket()
    deaf.setsockopt(socket.SOL_SOCKET, socket.SO_RCVBUF, 4096)     # so that the system keeps few answers
    deaf.connect(('127.0.0.1', site.door))
    deaf.setblocking(False)
    end, line = time.monotonic() + 2 * patience(), b''
    while time.monotonic() < end:
        try:
            line = line or b'status\n' * 4000
            line = line[deaf.send(line):]
        except BlockingIOError:
            go_on()
            time.sleep(0.2)
        except OSError:
            return True
    return False


# ---- clients

def client_of_python(program):
    """The client in Python goes on over restarts: it asks questions again, and says which of its events is in doubt."""
    with World3(program, PAIR) as world:
        sites = world.up_all()
        client, told = sites[1].client(), Told(sites[1])
        done, doubts, stop = [], [], threading.Event()

        def event(call, line):
            """Makes an event once, whatever happens to the site meanwhile: nobody else speaks for these processes."""
            while True:
                try:
                    return call()
                except cmh.InDoubt as doubt:
                    doubts.append(doubt.line)
                    if client.became(line):
                        return None

        def work():
            while not stop.is_set():
                event(lambda: client.ask(1, [3]), 'ask 1 3')
                event(lambda: client.reply(3, 1), 'reply 3 1')
                done.append(None)
        working = threading.Thread(target=work, daemon=True)
        working.start()
        for turn in range(5):
            time.sleep(0.15)
            sites[1].kill()
            sites[1] = world.up(1)
        stop.set()
        working.join(patience())
        yield 'it went on', not working.is_alive() and client.waits(1) == []
        entries = world.entries(1)
        yield 'each event once: %d turns, %d entries, %d in doubt' % (len(done), len(entries), len(doubts)), len(entries) == 2 * len(done)
        yield 'some were in doubt', 0 < len(doubts) <= 5 and set(doubts) <= {'ask 1 3', 'reply 3 1'}
        yield 'it is told that it was away', len(told.of('back')) >= 1
        sites[1].kill()
        sites[1] = world.up(1)
        yield 'one that was away between two events is no doubt', client.ask(1, [3]) is None and client.reply(3, 1) is None
        sites[1].process.send_signal(signal.SIGSTOP)
        client.patience = 0.3
        try:
            client.ask(1, [2])
            yield 'a timeout is one', False
        except cmh.InDoubt as doubt:
            yield 'a timeout says what is in doubt: %s' % doubt, doubt.line == 'ask 1 2'
        sites[1].process.send_signal(signal.SIGCONT)
        client.patience = patience()
        wait_until(lambda: client.waits(1) == [2], 'the late event')
        yield 'and what became of it', client.became('ask 1 2') is True and client.became('withdraw 1') is False
        yield 'it is the last entry', client.tail(1)[0].split(' ', 1)[1].startswith('ask 1 2 ')


def lock_manager(program):
    """examples/locks.py, for some seconds."""
    words = [sys.executable, '-B', os.path.join(HERE, '..', '..', 'examples', 'locks.py'), str(4 * effort.times)]
    environment = {**os.environ, 'CMH': ' '.join(program if isinstance(program, list) else [program])}
    done = subprocess.run(words, capture_output=True, text=True, timeout=60 + 4 * effort.times, env=environment)
    last = done.stdout.splitlines()[-1:] or [done.stderr[-300:]]
    words = last[0].split()
    yield 'it ends well: %s' % last[0], done.returncode == 0
    counts = dict(zip(words[1::2], words[::2]))
    yield 'commits and victims', int(counts.get('commits', 0)) > 5 and int(counts.get('victims', 0)) > 0


def scheduler(program):
    """examples/scheduler.py: a circular dependency is told, one job is taken back, and the others run after those that they name."""
    words = [sys.executable, '-B', os.path.join(HERE, '..', '..', 'examples', 'scheduler.py')]
    environment = {**os.environ, 'CMH': ' '.join(program if isinstance(program, list) else [program])}
    done = subprocess.run(words, capture_output=True, text=True, timeout=60, env=environment)
    lines = done.stdout.splitlines()
    yield 'it ends well: %s' % done.stderr[-300:], done.returncode == 0
    yield 'the cycle', 'circular: publish waits for test waits for report waits for publish' in lines
    order = [line.split()[-1] for line in lines if not line.startswith('circular')]
    after = [('fetch', 'headers'), ('headers', 'compile'), ('publish', 'report'), ('compile', 'test'), ('report', 'test'), ('compile', 'notify')]
    yield 'one is taken back, and each of the others is done: %s' % lines, (
        sorted(order) == sorted({name for pair in after for name in pair}) and [line for line in lines if line.startswith('taken')] == ['taken back publish'])
    yield 'none before those that it waits for', all(order.index(one) < order.index(other) for one, other in after)


CLIENTS = [hostile_clients3, lines_of_input, tells_notes, waits_for_peers, tells_its_tail, deadlock_ends, told_in_order, lines_of_clients3, client_of_python, lock_manager, scheduler]
