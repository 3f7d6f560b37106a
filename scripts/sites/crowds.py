"""The trials of services under many clients, under some that would hold up the others, and of what is told at one moment."""
import itertools
import os
import socket
import subprocess
import sys
import tempfile
import threading
import time

from services import PAIR, read_lines, serve, status_of
from world import Missed, World, allow, patience, wait_until

HERE = os.path.dirname(os.path.abspath(__file__))
FEW, MANY = 64, 200  # clients
TRIES = 3  # of which the best counts, since other programs run beside
SECONDS = 1  # of a measurement
ANSWERS = 22800  # a second: so many were given when 200 clients burned three processors; who gives more may burn more
ENDLESS = 6  # clients of which each sends a line without an end
ASKERS = 8  # clients that ask for figures again and again
QUESTIONS = 50  # of a try
BUFFERED = 1 << 24  # bytes: more than the system keeps for a connection, both ends together
ALONE = ('--quiet', '--patience', '0')


def made(folder, source, *options):
    """A program or a library that is compiled from C."""
    path = os.path.join(folder, os.path.basename(source)[:-2])
    subprocess.run(['cc', '-O2', '-Wall', *options, '-o', path, os.path.join(HERE, source)], check=True)
    return path


# ---- many clients

def processor_seconds(served):
    with open('/proc/%d/stat' % served.process.pid) as file:
        words = file.read().rsplit(')', 1)[1].split()
    return (int(words[11]) + int(words[12])) / os.sysconf('SC_CLK_TCK')


def load(program, driver, clients, before=()):
    """The answers a second of a service whose clients each await theirs, and how many processors it keeps busy."""
    with World(program, {1: list(range(1, 65)), 2: list(range(101, 165))}, edition=2) as world:
        served = serve(world, 1, more=ALONE, before=before)
        used, begin = processor_seconds(served), time.monotonic()
        words = [driver, str(served.door.number), str(clients), str(SECONDS), '2']
        driven = subprocess.run(words, capture_output=True, text=True, timeout=patience())
        if driven.returncode:
            raise Missed('all answers: ' + driven.stderr)
        return float(driven.stdout), (processor_seconds(served) - used) / (time.monotonic() - begin)


def best_of_loads(program, driver, before=()):
    """For few clients and for many: the most answers a second, and the fewest processors for so many of them. Other programs
    run beside, so there are more tries where the many get too few."""
    found = {clients: [] for clients in (FEW, MANY)}
    for count in range(2 * TRIES):
        for clients, loads in found.items():
            loads.append(load(program, driver, clients, before))
        few, many = [(max(answers for answers, _ in loads), min(used / max(1, answers / ANSWERS) for answers, used in loads))
                     for loads in found.values()]
        if count + 1 >= TRIES and many[0] >= 0.8 * few[0]:
            break
    return few, many


def many_clients(program):
    """They get as many answers as few do, and cost no more where the disk is slow."""
    allow(16 * TRIES * SECONDS)
    with tempfile.TemporaryDirectory() as folder:
        driver = made(folder, '../bench/clients.c', '-pthread')
        slow = made(folder, 'slow.c', '-shared', '-fPIC')
        few, many = best_of_loads(program, driver)
        yield '%d clients get %.0f answers a second, %d get %.0f' % (FEW, few[0], MANY, many[0]), many[0] >= 0.8 * few[0]
        few, many = best_of_loads(program, driver, ('env', 'LD_PRELOAD=' + slow, 'SLOW=1000'))
        yield 'on a slow disk %.0f and %.0f' % (few[0], many[0]), many[0] >= 0.8 * few[0]
        yield 'with %.2f and %.2f processors for %d answers a second' % (few[1], many[1], ANSWERS), many[1] < 0.5


# ---- questions while the disk is slow

def slowest_question(program, slow):
    """The slowest answer to a question in seconds, beside a client whose events take 100 ms each; and whether each was right."""
    with World(program, PAIR) as world:
        served = serve(world, 1, more=ALONE, before=('env', 'LD_PRELOAD=' + slow, 'SLOW=100000'))
        busy, asks = served.client(), served.dial()
        busy.call('ask', 1, 2)
        ended = threading.Event()
        turns = threading.Thread(target=start_again_and_again, args=(busy, ended))
        turns.start()
        try:
            took, right = [], True
            for _ in range(QUESTIONS):
                time.sleep(0.017)
                begin = time.monotonic()
                asks.sendall(b'waits 1\nowed 1\nlinks\nstatus\n')
                lines = read_lines(asks, 5)
                took.append(time.monotonic() - begin)
                right = right and lines[:2] == ['waits 1 2', 'owed 1'] and lines[4].startswith('entries ')
            return max(took), right
        finally:
            ended.set()
            turns.join()


def start_again_and_again(client, ended):
    while not ended.is_set():
        client.call('start', 1)


def questions_beside_a_sync(program):
    """A question waits for no disk, of whatever client the event is that does."""
    allow(9 * TRIES)
    with tempfile.TemporaryDirectory() as folder:
        slow = made(folder, 'slow.c', '-shared', '-fPIC')
        found, slowest = [], 1.0
        while len(found) < TRIES or (slowest >= 0.01 and len(found) < 3 * TRIES):  # other programs run beside
            found.append(slowest_question(program, slow))
            slowest = min(slowest, found[-1][0])
        yield 'it is answered within %.1f ms' % (slowest * 1000), slowest < 0.01
        yield 'and right', all(right for _, right in found)


# ---- clients that hold up others

def send_endlessly(port, seconds):
    """Sends a line without an end, and prints how many bytes of it were taken."""
    line, sent, end = b'x' * (1 << 20), 0, time.monotonic() + seconds
    with socket.create_connection(('127.0.0.1', port), timeout=seconds) as peer:
        try:
            while time.monotonic() < end:
                sent += peer.send(line)
        except OSError:
            pass
    print(sent)


def beside_endless_lines(program):
    """The slowest turn of a client in seconds, and how many bytes were taken of each line without an end beside it."""
    with World(program, PAIR) as world:
        served = serve(world, 1, more=ALONE)
        good = served.client()
        good.call('start', 1)
        words = [sys.executable, '-B', os.path.abspath(__file__), str(served.door.number), '2']
        senders = [subprocess.Popen(words, stdout=subprocess.PIPE) for _ in range(ENDLESS)]
        slowest = 0
        while any(sender.poll() is None for sender in senders):
            begin = time.monotonic()
            good.call('start', 1)
            slowest = max(slowest, time.monotonic() - begin)
        return slowest, [int(sender.communicate()[0]) for sender in senders]


def heard_of(peer, count):
    """So many lines, or fewer where the connection ends or is reset."""
    try:
        return read_lines(peer, count)
    except ConnectionResetError:
        return []


def endless_lines(program):
    allow(12 * TRIES)
    found, slowest = [], 1.0
    while len(found) < TRIES or (slowest >= 0.05 and len(found) < 3 * TRIES):  # other programs run beside
        found.append(beside_endless_lines(program))
        slowest = min(slowest, found[-1][0])
    taken = max(max(taken) for _, taken in found)
    yield 'a client beside them waits %.0f ms at most' % (slowest * 1000), slowest < 0.05
    yield 'of each %d bytes were taken at most' % taken, taken < BUFFERED
    with World(program, PAIR) as world:
        served = serve(world, 1, more=ALONE)
        for length, heard in ((65536, ['bad line', 'waits 1']), (65537, [])):
            peer = served.dial()
            peer.sendall(b'x' * length + b'\nwaits 1\n')
            yield 'a line of %d bytes' % length, heard_of(peer, 2) == heard
        peer = served.dial()
        peer.sendall(b'waits 1\n' + b'x' * 65537)
        yield 'the answer of before it', heard_of(peer, 1) == ['waits 1'] and heard_of(peer, 1) == []


def leaves(served, good, questions):
    """A client that said `quit` after so many questions and reads no answer, or None where it is gone already."""
    peer = socket.socket()
    peer.setsockopt(socket.SOL_SOCKET, socket.SO_RCVBUF, 2048)
    peer.settimeout(patience())
    peer.connect(('127.0.0.1', served.door.number))
    peer.sendall(b'links\n' * questions + b'quit\n')
    time.sleep(0.5)
    return peer if status_of(good)['clients'] == '2' else None


def after_quit(program):
    """A client that has said `quit` and reads no answer is heard no more."""
    with World(program, PAIR) as world:
        served = serve(world, 1, more=ALONE)
        good = served.client()
        stays = (leaves(served, good, questions) for questions in range(40000, 400000, 20000))
        peer = next(filter(None, stays), None)
        yield 'it stays while answers wait', peer is not None
        taken, line, end = 0, b'start 1\n' * 10000, time.monotonic() + 2
        peer.settimeout(0.5)
        try:
            while time.monotonic() < end:
                taken += peer.send(line)
        except OSError:
            pass
        yield 'then %d bytes of it were taken' % taken, taken < BUFFERED
        yield 'no event of it', status_of(good)['entries'] == '0'
        peer.close()
        wait_until(lambda: status_of(good)['clients'] == '1', 'its end')


HTTP = ['GET / HTTP/1.1', 'POST / HTTP/1.1', 'PUT / HTTP/1.1', 'HEAD / HTTP/1.1', 'OPTIONS * HTTP/1.1', 'DELETE / HTTP/1.1',
        'PATCH / HTTP/1.1', 'CONNECT a:1 HTTP/1.1', 'TRACE / HTTP/1.1', 'Host: 127.0.0.1', 'POST /' + 'x' * 2000]


def web_pages(program):
    """A page can have a browser send lines of its own to any port, after those of HTTP."""
    with World(program, {1: [1, 2, 3, 4], 2: [5]}) as world:
        served = serve(world, 1, more=ALONE)
        for line in HTTP:
            peer = served.dial()
            peer.sendall(line.encode() + b'\r\nContent-Type: text/plain\r\n\r\nask 1 2\nask 3 4\n')
            yield line[:10] + ' ends the connection', heard_of(peer, 1) == []
        peer = served.dial()
        peer.sendall(b'waits 1\n')
        heard = read_lines(peer, 1)
        peer.sendall(b'POST / HTTP/1.1\r\n')
        yield 'after another line, too', heard == ['waits 1'] and heard_of(peer, 1) == []
        good = served.client()
        yield 'none of their lines is an event', status_of(good)['entries'] == '0'
        yield 'other bad lines end nothing', [good.call(line) for line in ('GETS 1', 'get 1', 'POST', 'host: a')] == ['bad line'] * 4


# ---- one moment

class Asker(threading.Thread):
    """A client that asks for the figures again and again."""

    def __init__(self, client):
        super().__init__(daemon=True)
        self.client, self.answers, self.is_over = client, [], False

    def run(self):
        while not self.is_over:
            status = status_of(self.client)
            self.answers.append((int(status['entries']), int(status['declared'])))


def on_one_processor():
    os.sched_setaffinity(0, {min(os.sched_getaffinity(0))})


def one_moment(program):
    """The figures that are told beside frames that come are those of a beginning of the journal. On one processor a thread
    often has to wait between two looks."""
    peers = {site: list(range(100 * site, 100 * site + 16)) for site in (2, 3, 4, 5)}
    own = list(range(1, 65))
    with World(program, {1: own, **peers}, edition=2) as world:
        first = serve(world, 1, limit=on_one_processor)
        one = first.client()
        others = {site: serve(world, site).client() for site in peers}
        wait_until(lambda: status_of(one)['out'] == status_of(one)['in'] == str(len(peers)), 'open links')
        pairs = list(zip(own, itertools.chain(*zip(*peers.values()))))
        for site, other in others.items():
            answers_of(other, ['ask %d %d' % (holder, asker) for asker, holder in pairs if holder in peers[site]])
        askers = [Asker(first.client()) for _ in range(ASKERS)]
        for asker in askers:
            asker.start()
        for pair in pairs:
            one.call('ask', *pair)
        wait_until(lambda: status_of(one)['declared'] == str(len(own)), 'all declarations')
        for asker in askers:
            asker.is_over = True
            asker.join(patience())
        told = [0]
        for _, _, declared in world.entries(1):
            told.append(told[-1] + (declared is not None))
        answers = [answer for asker in askers for answer in asker.answers]
        wrong = [answer for answer in answers if told[answer[0]] != answer[1]]
        yield '%d of %d are of two moments: %s' % (len(wrong), len(answers), wrong[:3]), not wrong


def three_declarations(program):
    """Declarations that share a sync are told each once, in their order, to who watched before and who watches after."""
    with World(program, {1: [1, 2, 3, 4, 5, 6], 2: [7]}) as world:
        served = serve(world, 1, more=ALONE)
        client, before, after = (served.client() for _ in range(3))
        news = ['! declared 1', '! declared 3', '! declared 5']
        yield 'one watches', before.call('watch') == 'ok'
        answers_of(client, ['ask 1 2', 'ask 2 1', 'ask 3 4', 'ask 4 3', 'ask 5 6', 'ask 6 5'])
        answers = answers_of(client, ['start 1', 'start 3', 'start 5'])
        yield 'three are declared', answers == ['ok sent 0 declared %d' % process for process in (1, 3, 5)]
        yield 'who watched before is told', [before.receive() for _ in news] == news
        after.send('watch')
        yield 'who watches after is told', [after.receive() for _ in range(4)] == ['ok', *news]
        yield 'and nothing twice', all(each.call('waits', 1) == 'waits 1 2' for each in (before, after))


def answers_of(client, lines):
    client.send(*lines)
    return [client.receive() for _ in lines]


CROWDS = [many_clients, questions_beside_a_sync, endless_lines, after_quit, web_pages, one_moment, three_declarations]

if __name__ == '__main__':
    send_endlessly(int(sys.argv[1]), float(sys.argv[2]))
