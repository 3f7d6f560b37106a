"""The trials of services: sites that clients talk to over connections of their own."""
import os
import random
import select
import signal
import socket
import struct
import sys
import threading
import time

sys.path.insert(0, os.path.join(os.path.dirname(os.path.abspath(__file__)), '..', '..', 'clients', 'python'))

import cmh
from world import Port, Site, World, of_size, patience, wait_until

PAIR = {1: [1], 2: [2]}
CLIENTS, EVENTS = 8, 10000
CROWD = 200  # clients: a thread has 32 before the next one gets any
WINDOW = 256  # lines that a client of a crowd sends ahead of their answers


class Service(Site):
    """A site that serves clients on a port of its own."""

    command = 'serve'

    def __init__(self, world, number, more=('--quiet',), port=None, **options):
        self.door = port or Port()
        super().__init__(world, number, more=('--port', str(self.door.number), *more), **options)

    def client(self):
        client = cmh.Site.at(self.door.number)
        client.patience = patience()
        return client

    def dial(self):
        peer = socket.create_connection(('127.0.0.1', self.door.number), timeout=patience())
        peer.settimeout(patience())
        return peer

    def let_go(self):
        super().let_go()
        self.door.let_go()

    def ends_by(self, number):
        self.signal(number)
        return self.wait() == -number


def serve(world, number, **options):
    service = world.start(number, kind=Service, **options)
    service.await_listening()
    return service


def refused(call):
    """The number with which a call is refused, or what else it raises."""
    try:
        call()
    except cmh.Refused as refusal:
        return refusal.number
    except (cmh.BadLine, cmh.Ended) as raised:
        return type(raised)
    return None


def status_of(client):
    words = client.call('status').split()
    return dict(zip(words[::2], words[1::2]))


def is_open(client):
    """Whether both links of a pair of sites are open."""
    status = status_of(client)
    return (status['out'], status['in']) == ('1', '1')


# ---- what a service answers

def service(program):
    with World(program, PAIR) as world:
        first, second = serve(world, 1), serve(world, 2)
        one, two = first.client(), second.client()
        wait_until(lambda: is_open(one) and is_open(two), 'open links')
        yield 'an ask of each', one.ask(1, [2]) is None and two.ask(2, [1]) is None
        wait_until(lambda: one.owed(1) == [2] and two.owed(2) == [1], 'both requests')
        yield 'it tells who waits', one.waits(1) == [2] and two.waits(2) == [1]
        yield 'a process of nobody', refused(lambda: one.waits(9)) == 1 and refused(lambda: one.owed(9)) == 1
        yield 'a process of another site', refused(lambda: one.waits(2)) == 2 and refused(lambda: one.owed(2)) == 2
        yield 'no number', refused(lambda: one.waits(0)) == cmh.BadLine and refused(lambda: one.waits('')) == cmh.BadLine
        yield 'it connects by itself', refused(lambda: one.connect()) == cmh.BadLine
        early = first.client().declarations()
        watching = threading.Thread(target=lambda: told.append(next(early)))
        told = []
        watching.start()
        wait_until(lambda: status_of(one)['clients'] == '2', 'a watching client')
        yield 'a start', one.call('start', 1) == 'ok sent 1'
        watching.join(patience())
        yield 'it is told', told == [1]
        yield 'those of before are told, too', next(first.client().declarations()) == 1
        yield 'it is listed', one.declared() == [1] and two.declared() == []
        figures = status_of(first.client())
        yield 'the figures', list(figures) == ['entries', 'room', 'declared', 'clients', 'out', 'in', 'sealed']
        yield 'are right: %s' % figures, int(figures.pop('clients')) > 2 and figures == {
            'entries': '4', 'room': '999996', 'declared': '1', 'out': '1', 'in': '1', 'sealed': 'no'}
        yield 'links as in a site', [one.call('links'), one.receive()] == ['out 2 open', 'in 2 open']
        one.close()
        yield 'quit ends the connection', refused(one.declared) == cmh.Ended
        yield 'and no other', two.declared() == []
        yield 'it ends by a signal', first.ends_by(signal.SIGTERM) and second.ends_by(signal.SIGINT)
        yield 'accepted', world.is_accepted('events 7', 'wait 1 2', 'wait 2 1', 'declared 1 cycle 1 2 1')


def lines_of_clients(program):
    """Lines that come at once, in pieces or without an end are answered as they should be."""
    with World(program, {1: [1, 2], 2: [3]}) as world:
        served = serve(world, 1, more=('--quiet', '--patience', '0'))
        client = served.client()
        client.send('start 1', '', 'ask 1 2', 'waits 1', 'ask 1 2', 'what', '# no answer', 'ask 2 1', 'owed 1', 'start 9', 'watch',
                    'waits 2')
        heard = [client.receive() for _ in range(10)]
        yield 'each in its order: %s' % heard, heard == [
            'refused 5', 'ok sent 0', 'waits 1 2', 'refused 4', 'bad line', 'ok sent 0', 'owed 1 2', 'refused 1', 'ok', 'waits 2 1']
        client.send('start 2')
        yield 'an answer and what is told', {client.receive(), client.receive()} == {'ok sent 0 declared 2', '! declared 2'}
        peer = served.dial()
        for piece in (b'wai', b'ts 1', b'\r', b'\nwaits 2\nwa'):
            peer.sendall(piece)
            time.sleep(0.05)
        yield 'pieces of lines', read_lines(peer, 2) == ['waits 1 2', 'waits 2 1']
        peer.shutdown(socket.SHUT_WR)
        yield 'a line without an end is none', peer.recv(1) == b''
        piped = served.dial()
        piped.sendall(b'waits 1\nquit\nwaits 2\n')
        yield 'nothing after quit', read_lines(piped, 2) == ['waits 1 2']
        yield 'a peer that never came', client.call('links') == 'out 2 closed 1' and client.receive() == 'in 2 new'


def read_lines(peer, count):
    """So many lines, or fewer where the connection ends."""
    data = b''
    while data.count(b'\n') < count:
        piece = peer.recv(65536)
        if not piece:
            break
        data += piece
    return data.decode().splitlines()


# ---- clients that do not behave

def hostile_clients(program):
    with World(program, {1: [1, 2], 2: [3]}) as world:
        served = serve(world, 1, more=('--quiet', '--patience', '0'))
        good = served.client()
        turns = []

        def go_on():
            begin = time.monotonic()
            good.ask(1, [2])
            good.reply(2, 1)
            turns.append(time.monotonic() - begin)
        go_on()
        long = served.dial()
        long.sendall(b'ask 1 ' + b'2' * 60000)
        go_on()
        long.sendall(b'\nwaits 1\n')
        yield 'a line too long is a bad one', read_lines(long, 2) == ['bad line', 'waits 1']
        noise = served.dial()
        noise.sendall(random.Random(1).randbytes(1 << 20))
        go_on()
        partial = served.dial()
        partial.sendall(b'ask 1 2')
        partial.setsockopt(socket.SOL_SOCKET, socket.SO_LINGER, struct.pack('ii', 1, 0))
        partial.close()
        go_on()
        yield 'a part of a line does nothing', good.waits(1) == []
        yield 'one that never reads is closed', is_shut_out(served, go_on)
        crowd = [served.dial() for _ in range(300)]
        wait_until(lambda: len(shut_among(crowd)) >= 44, 'closed connections')
        time.sleep(0.2)
        shut = shut_among(crowd)
        yield '256 are served, %d closed' % len(shut), 44 <= len(shut) <= 50
        go_on()
        for peer in crowd + [long, noise]:
            peer.close()
        wait_until(lambda: status_of(good)['clients'] == '1', 'all others gone')
        yield 'there is room again', served.client().waits(1) == []
        yield 'a good client goes on: %.2f s at most' % max(turns), max(turns) < 2
        yield 'each turn is in the journal', len(world.entries(1)) == 2 * len(turns)
        held = world.start(2, kind=Service, port=served.door)
        yield 'a taken port', held.hear() is None and held.wait() == 3 and held.process.stderr.read() == b'fault listen\n'
        yield 'leaves nothing behind', not os.path.exists(world.journal(2))


def is_shut_out(served, go_on):
    """Whether a client that sends lines and reads no answer is closed, while another goes on."""
    deaf = socket.socket()
    deaf.setsockopt(socket.SOL_SOCKET, socket.SO_RCVBUF, 4096)     # so that the system keeps few answers
    deaf.connect(('127.0.0.1', served.door.number))
    deaf.setblocking(False)
    lines = b'links\n' * 4000
    end = time.monotonic() + patience()
    while time.monotonic() < end:
        go_on()
        try:
            deaf.send(lines)
        except BlockingIOError:
            time.sleep(0.01)
        except OSError:
            return True
    return False


def shut_among(crowd):
    """The connections that were closed, among some on which nothing is sent."""
    return select.select(crowd, [], [], 0)[0]


def full_disk_of_a_service(program):
    with World(program, {1: [1, 2, 3, 4, 11, 12, 13, 14]}) as world:
        served = serve(world, 1, limit=of_size(4000))
        clients = [served.client() for _ in range(4)]
        answers = [crowd_of(client, process, 400) for process, client in enumerate(clients, 1)]
        heard = [[client.receive() for _ in range(count)] for client, count in zip(clients, answers)]
        taken = [[answer for answer in each if answer.startswith('ok')] for each in heard]
        yield 'first all are taken, then none', all(
            each[:len(ok)] == ok and set(each[len(ok):]) <= {'refused 10', 'refused 9'} for each, ok in zip(heard, taken))
        yield '10 comes once, for all that shared the sync', all(
            each[len(ok):] == sorted(each[len(ok):], key=lambda answer: answer != 'refused 10') for each, ok in zip(heard, taken))
        yield 'some were', any('refused 10' in each for each in heard)
        yield 'what was taken is in the journal', len(world.entries(1)) >= sum(map(len, taken))
        yield 'it is sealed', status_of(clients[0])['sealed'] == 'yes'
        yield 'questions are answered', clients[0].call('waits', 1).startswith('waits 1')
        yield 'the journal is accepted', served.ends_by(signal.SIGTERM) and world.is_accepted()


def crowd_of(client, process, count):
    """Has a process wait and start computations, so many lines in all."""
    client.send('ask %d %d' % (process, process + 10), *['start %d' % process] * (count - 1))
    return count


# ---- more clients than one thread has

OF_ANY = [('start 999', 'refused 1'), ('start 33', 'refused 2'), ('ask 30 30', 'refused 3'), ('waits 33', 'refused 2'),
          ('owed 999', 'refused 1'), ('what', 'bad line')]


def talk_of(number):
    """Lines of a client with their answers, which no other client changes."""
    if number == 15:
        return [('ask 31 32', 'ok sent 0'), ('ask 32 31', 'ok sent 0'), ('start 31', 'ok sent 0 declared 31')]
    if number < 15:
        asker, holder = 2 * number + 1, 2 * number + 2
        return [('ask %d %d' % (asker, holder), 'ok sent 0'), ('reply %d %d' % (holder, asker), 'ok sent 0')] * 20
    return random.Random(number).choices(OF_ANY, k=40)


def busy_threads(served):
    """How many threads of a service had to wait again and again."""
    tasks = '/proc/%d/task' % served.process.pid
    waits = []
    for task in os.listdir(tasks):
        with open(os.path.join(tasks, task, 'status')) as file:
            waits += [int(line.split()[1]) for line in file if line.startswith('voluntary_ctxt_switches')]
    return sum(count > 20 for count in waits)


def crowd_of_clients(program):
    """Clients that several threads serve: each gets its own answers in their order, and each that watches is told."""
    with World(program, {1: list(range(1, 33)), 2: [33]}) as world:
        served = serve(world, 1, more=('--quiet', '--patience', '0'))
        clients = [served.client() for _ in range(CROWD)]
        for client in clients[::50]:
            client.send('watch')
        heard = [client.receive() for client in clients[::50]]
        yield 'those who watch: %s' % heard, heard == ['ok'] * len(clients[::50])
        talks = [talk_of(number) for number in random.Random(1).sample(range(CROWD), CROWD)]
        for at in range(40):
            for client, talk in zip(clients, talks):
                client.send(*(line for line, _ in talk[at:at + 1]))
        told = 0
        for at, (client, talk) in enumerate(zip(clients, talks)):
            wanted = [answer for _, answer in talk] + ['! declared 31'] * (at % 50 == 0)
            heard = [client.receive() for _ in wanted]
            told += '! declared 31' in heard
            if [line for line in heard if line[0] != '!'] != [answer for _, answer in talk]:
                yield 'the answers of client %d: %s' % (at, heard), False
        yield 'each that watches is told once', told == len(clients[::50])
        yield 'several threads serve', busy_threads(served) >= 4
        entries = 15 * 40 + 3
        yield 'each event once', status_of(clients[1])['entries'] == str(entries)
        yield 'it ends by a signal', served.ends_by(signal.SIGTERM)
        yield 'accepted', world.is_accepted('events %d' % entries, 'declared 31 cycle 31 32 31')


# ---- a service that is killed

class Busy(threading.Thread):
    """A client that sends events of processes of its own, lines ahead of their answers, until the service ends."""

    def __init__(self, client, lines):
        super().__init__(daemon=True)
        self.client, self.lines, self.answers, self.sent = client, lines, [], 0

    def run(self):
        try:
            while len(self.answers) < len(self.lines):
                more = self.lines[self.sent:len(self.answers) + WINDOW]
                self.client.send(*more)
                self.sent += len(more)
                self.answers.append(self.client.receive())
                while b'\n' in self.client._rest:
                    self.answers.append(self.client.receive())
        except cmh.Ended:
            pass


def lines_of(number, count):
    """Events of a client that the rules accept, and the process that each is of."""
    own, other, away = 3 * number + 1, 3 * number + 2, 100 + number
    if number < 2:
        return ['ask %d %d' % (own, away)] + ['start %d' % own] * (count - 1)
    turn = ['ask %d %d' % (own, other), 'start %d' % own, 'start %d' % own, 'reply %d %d' % (other, own)]
    return turn * (count // 4)


def acts(path):
    """The kind and the process of each whole entry that was a command."""
    with open(path, 'rb') as file:
        data = file.read()
    found, at = [], 7
    while at + 2 <= len(data):
        length = int.from_bytes(data[at:at + 2], 'big')
        body = data[at + 2:at + 2 + length]
        at += 2 + length
        if len(body) == length and body[0] in (1, 2, 3):
            found.append((('ask', 'reply', 'start')[body[0] - 1], int.from_bytes(body[1:3], 'big')))
    return found


def kill_a_crowd(program, seed, events):
    """Clients send events until the service is killed: what each was answered is in the journal, in its order."""
    draw = random.Random(seed)
    own = [process for number in range(CLIENTS) for process in (3 * number + 1, 3 * number + 2)]
    with World(program, {1: own, 2: [100, 101]}) as world:
        served, other = serve(world, 1), serve(world, 2)
        busy = [Busy(served.client(), lines_of(number, events)) for number in range(CLIENTS)]
        for each in busy:
            each.start()
        time.sleep(draw.random() * 1.5)
        served.signal(signal.SIGKILL)
        for each in busy:
            each.join(patience())
        made = acts(world.journal(1))
        right = all(is_in_order(each, number, made) for number, each in enumerate(busy))
        ended = served.wait() == -signal.SIGKILL and other.ends_by(signal.SIGTERM)
        answered = sum(len(each.answers) for each in busy)
        return right and ended and world.is_accepted(), answered


def is_in_order(busy, number, made):
    """Whether the entries of a client's processes are those of its answered lines, and at most of lines under way after them."""
    mine = [act for act in made if act[1] in (3 * number + 1, 3 * number + 2)]
    wanted = [(line.split()[0], int(line.split()[1])) for line in busy.lines[:len(mine)]]
    return (mine == wanted and len(busy.answers) <= len(mine) <= busy.sent
            and all(answer.startswith('ok sent') for answer in busy.answers))


def killed_services(program, rounds=6):
    answered = 0
    for seed in range(rounds):
        held, count = kill_a_crowd(program, seed, EVENTS)
        answered += count
        yield 'round %d' % seed, held
    yield 'events were answered', answered > 1000 * rounds


def hundred_killed_services(program):
    """The long form."""
    for each in killed_services(program, 100):
        yield each


SERVICES = [service, lines_of_clients, hostile_clients, full_disk_of_a_service, crowd_of_clients, killed_services]
LONG = [hundred_killed_services]
