"""Checks of clients/python/cmh.py over a connection whose other end is played here, by the lines of docs/formats.md."""
import socket
import threading

import cmh


def expect(what, found, wanted):
    if found != wanted:
        raise SystemExit(f'{what}: {found}, and not {wanted}')


def raised(call, *of):
    """What a call raises, by its name, with its text."""
    try:
        call(*of)
    except (cmh.BadLine, cmh.Ended, cmh.Refused) as fault:
        return type(fault).__name__, str(fault)
    return None


class Played:
    """A site that answers what it is told to, and the client at the other end."""

    def __init__(self, patience=5.0):
        near, self.far = socket.socketpair()
        self.far.settimeout(5)
        self.site = cmh.Site(near, near.fileno(), near.fileno(), patience)

    def answers(self, *lines):
        self.far.sendall(''.join(line + '\n' for line in lines).encode())

    def heard(self):
        return self.far.recv(4096).decode().split('\n')[:-1]


def events():
    world = Played()
    world.answers('ok sent 1', 'ok sent 0 declared 1', 'refused 7', 'ok sent 3')
    expect('start', (world.site.start(1), world.site.start(1)), (None, 1))
    expect('refused', raised(world.site.start, 1), ('Refused', 'refused 7: already declared'))
    expect('holders in any order', world.site.ask(9, [3, 2, 3]), None)
    expect('lines of events', world.heard(), ['start 1', 'start 1', 'start 1', 'ask 9 2 3'])
    for holders in ([], [9], [1, 9]):
        expect('bad targets', raised(world.site.ask, 9, holders), ('Refused', 'refused 3: bad targets'))
    world.far.setblocking(False)
    expect('nothing was said', raised_by_recv(world.far), 'BlockingIOError')


def raised_by_recv(far):
    try:
        return far.recv(1)
    except OSError as fault:
        return type(fault).__name__


def questions():
    world = Played()
    world.answers('out 2 open', 'in 2 closed 5', 'out 7 new', 'in 7 new', 'site 1 declared 4')
    expect('links', world.site.links(), {('out', 2): 'open', ('in', 2): 'closed 5', ('out', 7): 'new', ('in', 7): 'new'})
    world.answers('site 1 declared')
    expect('no links', world.site.links(), {})
    world.answers('entries 4 room 999996 declared 1 clients 2 out 1 in 0 sealed no')
    expect('status', world.site.status(),
           {'entries': 4, 'room': 999996, 'declared': 1, 'clients': 2, 'out': 1, 'in': 0, 'sealed': False})
    expect('lines of questions', world.heard(), ['links', 'declared', 'links', 'declared', 'status'])
    world.answers('bad line', 'late', 'waits 1')
    expect('a bad line is named', raised(world.site.waits, 10000), ('BadLine', 'bad line: waits 10000'))
    expect('a late line, too', raised(world.site.connect), ('BadLine', 'late: connect'))
    expect('and the next is answered', world.site.waits(1), [])


def ends():
    silent = Played(patience=0.05)
    expect('a silent site', raised(silent.site.declared), ('Timeout', 'no answer within 0.05 seconds'))
    expect('has ended', issubclass(cmh.Timeout, cmh.Ended), True)
    expect('its connection is closed', (silent.heard(), silent.far.recv(1)), (['declared'], b''))
    expect('and stays so', raised(silent.site.declared), ('Ended', 'the connection was closed'))
    gone = Played()
    gone.far.close()
    expect('a site that is gone', raised(gone.site.declared), ('Ended', 'the connection was closed'))


def watching():
    world = Played(patience=0.05)
    world.answers('ok', '! declared 1')
    told = world.site.declarations()
    expect('of before', next(told), 1)
    later = threading.Timer(0.3, world.answers, ['! declared 2'])
    later.start()
    expect('after more than the patience', next(told), 2)
    later.join()


events()
questions()
ends()
watching()
