"""The trials of strangers: who keeps a link from opening, what somebody else does to a journal, and what an unread link costs."""
import os
import socket
import threading
import time
from contextlib import suppress

from services import PAIR, serve, status_of
from world import World, patience, wait_until

STRANGERS = 256
HELLO = 6  # bytes
FRAME = 7  # bytes of a probe
PROCESSES = 32
PROBES = PROCESSES * (PROCESSES - 1)  # that a start sends
STARTS = 6000
AHEAD = 64  # lines ahead of their answers
BACKLOG = 4  # megabytes
MEGABYTE = 1 << 20


# ---- who keeps a link from opening

def strangers_first(program):
    """A site whose connections are all taken by strangers who say nothing has room for a peer."""
    with World(program, PAIR) as world:
        first = world.start(1, more=('--notes',))
        first.await_listening()
        threads = first.threads()
        strangers = [socket.create_connection(('127.0.0.1', world.ports[1])) for _ in range(STRANGERS)]
        wait_until(lambda: first.threads() >= threads + STRANGERS, 'a thread for each stranger')
        second = world.start(2, more=('--patience', '10'))
        second.await_listening()
        yield 'it connects', second.ask('connect') == 'connected 1 failed 0'
        yield 'a request', second.ask('ask 2 1') == 'ok sent 1'
        first.await_link('in 2', 'open')
        wait_until(lambda: len(world.entries(1)) == 1, 'the request')
        yield 'the link is open at both ends', second.links()['out 1'] == 'open'
        first.await_note('note closed a connection without a hello')
        yield 'the first stranger is closed', strangers[0].recv(1) == b''
        yield 'and no other', not any(is_readable(peer) for peer in strangers[1:])
        for peer in strangers:
            peer.close()
        yield 'each quit ends', first.say('quit') is None and first.wait() == 0 and second.end()


def is_readable(peer):
    peer.setblocking(False)
    try:
        peer.recv(1)
    except BlockingIOError:
        return False
    except OSError:
        pass
    return True


def closed_at_first(program):
    """A peer that closes connections at once doesn't listen yet, where there is patience."""
    with World(program, PAIR) as world, socket.create_server(('127.0.0.1', world.ports[1])) as listener:
        listener.settimeout(patience())
        heard = []

        def listen():
            with suppress(OSError):
                for _ in range(3):
                    listener.accept()[0].close()
                peer, _ = listener.accept()
                peer.settimeout(patience())
                heard.append((peer.recv(HELLO), peer))
        listening = threading.Thread(target=listen)
        listening.start()
        site = world.start(2, more=('--patience', '10'))
        site.await_listening()
        yield 'it connects', site.ask('connect') == 'connected 1 failed 0'
        listening.join(patience())
        yield 'its hello comes', [hello for hello, _ in heard] == [bytes.fromhex('434D48010002')]
        yield 'the link is open', site.links()['out 1'] == 'open'
        for _, peer in heard:
            peer.close()


# ---- journals that lose their name

def removed_journal(program):
    """A journal without a name takes no more entries: they would go with the site."""
    with World(program, PAIR) as world:
        site = world.start(1, more=('--notes',))
        site.await_listening()
        yield 'an ask', site.ask('ask 1 2') == 'ok sent 1'
        os.link(world.journal(1), world.path('another'))
        os.remove(world.journal(1))
        yield 'one with another name goes on', site.ask('start 1') == 'ok sent 1'
        os.remove(world.path('another'))
        answers = [site.ask('start 1') for _ in range(3)]
        yield 'one without takes no more: %s' % answers, answers == ['refused 10', 'refused 9', 'refused 9']
        yield 'it is noted', site.await_note('note the journal is sealed')
    with World(program, PAIR) as world:
        served = serve(world, 1, more=('--quiet', '--patience', '0'))
        client = served.client()
        yield 'an ask of a service', client.ask(1, [2]) is None
        os.rename(world.journal(1), world.path('moved'))
        yield 'a moved journal goes on', client.call('start', 1) == 'ok sent 1'
        with open(world.path('other'), 'wb'):
            pass
        os.rename(world.path('other'), world.path('moved'))
        answers = [client.call('start', 1) for _ in range(2)]
        yield 'one that was replaced takes no more: %s' % answers, answers == ['refused 10', 'refused 9']
        yield 'it is sealed', status_of(client)['sealed'] == 'yes'


# ---- what a link costs that nobody reads

class Peer:
    """Site 2, as a stranger plays it: it listens, and reads, does nothing, ends at once, or isn't there."""

    def __init__(self, world, kind):
        self.kind, self.read, self.connections = kind, 0, []
        self.listener = None if kind == 'absent' else socket.create_server(('127.0.0.1', world.ports[2]))
        if self.listener:
            self.listener.settimeout(patience())
            threading.Thread(target=self.run, daemon=True).start()

    def run(self):
        try:
            connection, _ = self.listener.accept()
            self.connections.append(connection)
            if self.kind == 'leaving':
                connection.close()
            while self.kind == 'reading':
                piece = len(connection.recv(MEGABYTE))
                self.read += piece
                if not piece:
                    break
        except OSError:
            pass

    def let_go(self):
        for each in self.connections + [self.listener] * bool(self.listener):
            each.close()


def resident(served):
    """The megabytes of memory that a process has."""
    with open('/proc/%d/status' % served.process.pid) as file:
        return next(int(line.split()[1]) for line in file if line.startswith('VmRSS')) / 1024


def outgoing(client):
    """The state of the link to site 2."""
    state = client.call('links')
    client.receive()
    return state.split(' ', 2)[2]


def cost(program, kind, starts, more=()):
    """The megabytes that so many starts cost a site, each of which sends 992 probes to such a peer; and its link then."""
    members = {1: list(range(1, PROCESSES + 1)), 2: list(range(101, 101 + PROCESSES))}
    with World(program, members, edition=2) as world:
        peer = Peer(world, kind)
        try:
            served = serve(world, 1, more=('--quiet', '--patience', '0', *more))
            client = served.client()
            wait_until(lambda: outgoing(client) != 'new', 'an opened link')
            for process in members[1]:
                local = [process + 1] if process < PROCESSES else []
                client.ask(process, local + members[2][:PROCESSES - 1])
            before, sent = resident(served), 0
            client.send(*['start 1'] * AHEAD)
            for left in range(starts, 0, -1):
                sent += int(client.receive().split()[2])
                if left > AHEAD:
                    client.send('start 1')
            if kind == 'reading':
                wait_until(lambda: peer.read >= sent * FRAME, 'all frames')
            time.sleep(0.5)
            return resident(served) - before, sent, outgoing(client)
        finally:
            peer.let_go()


def unread_links(program):
    """A link that nobody reads costs no memory for its frames, once it is closed; one that is open costs its backlog's bound."""
    reading, frames, state = cost(program, 'reading', STARTS)
    yield 'each start sends its probes', frames == STARTS * PROBES
    yield 'a link that is read stays open', state == 'open'
    for kind, more, closed, extra in (('absent', (), 'closed 1', 8), ('leaving', (), 'closed 3', 8),
                                      ('silent', ('--backlog', str(BACKLOG)), 'closed 3', BACKLOG + 8)):
        found, _, state = cost(program, kind, STARTS, more)
        yield '%s: %s' % (kind, state), state == closed
        yield '%s: %.0f MB, %.0f where it is read' % (kind, found, reading), found < reading + extra


UNINVITED = [strangers_first, closed_at_first, removed_journal, unread_links]
