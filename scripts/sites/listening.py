"""The trials of what the commands listen on: the loopback alone, so that no other machine gets to a site."""
import json
import os
import shlex
import signal
import socket
import struct
import subprocess
import sys
import tempfile
from contextlib import suppress

from crowds import made
from services import PAIR, serve
from world import Collided, Missed, World, patience, wait_until
from world3 import World3

sys.path.insert(0, os.path.join(os.path.dirname(os.path.abspath(__file__)), '..', 'model3'))
from epochs import played, write_all  # noqa: E402
from journals import folder_of  # noqa: E402

FAMILIES = {'tcp': socket.AF_INET, 'tcp6': socket.AF_INET6, 'udp': socket.AF_INET, 'udp6': socket.AF_INET6,
            'raw': socket.AF_INET, 'raw6': socket.AF_INET6}
LISTEN = '0A'
RING = {1: [1], 2: [2], 3: [3]}
LINES = 100000  # enough to look at the cluster while it runs


def sockets_of(process):
    """The numbers of its sockets, as the system's tables have them."""
    found = set()
    for number in os.listdir('/proc/%d/fd' % process):
        with suppress(FileNotFoundError):
            kind, _, rest = os.readlink('/proc/%d/fd/%s' % (process, number)).partition(':')
            if kind == 'socket':
                found.add(rest.strip('[]'))
    return found


def address_of(text, family):
    """An address with its port: the tables have words in the order of this machine's bytes."""
    words, port = text.split(':')
    raw = b''.join(struct.pack('=I', int(words[at:at + 8], 16)) for at in range(0, len(words), 8))
    return '%s:%d' % (socket.inet_ntop(family, raw), int(port, 16))


def listening(process):
    """Where a process awaits connections or packets."""
    own, found = sockets_of(process), []
    for table, family in FAMILIES.items():
        with suppress(FileNotFoundError), open('/proc/%d/net/%s' % (process, table)) as lines:
            for row in list(lines)[1:]:
                words = row.split()
                if words[9] in own and (words[3] == LISTEN or not table.startswith('tcp')):
                    found.append(address_of(words[1], family))
    return sorted(found)


def loopback(*ports):
    return sorted('127.0.0.1:%d' % port for port in ports)


def loopback_alone(program):
    with World(program, PAIR) as world:
        site = world.start(1)
        site.await_listening()
        yield 'a site', listening(site.process.pid) == loopback(world.ports[1])
        service = serve(world, 2)
        yield 'a service', listening(service.process.pid) == loopback(world.ports[2], service.door.number)
        yield 'the site is connected', site.ask('connect') == 'connected 1 failed 0'
        yield 'a connected site', listening(site.process.pid) == loopback(world.ports[1])
        yield 'the site ends', site.end()
    with World(program, RING, edition=2) as world:
        with open(world.path('script'), 'w') as file:
            file.write('declared 1\n' * LINES)
        os.mkdir(world.path('out'))
        words = [program, 'cluster', '--topology', world.path('topology'), '--script', world.path('script'), '--out', world.path('out')]
        with subprocess.Popen(words, stdout=subprocess.DEVNULL, stderr=subprocess.PIPE) as cluster:
            try:
                found = wait_until(lambda: ended_or_listening(cluster), 'the ports of a cluster')
            finally:
                cluster.send_signal(signal.SIGKILL)
        yield 'a cluster', found == loopback(*world.ports.values())
    with World3(program, PAIR) as world:
        for number, service in world.up_all().items():
            service.await_links()
            own = loopback(world.ports[number].number, world.doors[number].number)
            yield 'a service of edition 3', listening(service.process.pid) == own


def ended_or_listening(cluster):
    """Where a cluster listens, once it has all of its ports."""
    if cluster.poll() is not None:
        raise Collided('of a cluster') if cluster.stderr.read() == b'fault listen\n' else Missed('a look at a running cluster')
    found = listening(cluster.pid)
    return found if len(found) >= len(RING) else None


# ---- each command, from its start to its end

SCRIPT = 'site 1 1\nsite 2 2\nask 1 2\nask 2 1\n'
ROWS = [{'site': 1, 'processes': [1]}, {'site': 2, 'processes': [2]}]


class Noted:
    """A program under sockets.c, which notes each of its sockets."""

    def __init__(self, program, folder):
        self.log, self.path = os.path.join(folder, 'notes'), os.path.join(folder, 'noted')
        shim = made(folder, 'sockets.c', '-shared', '-fPIC')
        words = ['exec', 'env', 'LD_PRELOAD=' + shim, 'SOCKETS=' + self.log, program]
        with open(self.path, 'w') as file:
            file.write('#!/bin/sh\n%s "$@"\n' % shlex.join(words))
        os.chmod(self.path, 0o700)

    def run(self, *words, said=''):
        return subprocess.run([self.path, *words], input=said, capture_output=True, text=True, timeout=patience())

    def notes(self, what=''):
        """What was noted so far."""
        with suppress(FileNotFoundError), open(self.log) as file:
            return [line.rstrip('\n') for line in file if line.startswith(what)]
        return []


def commands_of(program):
    """The names that the help lists, but for its own."""
    lines = iter(program.run('--help').stdout.splitlines())
    for line in lines:
        if line == 'Commands:':
            break
    names = {line.split()[0] for line in iter(lambda: next(lines, ''), '')}
    return names - {'help'}


def without_sockets(noted, folder):
    """Runs each command that needs no network, in each edition; answers their names and how each ended."""
    runs = [('play', ['play'], 'edition 2\n' + SCRIPT), ('new-world', ['new-world'], '')]
    for edition in (2, 3):
        kept, topology = (os.path.join(folder, '%s-%d' % (name, edition)) for name in ('kept', 'topology'))
        os.mkdir(kept)
        with open(topology, 'w') as file:
            json.dump({'edition': edition, 'world': '0' * 32, 'sites': ROWS}, file)
        journals = [os.path.join(kept, 'site-%d%s' % (site, '.cmhj' if edition == 2 else '')) for site in (1, 2)]
        by, before = (['--edition', '3'], '') if edition == 3 else ([], 'edition 2\n')
        runs += [('play', ['play', *by, '--journals', kept], before + SCRIPT), ('show', ['show', *journals], ''),
                 *(('audit', ['audit', *more, '--topology', topology, *journals], '') for more in ([], ['--why'], ['--run'])),
                 *(('draw', ['draw', *more, '--topology', topology, *journals], '') for more in ([], ['--kind', 'run'], ['--page']))]
    runs.append(('play', ['play', '--page', os.path.join(folder, 'page')], 'edition 2\n' + SCRIPT))

    # A cluster of edition 3 carries all messages itself.
    script, out = os.path.join(folder, 'script'), os.path.join(folder, 'out')
    with open(script, 'w') as file:
        file.write('ask 1 2\nask 2 1\n')
    os.mkdir(out)
    runs.append(('cluster', ['cluster', '--topology', os.path.join(folder, 'topology-3'), '--script', script, '--out', out], ''))

    # Sites that have begun an epoch are listed, and set back.
    turned, back, other = (os.path.join(folder, name) for name in ('turned', 'back', 'topology-other'))
    write_all(played(b'site 1 1\nsite 2 2\nask 1 2\nturn 1 1\nturn 2 1\n'), turned)
    os.mkdir(back)
    with open(other, 'w') as file:
        json.dump({'edition': 3, 'world': '1' * 32, 'sites': ROWS}, file)
    folders = [folder_of(turned, site) for site in (1, 2)]
    runs += [('segments', ['segments', '--topology', os.path.join(folder, 'topology-3'), *folders], ''),
             ('restore', ['restore', '--topology', other, '--epoch', '1', '--to', back, *folders], '')]
    return [(name, words, noted.run(*words, said=said)) for name, words, said in runs]


def each_command(program):
    """A command that makes a socket makes it at the loopback, and the others make none."""
    with tempfile.TemporaryDirectory() as folder:
        noted = Noted(program, folder)
        ended = without_sockets(noted, folder)
        for name, words, done in ended:
            yield '%s ends well: %s' % (' '.join(words), done.stderr), done.returncode == 0
        yield 'play, audit, show, draw, new-world, segments, restore and a cluster of edition 3 make no socket: %s' % noted.notes(), noted.notes() == []
        tried = {name for name, _, _ in ended} | {'site', 'serve', 'cluster'}
        yield 'all commands are tried', commands_of(noted) == tried
        ports = []
        with World(noted.path, PAIR) as world:
            site = world.start(1)
            site.await_listening()
            service = serve(world, 2)
            yield 'the site is connected', site.ask('connect') == 'connected 1 failed 0'
            ports += [*world.ports.values(), service.door.number]
            yield 'the site ends', site.end()
        with World3([noted.path], PAIR) as world:
            for service in world.up_all().values():
                service.await_links()
            ports += [port.number for port in [*world.ports.values(), *world.doors.values()]]
        with World3([noted.path], PAIR) as world:
            done = noted.run('site', '--topology', world.topology(1), '--site', '1', '--journal', world.folder(1), '--new', said='quit\n')
            yield 'the site of edition 3 ends well: %s' % done.stderr, done.returncode == 0
            ports.append(world.ports[1].number)
        with World(noted.path, RING, edition=2) as world:
            with open(world.path('script'), 'w') as file:
                file.write('ask 1 2\n')
            os.mkdir(world.path('out'))
            done = noted.run('cluster', '--topology', world.path('topology'), '--script', world.path('script'), '--out', world.path('out'))
            yield 'the cluster ends well: %s' % done.stderr, done.returncode == 0
            ports += world.ports.values()
        for what in ('bind', 'listen'):
            found = sorted(line.split()[1] for line in noted.notes(what))
            yield 'each %s is at the loopback: %s' % (what, found), found == loopback(*ports)
        kinds = set(noted.notes('socket'))
        yield 'all sockets are of version 4: %s' % kinds, kinds == {'socket family %d' % socket.AF_INET}


LISTENING = [loopback_alone, each_command]
