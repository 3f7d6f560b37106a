"""The trials of running sites. Each is a function that answers, or yields, what held by its name."""
import collections
import concurrent.futures
import os
import random
import resource
import shutil
import signal
import socket
import struct
import subprocess
import sys
import time

from client import lost_sites, python_client
from crowds import CROWDS
from listening import LISTENING
from operations import OPERATIONS, LeftOut
from prompt import PROMPT
from services import LONG, SERVICES
from soak import soak
from strangers import UNINVITED
from world import Collided, Missed, World, allow, is_free, of_size, patience, read_answer, wait_until

PAIR = {1: [1], 2: [2]}
HELLO = bytes.fromhex('434D48010001')
REQUEST = bytes.fromhex('0100010002')
KILLS = 200


# ---- sites that find their deadlocks

def two_sites(program):
    with World(program, PAIR) as world:
        sites = world.start_all()
        yield 'an ask of each', sites[1].ask('ask 1 2') == 'ok sent 1' and sites[2].ask('ask 2 1') == 'ok sent 1'
        wait_until(lambda: len(world.entries(1)) == 2 and len(world.entries(2)) == 2, 'both requests')
        yield 'a start', sites[1].ask('start 1') == 'ok sent 1'
        sites[1].await_declared('site 1 declared 1')
        yield 'the other declares nobody', sites[2].ask('declared') == 'site 2 declared'
        yield 'the links are open', sites[1].links() == {'out 2': 'open', 'in 2': 'open'}
        yield 'each quit ends', sites[1].end() and sites[2].end()
        yield 'accepted', world.is_accepted('events 7', 'wait 1 2', 'wait 2 1', 'declared 1 cycle 1 2 1')


def three_sites(program):
    with World(program, {1: [1, 10], 2: [2], 3: [3]}, edition=2) as world:
        sites = world.start_all()
        yield 'no start is needed', all(sites[n].ask(line).startswith('ok sent') for n, line in
                                        ((1, 'ask 1 2'), (2, 'ask 2 3'), (3, 'ask 3 10'), (1, 'ask 10 1')))
        wait_until(lambda: any(sites[n].ask('declared') != 'site %d declared' % n for n in sites), 'a declaration')
        wait_until(lambda: balance(world) == 0, 'all frames')
        yield 'each quit ends', all(site.end() for site in sites.values())
        yield 'accepted and drained', world.is_accepted('drained', 'wait 1 2', 'wait 2 3', 'wait 3 10', 'wait 10 1')


def storm(program):
    """Thousands of frames on each of three links at once."""
    members = {n: list(range(17 * n - 16, 17 * n + 1)) for n in (1, 2, 3)}
    with World(program, members, edition=2) as world:
        sites = world.start_all()
        for n, site in sites.items():
            first, asked = members[n][0], ' '.join(map(str, members[n % 3 + 1][1:]))
            site.say('ask %d %s' % (first, asked), *['start %d' % first] * 150)
        yield 'each is taken', all(site.hear().startswith('ok sent') for site in sites.values() for _ in range(151))
        wait_until(lambda: balance(world) == 0, 'all frames')
        yield 'thousands of frames came', all(len(world.entries(n)) > 2500 for n in sites)
        yield 'each quit ends', all(site.end() for site in sites.values())
        yield 'accepted and drained', world.is_accepted('drained')


def late_peer(program):
    """A site with patience waits for a peer that listens later, and not for longer than it was told."""
    with World(program, {1: [1], 2: [2]}) as world:
        site = world.start(1, more=('--patience', '20'))
        site.await_listening()
        site.say('connect')
        time.sleep(1)
        peer = world.start(2)
        peer.await_listening()
        yield 'it is connected', site.hear() == 'connected 1 failed 0'
        yield 'its frame comes', site.ask('ask 1 2') == 'ok sent 1' and wait_until(lambda: world.entries(2), 'the request')
        yield 'both end', site.end() and peer.end()
    with World(program, {1: [1], 2: [2]}) as world:
        site = world.start(1, more=('--patience', '1'))
        site.await_listening()
        begin = time.monotonic()
        yield 'patience has an end', site.ask('connect') == 'connected 0 failed 1' and time.monotonic() - begin > 0.9
        yield 'the link is closed', site.links()['out 2'] == 'closed 1'
        yield 'it ends', site.end()


def lines_ahead(program):
    """Lines that come at once are each answered, in their order."""
    with World(program, {1: [1, 2], 2: [3]}) as world:
        site = world.start(1)
        site.await_listening()
        lines = ['start 1', '', 'ask 1 2', 'ask 1 2', 'what', 'ask 2 1', 'declared', 'start 9', 'start 2'] + ['start 3', 'start 1'] * 500
        site.say(*lines)
        heard = [site.hear() for _ in range(len(lines) - 1)]
        wanted = ['refused 5', 'ok sent 0', 'refused 4', 'bad line', 'ok sent 0', 'site 1 declared', 'refused 1',
                  'ok sent 0 declared 2']
        yield 'each is answered: %s' % heard[:8], heard[:8] == wanted
        yield 'the rest too', heard[8::2] == ['refused 2'] * 500 and set(heard[9::2]) <= {'ok sent 0', 'ok sent 0 declared 1', 'refused 7'}
        yield 'it ends', site.end()


def balance(world):
    """How many more frames were sent than got."""
    entries = [entry for site in world.sites for entry in world.entries(site)]
    return sum(sent for _, sent, _ in entries) - sum(kind == 4 for kind, _, _ in entries)


# ---- sites that are killed

def commands(draw, processes, all_processes, count):
    """Commands for a site: asks, replies and starts, many of them refused."""
    lines = []
    for _ in range(count):
        process, other = draw.choice(processes), draw.choice(all_processes)
        lines.append(draw.choice(['ask %d %d', 'reply %d %d', 'reply %d %d', 'start %d'])
                     .replace('%d', str(process), 1).replace('%d', str(other), 1))
    return lines


def kill_once(program, seed, stop=signal.SIGKILL):
    """One of two or three sites is ended at a random moment; the others go on, and all journals are one run."""
    draw = random.Random(seed)
    sites = {n: [n, 10 + n] for n in range(1, draw.choice([2, 2, 3]) + 1)}
    everybody = [process for processes in sites.values() for process in processes]
    with World(program, sites, edition=draw.choice([1, 2])) as world:
        running = {n: world.start(n) for n in sites}
        for site in running.values():
            site.await_listening()
        for n, site in running.items():
            site.say('connect', *commands(draw, sites[n], everybody, 40))
        victim = running[draw.choice(list(sites))]
        time.sleep(draw.random() * 0.06)
        victim.signal(stop)
        victim.hear_all()
        ended = victim.wait() == -stop
        stopped = all(site.end() for site in running.values() if site is not victim)
        return ended and stopped and all(site.was_true() for site in running.values()) and world.is_accepted()


def kills(program):
    with concurrent.futures.ThreadPoolExecutor(4) as pool:
        outcomes = list(pool.map(lambda seed: held(lambda: kill_once(program, seed)), range(KILLS)))
    for seed, outcome in enumerate(outcomes):
        yield 'at moment %d' % seed, outcome


def ends_by_signal(program):
    for name in ('SIGTERM', 'SIGINT'):
        for seed in range(1000, 1005):
            yield '%s at moment %d' % (name, seed), kill_once(program, seed, getattr(signal, name))


def killed_peer(program):
    with World(program, PAIR) as world:
        sites = world.start_all()
        yield 'an ask', sites[1].ask('ask 1 2') == 'ok sent 1'
        sites[1].await_link('in 2', 'open')
        sites[2].signal(signal.SIGKILL)
        sites[2].wait()
        sites[1].await_link('in 2', 'closed 2', 'closed 5')
        yield 'it goes on', sites[1].ask('start 1') == 'ok sent 1'
        yield 'the outgoing link closes once it is written to', closes_on_writing(sites[1])
        yield 'it ends', sites[1].end()
        yield 'accepted', world.is_accepted('wait 1 2')


def closes_on_writing(site):
    for _ in range(1000):
        site.ask('start 1')
        if site.links()['out 2'] == 'closed 3':
            return True
    return False


# ---- disks

def full_disk(program):
    for limit in (7, 8, 22, 23, 30, 37, 60):
        with World(program, PAIR) as world:
            sites = {1: world.start(1, limit=of_size(limit)), 2: world.start(2)}
            for site in sites.values():
                site.await_listening()
            for site in sites.values():
                site.say('connect')
                site.expect('connected 1 failed 0')
            answers = [sites[1].ask(line) for line in ['ask 1 2'] + ['start 1'] * 5]
            taken = [answer for answer in answers if read_answer(answer)]
            refused = answers[len(taken):]
            yield 'after %d bytes it is sealed' % limit, refused == ['refused 10'] + ['refused 9'] * (len(refused) - 1)
            yield 'after %d bytes the journal is true' % limit, sites[1].was_true()
            yield 'after %d bytes each quit ends' % limit, sites[1].end() and sites[2].end()
            yield 'after %d bytes accepted' % limit, world.is_accepted()
    with World(program, PAIR) as world:
        site = world.start(1, limit=of_size(6))
        yield 'no room for a header', (site.hear_all() == [] and site.wait() == 3
                                       and site.process.stderr.read() == b'fault journal disk\n')


def small_disk(program):
    """A memory disk of its own, where this system lets the process have one."""
    with World(program, PAIR) as world:
        disk = world.path('disk')
        os.mkdir(disk)
        script = 'mount -t tmpfs -o size=4k none "$1" && head -c 4000 /dev/zero > "$1"/filler; shift; "$@"; s=$?; exit $s'
        words = [program, 'site', '--topology', world.path('topology'), '--site', '1', '--journal', disk + '/journal']
        done = subprocess.run(['unshare', '-m', 'sh', '-c', script, 'sh', disk] + words, input=b'ask 1 2\nask 1 2\n',
                              capture_output=True, timeout=patience())
        yield 'no room on the disk', done.returncode == 3 and done.stderr == b'fault journal disk\n'


def has_small_disks():
    with open(os.devnull) as null:
        probe = ['unshare', '-m', 'sh', '-c', 'mount -t tmpfs -o size=4k none /mnt']
        return shutil.which('unshare') and subprocess.run(probe, stdin=null, capture_output=True).returncode == 0


def kept_journals(program):
    with World(program, {1: [1, 2]}) as world:
        files = []
        for lines in (['ask 1 2'], ['ask 1 2', 'ask 2 1'], []):
            site = world.start(1)
            site.await_listening()
            site.say(*lines)
            yield 'run %d ends' % (len(files) + 1), site.end()
            with open(world.journal(1), 'rb') as file:
                files.append(file.read())
        kept = [open(world.journal(1) + ending, 'rb').read() for ending in ('.1', '.2', '')]
        yield 'each run kept its journal', kept == files and len(set(map(len, files))) == 3


def started_twice(program):
    with World(program, {1: [1, 2]}) as world:
        first = world.start(1)
        first.await_listening()
        yield 'an ask', first.ask('ask 1 2') == 'ok sent 0'
        second = world.start(1)
        yield 'the port is taken', (second.hear_all() == [] and second.wait() == 3
                                    and second.process.stderr.read() == b'fault listen\n')
        yield 'the first goes on', first.ask('ask 2 1') == 'ok sent 0' and first.end()
        yield 'with its journal', world.is_accepted('events 2', 'wait 1 2', 'wait 2 1')


# ---- peers that misbehave

def dial(world, site=2):
    peer = socket.create_connection(('127.0.0.1', world.ports[site]), timeout=patience())
    peer.settimeout(patience())
    return peer


def is_closed(peer):
    """Whether the site closed the connection."""
    try:
        return peer.recv(1) == b''
    except ConnectionError:
        return True


def reset(peer):
    peer.setsockopt(socket.SOL_SOCKET, socket.SO_LINGER, struct.pack('ii', 1, 0))
    peer.close()


def alone(program, trial):
    """A trial with a running site 2, whose peer is the trial itself; the site ends within seconds of it."""
    with World(program, PAIR) as world:
        site = world.start(2)
        site.await_listening()
        yield from trial(world, site)
        yield 'it still answers', site.ask('declared') == 'site 2 declared'
        yield 'it ends', site.end()
        world.finish(1)
        yield 'the journal can be read', world.audit()[0] in (0, 1)


def silent_peers(program):
    def trial(world, site):
        threads = site.threads()
        peers = [dial(world) for _ in range(20)]
        wait_until(lambda: site.threads() >= threads + 20, 'the reading threads')
        yield 'the link is new', site.links()['in 1'] == 'new'
        peers[0].sendall(HELLO)
        site.await_link('in 1', 'open')
        yield 'the others wait', all(not is_readable(peer) for peer in peers)
        world.peers = peers
    yield from alone(program, trial)


def is_readable(peer):
    peer.settimeout(0.001)
    try:
        peer.recv(1)
        return True
    except (socket.timeout, BlockingIOError):
        return False
    except ConnectionError:
        return True


def slow_hello(program):
    def trial(world, site):
        peer = dial(world)
        states = []
        for byte in HELLO + REQUEST:
            states.append(site.links()['in 1'])
            peer.sendall(bytes([byte]))
            time.sleep(0.01)
        site.await_link('in 1', 'open')
        yield 'new until the hello is whole', states[:6] == ['new'] * 6
        wait_until(lambda: len(world.entries(2)) == 1, 'the request')
        peer.close()
        site.await_link('in 1', 'closed 5')
    yield from alone(program, trial)


def noise(program):
    def trial(world, site):
        draw = random.Random(7)
        for turn in range(60):
            peer = dial(world)
            try:
                peer.sendall(draw.randbytes(draw.choice([1, 5, 6, 7, 100, 5000])))
            except ConnectionError:
                pass
            if turn % 2:
                reset(peer)
            else:
                peer.close()
        yield 'the link is new', site.links()['in 1'] == 'new'
        yield 'no entry', world.entries(2) == []
        peer = dial(world)
        peer.sendall(HELLO + REQUEST + draw.randbytes(1000))
        site.await_link('in 1', 'closed 4')
        yield 'a good frame before noise is got', len(world.entries(2)) == 1
        yield 'closed at noise', is_closed(peer)
    yield from alone(program, trial)


def cut_frame(program):
    def trial(world, site):
        peer = dial(world)
        peer.sendall(HELLO + REQUEST + REQUEST[:3])
        peer.close()
        site.await_link('in 1', 'closed 5')
        yield 'the frame before is got', len(world.entries(2)) == 1
    yield from alone(program, trial)


def second_connection(program):
    def trial(world, site):
        first, second = dial(world), dial(world)
        first.sendall(HELLO)
        site.await_link('in 1', 'open')
        second.sendall(HELLO + REQUEST)
        yield 'the second is closed', is_closed(second)
        yield 'the first stays open', site.links()['in 1'] == 'open' and world.entries(2) == []
        first.sendall(REQUEST)
        wait_until(lambda: len(world.entries(2)) == 1, 'the request')
        first.close()
        site.await_link('in 1', 'closed 5')
        third = dial(world)
        third.sendall(HELLO)
        yield 'a closed link never opens again', is_closed(third) and site.links()['in 1'] == 'closed 5'
    yield from alone(program, trial)


def two_links_at_once(program):
    """Two links of a site that wait for each other: each gives a frame only once one of the other is in the journal."""
    with World(program, {1: [101], 2: [201, 202], 3: [301]}) as world:
        site = world.start(3)
        site.await_listening()
        first, second = dial(world, 3), dial(world, 3)
        first.sendall(HELLO)
        site.await_link('in 1', 'open')
        wanted = ['request 201 301 from 2', 'request 101 301 from 1', 'request 202 301 from 2']
        for count, (peer, data) in enumerate(((second, '434D4801000201 00C9 012D'), (first, '01 0065 012D'), (second, '01 00CA 012D')), 1):
            peer.sendall(bytes.fromhex(data))
            wait_until(lambda: len(world.entries(3)) == count, '%d requests' % count)
        shown = subprocess.run([program, 'show', world.journal(3)], capture_output=True, text=True, timeout=patience()).stdout
        yield 'each has its turn', [line.split(' got ')[1] for line in shown.splitlines()[1:]] == wanted
        yield 'it ends', site.end()


def own_hello(program):
    def trial(world, site):
        for hello in ('434D48010002', '434D48020001', '434D48010003', '434D4A010001'):
            peer = dial(world)
            peer.sendall(bytes.fromhex(hello) + REQUEST)
            yield 'the hello %s is no good one' % hello, is_closed(peer) and site.links()['in 1'] == 'new'
    yield from alone(program, trial)


def resets(program):
    def trial(world, site):
        for count in range(6):
            peer = dial(world)
            peer.sendall(HELLO[:count])
            reset(peer)
        peer = dial(world)
        peer.sendall(HELLO + REQUEST + REQUEST[:2])
        wait_until(lambda: len(world.entries(2)) == 1, 'the request')
        reset(peer)
        site.await_link('in 1', 'closed 2')
        yield 'a reset is a failed read', True
    yield from alone(program, trial)


def many_connections(program):
    def trial(world, site):
        threads = site.threads()
        peers = [dial(world) for _ in range(300)]
        yield 'from the 257th on they are closed', all(is_closed(peer) for peer in peers[256:])
        yield 'those before stay', not any(is_readable(peer) for peer in peers[:256])
        wait_until(lambda: site.threads() <= threads + 256, 'threads')
        for peer in peers:
            peer.close()
        wait_until(lambda: site.threads() == threads, 'the end of the reading threads')
        yield 'no reading thread is left', True
    yield from alone(program, trial)


def held_by_silent_peers(program):
    def trial(world, site):
        world.peers = [dial(world) for _ in range(255)]
        yield 'all are taken', wait_until(lambda: site.threads() > 255, 'the reading threads')
    yield from alone(program, trial)


# ---- outputs

def closed_output(program):
    with World(program, PAIR) as world:
        read, write = os.pipe()
        site = world.start(1, out=write)
        os.close(write)
        os.read(read, 100)
        os.close(read)
        site.say('ask 1 2')
        yield 'a site', site.wait() == 3 and site.process.stderr.read() == b'fault output\n'
        yield 'its journal is whole', world.is_accepted('events 1', 'wait 1 2')
    with World(program, PAIR) as world:
        done = cluster(world, ['ask 1 2'], out=closed_pipe())
        yield 'a cluster', done.returncode == 3 and done.stderr == b'fault output\n'


def closed_pipe():
    read, write = os.pipe()
    os.close(read)
    return write


# ---- all sites in one process

def cluster(world, lines, limit=None, out=subprocess.PIPE, may_lack_files=True):
    done = start_cluster(world, lines, limit, out)()
    if (limit is None or not may_lack_files) and done.stderr == b'fault listen\n':
        raise Collided('one of %s' % sorted(world.ports.values()))
    return done


def start_cluster(world, lines, limit=None, out=subprocess.PIPE, folder='out'):
    script, folder = world.path('script-' + folder), world.path(folder)
    os.makedirs(folder, exist_ok=True)
    with open(script, 'w') as file:
        file.write(''.join(line + '\n' for line in lines))
    words = [world.program, 'cluster', '--topology', world.path('topology'), '--script', script, '--out', folder]
    process = subprocess.Popen(words, stdout=out, stderr=subprocess.PIPE, preexec_fn=limit)

    def ended():
        try:
            printed, named = process.communicate(timeout=patience())
        except subprocess.TimeoutExpired:
            process.kill()
            process.communicate()
            raise Missed('the end of a cluster') from None
        return subprocess.CompletedProcess(words, process.returncode, printed, named)
    return ended


DEADLOCK = ['ask 1 2', 'ask 2 1', 'start 1', 'declared 1']
FOUND = (b'ok sent 1\nok sent 1\nok sent 1\nsite 1 declared 1\naccepted\nevents 7\nwait 1 2\nwait 2 1\n'
         b'declared 1 cycle 1 2 1\n')


def ring(count):
    return {n: [n] for n in range(1, count + 1)}


def clusters(program):
    with World(program, PAIR) as world:
        done = cluster(world, DEADLOCK)
        yield 'two sites', (done.returncode, done.stdout, done.stderr) == (0, FOUND, b'')
        yield 'no socket is left', all(map(is_free, world.ports.values()))
        again = cluster(world, DEADLOCK)
        yield 'and again, on the same ports and journals', (again.returncode, again.stdout) == (0, FOUND)
    with World(program, ring(10), edition=2) as world:
        done = cluster(world, ['ask %d %d' % (n, n % 10 + 1) for n in range(1, 11)] + ['declared 10'])
        lines = done.stdout.decode().splitlines()
        yield 'a ring of ten', done.returncode == 0 and 'site 10 declared 10' in lines and 'drained' in lines
    with World(program, {1: [1, 2]}) as world:
        done = cluster(world, ['ask 1 2', 'ask 2 1', 'start 2', 'declared 1', 'declared 2', 'report', ''])
        yield 'one site', done.stdout == (b'ok sent 0\nok sent 0\nok sent 0 declared 2\nsite 1 declared 2\nbad link\n'
                                          b'bad line\naccepted\nevents 3\nwait 1 2\nwait 2 1\ndeclared 2 cycle 2 1 2\n')


def full_disk_of_a_cluster(program):
    lines = ['ask 1 2', 'start 1', 'start 1', 'ask 2 1', 'start 2', 'start 2']
    for limit in (7, 22, 23, 30, 37, 60):
        with World(program, PAIR) as world:
            done = cluster(world, lines, limit=of_size(limit), may_lack_files=False)
            said = done.stdout.decode().splitlines()
            answers = said[:len(lines)]
            yield 'after %d bytes a site is sealed' % limit, 'refused 10' in answers
            for site in PAIR:
                shutil.copy(world.path('out/site-%d.cmhj' % site), world.journal(site))
                own = [answer for line, answer in zip(lines, answers) if line.split()[1] == str(site)]
                taken = [answer for answer in map(read_answer, own) if answer]
                steps = [entry[1:] for entry in world.steps(site)]
                yield 'after %d bytes the journal of site %d is true' % (limit, site), steps == taken
                refused = own[len(taken):]
                yield ('after %d bytes site %d takes no more' % (limit, site),
                       refused == ['refused 10'][:len(refused)] + ['refused 9'] * (len(refused) - 1)
                       or refused == ['refused 9'] * len(refused))
            yield 'after %d bytes accepted' % limit, done.returncode == 0 and 'accepted' in said and world.is_accepted()


def two_clusters(program):
    with World(program, PAIR) as world:
        lines = DEADLOCK + ['reply 1 2', 'start 2'] * 200
        done = both_ended(start_cluster(world, lines, folder=name) for name in ('one', 'two'))
        yield 'one has the ports', done[0].returncode == 0 and b'accepted\n' in done[0].stdout
        yield 'the other has not', (done[1].returncode, done[1].stdout, done[1].stderr) == (3, b'', b'fault listen\n')
    with World(program, PAIR) as world:
        done = both_ended(start_cluster(world, lines, folder='out') for _ in range(2))
        yield 'nor has it the journals', done[0].returncode == 0 and b'accepted\n' in done[0].stdout


def both_ended(runs):
    """The runs, in the order of their statuses."""
    done = sorted((run() for run in list(runs)), key=lambda run: run.returncode)
    if all(run.stderr == b'fault listen\n' for run in done):
        raise Collided('a port of both')
    return done


def of_files(limit):
    """The process has so many open files at most."""
    return lambda: resource.setrlimit(resource.RLIMIT_NOFILE, (limit, limit))


def is_told(done):
    """Whether a cluster that lacks something says so: by a fault line, a link that is closed, or frames that did not come."""
    named = done.stderr.decode().splitlines()
    if named:
        return named in (['fault listen'], ['fault file out'], ['fault file script'], ['fault file topology'], ['fault memory'])
    return any(' closed ' in line or line == 'not settled' for line in done.stdout.decode().splitlines())


def few_files(program):
    for sites, limit in ((12, 8), (12, 20), (12, 27), (12, 40), (12, 64), (12, 100), (23, 1024)):
        with World(program, ring(sites), edition=2) as world:
            done = cluster(world, ['ask %d %d' % (n, n % sites + 1) for n in range(1, sites + 1)], limit=of_files(limit))
            yield '%d sites, %d files' % (sites, limit), done.returncode in (0, 1, 3) and is_told(done)
    for sites, limit in ((12, 400), (22, 1024)):
        with World(program, ring(sites), edition=2) as world:
            done = cluster(world, ['ask 1 2'], limit=of_files(limit))
            yield '%d sites, enough files' % sites, done.returncode == 0 and done.stdout.startswith(b'ok sent 2\naccepted\n')


# ---- all trials

TRIALS = [two_sites, three_sites, storm, late_peer, lines_ahead, killed_peer, full_disk, kept_journals, started_twice, silent_peers, slow_hello, noise, cut_frame,
          second_connection, two_links_at_once, own_hello, resets, many_connections, held_by_silent_peers, closed_output, clusters,
          full_disk_of_a_cluster, two_clusters, few_files, python_client, lost_sites, ends_by_signal, kills, *SERVICES, *CROWDS, *UNINVITED, *LISTENING, *PROMPT]

OPERATION_SECONDS = 40.0  # that a trial of operation may take
SIDE_BY_SIDE = 3  # trials of operation: most of them wait

MOST_COLLISIONS = 3  # in a row; a site that never gets its port is no collision


def undisturbed(call):
    """What the call answers where no stranger took a port: where one did, nothing of that run counts, and it is made again."""
    for _ in range(MOST_COLLISIONS):
        try:
            return call()
        except Collided as collided:
            print('again: a stranger took the port %s' % collided, flush=True)
    raise Missed('a run without a stranger on its ports')


def held(call):
    """Whether it held; an answer that did not come did not hold."""
    try:
        return bool(undisturbed(call))
    except (Missed, OSError, subprocess.TimeoutExpired) as missed:
        print('missed: %s' % missed, flush=True)
        return False


def outcomes(trial, program):
    """What held of a trial, by name, up to what was missed."""
    found = []

    def once():
        found.clear()
        for outcome in trial(program):
            found.append(outcome)
    try:
        undisturbed(once)
    except (Missed, OSError, subprocess.TimeoutExpired) as missed:
        found.append(('missed %s' % missed, False))
    except LeftOut as left_out:
        print('left out %s: %s' % (trial.__name__.replace('_', ' '), left_out), flush=True)
    return found


def main(program, names):
    if names[:1] == ['--minutes']:
        return soak(program, float(names[1]))
    trials = TRIALS + ([small_disk] if has_small_disks() else [])
    if 'operations' in names:
        names = [name for name in names if name != 'operations'] + [trial.__name__ for trial in OPERATIONS]
    trials += [trial for trial in LONG if trial.__name__ in names]
    unknown = set(names) - {trial.__name__ for trial in TRIALS + LONG + [small_disk] + OPERATIONS}
    if unknown:
        sys.exit('no such trial: %s' % ' '.join(sorted(unknown)))
    operations = [trial for trial in OPERATIONS if not names or trial.__name__ in names]
    allow(OPERATION_SECONDS * len(operations))
    # A job in the background of a shell ignores Ctrl-C, and so would each site that it starts.
    signal.signal(signal.SIGINT, signal.default_int_handler)
    count = collections.Counter()
    for trial in trials:
        if not names or trial.__name__ in names:
            tell(trial, timed(trial, program), names, count)
    with concurrent.futures.ThreadPoolExecutor(SIDE_BY_SIDE) as pool:
        for trial, found in zip(operations, pool.map(lambda trial: timed(trial, program), operations)):
            tell(trial, found, names, count)
    print('%d passed, %d failed' % (count['passed'], count['failed']))
    return count['failed'] > 0


def timed(trial, program):
    begin = time.monotonic()
    return outcomes(trial, program), time.monotonic() - begin


def tell(trial, found, names, count):
    """Tells what did not hold, and, where trials were named, how long each took."""
    for name, is_held in found[0]:
        count['passed' if is_held else 'failed'] += 1
        if not is_held:
            print('FAILED %s: %s' % (trial.__name__.replace('_', ' '), name), flush=True)
    if names:
        print('%s: %d of %d held, %.1f s' % (trial.__name__, sum(bool(each) for _, each in found[0]), len(found[0]), found[1]),
              flush=True)


if __name__ == '__main__':
    sys.exit(main(sys.argv[1], sys.argv[2:]))
