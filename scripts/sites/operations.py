"""The trials of operation: what signals, descriptors, peers, disks and operators do to running sites in a year. Each says
what is wanted. What needs a tool that is missing here is left out, and says so."""
import contextlib
import functools
import os
import re
import shutil
import signal
import socket
import struct
import subprocess
import threading
import time

from world import Collided, Missed, World, patience, read_answer, wait_until

PAIR = {1: [1], 2: [2]}
HELLO = bytes.fromhex('434D48010001')
SOON = 5.0  # seconds within which a site in use does what it is to do


class LeftOut(Exception):
    """The trial needs what is not here."""


# ---- what the trials share

def needs(*tools):
    missing = [tool for tool in tools if not shutil.which(tool)]
    if missing:
        raise LeftOut('needs %s' % ' and '.join(missing))


def limited(what, limit):
    """The words that start a program with this limit of the system."""
    needs('prlimit')
    return ['prlimit', '--%s=%d:%d' % (what, limit, limit)]


def traced(world, calls, *rules, paths=()):
    """The words that start a program whose calls are written to a file, some of them with another outcome."""
    needs('strace')
    words = ['strace', '-D', '-f', '--seccomp-bpf', '-y', '-qq', '-s', '64', '-o', world.path('calls'), '-e', 'trace=' + calls]
    for path in paths:
        words += ['-P', path]
    for rule in rules:
        words += ['-e', 'inject=' + rule]
    return words


def calls_of(world):
    with open(world.path('calls'), errors='replace') as file:
        return file.read().splitlines()


def dial(world, site):
    peer = socket.create_connection(('127.0.0.1', world.ports[site]), timeout=patience())
    peer.settimeout(patience())
    return peer


def is_closed(peer, seconds=None):
    """Whether the site closes the connection within these seconds."""
    peer.settimeout(seconds or patience())
    try:
        return peer.recv(1) == b''
    except ConnectionError:
        return True
    except TimeoutError:
        return False


def reset(peer):
    peer.setsockopt(socket.SOL_SOCKET, socket.SO_LINGER, struct.pack('ii', 1, 0))
    peer.close()


def take_port(listener, world, site):
    """A stranger that has the port of a site makes the run count for nothing."""
    try:
        listener.bind(('127.0.0.1', world.ports[site]))
    except OSError:
        raise Collided(world.ports[site]) from None


def listen_as(world, site, backlog=16):
    """A socket in place of a site, which takes little that it doesn't read."""
    listener = socket.socket()
    listener.setsockopt(socket.SOL_SOCKET, socket.SO_REUSEADDR, 1)
    listener.setsockopt(socket.SOL_SOCKET, socket.SO_RCVBUF, 4096)
    take_port(listener, world, site)
    listener.listen(backlog)
    listener.settimeout(patience())
    return listener


def is_taken_in(world, site):
    """Whether the good hello of the peer, site 1, opens its link."""
    peer = dial(world, 2)
    world.peers = [peer]
    peer.sendall(HELLO)
    end = time.monotonic() + SOON
    while time.monotonic() < end:
        if site.links()['in 1'] == 'open':
            return True
        time.sleep(0.05)
    return False


def ended_within(site, seconds):
    """The status of a site that ends within these seconds; None where it doesn't, and then it is killed."""
    try:
        return site.process.wait(seconds)
    except subprocess.TimeoutExpired:
        site.process.kill()
        site.process.wait()
        return None


def named(site):
    return site.process.stderr.read()


# ---- 1. calls that a signal interrupts

def interrupted_calls(program):
    """A call that a signal interrupted is made again, whatever it reads or writes."""
    for call, rule, on_journal in (
            ('sendto', 'sendto:error=EINTR:when=1+3', False), ('recvfrom', 'recvfrom:error=EINTR:when=1+2', False),
            ('accept4', 'accept4:error=EINTR:when=1+2', False), ('fdatasync', 'fdatasync:error=EINTR:when=1+2', True),
            ('write', 'write:error=EINTR:when=2+2', True)):
        with World(program, PAIR) as world:
            journals = [world.journal(2)] if on_journal else []
            sites = {1: world.start(1), 2: world.start(2, before=traced(world, call, rule, paths=journals))}
            for site in sites.values():
                site.await_listening()
            for site in sites.values():
                site.say('connect')
                site.expect('connected 1 failed 0')
            yield '%s: asks' % call, sites[1].ask('ask 1 2') == 'ok sent 1' and sites[2].ask('ask 2 1') == 'ok sent 1'
            wait_until(lambda: len(world.entries(1)) == 2 and len(world.entries(2)) == 2, 'both requests')
            yield '%s: a start' % call, sites[2].ask('start 2') == 'ok sent 1'
            sites[2].await_declared('site 2 declared 2')
            yield '%s: links are open' % call, all(site.links()[way] == 'open' for site, way in (
                (sites[1], 'out 2'), (sites[1], 'in 2'), (sites[2], 'out 1'), (sites[2], 'in 1')))
            yield '%s: it was interrupted' % call, any('INJECTED' in line for line in calls_of(world))
            yield '%s: each quit ends' % call, sites[1].end() and sites[2].end()
            yield '%s: accepted' % call, world.is_accepted('declared 2 cycle 2 1 2')


# a site that sends 1,024 probes, 7 KB, at each start of process 1
CROWD = {1: list(range(1, 34)), 2: list(range(101, 133))}
PROBES = 32 * 32
FLOOD = 600  # starts; a connection takes some 4 MB that nobody reads


def flood(world, listener):
    """Site 1, whose writing thread waits for the peer that reads nothing; the connection; and how many starts it took."""
    site = world.start(1)
    site.await_listening()
    site.say('connect')
    peer, _ = listener.accept()
    peer.settimeout(patience())
    site.expect('connected 1 failed 0')
    remote = ' '.join(map(str, CROWD[2]))
    site.say('ask 1 ' + ' '.join(map(str, CROWD[1][1:])), *('ask %d %s' % (process, remote) for process in CROWD[1][1:]))
    taken = [site.hear().startswith('ok sent') for _ in CROWD[1]]
    site.say(*['start 1'] * FLOOD)
    taken += [site.hear() == 'ok sent %d' % PROBES for _ in range(FLOOD)]
    time.sleep(0.5)
    return site, peer, sum(taken)


def read_all(peer, size):
    count = 0
    while count < size:
        piece = peer.recv(1 << 16)
        if not piece:
            break
        count += len(piece)
    return count


def stopped_and_continued(program):
    """A stop while a writing thread waits for a slow peer closes no link and cuts no frame."""
    with World(program, CROWD, edition=2) as world, listen_as(world, 2) as listener:
        site, peer, taken = flood(world, listener)
        yield 'it takes all while its peer reads nothing', taken == FLOOD + len(CROWD[1])
        for _ in range(3):
            site.signal(signal.SIGSTOP)
            time.sleep(0.2)
            site.signal(signal.SIGCONT)
            time.sleep(0.2)
        yield 'the link is open', site.links()['out 2'] == 'open'
        sent = sum(entry[1] for entry in world.entries(1))
        requests = 32 * 32
        size = len(HELLO) + 5 * requests + 7 * (sent - requests)
        yield 'all bytes come', read_all(peer, size) == size
        peer.close()
        yield 'it ends', site.end()


# ---- 2. connections that end

def spent_connections(program):
    """Connections that ended count no more: 300 of them, and the real peer is taken."""
    with World(program, PAIR) as world:
        site = world.start(2)
        site.await_listening()
        threads, files = site.threads(), site.open_files()
        for turn in range(300):
            peer = dial(world, 2)
            try:
                peer.sendall((b'', HELLO[:3], b'no hello at all')[turn % 3])
            except ConnectionError:
                pass
            (reset if turn % 2 else socket.socket.close)(peer)
        wait_until(lambda: site.threads() <= threads, 'the end of the reading threads')
        yield 'the real peer is taken', is_taken_in(world, site)
        yield 'their descriptors are given back', site.open_files() <= files + 2
        yield 'it ends', site.end()


def standing_connections(program):
    """Of connections that stand at once the 257th is closed; once some of them have ended, new ones are taken."""
    with World(program, PAIR) as world:
        site = world.start(2)
        site.await_listening()
        threads = site.threads()
        peers = [dial(world, 2) for _ in range(257)]
        yield 'the 257th is closed', is_closed(peers.pop())
        for peer in peers[:50]:
            peer.close()
        wait_until(lambda: site.threads() <= threads + 206, 'the end of 50 reading threads')
        yield 'then the real peer is taken', is_taken_in(world, site)
        for peer in peers[50:]:
            peer.close()
        yield 'it ends', site.end()


def silent_for_long(program):
    """A connection that sent no whole hello within 30 seconds is closed, and one that sent it is not."""
    with World(program, PAIR) as world:
        site = world.start(2)
        site.await_listening()
        yield 'the real peer is taken', is_taken_in(world, site)
        begin = time.monotonic()
        silent, half = dial(world, 2), dial(world, 2)
        half.sendall(HELLO[:5])
        time.sleep(24)
        yield 'not within 24 seconds', not is_closed(silent, 0.1) and not is_closed(half, 0.1)
        yield 'silent', is_closed(silent, 36 - (time.monotonic() - begin))
        yield 'half a hello', is_closed(half, max(0.5, 36 - (time.monotonic() - begin)))
        yield 'the real peer stays', site.links()['in 1'] == 'open'
        yield 'it ends', site.end()


# ---- 3. accepts that fail

def failed_accepts(program):
    """One accept that fails for want of something, or for a connection that was aborted, leaves the site in use."""
    for error in ('ECONNABORTED', 'EPROTO', 'EMFILE', 'ENFILE', 'ENOMEM', 'ENOBUFS'):
        with World(program, PAIR) as world:
            site = world.start(2, before=traced(world, 'accept4', 'accept4:error=%s:when=1' % error))
            site.await_listening()
            wait_until(lambda: any('INJECTED' in line for line in calls_of(world)), 'the accept that fails')
            try:
                yield '%s: the real peer is taken' % error, is_taken_in(world, site)
            except ConnectionError:
                yield '%s: the real peer is taken' % error, False
            yield '%s: it ends' % error, site.end()


def few_descriptors(program):
    """23 connections to a site that may have 20 files: once they are gone the real peer is taken."""
    with World(program, PAIR) as world:
        site = world.start(2, before=limited('nofile', 20))
        site.await_listening()
        peers = [dial(world, 2) for _ in range(23)]
        time.sleep(0.5)
        for peer in peers:
            peer.close()
        try:
            yield 'the real peer is taken', is_taken_in(world, site)
        except ConnectionError:
            yield 'the real peer is taken', False
        yield 'it ends', site.end()


def accepting_ended(program):
    """An accept that fails for good ends accepting, and a note says so."""
    with World(program, PAIR) as world:
        site = world.start(2, before=traced(world, 'accept4', 'accept4:error=EINVAL:when=1'), more=['--notes'])
        site.await_listening()
        yield 'a note', site.await_note('note ') == 'note accepting ended'
        yield 'it still answers', site.ask('declared') == 'site 2 declared'


# ---- 4. one journal for two

def second_on_a_journal(program):
    """A site whose journal another site is writing touches nothing."""
    with World(program, PAIR) as world:
        first = world.start(1)
        first.await_listening()
        yield 'an ask', first.ask('ask 1 2') == 'ok sent 1'
        second = world.start(2, journal=world.journal(1))
        yield 'the second is told', second.hear() is None and second.wait() == 3 and named(second) == b'fault journal disk\n'
        yield 'nothing was moved', not os.path.exists(world.journal(1) + '.1')
        yield 'the first goes on', first.ask('start 1') == 'ok sent 1' and first.end()
        yield 'its journal is whole', first.was_true() and len(world.entries(1)) == 2


def at_one_moment(program):
    """Of two sites that start at one moment with one journal, one runs, and no entry that was answered is lost."""
    rounds, lost, moved, mixed, unkept, not_one = 40, 0, 0, 0, 0, 0
    for _ in range(rounds):
        with World(program, PAIR) as world:
            with open(world.journal(1), 'wb') as file:
                file.write(b'an older journal')
            pair = [world.start(1), world.start(2, journal=world.journal(1))]
            running = [site for site in pair if site.hear() == 'listening']
            asked = [site.number for site in running if site.ask('ask %d %d' % (site.number, 3 - site.number)) == 'ok sent 1']
            for site in pair:
                site.let_go()
            files = {name: read(world.path(name)) for name in os.listdir(world.folder.name) if name.startswith('journal-1')}
            askers = {name: world.entries_at(world.path(name)) for name in files if name != 'journal-1' or files[name]}
            homes = [[name for name in askers if of_site(files[name]) == site and len(askers[name]) == 1] for site in asked]
            not_one += len(running) != 1
            lost += sum(not names for names in homes)
            moved += sum('journal-1' not in names for names in homes)
            mixed += any(len(entries) > 1 for entries in askers.values())
            unkept += b'an older journal' not in files.values()
    yield 'one of the two runs: not in %d of %d rounds' % (not_one, rounds), not_one == 0
    yield 'no answered entry is lost: %d were' % lost, lost == 0
    yield 'no journal of a site that runs is moved: %d were' % moved, moved == 0
    yield 'no entries of two sites in one file: in %d rounds' % mixed, mixed == 0
    yield 'the older journal is kept: not in %d rounds' % unkept, unkept == 0


def read(path):
    with open(path, 'rb') as file:
        return file.read()


def of_site(journal):
    """The site that a journal's header names."""
    return int.from_bytes(journal[5:7], 'big') if journal[:4] == b'CMHJ' else None


def second_in_a_folder(program):
    """A cluster into the folder of one that runs touches nothing, though its ports are others."""
    lines = ['ask 1 2', 'reply 2 1'] * 40
    with World(program, PAIR) as world, World(program, PAIR) as other:
        folder = world.path('out')
        journals = [folder + '/site-%d.cmhj' % site for site in PAIR]
        first = start_cluster(world, lines, folder)
        wait_until(lambda: os.path.exists(journals[1]) and os.path.getsize(journals[1]) > 7, 'a step')
        first.send_signal(signal.SIGSTOP)
        os.waitpid(first.pid, os.WUNTRACED)   # until all its threads have stopped
        stood = [read(path) for path in journals]
        done = ended(start_cluster(other, ['ask 2 1', 'start 2'], folder))
        yield 'the second is told', (done.returncode, done.stdout, done.stderr) == (3, b'', b'fault file out\n')
        yield 'nothing is touched', [read(path) for path in journals] == stood
        first.send_signal(signal.SIGCONT)
        done = ended(first)
        yield 'the first is accepted', done.returncode == 0 and b'\naccepted\n' in done.stdout


def start_cluster(world, lines, folder, before=(), more=()):
    os.makedirs(folder, exist_ok=True)
    with open(world.path('script'), 'w') as file:
        file.write(''.join(line + '\n' for line in lines))
    words = [*before, world.program, 'cluster', '--topology', world.path('topology')]
    words += ['--script', world.path('script'), '--out', folder, *more]
    return subprocess.Popen(words, stdout=subprocess.PIPE, stderr=subprocess.PIPE)


def ended(process, seconds=None):
    """A process that ended within these seconds."""
    try:
        printed, told = process.communicate(timeout=seconds or patience())
    except subprocess.TimeoutExpired:
        process.kill()
        process.communicate()
        raise Missed('the end of a cluster') from None
    return subprocess.CompletedProcess([], process.returncode, printed, told)


# ---- 5. quit

QUIT_SECONDS = 5.0
MORE_SECONDS = 3.0  # for a machine that is busy


def quit_with_slow_peers(program):
    """`quit` ends within five seconds, whatever a peer reads."""
    for rate in (0, 50):
        with World(program, CROWD, edition=2) as world, listen_as(world, 2) as listener:
            site, peer, taken = flood(world, listener)
            yield 'it takes all, at %d bytes a second' % rate, taken == FLOOD + len(CROWD[1])
            reading = threading.Event()
            reader = threading.Thread(target=read_slowly, args=(peer, rate, reading))
            reader.start()
            begin = time.monotonic()
            site.say('quit')
            status = ended_within(site, QUIT_SECONDS + MORE_SECONDS)
            reading.set()
            reader.join()
            peer.close()
            yield ('quit ends, at %d bytes a second: after %.1f s' % (rate, time.monotonic() - begin)), status == 0


def read_slowly(peer, rate, ended):
    """Reads so many bytes a second, until it is to end or the connection has ended."""
    peer.settimeout(0.2)
    while not ended.wait(0.2):
        try:
            if rate and not peer.recv(rate // 5):
                return
        except TimeoutError:
            pass
        except OSError:
            return


# ---- 6. senders that are refused

def refused_sender(program):
    """The link of a sender whose hello was refused closes without a write; the receiver names it where notes are wanted."""
    for more in ([], ['--notes']):
        with World(program, PAIR) as world:
            receiver, sender = world.start(2, more=more), world.start(1)
            receiver.await_listening()
            sender.await_listening()
            impostor = dial(world, 2)
            impostor.sendall(HELLO)
            receiver.await_link('in 1', 'open')
            yield 'connected', sender.ask('connect') == 'connected 1 failed 0'
            if more:
                yield 'a note', receiver.await_note('note ') == 'note refused a hello of site 1: its link is open'
            else:
                yield 'its link closes by itself', closes_by_itself(sender)
                yield 'nothing is said without notes', receiver.notes() == []
            impostor.close()


def sender_of_another_edition(program):
    """A sender of the other edition learns that its hello was refused, and the receiver notes it where notes are wanted."""
    for more in ([], ['--notes']):
        with World(program, PAIR) as world:
            receiver = world.start(2, more=more)
            receiver.await_listening()
            with open(world.path('topology')) as file:
                text = file.read()
            with open(world.path('topology'), 'w') as file:
                file.write(text.replace('"edition": 1', '"edition": 2'))
            sender = world.start(1)
            sender.await_listening()
            yield 'connected', sender.ask('connect') == 'connected 1 failed 0'
            yield 'its link closes by itself', closes_by_itself(sender)
            if more:
                yield 'a note', receiver.await_note('note ') == 'note refused a hello of no other site'
            yield 'the link is new', receiver.links()['in 1'] == 'new'


def peer_that_restarted(program):
    """A site whose peer ended, or was started again, learns of it without a write."""
    with World(program, PAIR) as world:
        sites = world.start_all()
        sites[1].await_link('in 2', 'open')
        sites[2].await_link('in 1', 'open')
        sites[2].signal(signal.SIGKILL)
        sites[2].wait()
        sites[1].await_link('in 2', 'closed 2', 'closed 5')
        yield 'the link to the peer that ended closes by itself', closes_by_itself(sites[1])
        again = world.start(2)
        again.await_listening()
        yield 'it connects', again.ask('connect') == 'connected 1 failed 0'
        yield 'the link of the peer that came back closes by itself', closes_by_itself(again, 'out 1')
        yield 'each quit ends', sites[1].end() and again.end()


def closes_by_itself(site, link='out 2'):
    end = time.monotonic() + SOON
    while time.monotonic() < end:
        if site.links()[link] == 'closed 3':
            return True
        time.sleep(0.05)
    return False


# ---- 7. clusters that don't settle

LOOK_SECONDS = 10.0  # the bound that the help names
LOOK_PROCESSOR_SECONDS = 1.5  # that looks may take which pause; without a pause they take all of the bound above


def frames_that_dont_come(program):
    """A cluster waits for frames that come late, and says within the bound that they don't come; its looks take no processor."""
    for delay, wanted, ending in ((14, 1, 'not settled'), (5, 0, 'accepted')):
        with World(program, {site: [site] for site in range(1, 9)}) as world:
            before = traced(world, 'recvfrom', 'recvfrom:delay_enter=%d000000:when=2' % delay)
            begin = time.monotonic()
            process = start_cluster(world, ['ask 1 2', 'start 1'], world.path('out'), before=before)
            seen = threading.Timer(18, process.kill)  # the system holds it until the delay has passed
            seen.start()
            lines = [line.decode().strip() for line in iter(process.stdout.readline, b'')]
            status, seconds = reaped(process)
            seen.cancel()
            yield 'after %d s: %s' % (delay, lines[2:3]), ending in lines and status == wanted
            yield 'it takes %.1f s of processor time' % seconds, seconds < LOOK_PROCESSOR_SECONDS
            yield 'it ends: after %.1f s' % (time.monotonic() - begin), time.monotonic() - begin < 18


def cluster_of_few_files(program):
    """Clusters that lack descriptors, twelve at once, each end within the bound."""
    lines = ['ask 1 2', 'ask 2 1', 'start 1']
    with contextlib.ExitStack() as stack:
        worlds = [stack.enter_context(World(program, PAIR)) for _ in range(12)]
        limits = [(11, 12, 13)[turn % 3] for turn in range(12)]
        begin = time.monotonic()
        runs = [start_cluster(world, lines, world.path('out'), before=limited('nofile', limit))
                for world, limit in zip(worlds, limits)]
        watch = threading.Timer(LOOK_SECONDS + MORE_SECONDS, lambda: [run.kill() for run in runs if run.returncode is None])
        watch.start()
        for limit, run in zip(limits, runs):
            status, seconds = reaped(run)
            yield ('%d files: after %.1f s, with %.1f s of processor time' % (limit, time.monotonic() - begin, seconds),
                   status in (0, 1, 3) and seconds < LOOK_PROCESSOR_SECONDS)
        watch.cancel()


def cluster_without_links(program):
    """16 sites need 2 * 16 * 16 + 2 * 16 + 3 descriptors. With 256 the links of the last sites can't be opened, and a deadlock
    between two of them isn't found. A strict cluster begins only where the descriptors suffice, and finds it then."""
    lines = ['ask 15 16', 'ask 16 15', 'start 15', 'declared 15']
    needed, few = 547, limited('nofile', 256)
    with World(program, {site: [site] for site in range(1, 17)}) as world:
        run = functools.partial(run_cluster, world, lines)
        status, said, named = run(before=few)
        yield 'it misses links', (status, named) == (0, '') and unopened(said) > 0 and 'accepted' in said
        yield 'it misses the deadlock', 'site 15 declared' in said
        status, said, named = run('--explain', before=few)
        wanted = 'warning: %d of the links could not be opened: all sites need %d descriptors, and the limit is 256\n'
        yield 'it is explained', (status, named) == (0, wanted % (unopened(said), needed)) and unopened(said) > 0
        yield 'a strict one does not begin', run('--strict', before=few) == (1, [], 'fault descriptors %d allowed 256\n' % needed)
        yield 'nor with one less than it needs', run('--strict', before=limited('nofile', needed - 1)) == (
            1, [], 'fault descriptors %d allowed %d\n' % (needed, needed - 1))
        wanted = 'fault descriptors %d allowed 256\ncmh: no site was started, since links would be missing; `ulimit -n %d` allows them\n'
        yield 'that is explained', run('--strict', '--explain', before=few) == (1, [], wanted % (needed, needed))
        status, said, named = run('--strict', '--explain', before=limited('nofile', needed))
        yield 'it begins with as many', (status, named) == (0, '') and 'declared 15 cycle 15 16 15' in said
        yield 'and opens all links', not any(line.startswith('link') for line in said)


def cluster_of_refused_links(program):
    """A link that can't be opened, with descriptors enough: a strict cluster says all that another does, but is no success."""
    with World(program, PAIR) as world:
        refused = traced(world, 'connect', 'connect:error=ENOBUFS:when=1')
        status, said, named = run_cluster(world, ['ask 1 2'], '--explain', before=refused)
        warning = 'warning: %d of the links could not be opened\n' % unopened(said)
        yield 'it is accepted', (status, named) == (0, warning) and unopened(said) > 0 and 'accepted' in said
        yield 'a strict one is too, but fails', run_cluster(world, ['ask 1 2'], '--explain', '--strict', before=refused) == (1, said, named)
        yield 'as long as links are missing', run_cluster(world, ['ask 1 2'], '--strict')[0] == 0


def run_cluster(world, lines, *more, before=()):
    """The status of a cluster, its lines, and what it said on standard error."""
    ran = ended(start_cluster(world, lines, world.path('out'), before=before, more=more))
    return ran.returncode, ran.stdout.decode().splitlines(), ran.stderr.decode()


def unopened(lines):
    """How many links a cluster names as closed, none of whose frames came."""
    return sum(bool(re.fullmatch('link [0-9]+ [0-9]+ closed 1', line)) for line in lines)


def reaped(process):
    """The status of a process, and the seconds of processor time that it took."""
    _, status, used = os.wait4(process.pid, 0)
    process.returncode = os.waitstatus_to_exitcode(status)
    process.stdout.close()
    process.stderr.close()
    return process.returncode, used.ru_utime + used.ru_stime


# ---- 8. an audit of running sites

def audit_of_running_sites(program):
    """Journals of sites that run are accepted, however much happens between the reads of two of them."""
    with World(program, {1: [1, 10], 2: [2, 20], 3: [3, 30]}) as world:
        sites = world.start_all()
        ending = threading.Event()
        drivers = [threading.Thread(target=drive, args=(sites[n], n, ending)) for n in sites]
        for driver in drivers:
            driver.start()
        time.sleep(1)
        orders = [(1, 2, 3), (3, 2, 1), (2, 3, 1), (2, 1, 3)]
        outcomes = [audit_slowly(world, orders[turn % 4]) for turn in range(16)]
        ending.set()
        for driver in drivers:
            driver.join()
        refused = sum(status == 1 for status, _ in outcomes)
        yield '%d of %d audits refuse what is true' % (refused, len(outcomes)), refused == 0
        yield 'all accept', all(status == 0 and 'accepted' in lines for status, lines in outcomes)
        yield 'each quit ends', all(site.end() for site in sites.values())
        yield 'accepted after all', world.is_accepted()


def audit_slowly(world, order):
    """An audit that opens each journal 30 milliseconds after the one before."""
    journals = [world.journal(site) for site in order]
    words = traced(world, 'openat,open', 'openat:delay_enter=30000', 'open:delay_enter=30000', paths=journals)
    words += [world.program, 'audit', '--topology', world.path('topology')] + journals
    done = subprocess.run(words, capture_output=True, text=True, timeout=patience())
    return done.returncode, done.stdout.splitlines() + done.stderr.splitlines()


def drive(site, number, ending):
    """Process N of each site asks for what the process N0 of the next one holds, which grants it, again and again."""
    ahead, back = number % 3 + 1, (number + 1) % 3 + 1
    while not ending.is_set():
        lines = ['ask %d %d0' % (number, ahead), 'start %d' % number, 'start %d' % number, 'reply %d0 %d' % (number, back)]
        site.say(*lines)
        for _ in lines:
            site.hear()


# ---- 9. the folder of a journal

def synced_folder(program):
    """The folder is synced after the journal is made, and after one is kept, before the site says that it listens."""
    for older in (b'', b'an older journal'):
        with World(program, {1: [1, 2]}) as world:
            with open(world.journal(1), 'wb') as file:
                file.write(older)
            if not older:
                os.remove(world.journal(1))
            calls = 'openat,open,rename,renameat,renameat2,link,linkat,fsync,fdatasync,write'
            site = world.start(1, before=traced(world, calls))
            site.await_listening()
            yield 'it ends', site.end()
            found = calls_of(world)
            folder = os.path.realpath(world.folder.name)
            said = place(found, r'write\(1<.*"listening')
            synced = last_place(found[:said], r'f(data)?sync\(\d+<%s/?>' % re.escape(folder))
            made = place(found, r'(openat|open)\(.*journal-1.*O_CREAT')
            moved = last_place(found[:said], r'(rename|link)')
            name = 'with an older journal' if older else 'with none'
            yield '%s: synced after it is made' % name, 0 <= made < synced < said
            yield '%s: synced after the move' % name, moved < synced


def place(lines, pattern):
    return next((at for at, line in enumerate(lines) if re.search(pattern, line)), -1)


def last_place(lines, pattern):
    return max((at for at, line in enumerate(lines) if re.search(pattern, line)), default=-1)


# ---- 10. assorted

def taken_port_leaves_nothing(program):
    with World(program, {1: [1, 2]}) as world, socket.socket() as stranger:
        take_port(stranger, world, 1)
        stranger.listen(1)
        site = world.start(1)
        yield 'the port is taken', site.hear() is None and site.wait() == 3 and named(site) == b'fault listen\n'
        yield 'no journal is left', not os.path.exists(world.journal(1))


def no_regular_file(program):
    """What is no regular file is no journal, and nobody waits for it."""
    with World(program, PAIR) as world:
        os.mkfifo(world.journal(1))
        site = world.start(1)
        yield 'a pipe for a site', ended_within(site, 5) == 3 and named(site) == b'fault journal disk\n'
        os.makedirs(world.path('out'))
        os.mkfifo(world.path('out/site-1.cmhj'))
        process = start_cluster(world, ['ask 1 2'], world.path('out'))
        try:
            done = ended(process, 5)
            yield 'a pipe for a cluster', done.returncode == 3 and done.stderr == b'fault file out\n'
        except Missed:
            yield 'a pipe for a cluster', False


def size_limit(program):
    """A file that may not grow is a write that failed, also where the signal of that is not ignored."""
    with World(program, PAIR) as world:
        site = world.start(1, before=limited('fsize', 22))
        site.await_listening()
        answers = [site.ask(line) for line in ('ask 1 2', 'start 1', 'start 1')]
        taken = [answer for answer in answers if answer and read_answer(answer)]
        refused = answers[len(taken):]
        yield 'it is sealed: %s' % answers, refused and refused == ['refused 10'] + ['refused 9'] * (len(refused) - 1)
        yield 'it ends', site.end()


def full_backlog(program):
    """`connect` to a port that answers nobody ends within ten seconds a peer."""
    with World(program, PAIR) as world, listen_as(world, 2, backlog=0) as listener:
        waiting = []
        for _ in range(4):
            peer = socket.socket()
            peer.setblocking(False)
            peer.connect_ex(listener.getsockname())
            waiting.append(peer)
        time.sleep(0.2)
        site = world.start(1)
        site.await_listening()
        begin = time.monotonic()
        try:
            answer = site.ask('connect')
        except Missed:
            answer = None
        yield 'after %.1f s: %s' % (time.monotonic() - begin, answer), answer == 'connected 0 failed 1'
        yield 'the link is closed', answer is not None and site.links()['out 2'] == 'closed 1'
        for peer in waiting:
            peer.close()


def linked_journal(program):
    """A cluster makes its journals anew, and writes to nothing that a link of their name leads to."""
    with World(program, PAIR) as world:
        os.makedirs(world.path('out'))
        with open(world.path('precious'), 'w') as file:
            file.write('what somebody needs')
        os.symlink(world.path('precious'), world.path('out/site-1.cmhj'))
        done = ended(start_cluster(world, ['ask 1 2'], world.path('out')))
        with open(world.path('precious')) as file:
            yield 'the target is as it was', file.read() == 'what somebody needs'
        yield 'the cluster is accepted', done.returncode == 0 and b'accepted\n' in done.stdout
        yield 'the journal is a file', not os.path.islink(world.path('out/site-1.cmhj'))


def shortened_journal(program):
    """A journal that somebody made shorter or longer takes no further entry."""
    for size in (0, 7, 20):
        with World(program, PAIR) as world:
            site = world.start(1)
            site.await_listening()
            yield 'an ask', site.ask('ask 1 2') == 'ok sent 1'
            os.truncate(world.journal(1), size)
            answers = [site.ask('start 1'), site.ask('start 1')]
            yield 'cut to %d bytes it is sealed: %s' % (size, answers), answers == ['refused 10', 'refused 9']
            yield 'it ends', site.end()
    with World(program, PAIR) as world:
        site = world.start(1)
        site.await_listening()
        os.truncate(world.journal(1), 30)
        answers = [site.ask('ask 1 2'), site.ask('start 1')]
        yield 'made longer it is sealed: %s' % answers, answers == ['refused 10', 'refused 9']
        yield 'it ends', site.end()


def standing_journals(program):
    """A site takes an empty file for its journal, or makes one, behind a link, and keeps one that may be read alone."""
    with World(program, {1: [1, 2]}) as world:
        journal, target = world.journal(1), world.path('target')

        def has_run():
            site = world.start(1)
            site.await_listening()
            return site.end()
        os.symlink(target, journal)
        for name in ('no file', 'an empty file'):
            yield '%s behind a link' % name, has_run() and os.path.islink(journal) and of_site(read(target)) == 1
            os.truncate(target, 0)
        os.remove(journal)
        with open(journal, 'wb') as file:
            file.write(b'an older journal')
        os.chmod(journal, 0o444)
        yield 'it is kept', has_run() and read(journal + '.1') == b'an older journal' and of_site(read(journal)) == 1


def many_kept_journals(program):
    """The next name for a kept journal is found without a look at each that is taken."""
    with World(program, {1: [1, 2]}) as world:
        for number in range(1, 501):
            with open('%s.%d' % (world.journal(1), number), 'w') as file:
                file.write('%d' % number)
        with open(world.journal(1), 'wb') as file:
            file.write(b'the last one')
        site = world.start(1, before=traced(world, '%%stat,rename,link,linkat,renameat,renameat2'))
        site.await_listening()
        yield 'it ends', site.end()
        looks = sum('journal-1' in line for line in calls_of(world))
        yield 'it took %d calls' % looks, looks <= 60
        kept = {number: read('%s.%d' % (world.journal(1), number)) for number in (1, 250, 500, 501)}
        yield 'the last one is kept', kept.pop(501) == b'the last one'
        yield 'the others are as they were', all(text == b'%d' % number for number, text in kept.items())


# ---- the voice for the operator

def notes_of_links(program):
    """Links that close, and a journal that is sealed, are noted; without the option nothing is."""
    with World(program, PAIR) as world:
        noting, silent = world.start(1, more=['--notes']), world.start(2)
        for site in (noting, silent):
            site.await_listening()
        for site in (noting, silent):
            site.say('connect')
            site.expect('connected 1 failed 0')
        noting.await_link('in 2', 'open')
        silent.signal(signal.SIGKILL)
        silent.wait()
        yield 'in', noting.await_note('note in 2 closed') in ('note in 2 closed 5', 'note in 2 closed 2')
        yield 'out', noting.await_note('note out 2 closed') == 'note out 2 closed 3'
        os.truncate(world.journal(1), 0)
        noting.ask('ask 1 2')
        yield 'sealed', noting.await_note('note the journal') == 'note the journal is sealed'
        noting.say('quit')
        yield 'it ends', noting.hear_all()[-1:] == ['stopped'] and noting.wait() == 0
    with World(program, PAIR) as world:
        with open(world.journal(1), 'wb') as file:
            file.write(b'an older journal')
        site = world.start(1, more=['--notes'])
        site.await_listening()
        yield 'kept', site.await_note('note kept') == 'note kept the old journal as .1'


def notes_are_few(program):
    """At most ten notes a second, and a count of those that were left out."""
    with World(program, PAIR) as world:
        site = world.start(2, more=['--notes'])
        site.await_listening()
        count = 150
        begin = time.monotonic()
        for _ in range(count):
            with dial(world, 2) as peer:
                peer.sendall(b'no hello')
                is_closed(peer, 2)
        wait_until(lambda: told(site.notes()) == count, 'each refused hello, noted or counted')
        seconds = time.monotonic() - begin
        lines = [line for line in site.notes() if line.startswith('note refused a hello')]
        yield '%d lines in %.1f s' % (len(lines), seconds), 10 <= len(lines) <= 10 * (seconds + 1)
        site.say('quit')
        yield 'it ends', site.hear_all()[-1:] == ['stopped'] and site.wait() == 0


def told(lines):
    counts = [int(line.split()[-1]) for line in lines if line.startswith('note left out')]
    return sum(counts) + sum(line.startswith('note refused a hello') for line in lines)


OPERATIONS = [interrupted_calls, stopped_and_continued, spent_connections, standing_connections, silent_for_long,
              failed_accepts, few_descriptors, accepting_ended, second_on_a_journal, at_one_moment, second_in_a_folder,
              quit_with_slow_peers, refused_sender, sender_of_another_edition, peer_that_restarted, frames_that_dont_come,
              cluster_of_few_files, cluster_without_links, cluster_of_refused_links, audit_of_running_sites, synced_folder,
              taken_port_leaves_nothing, no_regular_file, size_limit, full_backlog, linked_journal, shortened_journal,
              standing_journals, many_kept_journals, notes_of_links, notes_are_few]
