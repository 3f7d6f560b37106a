"""The long form: for so many minutes sites run in waves, and are killed, stopped and continued, attacked by hostile peers,
held up by slow ones and let run out of disk, all at once. Two more sites run, and are attacked and stopped, all the time:
their memory is to stay flat, and their threads and descriptors are to come back to where they began."""
import collections
import os
import random
import resource
import signal
import socket
import subprocess
import threading
import time

from operations import CROWD, MORE_SECONDS, PROBES, QUIT_SECONDS, dial, listen_as, read_slowly, reset
from world import Collided, Missed, World, allow, wait_until

WAVE_SECONDS = 8.0
MOST_HELD = 100  # hostile connections to a site that stand at once
FLOOD = 600  # starts that send 7 KB each to a peer that reads next to nothing
ENTRY_BYTES = 600  # of memory that an entry may take


class Figures:
    """What happened, counted by all threads; and what did not hold."""

    def __init__(self):
        self.lock = threading.Lock()
        self.counts = collections.Counter()
        self.failed = []

    def count(self, name, more=1):
        with self.lock:
            self.counts[name] += more

    def hold(self, what, is_held):
        self.count('held' if is_held else 'failed')
        if not is_held:
            self.failed.append(what)
            print('FAILED %s' % what, flush=True)


# ---- what is done to sites

def command(draw, mine, everybody):
    process, other = draw.choice(mine), draw.choice(everybody)
    return draw.choice(['ask %d %d', 'ask %d %d', 'reply %d %d', 'reply %d %d', 'start %d']).replace(
        '%d', str(process), 1).replace('%d', str(other), 1)


def drive(site, draw, pause, ending, figures):
    """Gives a site commands until it is to end or the site has ended. Nobody else speaks with it meanwhile."""
    world = site.world
    mine = world.sites[site.number]
    everybody = [process for processes in world.sites.values() for process in processes]
    while not ending.is_set():
        lines = [command(draw, mine, everybody) for _ in range(draw.randint(1, 10))]
        site.say(*lines)
        for _ in lines:
            try:
                if site.hear() is None:
                    return
            except Missed:
                figures.hold('an answer of site %d' % site.number, False)
                return
            figures.count('answers')
        ending.wait(pause * draw.random())


def attack(world, number, draw, ending, figures):
    """Hostile connections to a site: silent, bad, cut, reset, of strangers."""
    held = []
    hello = bytes.fromhex('434D48%02X%04X' % (world.edition, 1))
    while not ending.wait(draw.random() * 0.05):
        try:
            peer = dial(world, number)
            kind = draw.randrange(6)
            peer.sendall((b'', draw.randbytes(draw.choice([1, 6, 7, 3000])), hello[:draw.randrange(6)],
                          bytes.fromhex('434D48%02X%04X' % (3 - world.edition, 1)),
                          bytes.fromhex('434D48%02X%04X' % (world.edition, 9999)),
                          hello + draw.randbytes(20))[kind])
            figures.count('attacks')
        except OSError:
            figures.count('attacks that found nobody')
            continue
        if draw.random() < 0.3:
            held.append(peer)
            if len(held) > MOST_HELD:
                reset(held.pop(0))
        else:
            (reset if draw.random() < 0.5 else socket.socket.close)(peer)
    for peer in held:
        reset(peer)


def stop_and_continue(sites, draw, ending, figures):
    while not ending.wait(draw.random() * 0.5):
        site = draw.choice(sites)
        site.signal(signal.SIGSTOP)
        time.sleep(draw.random() * 0.2)
        site.signal(signal.SIGCONT)
        figures.count('stops')


def of_disk(limit):
    def apply():
        resource.setrlimit(resource.RLIMIT_FSIZE, (limit, limit))
    return apply


def audit_live(world, ending, figures):
    while not ending.wait(0.3):
        status, lines = world.audit()
        figures.count('audits of running sites')
        figures.hold('an audit of running sites: %s' % lines[:4], status == 0 and 'accepted' in lines)


def memory(site):
    with open('/proc/%d/statm' % site.process.pid) as file:
        return int(file.read().split()[1]) * resource.getpagesize()


# ---- a wave

class Wave:
    """Sites 1 and 2 that live on, 3 that is killed, 4 that runs out of disk, and in place of 5 a peer that reads slowly."""

    def __init__(self, program, seed, figures):
        self.draw = random.Random(seed)
        self.seed = seed
        self.figures = figures
        self.is_crowded = self.draw.random() < 0.34
        sites = {1: list(range(1, 34)) if self.is_crowded else [1, 11], 2: [42, 43], 3: [63, 64], 4: [74, 75], 5: CROWD[2]}
        self.world = World(program, sites, edition=2 if self.is_crowded else self.draw.choice([1, 2]))
        self.threads = []
        self.ending = threading.Event()
        self.done = threading.Event()

    def begin(self, run, *arguments):
        self.threads.append(threading.Thread(target=run, args=arguments, daemon=True))
        self.threads[-1].start()

    def run(self):
        with self.world as world, listen_as(world, 5) as listener:
            try:
                self.run_in(world, listener)
            finally:
                self.ending.set()
                self.done.set()
                for thread in self.threads:
                    thread.join()

    def run_in(self, world, listener):
        limit = self.draw.choice([300, 3000, 20000])
        sites = {number: world.start(number, limit=of_disk(limit) if number == 4 else None)
                 for number in (1, 2, 3, 4)}
        for site in sites.values():
            site.await_listening()
        self.begin(self.read_as_five, listener)
        for site in sites.values():
            site.say('connect')
        for site in sites.values():
            site.expect('connected 4 failed 0')
        for site in sites.values():
            wait_until(lambda: all(state == 'open' for link, state in site.links().items() if link != 'in 5'), 'open links')
        survivors = [sites[1], sites[2]]
        began = [(site.threads(), site.open_files()) for site in survivors]
        if self.is_crowded:
            self.flood(sites[1])
        self.disturb(sites, survivors)
        time.sleep(WAVE_SECONDS * self.draw.random())
        sites[3].signal(signal.SIGKILL)
        self.figures.count('kills')
        time.sleep(WAVE_SECONDS * (0.2 + 0.3 * self.draw.random()))
        self.ending.set()
        self.join_but_the_slow()
        self.judge(sites, survivors, began)

    def flood(self, site):
        remote = ' '.join(map(str, CROWD[2]))
        lines = ['ask 1 ' + ' '.join(map(str, range(2, 34)))] + ['ask %d %s' % (j, remote) for j in range(2, 34)]
        site.say(*lines)
        for _ in lines:
            site.hear()
        site.say(*['start 1'] * FLOOD)
        answers = [site.hear() for _ in range(FLOOD)]
        self.figures.hold('a flood', answers == ['ok sent %d' % PROBES] * FLOOD)
        self.figures.count('floods')

    def disturb(self, sites, survivors):
        for number, site in sites.items():
            self.begin(drive, site, random.Random(self.draw.random()), 0.02, self.ending, self.figures)
            self.begin(attack, self.world, number, random.Random(self.draw.random()), self.ending, self.figures)
        self.begin(stop_and_continue, survivors, random.Random(self.draw.random()), self.ending, self.figures)
        self.begin(audit_live, self.world, self.ending, self.figures)

    def read_as_five(self, listener):
        """Each sender has a reader of its own, which takes 50 bytes a second, and nothing once the sites are to end."""
        peers = []
        readers = []
        for _ in range(4):
            try:
                peer, _ = listener.accept()
            except OSError:
                break
            peers.append(peer)
            readers.append(threading.Thread(target=read_slowly, args=(peer, 50, self.ending), daemon=True))
            readers[-1].start()
        self.figures.count('slow peers', len(peers))
        for reader in readers:
            reader.join()
        self.done.wait()
        for peer in peers:
            peer.close()

    def join_but_the_slow(self):
        for thread in self.threads[1:]:
            thread.join()

    def judge(self, sites, survivors, began):
        wave = 'wave %d: ' % self.seed
        hold = self.figures.hold
        for site, (threads, files) in zip(survivors, began):
            hold(wave + 'threads of site %d' % site.number, becomes(lambda: site.threads() <= threads))
            hold(wave + 'descriptors of site %d' % site.number, becomes(lambda: site.open_files() <= files))
        sites[3].hear_all()
        sites[3].wait()
        for site in survivors + [sites[4]]:
            begin = time.monotonic()
            hold(wave + 'quit of site %d' % site.number, site.end())
            took = time.monotonic() - begin
            hold(wave + 'quit of site %d took %.1f s' % (site.number, took), took < QUIT_SECONDS + MORE_SECONDS)
        for site in sites.values():
            hold(wave + 'answers of site %d' % site.number, site.was_true())
            self.figures.count('entries', len(self.world.entries(site.number)))
        self.figures.count('full disks', any(line == 'refused 10' for line in sites[4].heard))
        status, lines = self.world.audit()
        self.figures.count('audits')
        hold(wave + 'the audit: %s' % lines[:6], status == 0 and 'accepted' in lines)


def becomes(holds):
    try:
        return bool(wait_until(holds, ''))
    except Missed:
        return False


# ---- the sites that run all the time

class Keepers:
    """Two sites that are attacked and stopped all the time, and are asked little."""

    def __init__(self, program, figures):
        self.figures = figures
        self.world = World(program, {1: [1, 11], 2: [2, 12]}, edition=2)
        self.sites = list(self.world.start_all().values())
        for site in self.sites:
            site.await_link('in %d' % (3 - site.number), 'open')
        self.began = [(site.threads(), site.open_files()) for site in self.sites]
        self.ending = threading.Event()
        self.threads = []
        for site in self.sites:
            for run, arguments in ((drive, (site, random.Random(site.number), 0.6)),
                                   (attack, (self.world, site.number, random.Random(site.number)))):
                self.threads.append(threading.Thread(target=run, args=(*arguments, self.ending, figures), daemon=True))
        self.threads.append(threading.Thread(target=stop_and_continue,
                                             args=(self.sites, random.Random(3), self.ending, figures), daemon=True))
        for thread in self.threads:
            thread.start()

    def measure(self):
        return [(memory(site), len(self.world.entries(site.number))) for site in self.sites]

    def judge(self, before):
        self.ending.set()
        for thread in self.threads:
            thread.join()
        after = self.measure()
        for site, (threads, files), (memory_before, entries_before), (memory_after, entries) in zip(
                self.sites, self.began, before, after):
            print('site %d that ran all the time: %d KB, then %d KB; %d entries, then %d; %d threads, then %d; '
                  '%d descriptors, then %d' % (
                      site.number, memory_before // 1024, memory_after // 1024, entries_before, entries, threads,
                      site.threads(), files, site.open_files()), flush=True)
            grown = memory_after - memory_before
            self.figures.hold('memory is flat', grown <= (1 << 20) + ENTRY_BYTES * (entries - entries_before))
            self.figures.hold('threads come back', becomes(lambda: site.threads() <= threads))
            self.figures.hold('descriptors come back', becomes(lambda: site.open_files() <= files))
        for site in self.sites:
            self.figures.hold('links stay open', set(site.links().values()) == {'open'})
        for site in self.sites:
            self.figures.hold('quit', site.end())
            self.figures.hold('answers', site.was_true())
            self.figures.count('entries', len(self.world.entries(site.number)))
        self.figures.count('audits')
        self.figures.hold('the audit of the sites that ran all the time', self.world.is_accepted())


def soak(program, minutes):
    allow(minutes * 60 + 600)
    figures = Figures()
    end = time.monotonic() + minutes * 60
    keepers = Keepers(program, figures)
    with keepers.world:
        time.sleep(min(20, minutes * 10))
        before = keepers.measure()
        seed = int(time.time()) if minutes > 5 else 1
        while time.monotonic() < end:
            try:
                Wave(program, seed, figures).run()
                figures.count('waves')
            except Collided as collided:
                print('again: a stranger took the port %s' % collided, flush=True)
            except (Missed, OSError, subprocess.TimeoutExpired) as missed:
                figures.hold('wave %d: missed %s' % (seed, missed), False)
            seed += 1
        keepers.judge(before)
    counts = figures.counts
    print(', '.join('%s: %d' % (name, counts[name]) for name in sorted(counts) if name not in ('held', 'failed')))
    print('%d passed, %d failed' % (counts['held'], counts['failed']))
    return counts['failed'] > 0
