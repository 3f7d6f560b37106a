#!/usr/bin/env python3
"""The trials of audits of running sites of edition 3: sites under load, and audits and pictures of their journals all the while.
Each audit accepts, whether sites are killed meanwhile or not, and has all that was in the journals when it began.

    scripts/sites/audits3.py [--binary PROGRAM|--fake] [TRIAL..]

PROGRAM: crates/cmh/out/cmh unless given; `--fake` tries them on the small site of fake3.py. They are trials of resuming.py, too.
"""
import random
import threading
import time

from world3 import World3, effort, judged, noted

THREE = {1: [1, 11, 12], 2: [2, 21, 22], 3: [3, 31, 32]}
SECONDS = 4.0
OPTIONS = ([], [], ['--run'], ['--why'], ['--declarations'])


def is_small(program):
    """The small site, which is slow."""
    return program[-1].endswith('fake3.py')


class Auditing:
    """Audits of the journals of a world, one after the other, and what was wrong with one of them."""

    def __init__(self, world, seed):
        self.world, self.draw = world, random.Random(seed)
        self.audits = self.pictures = self.grew = self.events = self.cuts = 0
        self.wrong = None

    def run(self, end):
        while time.monotonic() < end and self.wrong is None:
            if is_small(self.world.program):    # it has no options, and draws nothing
                self.audit([])
            elif self.draw.random() < 0.2:
                self.picture()
            else:
                self.audit(self.draw.choice(OPTIONS))

    def audit(self, options):
        """One audit: it accepts, and has at least the entries that the one before had."""
        sites = list(self.world.sites)
        self.draw.shuffle(sites)
        folders = [self.world.folder(site) for site in sites]
        status, lines, fault = self.world.call('audit', '--topology', self.world.topology(), *options, *folders)
        self.audits += 1
        self.cuts += sum(line.startswith('cut ') for line in lines)
        report = [line for line in lines if not line.startswith('cut ')]
        events = int(report[1].split()[1]) if status == 0 and report[:1] == ['accepted'] else None
        if events is None or events < self.events:
            self.wrong = 'audit %d, %s: status %d %s %s after %d events' % (self.audits, options, status, report[:4], fault, self.events)
            return
        self.grew += events > self.events
        self.events = events

    def picture(self):
        """A picture of all waits, or of the first entries of a run. Where journals are refused, that of waits says at which entry a
        site stops."""
        words = self.draw.choice((['--kind', 'waits'], ['--kind', 'run', '--from', '1', '--to', '20']))
        folders = [self.world.folder(site) for site in self.world.sites]
        status, lines, fault = self.world.call('draw', '--topology', self.world.topology(), '--format', 'dot', *words, *folders)
        self.pictures += 1
        if status or any('stops at entry' in line for line in lines):
            self.wrong = 'picture %d, %s: status %d %s' % (self.pictures, words, status, fault)


def audited(program, seed, disturb):
    """Sites whose clients go on while they are audited, and are disturbed so."""
    with World3(program, THREE) as world:
        running = world.up_all()
        clients = noted(world, 1, pause=0.2) if is_small(world.program) else noted(world, 2, ahead=4)
        for client in clients:
            client.start()
        auditing = [Auditing(world, seed + at) for at in range(2)]
        end = time.monotonic() + SECONDS * effort.times
        threads = [threading.Thread(target=each.run, args=(end,), daemon=True) for each in auditing]
        for thread in threads:
            thread.start()
        while time.monotonic() < end:
            disturb(world, running)
        for thread in threads:
            thread.join()
        for each in auditing:
            yield 'audits of sites that go on: %s' % each.wrong, each.wrong is None
            yield '%d audits and %d pictures, the last of %d events, %d torn entries' % (each.audits, each.pictures, each.events, each.cuts), \
                each.grew > (0 if is_small(world.program) else 2)
        yield from judged(world, running, clients)


def audits_of_running_sites3(program):
    """Sites under load."""
    yield from audited(program, 1, lambda world, running: time.sleep(0.05))


def audits_of_killed_sites3(program):
    """Sites that are killed and start again, too: a torn entry is cut off at a start, and is no part of the journal that grew."""
    draw = random.Random(5)

    def disturb(world, running):
        time.sleep(0.1 + 0.2 * draw.random())
        site = draw.choice(list(running))
        running[site].kill()
        running[site] = world.up(site)

    yield from audited(program, 11, disturb)


def refused_journals3(program):
    """Journals that come from no run are refused also while they grow: a site that lost entries which it had sent."""
    with World3(program, THREE) as world:
        running = world.up_all()
        running[1].await_links()
        one = running[1].client()
        one.ask(1, [2])
        world.await_drained(running)
        for site in running.values():
            site.kill()
        with open(world.segment(1), 'rb') as file:
            whole = file.read()
        with open(world.segment(1), 'wb') as file:
            file.write(whole[:71])
        running = {3: world.up(3)}
        stop = threading.Event()
        asking = threading.Thread(target=grow, args=(running[3], stop), daemon=True)
        asking.start()
        found = [world.audit() for _ in range(10)]
        stop.set()
        asking.join()
        yield 'each is refused: %s' % found[0][1][:3], all(status == 1 and 'refused' in lines and 'stop 2 at 1' in lines for status, lines, _ in found)


def grow(site, stop):
    """The journal of the site grows all the while."""
    client = site.client()
    while not stop.is_set():
        client.ask(3, [31])
        client.reply(31, 3)


AUDITS = [audits_of_running_sites3, audits_of_killed_sites3, refused_journals3]


if __name__ == '__main__':
    import sys
    import resuming
    names = [trial.__name__ for trial in AUDITS]
    sys.exit(resuming.main([*sys.argv[1:], *([] if set(sys.argv[1:]) & set(names) else names)]))
