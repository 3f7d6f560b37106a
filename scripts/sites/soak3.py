#!/usr/bin/env python3
"""For so many minutes sites of edition 3 are killed, lose power, have their links cut and start again, all the time, while their
clients go on. Then nothing that was answered is lost, nothing came twice, and the audit accepts.

    scripts/sites/soak3.py [PROGRAM|--fake] --minutes N [--sites 3|4] [--turns] [--seed S]

PROGRAM: crates/cmh/out/cmh unless given. Every half minute all comes to rest, and is judged; then it goes on with the same
journals, up to 100,000 entries a site, and then with new ones. The last line has the counts.

With `--turns` sites begin epochs all the time, too. Then the folders are audited by definition (scripts/model3/folders.py), every
six seconds, up to 15,000 entries a site.
"""
import argparse
import collections
import os
import random
import sys
import time
import traceback

from world import Missed, allow
from turns3 import epochs_of, is_audited, lines_of, world_settles
from world3 import FAKE, World3, cmh, lost_of, noted

HERE = os.path.dirname(os.path.abspath(__file__))
REST = 30.0             # seconds from one judgement to the next
REST_MODELLED = 6.0     # where the folders are audited in Python
MOST_ENTRIES = 100_000  # of a site, before a new world begins
MOST_MODELLED = 15_000  # where the folders are audited in Python
SYNC = 500              # microseconds that a sync takes
MOST_BYTES = 20_000     # that pass a connection at most, where connections are cut


TOLD = ('worlds', 'kills', 'power cuts', 'bytes lost', 'restarts', 'turns', 'segments', 'cut connections', 'resumed links', 'entries',
        'messages', 'answered events', 'events in doubt', 'declarations', 'audits', 'lost', 'doubled')


class Soak:
    def __init__(self, program, sites, seed, turns=False):
        self.program, self.seed, self.draw, self.turns = program, seed, random.Random(seed), turns
        self.sites = {site: [100 * site + at for at in range(1, 7)] for site in range(1, sites + 1)}
        self.counts, self.failed = collections.Counter(), 0

    def run(self, minutes):
        began = time.monotonic()
        while time.monotonic() < began + 60 * minutes:
            with World3(self.program, self.sites, relayed=True) as world:
                Wave(self, world, began + 60 * minutes).run()
            self.counts['worlds'] += 1
        print('%.1f minutes, seed %d: ' % ((time.monotonic() - began) / 60, self.seed)
              + ', '.join('%s %d' % (name, self.counts[name]) for name in TOLD))
        print('%d failed' % self.failed)
        return self.failed > 0


class Wave:
    """A world, from its new journals to so many entries."""

    def __init__(self, soak, world, end):
        self.soak, self.world, self.end, self.draw, self.counts = soak, world, end, soak.draw, collections.Counter()
        self.notes = collections.defaultdict(list)      # of each site and its processes: what a client was answered

    def hold(self, what, is_held):
        if not is_held:
            self.soak.failed += 1
            print('FAILED seed %d: %s' % (self.soak.seed, what), flush=True)

    def run(self):
        world = self.world
        self.running = {site: world.up(site, power=SYNC) for site in world.sites}
        try:
            most = MOST_MODELLED if self.soak.turns else MOST_ENTRIES
            while time.monotonic() < self.end and self.counts['most'] < most:
                self.work(min(self.end, time.monotonic() + (REST_MODELLED if self.soak.turns else REST)))
                self.judge()
        except (Missed, OSError, cmh.Ended) as missed:
            where = ' '.join('%s:%d' % (frame.name, frame.lineno) for frame in traceback.extract_tb(missed.__traceback__))
            ended = ['site %d ended with %s: %s' % (site, running.process.poll(), running.told())
                     for site, running in self.running.items() if running.process.poll() is not None]
            self.hold('missed %s at %s; %s' % (missed, where, ended), False)
        self.counts['bytes lost'] = sum(disk.lost for disk in world.disks.values())
        self.counts['cut connections'] = sum(relay.cuts for relay in world.relays.values())
        self.soak.counts.update(self.counts)

    def work(self, end):
        clients = noted(self.world, 2, pause=0.002)
        for client in clients:
            client.draw.seed(self.draw.random())
            client.start()
        for relay in self.world.relays.values():
            relay.most = self.draw.choice([None, MOST_BYTES])
        while time.monotonic() < end:
            time.sleep(0.3 * self.draw.random())
            if self.soak.turns and self.draw.random() < 0.6:
                self.turn_one()
            elif self.draw.random() < 0.3:
                self.draw.choice(list(self.world.relays.values())).cut_all()
            else:
                self.kill_some()
        for relay in self.world.relays.values():
            relay.most = None
        for client in clients:
            client.stop()
            self.notes[client.site, tuple(client.own)] += client.notes
            self.counts['answered events'] += client.answered()
            self.counts['events in doubt'] += client.doubtful()

    def turn_one(self):
        try:
            answer = self.draw.choice(list(self.running.values())).ask('turn')
        except (OSError, cmh.Ended):
            return
        self.hold('a turn: %s' % answer, answer.startswith('ok epoch '))
        self.counts['turns'] += 1

    def kill_some(self):
        several = self.draw.sample(list(self.running), self.draw.choice([1, 1, 1, 2, len(self.running)]))
        loses_power = self.draw.random() < 0.5
        for site in several:
            self.running[site].kill()
            self.counts['kills'] += 1
        if self.draw.random() < 0.2:
            time.sleep(self.draw.random())
        for site in several:
            if loses_power:
                self.world.disk(site).cut_power(self.draw)
                self.counts['power cuts'] += 1
            self.running[site].let_go()
            self.running[site] = self.world.up(site, power=SYNC)
            self.counts['restarts'] += 1

    def audit(self):
        world = self.world
        if self.soak.turns:
            world_settles(world, self.running)
            self.hold(*is_audited(world, 'drained'))
            self.hold('cmh audit', world.is_accepted('drained'))
            self.counts['segments'] = sum(len(epochs_of(world, site)) for site in world.sites)
            return
        world.await_drained(self.running)
        status, lines, fault = world.audit()
        self.hold('the audit: %s %s' % (lines[:4], fault), status == 0 and lines[:1] == ['accepted'] and 'drained' in lines)

    def judge(self):
        """All comes to rest: each message that was sent was got once, each answered event is there, and the audit accepts."""
        world = self.world
        self.audit()
        self.counts['audits'] += 1
        sent, got, entries = collections.Counter(), collections.Counter(), {}
        for site in world.sites:
            entries[site] = lines_of(world, site) if self.soak.turns else world.entries(site)
            for entry in entries[site]:
                front, *sendings = entry.split(' declared ')[0].split(' sent ')
                sent.update((site, *each.split(' to ')) for each in sendings)
                if front.startswith('got '):
                    message, source = front[4:].split(' from ')
                    got[int(source), message, str(site)] += 1
        lost = sum((sent - got).values()) + sum(lost_of(notes, entries[site], own) for (site, own), notes in self.notes.items())
        self.hold('lost %d' % lost, lost == 0)
        self.hold('doubled %d' % sum((got - sent).values()), not got - sent)
        self.counts.update({'lost': lost, 'doubled': sum((got - sent).values())})
        self.counts['entries'] = sum(map(len, entries.values()))
        self.counts['most'] = max(map(len, entries.values()))
        self.counts['messages'] = sum(got.values())
        self.counts['declarations'] = sum(' declared ' in entry for each in entries.values() for entry in each)
        self.counts['resumed links'] = sum(relay.dialled for relay in world.relays.values())


def main():
    parser = argparse.ArgumentParser(description='sites of edition 3 that are killed all the time')
    parser.add_argument('program', nargs='?', default=os.path.join(HERE, '..', '..', 'crates', 'cmh', 'out', 'cmh'))
    parser.add_argument('--fake', action='store_true', help='the small site of fake3.py')
    parser.add_argument('--minutes', type=float, default=1)
    parser.add_argument('--sites', type=int, choices=[3, 4], default=3)
    parser.add_argument('--turns', action='store_true', help='sites begin epochs, too')
    parser.add_argument('--seed', type=int, default=int(time.time()))
    options = parser.parse_args()
    allow(options.minutes * 60 + 600)
    return Soak(FAKE if options.fake else os.path.abspath(options.program), options.sites, options.seed, options.turns).run(options.minutes)


if __name__ == '__main__':
    sys.exit(main())
