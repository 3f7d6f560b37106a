#!/usr/bin/env python3
"""Faults that are planted into the journals of worlds whose sites turn to later epochs, and audits of single epochs.

    scripts/model3/planted.py PROGRAM FROM COUNT    COUNT random worlds from the seed FROM on; the last line is 'N passed, M failed'

Each world is played by epochs.py: sites ask, reply, withdraw and turn, also past epochs, and messages come in any order of the
links; at the end all sites turn to one epoch. `PROGRAM audit` of all epochs, of each epoch alone (`--epoch`) and of all from
each one on (`--from`) gives the report of the model. Then a fault of each of KINDS is planted, where there is a place for it,
and the audit accepts the journals just where folders.py does, by definition. Before the last line stands of each kind how many
were refused, and of how many.

It needs python3, and the program.
"""
import json
import os
import random
import subprocess
import sys
import tempfile
from collections import Counter
from dataclasses import replace

from epochs import EpochPlay, base_of, write_all
from folders import audited
from journals import ZEROS

SECONDS = 60


# ---- random worlds

class RandomWorld:
    def __init__(self, seed):
        self.random = random.Random(seed)
        sites = range(1, self.random.choice([2, 3]) + 1)
        self.rows = {site: [10 * site + k for k in range(1, self.random.choice([2, 3, 4]))] for site in sites}
        self.processes = [process for members in self.rows.values() for process in members]
        self.play, self.epoch = EpochPlay(), {site: 0 for site in sites}
        for site, members in self.rows.items():
            self.say("site", site, *members)
        self.world = self.play.epochs()
        for _ in range(self.random.randrange(20, 120)):
            self.move()
        last = max(self.epoch.values()) + 1
        for site in self.random.sample(sorted(self.rows), len(self.rows)):
            self.turn(site, last)

    def say(self, *words):
        return self.play.answer(" ".join(map(str, words)).encode())

    def move(self):
        chosen = self.random.random()
        if chosen < 0.3:
            asker = self.random.choice(self.processes)
            others = [process for process in self.processes if process != asker]
            self.say("ask", asker, *sorted(self.random.sample(others, self.random.randint(1, min(3, len(others))))))
        elif chosen < 0.42:
            self.say("reply", *self.random.sample(self.processes, 2))
        elif chosen < 0.55:
            self.say(self.random.choice(["withdraw", "withdraw", "start"]), self.random.choice(self.processes))
        elif chosen < 0.92:
            self.deliver(*self.random.sample(sorted(self.rows), 2))
        elif chosen < 0.97:
            site = self.random.choice(sorted(self.rows))
            self.turn(site, self.epoch[site] + self.random.choice([1, 1, 1, 2, 3]))
        else:
            self.acknowledge(*self.random.sample(sorted(self.rows), 2))

    def deliver(self, source, to):
        queue = self.world.links[source, to]
        if queue:
            self.turn(to, queue[0].clock >> 32)
            self.say("deliver", source, to)

    def turn(self, site, epoch):
        if epoch > self.epoch[site]:
            self.say("turn", site, epoch)
            self.epoch[site] = epoch

    def acknowledge(self, source, to):
        got = len(self.world.got[source, to])
        if self.epoch[to] <= self.epoch[source] and got:
            self.world.acked[source, to] = max(self.world.acked[source, to], self.random.randint(0, got))


# ---- faults

def entry_left_out(at):
    at.entries.remove(at.random.choice(at.entries))


def entry_doubled(at):
    place = at.random.randrange(len(at.entries))
    at.entries.insert(place, at.entries[place])


def entries_moved(at):
    place = at.random.randrange(len(at.entries) - 1)
    at.entries[place], at.entries[place + 1] = at.entries[place + 1], at.entries[place]


def event_changed(at):
    place = at.random.randrange(len(at.entries))
    entry = at.entries[place]
    event = entry.event
    if event.kind == "got":
        event = replace(event, frame=replace(event.frame, clock=event.frame.clock + 1))
    else:
        event = replace(event, numbers=(*event.numbers[:-1], at.random.choice(at.processes)))
    at.entries[place] = replace(entry, event=event)


def sent_left_out(at):
    place = at.random.choice([i for i, entry in enumerate(at.entries) if entry.sent])
    entry = at.entries[place]
    at.entries[place] = replace(entry, sent=entry.sent[1:])


def sent_clock_changed(at):
    place = at.random.choice([i for i, entry in enumerate(at.entries) if entry.sent])
    entry = at.entries[place]
    to, frame = entry.sent[-1]
    at.entries[place] = replace(entry, sent=[*entry.sent[:-1], (to, replace(frame, clock=frame.clock + 1))])


def declaration_changed(at):
    place = at.random.randrange(len(at.entries))
    entry = at.entries[place]
    at.entries[place] = replace(entry, declared=None if entry.declared else (at.random.choice(at.rows), (at.segment.epoch << 32) + 1))


def row_left_out(at):
    rows = at.random.choice([rows for rows in at.base if rows])
    rows.remove(at.random.choice(rows))


def row_changed(at):
    rows = at.random.choice([rows for rows in at.base if rows])
    place = at.random.randrange(len(rows))
    rows[place] = rows[place][:-1] + bytes([rows[place][-1] ^ 1])


def link_changed(change):
    def plant(at):
        place = at.random.randrange(len(at.links))
        at.links[place] = change(at, dict(at.links[place]))
    return plant


def kept_with(change):
    def plant(at):
        place = at.random.choice([i for i, link in enumerate(at.links) if link["kept"]])
        link = dict(at.links[place])
        link["kept"] = change(list(link["kept"]))
        at.links[place] = link
    return plant


KINDS = {
    "an entry is left out": entry_left_out,
    "an entry stands twice": entry_doubled,
    "two entries change places": entries_moved,
    "an event is another": event_changed,
    "a message that was sent is left out": sent_left_out,
    "a message has another clock": sent_clock_changed,
    "a declaration is added or left out": declaration_changed,
    "a row of a base is left out": row_left_out,
    "a row of a base is another": row_changed,
    "a base got one more": link_changed(lambda at, link: {**link, "got": link["got"] + 1}),
    "a base knows of one more that came": link_changed(lambda at, link: {**link, "acked": link["acked"] + 1}),
    "a base keeps one less": kept_with(lambda kept: kept[1:]),
    "a base keeps another": kept_with(lambda kept: [*kept[:-1], replace(kept[-1], clock=kept[-1].clock + 1)]),
}


class Place:
    """A segment that a fault is planted into."""

    def __init__(self, made, site, segment):
        self.random, self.processes, self.rows = made.random, made.processes, made.rows[site]
        self.segment, self.entries = segment, segment.entries
        self.base = [list(rows) for rows in segment.rows]
        self.links = [dict(link) for link in segment.links]

    def put(self):
        self.segment.base = base_of(self.base, self.links)


# ---- what the program says

def audit(program, folder, made, *words):
    folders = [os.path.join(folder, "site-%d" % site) for site in made.rows]
    done = subprocess.run([*program, "audit", *words, "--topology", os.path.join(folder, "topology"), *folders],
                          capture_output=True, text=True, timeout=SECONDS)
    return done.returncode, done.stdout, done.stderr, folders


def written(folder, made):
    write_all(made.world, folder)
    with open(os.path.join(folder, "topology"), "w") as file:
        json.dump({"edition": 3, "world": ZEROS.hex(), "sites": [{"site": site, "processes": members} for site, members in made.rows.items()]}, file)


def checked(program, seed, counts):
    """What is compared of a world: what it is, what the program says, and what it should."""
    made = RandomWorld(seed)
    with tempfile.TemporaryDirectory() as folder:
        written(folder, made)
        yield "seed %d" % seed, audit(program, folder, made)[:3], (0, made.world.report() + "\n", "")
        newest = max(made.epoch.values())
        for first in range(newest + 1):
            for words, last in ((("--from", str(first)), None), (("--epoch", str(first)), first)):
                yield "seed %d %s" % (seed, " ".join(words)), audit(program, folder, made, *words)[:3], (0, made.world.part_report(first, last) + "\n", "")
        words = ("--epoch", str(newest + 1))
        yield "seed %d %s" % (seed, " ".join(words)), audit(program, folder, made, *words)[:3], (3, "", "fault set 6\n")
    for kind in KINDS:
        yield from planted(program, seed, kind, counts)


def planted(program, seed, kind, counts):
    made = RandomWorld(seed)
    world = made.world
    site = made.random.choice(sorted(made.rows))
    segment = made.random.choice(world.segments[site])
    place = Place(made, site, segment)
    try:
        KINDS[kind](place)
    except (IndexError, ValueError):
        return
    place.put()
    with tempfile.TemporaryDirectory() as folder:
        written(folder, made)
        status, _, errors, folders = audit(program, folder, made)
        is_accepted, _ = audited(made.rows, ZEROS, folders)
        counts[kind, "refused"] += not is_accepted
        counts[kind, "planted"] += 1
        yield "seed %d, %s" % (seed, kind), (status == 0, status in (0, 1, 3)), (is_accepted, True)


def main():
    program, first, count = [sys.argv[1]], int(sys.argv[2]), int(sys.argv[3])
    counts, passed, failed = Counter(), 0, 0
    for seed in range(first, first + count):
        for what, got, wanted in checked(program, seed, counts):
            if got == wanted:
                passed += 1
            else:
                failed += 1
                print("FAILED %s: %s is not %s" % (what, got, wanted))
    for kind in KINDS:
        print("%s: %d of %d refused" % (kind, counts[kind, "refused"], counts[kind, "planted"]))
    print("%d passed, %d failed" % (passed, failed))
    return 1 if failed else 0


if __name__ == "__main__":
    sys.exit(main())
