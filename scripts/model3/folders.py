#!/usr/bin/env python3
"""An audit of the folders of sites of edition 3 that have begun later epochs, by definition: the entries of all segments of a
site, with a turn of its clock between two of them, are its journal, and the journals come from a run; and each segment begins
with the state in which its site was.

    scripts/model3/folders.py TOPOLOGY DIR..    prints 'accepted', the numbers of events and turns, and the report of the run;
                                               or 'refused' and why

It reads bytes by docs/formats.md and steps the controllers of model.py; it shares nothing with the program. It needs python3.
"""
import json
import os
import sys

from files import ROWS, Bad, Bytes, Merge, Segment, message_of
from journals import mark_of, message


class Turn:
    """A site begins an epoch, and its segment says this base."""

    def __init__(self, epoch, base):
        self.epoch, self.base = epoch, base


class Base:
    """What a base says: the rows of the state, and of each other site what was sent to it and got from it."""

    def __init__(self, data):
        data = Bytes(data)
        self.rows = [self.rows_of(data, row) for row in ROWS]
        self.links = {}
        for _ in range(data.number(4)):
            site, sent, acked, mark = data.number(2), data.number(8), data.number(8), data.number(8)
            kept = [message_of(data) for _ in range(sent - acked)]
            self.links[site] = (acked, mark, kept, data.number(8), data.number(8))

    def rows_of(self, data, row):
        return [tuple(data.number(int(size)) for size in row) for _ in range(data.number(4))]


def base_in(data):
    """The bytes of the base in the head of a segment."""
    head = Bytes(data)
    head.take(5 + 2 + 16 + 4 + 4)
    return head.take(head.number(4))


def rows_of(site):
    """The rows that say the state of a controller."""
    return [
        sorted((j, k, t) for (j, k), t in site.waits.items()),
        sorted(site.leaving),
        sorted(site.owed),
        sorted((k, i, n) for (k, i), n in site.marks.items()),
        sorted(site.declared.items()),
        sorted((j, n) for j, n in site.stamp.items() if n),
    ]


class Journal:
    """The segments of a folder, in the order of their epochs."""

    def __init__(self, folder):
        self.steps, self.turns, before, last = [], 0, None, None
        for name in sorted(name for name in os.listdir(folder) if name.endswith(".cmhj")):
            with open(os.path.join(folder, name), "rb") as file:
                data = file.read()
            segment = Segment(data)
            if segment.damage is not None or name != "%010d.cmhj" % segment.epoch:
                raise Bad(name)
            if before is not None and (segment.before != before or last):
                raise Bad("%s does not follow" % name)
            if before is None and segment.epoch:
                raise Bad("%s is the first" % name)
            if segment.epoch:
                self.steps.append(Turn(segment.epoch, Base(base_in(data))))
                self.turns += 1
            self.steps += segment.entries
            self.site, self.world, before, last = segment.site, segment.world, segment.epoch, segment.tail
        self.epoch = before


class Epochs(Merge):
    """The longest parts of some journals with turns that come from a run."""

    def __init__(self, topology, steps):
        self.wrong = []
        self.sent = {(a, b): [] for a in topology for b in topology if a != b}
        self.got = {link: 0 for link in self.sent}
        self.epoch = {site: 0 for site in topology}
        super().__init__(topology, steps)

    def takes(self, site):
        at = self.taken[site]
        step = self.all[site][at] if at < len(self.all[site]) else None
        if isinstance(step, Turn):
            self.turn(site, step)
            self.taken[site] += 1
            return True
        if not super().takes(site):
            return False
        for to, frame in step.sent:
            self.sent[site, to].append(frame)
        if step.event.kind == "got":
            if step.event.frame.clock >> 32 > self.epoch[site]:
                self.wrong.append("site %d got what is of a later epoch" % site)
            self.got[step.event.source, site] += 1
        return True

    def turn(self, site, turn):
        """The site begins an epoch: its base says what it is by then."""
        here = self.world.sites[site]
        if here.clock >> 32 >= turn.epoch:
            self.wrong.append("site %d turns back to %d" % (site, turn.epoch))
        here.clock, self.epoch[site] = turn.epoch << 32, turn.epoch
        if turn.base.rows != rows_of(here):
            self.wrong.append("the base of site %d in epoch %d: %s is not %s" % (site, turn.epoch, turn.base.rows, rows_of(here)))
        for other in (b for a, b in self.sent if a == site):
            self.compare_link(site, other, turn)

    def compare_link(self, site, other, turn):
        sent, got = self.sent[site, other], self.sent[other, site][:self.got[other, site]]
        acked, mark, kept, count, got_mark = turn.base.links.get(other, (0, mark_of(b""), [], 0, mark_of(b"")))
        spelled = mark_of(b"".join(map(message, sent[:acked])))
        if acked > len(sent) or kept != sent[acked:] or mark != spelled or (count, got_mark) != (len(got), mark_of(b"".join(map(message, got)))):
            self.wrong.append("the base of site %d in epoch %d says other messages of site %d" % (site, turn.epoch, other))


def audited(topology, world, folders):
    """Whether the folders are accepted, and the lines about it."""
    try:
        journals = [Journal(folder) for folder in folders]
    except Bad as bad:
        return False, ["refused", str(bad)]
    if sorted(journal.site for journal in journals) != sorted(topology) or any(journal.world != world for journal in journals):
        return False, ["refused", "these are not the folders of the sites of the world"]
    merge = Epochs(topology, {journal.site: journal.steps for journal in journals})
    stops = ["stop %d at %d" % stop for stop in merge.stops()]
    if stops or merge.wrong:
        return False, ["refused", *stops, *merge.wrong]
    turns = sum(journal.turns for journal in journals)
    return True, ["accepted", "events %d turns %d" % (len(merge.world.entries), turns), *merge.world.report().splitlines()[2:]]


def main():
    with open(sys.argv[1]) as file:
        rows = json.load(file)
    topology = {row["site"]: row["processes"] for row in rows["sites"]}
    is_accepted, lines = audited(topology, bytes.fromhex(rows["world"]), sys.argv[2:])
    print("\n".join(lines))
    return 0 if is_accepted else 1


if __name__ == "__main__":
    sys.exit(main())
