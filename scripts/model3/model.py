#!/usr/bin/env python3
"""Edition 3 by definition: answers a script as `cmh play --edition 3` is to answer it.

    scripts/model3/model.py [--wrong RULE] < SCRIPT

It was written from docs/rules.md (section 8), docs/formats.md and the lines of tests/edition3/README.md, and shares nothing
with the program. Nothing here is clever: a report searches all paths of waits, over all entries. With --wrong one of the rules
of WRONG takes the place of the right one, to show what goes wrong then; scripts/model3/run says what else is here. It needs
python3 alone.
"""
import argparse
import re
import sys
from collections import Counter
from dataclasses import dataclass, field

CLOCK_LIMIT = 2**64
MOST_WAITS = 255
MOST_SITES, MOST_OF_A_SITE, MOST_PROCESSES = 64, 256, 4096
LONGEST_LINE = 4096
NUMBER = re.compile(rb"[0-9]{1,4}")

WRONG = {
    "counted-asks": "probes and marks have the number of the origin's asks in place of a stamp, and all waits pass them on",
    "counted-asks-tested": "the same, and only the probe of the newest ask declares",
    "younger-waits": "younger waits pass probes on too",
    "unordered-stamps": "of two asks with one stamp neither is the older",
    "marks-without-number": "a probe does not act where an older one of its origin did",
    "no-leaving": "nothing is kept of a wait that was given up",
    "old-stamp-of-blocked": "an ask of a blocked process has the stamp of the ask before it",
    "withdrawal-undeclares": "who withdraws some of its waits leaves declared",
    "start-keeps-stamp": "a start has the stamp of the ask before it",
}
COUNTED = ("counted-asks", "counted-asks-tested")


class Refused(Exception):
    """An event that a controller does not accept, with the number of the refusal."""

    def __init__(self, number):
        super().__init__(number)
        self.number = number


@dataclass(frozen=True)
class Frame:
    kind: str
    numbers: tuple
    clock: int

    def __str__(self):
        return " ".join(map(str, (self.kind, *self.numbers)))


@dataclass(frozen=True)
class Event:
    """What happens at a controller. Of a frame that comes, `kind` is 'got' and `source` the site that sent it."""

    kind: str
    numbers: tuple = ()
    frame: Frame = None
    source: int = None

    def begins(self):
        """The waits that it begins."""
        return {(self.numbers[0], k) for k in self.numbers[1:]} if self.kind == "ask" else set()

    def leaves(self):
        """The waits that their asker gives up by it."""
        return {(self.numbers[0], k) for k in self.numbers[1:]} if self.kind == "withdraw" else set()

    def ends(self):
        return {self.numbers[::-1]} if self.kind == "reply" else self.leaves()


@dataclass(frozen=True)
class Entry:
    """An event with what came of it. `stamp` is the clock of its site after it."""

    site: int
    event: Event
    stamp: int
    sent: tuple
    declared: tuple = None

    def is_within(self, n):
        """Whether it is within stop n."""
        return self.stamp < n or (self.stamp == n and self.event.kind in ("ask", "start"))


class Site:
    """A controller: what it keeps, and what it does at an event."""

    def __init__(self, number, home, wrong=None):
        self.number, self.home, self.wrong = number, home, wrong
        self.waits = {}  # (j, k): the stamp of the ask that began the wait
        self.leaving = set()  # (j, k)
        self.owed = set()  # (k, j)
        self.marks = {}  # (k, i): a stamp
        self.declared = {}  # i: the stop of its declaration
        self.clock = 0
        self.stamp = {}  # j: the stamp of its newest ask
        self.asks = Counter()  # for the wrong rules that count them
        self.sent, self.newly = [], None

    # ---- what the rules speak of

    def is_here(self, process):
        return self.home[process] == self.number

    def waits_of(self, process):
        return sorted(wait for wait in self.waits if wait[0] == process)

    def counts(self, wait, i, n):
        stamp, asker = self.waits[wait], wait[0]
        if self.wrong in COUNTED or self.wrong == "younger-waits":
            return True
        if self.wrong == "unordered-stamps":
            return stamp < n or (stamp == n and asker == i)
        return (stamp, asker) <= (n, i)

    def passes(self, k, i, n):
        return any(self.counts(wait, i, n) for wait in self.waits_of(k))

    def reach(self, start, i, n):
        """Whom a process reaches locally for an ask."""
        reached, new = {start}, [start]
        while new:
            for j, k in self.waits_of(new.pop()):
                if self.is_here(k) and k not in reached and self.counts((j, k), i, n):
                    reached.add(k)
                    new.append(k)
        return reached

    def depends_on_itself(self, i, n):
        nexts = [k for _, k in self.waits_of(i) if self.is_here(k) and self.counts((i, k), i, n)]
        return any(i in self.reach(k, i, n) for k in nexts)

    # ---- what an event changes and sends

    def send(self, kind, numbers, to):
        self.sent.append((self.home[to], Frame(kind, numbers, self.clock)))

    def send_probes(self, i, n, start):
        for j, k in sorted(wait for p in self.reach(start, i, n) for wait in self.waits_of(p)):
            if not self.is_here(k) and self.counts((j, k), i, n):
                self.send("probe", (i, n, j, k), k)

    def declare(self, i, n):
        if i not in self.declared:
            self.declared[i] = n
            self.newly = (i, n)

    def end_wait(self, wait):
        del self.waits[wait]
        self.forget_if_active(wait[0])

    def forget_if_active(self, process):
        if not self.waits_of(process):
            self.marks = {mark: n for mark, n in self.marks.items() if mark[0] != process}
            self.declared.pop(process, None)

    def tick(self, process, keeps_stamp):
        """The stamp of an ask or a start of a process."""
        if keeps_stamp:
            return self.stamp[process]
        self.clock += 1
        self.asks[process] += 1
        self.stamp[process] = self.asks[process] if self.wrong in COUNTED else self.clock
        return self.stamp[process]

    # ---- the events

    def step(self, event):
        """Takes an event; answers its entry."""
        self.sent, self.newly = [], None
        if event.kind == "got":
            self.got(event.source, event.frame)
        else:
            getattr(self, event.kind)(*event.numbers)
        return Entry(self.number, event, self.clock, tuple(self.sent), self.newly)

    def test(self, number, holds):
        if not holds:
            raise Refused(number)

    def test_process(self, process):
        self.test(1, process in self.home)
        self.test(2, self.is_here(process))

    def test_targets(self, j, targets):
        self.test(3, all(a < b for a, b in zip(targets, targets[1:])))
        self.test(3, all(k in self.home and k != j for k in targets))

    def ask(self, j, *targets):
        self.test_process(j)
        self.test(3, targets)
        self.test_targets(j, targets)
        self.test(3, len(self.waits_of(j)) + len(targets) <= MOST_WAITS)
        self.test(14, not any((j, k) in self.leaving for k in targets))
        self.test(15, not any((j, k) in self.waits for k in targets))
        self.test(17, self.clock + 1 < CLOCK_LIMIT)
        self.look(j, targets, self.wrong == "old-stamp-of-blocked" and bool(self.waits_of(j)))

    def start(self, i):
        self.test_process(i)
        self.test(5, self.waits_of(i))
        self.test(17, self.clock + 1 < CLOCK_LIMIT)
        self.look(i, (), self.wrong == "start-keeps-stamp")

    def look(self, j, targets, keeps_stamp):
        """An ask, of somebody or of nobody, that is accepted."""
        n = self.tick(j, keeps_stamp)
        self.declared.pop(j, None)
        for k in targets:
            self.waits[j, k] = n
            if self.is_here(k):
                self.owed.add((k, j))
            else:
                self.send("request", (j, k), k)
        if self.depends_on_itself(j, n):
            self.declare(j, n)
        else:
            self.send_probes(j, n, j)

    def reply(self, k, j):
        self.test(1, k in self.home and j in self.home)
        self.test(2, self.is_here(k))
        self.test(4, not self.waits_of(k))
        self.test(6, (k, j) in self.owed)
        self.owed.remove((k, j))
        if self.is_here(j):
            self.end_wait((j, k))
        else:
            self.send("reply", (k, j), j)

    def withdraw(self, j, *targets):
        self.test_process(j)
        self.test_targets(j, targets)
        self.test(16, targets and all((j, k) in self.waits for k in targets))
        for k in targets:
            del self.waits[j, k]
            if self.is_here(k):
                self.owed.remove((k, j))
            else:
                if self.wrong != "no-leaving":
                    self.leaving.add((j, k))
                self.send("withdraw", (j, k), k)
        self.forget_if_active(j)
        if self.wrong == "withdrawal-undeclares":
            self.declared.pop(j, None)

    def got(self, source, frame):
        """A frame comes: the processes that it names first and last are at the sites that it comes from and goes to."""
        sender, receiver = frame.numbers[-2:]
        self.test(8, source != self.number and self.home.get(sender) == source)
        self.test(8, self.home.get(receiver) == self.number)
        before, self.clock = self.clock, max(self.clock, frame.clock)
        try:
            getattr(self, "got_" + frame.kind)(source, *frame.numbers)
        except Refused:
            self.clock = before
            raise

    def got_request(self, source, j, k):
        self.test(8, (k, j) not in self.owed)
        self.owed.add((k, j))

    def got_reply(self, source, k, j):
        self.test(8, (j, k) in self.waits or (j, k) in self.leaving or self.wrong == "no-leaving")
        if (j, k) in self.waits:
            self.end_wait((j, k))
        else:
            self.leaving.discard((j, k))

    def got_withdraw(self, source, j, k):
        if (k, j) in self.owed:
            self.owed.remove((k, j))
            self.send("reply", (k, j), j)

    def got_probe(self, source, i, n, j, k):
        known = self.marks.get((k, i), 0)
        is_new = not known if self.wrong == "marks-without-number" else known < n
        if not (self.passes(k, i, n) and (k, j) in self.owed and is_new):
            return
        self.marks[k, i] = n
        is_home = i in self.reach(k, i, n) and self.passes(i, i, n)
        if is_home and self.wrong == "counted-asks-tested":
            is_home = self.stamp[i] == n
        if is_home:
            self.declare(i, n)
        else:
            self.send_probes(i, n, k)


# ---- what a report says


def waits_after(entries):
    """Who waits for whom at the end of some entries of a run."""
    waits = set()
    for entry in entries:
        waits |= entry.event.begins()
        waits -= entry.event.ends()
    return waits


def least_cycle(waits, i):
    """Of the shortest cycles of waits through a process the least: all paths from it, the shorter ones first."""
    paths = [[i]]
    while paths:
        longer = []
        for path in paths:
            for k in sorted(k for j, k in waits if j == path[-1]):
                if k == i:
                    return path + [i]
                if k not in path:
                    longer.append(path + [k])
        paths = longer
    return None


@dataclass
class Stop:
    """Stop n of a run: the waits there, those of them that stand still, and those whose askers have withdrawn since."""

    waits: set
    standing: set
    left: set

    @staticmethod
    def of(entries, n):
        waits = waits_after(entry for entry in entries if entry.is_within(n))
        later = [entry.event for entry in entries if not entry.is_within(n)]
        ended, left = set(), set()
        for event in later:
            ended |= event.ends()
            left |= event.leaves()
        return Stop(waits, waits - ended, waits & left)

    def cycle_of(self, i):
        """What a report says of the cycle of a process that was declared at this stop."""
        cycle = least_cycle(self.standing, i)
        if cycle:
            return spelled("cycle", *cycle, "stands")
        cycle = least_cycle(self.waits, i)
        if not cycle:
            return "no cycle"
        leavers = [wait[0] for wait in zip(cycle, cycle[1:]) if wait in self.left]
        return spelled("cycle", *cycle, "left by", min(leavers) if leavers else "nobody")


def spelled(*words):
    return " ".join(map(str, words))


# ---- a world that is played


@dataclass
class World:
    """The sites of a topology, the frames under way, and the entries of all sites in the order of the run."""

    topology: dict  # of each site its processes
    wrong: str = None
    home: dict = field(init=False)

    def __post_init__(self):
        self.home = {process: site for site, members in self.topology.items() for process in members}
        self.sites = {site: Site(site, self.home, self.wrong) for site in self.topology}
        self.links = {(a, b): [] for a in self.sites for b in self.sites if a != b}
        self.cut_links, self.lost, self.entries = set(), {}, []

    def step(self, site, event):
        entry = self.sites[site].step(event)
        self.entries.append(entry)
        for to, frame in entry.sent:
            (self.lost.setdefault((site, to), []) if (site, to) in self.cut_links else self.links[site, to]).append(frame)
        return entry

    def under_way(self, a, b):
        """What was sent on a link and not got: also what was lost there."""
        return self.lost.get((a, b), []) + self.links[a, b]

    def in_transit(self):
        return sum(len(self.under_way(*link)) for link in self.links)

    # ---- the commands of a script

    def act(self, kind, *numbers):
        home = self.home.get(numbers[0])
        if home is None:
            return "refused 1"
        if kind == "withdraw" and len(numbers) == 1:
            numbers += tuple(k for _, k in self.sites[home].waits_of(numbers[0]))
        try:
            return "ok" + came_of(self.step(home, Event(kind, numbers)))
        except Refused as refusal:
            return f"refused {refusal.number}"

    def deliver(self, a, b):
        if (a, b) not in self.links:
            return "bad link"
        if (a, b) in self.cut_links:
            return "closed"
        if not self.links[a, b]:
            return "empty"
        frame = self.links[a, b][0]
        try:
            entry = self.step(b, Event("got", frame=frame, source=a))
        except Refused as refusal:
            return f"refused {refusal.number}"
        self.links[a, b].pop(0)
        return f"got {frame}" + came_of(entry)

    def cut(self, a, b):
        if (a, b) not in self.links:
            return "bad link"
        if (a, b) in self.cut_links:
            return "closed"
        self.cut_links.add((a, b))
        self.lost[a, b], self.links[a, b] = self.links[a, b], []
        return f"ok lost {len(self.lost[a, b])}"

    def report(self):
        lines = ["accepted", f"events {len(self.entries)}"]
        lines.append(f"in transit {self.in_transit()}" if self.in_transit() else "drained")
        lines += [spelled("wait", *wait) for wait in sorted(waits_after(self.entries))]
        lines += [spelled("leaving", *pair) for pair in sorted(set().union(*(site.leaving for site in self.sites.values())))]
        for i, n in sorted(pair for site in self.sites.values() for pair in site.declared.items()):
            lines.append(self.told(i, n))
        return "\n".join(lines)

    def told(self, i, n):
        """What is said of the declaration of a process at a stop."""
        return spelled("declared", i, "at", n, Stop.of(self.entries, n).cycle_of(i))


def came_of(entry):
    return f" sent {len(entry.sent)}" + (spelled("", "declared", entry.declared[0], "at", entry.declared[1]) if entry.declared else "")


def topology_fault(rows):
    """The number of the fault of these rows, or None."""
    sites = [site for site, _ in rows]
    processes = [process for _, members in rows for process in members]
    if len(rows) > MOST_SITES or len(processes) > MOST_PROCESSES or any(len(members) > MOST_OF_A_SITE for _, members in rows):
        return 1
    if len(set(sites)) < len(sites):
        return 2
    return 3 if len(set(processes)) < len(processes) else None


class Play:
    """A script that is answered line by line."""

    # of each form how many numbers it may have
    FORMS = {"edition": (1, 1), "site": (1, None), "ask": (2, None), "reply": (2, 2), "start": (1, 1), "withdraw": (1, None),
             "deliver": (2, 2), "cut": (2, 2), "report": (0, 0)}

    def __init__(self, wrong=None):
        self.wrong, self.rows, self.world = wrong, [], None

    def answer(self, line):
        """The answer to a line, or None where it has none. Of several lines it is one text."""
        words = [word for word in line.split(b" ") if word]
        if len(line) > LONGEST_LINE:
            return "bad line"
        if not words or words[0].startswith(b"#"):
            return None
        form = words[0].decode("ascii", "replace")
        numbers = [int(word) if NUMBER.fullmatch(word) else 0 for word in words[1:]]
        least, most = self.FORMS.get(form, (None, None))
        if least is None or not all(numbers) or len(numbers) < least or (most is not None and len(numbers) > most):
            return "bad line"
        if form == "edition":
            return self.edition(*numbers)
        if form == "site":
            return self.site(*numbers)
        self.world = self.world or World(dict(self.rows), self.wrong)
        if form in ("deliver", "cut", "report"):
            return getattr(self.world, form)(*numbers)
        return self.world.act(form, *numbers)

    def edition(self, number):
        if number != 3:
            return "bad line"
        return "late" if self.world or self.rows else "ok"

    def site(self, number, *processes):
        if self.world:
            return "late"
        fault = topology_fault(self.rows + [(number, processes)])
        if fault:
            return f"topology {fault}"
        self.rows.append((number, processes))
        return "ok"


def lines_of(script):
    """The lines of a script without their ends. The last may lack its end."""
    *ended, last = script.split(b"\n")
    return [line.removesuffix(b"\r") for line in ended] + ([last] if last else [])


def answers_to(script, play):
    """The answers to a script, as one text."""
    answers = (play.answer(line) for line in lines_of(script))
    return "".join(answer + "\n" for answer in answers if answer is not None)


def main():
    parser = argparse.ArgumentParser(description="answers a script of edition 3 by the rules of docs/rules.md")
    parser.add_argument("--wrong", choices=WRONG, help="plays by a wrong rule")
    play = Play(parser.parse_args().wrong)
    sys.stdout.write(answers_to(sys.stdin.buffer.read(), play))


if __name__ == "__main__":
    main()
