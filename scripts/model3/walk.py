"""Random scripts of edition 3. A script is made while the model plays it, so that most of its lines do something; the same
seed makes the same script. Its parts are a world of two to four sites, rounds of random lines, and after most rounds all
deliveries. Where processes are declared then, they withdraw all their waits, all is delivered again, and no cycle may be left.
"""
import random

import laws
from model import Play

# Lines that change nothing, before the first command too; and commands that change nothing, or hardly ever.
SILENT = [b"", b"# nobody", b"   ", b"report 1", b"turn 5", b"edition 1", b"edition 2", b"Ask 1 2", b"ask", b"ask 1", b"ask 1 0", b"ask 1 10000",
          b"ask 1 x", b"ask 1\t2", b"reply 1", b"reply 1 2 3", b"start", b"start 1 2", b"withdraw", b"withdraw x", b"deliver 1", b"\xef\xbb\xbfreport",
          b"#" * 4096, b"#" * 4097, b"ask 1" + b" " * 4091 + b"2"]
NOISE = SILENT + [b"edition 3", b"site 1 1", b"deliver 1 1", b"deliver 9 8", b"ask 1" + b" " * 4090 + b"2"]
MOVES = {"ask": 28, "deliver": 40, "reply": 9, "withdraw": 9, "again": 4, "start": 4, "victim": 5, "any": 4, "noise": 3, "report": 1}


class Walk:
    """The script of a seed, its answers, and what it breaks."""

    def __init__(self, seed, wrong=None, checks=True):
        self.random, self.play, self.checks = random.Random(seed), Play(wrong), checks
        self.script, self.answers, self.broken = b"", [], []
        self.figures = {"events": 0, "declarations": 0, "withdrawals": 0, "cycles of drained runs": 0, "left": 0, "drained": 0, "resolved": 0}
        self.given_up = []
        self.name_sites()
        self.can_cut = self.random.random() < 0.04
        for _ in range(self.random.randint(1, 3)):
            self.round()
        self.say(b"report")
        self.check(laws.broken)
        self.count()

    # ---- lines

    def say(self, line):
        self.script += line + (b"\r\n" if self.random.random() < 0.02 else b"\n")
        answer = self.play.answer(line)
        if answer is not None:
            self.answers.append(answer)
        return answer

    def tell(self, *words):
        return self.say(" ".join(map(str, words)).encode())

    def check(self, broken=laws.broken_now):
        if self.checks:
            self.broken += broken(self.world)

    def name_sites(self):
        draw = self.random
        count = draw.randint(2, 4)
        sites = draw.sample(range(1, 6), count)
        if draw.random() < 0.1:
            sites[0] = draw.randint(6, 9999)
        left = draw.sample(range(1, 13), draw.randint(max(count, 3), 8))
        rows = {site: [left.pop()] for site in sites}
        while left:
            rows[draw.choice(sites)].append(left.pop())
        if draw.random() < 0.9:
            self.say(b"edition 3")
        for site, processes in rows.items():
            self.tell("site", site, *processes)
            if draw.random() < 0.05:
                self.tell("site", draw.choice(sites), draw.randint(13, 20))
            if draw.random() < 0.05:
                self.tell("site", draw.randint(10, 12), draw.choice(processes))
            if draw.random() < 0.05:
                self.say(draw.choice(SILENT))
        self.say(b"report")
        self.world, self.processes = self.play.world, sorted(self.play.world.home)

    # ---- rounds

    def round(self):
        moves, weights = list(MOVES), list(MOVES.values())
        for _ in range(self.random.randint(10, 45)):
            getattr(self, self.random.choices(moves, weights)[0])()
        if self.random.random() < 0.8 and not self.world.cut_links:
            self.drain()
            self.check()
            waits = laws.waits_after(self.world.entries)
            self.figures["drained"] += 1
            self.figures["cycles of drained runs"] += sum(1 for _ in laws.cycles(waits))
            if self.random.random() < 0.3:
                self.start_again()
            if self.random.random() < 0.7:
                self.resolve()

    def drain(self):
        """All deliveries, in a random order, which are no more than the law says."""
        most, made = laws.most_deliveries(self.world), 0
        while made <= most and any(self.world.links.values()):
            made += self.deliver() != "empty"
        if any(self.world.links.values()):
            self.broken.append("deliveries go on")
        self.say(b"report")

    def start_again(self):
        """Some declared processes start again, and all frames come."""
        for i in [i for site in self.world.sites.values() for i in site.declared]:
            if self.random.random() < 0.7:
                self.tell("start", i)
        self.drain()
        self.check()

    def resolve(self):
        """Each declared process that lies on a cycle withdraws all its waits, and all frames come."""
        waits = laws.waits_after(self.world.entries)
        victims = [i for site in self.world.sites.values() for i in site.declared if laws.least_cycle(waits, i)]
        self.random.shuffle(victims)
        for i in victims:
            self.tell("withdraw", i)
            while self.random.random() < 0.3 and any(self.world.links.values()):
                self.deliver()
        self.drain()
        if any(laws.cycles(laws.waits_after(self.world.entries))):
            self.broken.append("a cycle is left")
        self.check()
        self.figures["resolved"] += bool(victims)

    # ---- moves

    def site_of(self, process):
        return self.world.sites[self.world.home[process]]

    def ask(self):
        j = self.random.choice(self.processes)
        site = self.site_of(j)
        free = [k for k in self.processes if k != j and (j, k) not in site.waits and (j, k) not in site.leaving]
        waits = {wait for site in self.world.sites.values() for wait in site.waits}
        closing = [k for k in free if j in reached(waits, k)]
        if closing and self.random.random() < 0.4:
            free = closing
        if free:
            self.tell("ask", j, *sorted(self.random.sample(free, min(len(free), self.random.choice([1, 1, 1, 2, 3])))))

    def deliver(self):
        links = sorted(link for link, frames in self.world.links.items() if frames)
        if not links or self.random.random() < 0.02:
            links = sorted(self.world.links)
        answer = self.tell("deliver", *self.random.choice(links))
        if answer.startswith("refused"):
            self.broken.append("a frame is refused")
        return answer

    def reply(self):
        owed = sorted(pair for site in self.world.sites.values() for pair in site.owed if not site.waits_of(pair[0]))
        if owed:
            self.tell("reply", *self.random.choice(owed))

    def blocked(self):
        return sorted({j for site in self.world.sites.values() for j, _ in site.waits})

    def withdraw(self):
        blocked = self.blocked()
        if not blocked:
            return
        j = self.random.choice(blocked)
        holders = [k for _, k in self.site_of(j).waits_of(j)]
        self.given_up.append((j, holders))
        some = sorted(self.random.sample(holders, self.random.randint(1, len(holders))))
        self.tell("withdraw", j, *([] if self.random.random() < 0.4 else some))

    def again(self):
        """A process asks once more for what it gave up."""
        if self.given_up:
            j, holders = self.given_up.pop()
            self.tell("ask", j, *holders)

    def start(self):
        blocked = self.blocked()
        if blocked:
            self.tell("start", self.random.choice(blocked))

    def victim(self):
        """A declared process gives up one of its waits, or starts again."""
        declared = sorted(i for site in self.world.sites.values() for i in site.declared)
        if declared:
            i = self.random.choice(declared)
            if self.random.random() < 0.5:
                self.tell("start", i)
            else:
                self.tell("withdraw", *self.random.choice(self.site_of(i).waits_of(i)))

    def any(self):
        """An event of any processes, known or not, which is refused more often than not."""
        draw = self.random
        numbers = [draw.choice(self.processes + [13]) for _ in range(draw.choice([1, 2, 2, 2, 3]))]
        if draw.random() < 0.7:
            numbers[1:] = sorted(set(numbers[1:]))
        self.tell(draw.choice(["ask", "reply", "start", "withdraw"]), *numbers)

    def noise(self):
        if self.can_cut and self.random.random() < 0.3:
            self.tell("cut", *self.random.choice(sorted(self.world.links)))
        else:
            self.say(self.random.choice(NOISE))

    def report(self):
        self.say(b"report")
        self.check()

    # ---- figures

    def count(self):
        entries = self.world.entries
        self.figures["events"] = len(entries)
        self.figures["declarations"] = sum(entry.declared is not None for entry in entries)
        self.figures["withdrawals"] = sum(entry.event.kind == "withdraw" for entry in entries)
        self.figures["left"] = sum(" left by " in line for answer in self.answers for line in answer.split("\n"))

    def answer_text(self):
        return "".join(answer + "\n" for answer in self.answers)


def reached(waits, start):
    """Whom a process waits for, also through others."""
    found, new = set(), [start]
    while new:
        j = new.pop()
        for k in sorted(k for i, k in waits if i == j and k not in found):
            found.add(k)
            new.append(k)
    return found
