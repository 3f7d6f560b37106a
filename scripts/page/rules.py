"""The rules of docs/rules.md once more, to say what a page must show at each moment of a run. It shares nothing with the
program: it reads the lines of `cmh audit --run` and follows the rules by itself."""
import re

ENTRY = re.compile(r"(\d+) (\d+) (.*)")
FRAME = r"(request \d+ \d+|reply \d+ \d+|probe \d+ \d+ \d+)"


class Event:
    """An entry of a run: its site, its number there, what happened, and the frames that it sent."""

    def __init__(self, line):
        site, number, text = ENTRY.fullmatch(line).groups()
        self.line, self.site, self.number = line, int(site), int(number)
        self.declared = int(text.rpartition(" declared ")[2]) if " declared " in text else None
        text = text.partition(" declared ")[0]
        self.sent = [(frame, int(to)) for frame, to in re.findall(f" sent {FRAME} to (\\d+)", text)]
        words = text.partition(" sent ")[0].split()
        self.source = int(words[-1]) if words[0] == "got" else None
        self.kind = " ".join(words[:2]) if words[0] == "got" else words[0]
        self.frame = " ".join(words[1:-2]) if words[0] == "got" else None
        self.numbers = [int(word) for word in words if word.isdigit()][: -1 if words[0] == "got" else None]


class Site:
    def __init__(self):
        self.waits, self.owed, self.dependents, self.declared = set(), set(), set(), []

    def blocked(self, process):
        return any(asker == process for asker, _ in self.waits)

    def end_wait(self, asker, holder):
        self.waits.discard((asker, holder))
        if not self.blocked(asker):
            self.dependents = {pair for pair in self.dependents if pair[0] != asker}

    def fate(self, origin, sender, receiver):
        """What becomes of a probe."""
        if not self.blocked(receiver):
            return "ignored active"
        if (receiver, sender) not in self.owed:
            return "ignored answered"
        if (receiver, origin) in self.dependents:
            return "ignored known"
        return "acts"


class World:
    """A run that is followed: who waits for whom, what each controller knows, and the frames under way."""

    def __init__(self, sites):
        self.home = {process: site for site, members in sites for process in members}
        self.sites = {site: Site() for site, _ in sites}
        self.waits, self.way = set(), []

    def take(self, event):
        """Goes on by an event; answers what becomes of the probe, where it is the receipt of one."""
        site, numbers, fate = self.sites[event.site], event.numbers, None
        if event.frame:
            self.way.remove((event.frame, event.source, event.site))
        if event.kind == "ask":
            asker, targets = numbers[0], numbers[1:]
            site.waits |= {(asker, holder) for holder in targets}
            site.owed |= {(holder, asker) for holder in targets if self.home[holder] == event.site}
            self.waits |= {(asker, holder) for holder in targets}
        elif event.kind == "reply":
            holder, asker = numbers
            site.owed.discard((holder, asker))
            self.waits.discard((asker, holder))
            if self.home[asker] == event.site:
                site.end_wait(asker, holder)
        elif event.kind == "got request":
            site.owed.add((numbers[1], numbers[0]))
        elif event.kind == "got reply":
            site.end_wait(numbers[1], numbers[0])
        elif event.kind == "got probe":
            fate = site.fate(*numbers)
            if fate == "acts":
                site.dependents.add((numbers[2], numbers[0]))
        if event.declared:
            site.declared.append(event.declared)
        self.way += [(frame, event.site, to) for frame, to in event.sent]
        return fate


def changes(event):
    """The waits that an event begins and ends, as lines."""
    if event.kind == "ask":
        return [f"begins {event.numbers[0]} {holder}" for holder in event.numbers[1:]]
    if event.kind == "reply":
        return [f"ends {event.numbers[1]} {event.numbers[0]}"]
    return []


def lines_of(edition, sites, audit):
    """The lines of a page, of the topology and of what `cmh audit --run` prints."""
    yield f"edition {edition}"
    for site, members in sites:
        yield " ".join(map(str, ["site", site, *members]))
    world = World(sites)
    for line in audit:
        yield line
        if ENTRY.fullmatch(line):
            event = Event(line)
            fate = world.take(event)
            yield from changes(event)
            if fate:
                yield f"probe {fate}"
