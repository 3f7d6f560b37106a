"""Plays a script of edition 3 over the library and answers as `cmh play --edition 3` does, but for the line `report`, which
has no answer. The lines are those of tests/edition3.

    player3.py FOLDER < SCRIPT      at the end the journals stand in FOLDER/site-N.cmhj
"""
import os
import sys

from libcmh import Refused, Site3

KINDS = {1: 'request', 2: 'reply', 3: 'probe', 4: 'withdraw'}
WORLD = bytes(16)
EVENTS = ('ask', 'reply', 'start', 'withdraw')


def are_numbers(words):
    return all(word.isdigit() and len(word) <= 4 and int(word) > 0 for word in words)


def number(at, spelled, size=2):
    return int.from_bytes(spelled[at:at + size], 'big')


def message_text(message):
    """A message as words: the clock is not shown, and of a probe the stamp stands behind its origin."""
    if message[0] != 3:
        return f'{KINDS[message[0]]} {number(9, message)} {number(11, message)}'
    origin, stamp = number(17, message), number(9, message, 8)
    return f'probe {origin} {stamp} {number(19, message)} {number(21, message)}'


class World:
    def __init__(self):
        self.rows, self.sites, self.journals, self.links, self.home = {}, None, {}, {}, {}

    def edition(self, *words):
        if len(words) != 1 or not are_numbers(words) or int(words[0]) != 3:
            return 'bad line'
        return 'late' if self.rows or self.sites is not None else 'ok'

    def site(self, *words):
        if not words or not are_numbers(words):
            return 'bad line'
        if self.sites is not None:
            return 'late'
        site, *processes = map(int, words)
        if site in self.rows:
            return 'topology 2'
        rows = {**self.rows, site: processes}
        try:
            Site3(WORLD, rows, site).close()
        except Refused as refused:
            return f'topology {refused.code - 30}'
        self.rows = rows
        return 'ok'

    def begin(self):
        if self.sites is None:
            self.sites = {site: Site3(WORLD, self.rows, site) for site in self.rows}
            self.home = {process: site for site, processes in self.rows.items() for process in processes}
            self.journals = {site: opened.head() for site, opened in self.sites.items()}
            self.links = {(a, b): [] for a in self.rows for b in self.rows if a != b}

    def take(self, site, call, *of):
        """The end of the answer, or the refusal."""
        entry = getattr(self.sites[site], call)(*of)
        self.journals[site] += entry.bytes
        for to, message in entry.sendings:
            if self.links[site, to] is not None:
                self.links[site, to].append(message)
        declared = f' declared {entry.declared} at {entry.stamp}' if entry.declared else ''
        return f'sent {len(entry.sendings)}{declared}'

    def event(self, call, process, *others):
        if process not in self.home:
            return 'refused 1'
        site = self.home[process]
        if call == 'withdraw' and not others:
            others = self.sites[site].waits(process)
        # What the library's module would put in order, or bring to one, is refused by the rules.
        if call in ('ask', 'withdraw') and list(others) != sorted(set(others)):
            return 'refused 3'
        try:
            return 'ok ' + self.take(site, call, process, *([others] if call in ('ask', 'withdraw') else others))
        except Refused as refused:
            return f'refused {refused.code}'

    def deliver(self, a, b):
        if (a, b) not in self.links:
            return 'bad link'
        link = self.links[a, b]
        if not link:
            return 'closed' if link is None else 'empty'
        try:
            answer = f'got {message_text(link[0])} {self.take(b, "got", a, link[0])}'
        except Refused as refused:
            return f'refused {refused.code}'
        link.pop(0)
        return answer

    def cut(self, a, b):
        if (a, b) not in self.links:
            return 'bad link'
        link, self.links[a, b] = self.links[a, b], None
        return 'closed' if link is None else f'ok lost {len(link)}'

    def command(self, kind, words):
        """The answer of a command, or None of a report."""
        counts = {'ask': (2, 256), 'withdraw': (1, 256), 'start': (1, 1), 'reply': (2, 2), 'deliver': (2, 2), 'cut': (2, 2)}
        fewest, most = counts.get(kind, (0, 0))
        if kind not in (*counts, 'report') or not fewest <= len(words) <= most or not are_numbers(words):
            return 'bad line'
        self.begin()
        if kind == 'report':
            return None
        numbers = list(map(int, words))
        return self.event(kind, *numbers) if kind in EVENTS else getattr(self, kind)(*numbers)


def main():
    world = World()
    for line in sys.stdin:
        kind, *words = [word for word in line.rstrip('\n').split(' ') if word] or ['#']
        if kind.startswith('#'):
            continue
        answer = getattr(world, kind)(*words) if kind in ('edition', 'site') else world.command(kind, words)
        if answer:
            print(answer)
    world.begin()
    for site, journal in world.journals.items():
        with open(os.path.join(sys.argv[1], f'site-{site}.cmhj'), 'wb') as file:
            file.write(journal)


if __name__ == '__main__':
    main()
