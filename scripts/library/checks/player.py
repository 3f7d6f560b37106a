"""Plays a script over the library and answers as `cmh play` does. The lines are those of docs/formats.md, each well formed.

    player.py [FOLDER] < SCRIPT      at the end the journals stand in FOLDER/site-N.cmhj
"""
import json
import os
import sys

import libcmh

KINDS = {1: 'request', 2: 'reply', 3: 'probe'}


class World:
    def __init__(self):
        self.edition, self.rows, self.sites, self.journals, self.links = 1, {}, None, {}, {}

    def row(self, site, *processes):
        if self.sites is not None:
            return 'late'
        if site in self.rows:
            return 'topology 2'
        rows = {**self.rows, site: list(processes)}
        try:
            libcmh.Site(self.edition, rows, site).close()
        except libcmh.Refused as refused:
            return f'topology {refused.code - 30}'
        self.rows = rows
        return 'ok'

    def begin(self):
        if self.sites is None:
            self.sites = {site: libcmh.Site(self.edition, self.rows, site) for site in self.rows}
            self.home = {process: site for site, processes in self.rows.items() for process in processes}
            self.journals = {site: opened.header() for site, opened in self.sites.items()}
            self.links = {(a, b): [] for a in self.rows for b in self.rows if a != b}

    def take(self, site, before, call, *of):
        """The answer, and whether the site took the event."""
        try:
            entry = getattr(self.sites[site], call)(*of)
        except libcmh.Refused as refused:
            return f'refused {refused.code}', False
        self.journals[site] += entry.bytes
        for to, frame in entry.sendings:
            if self.links[site, to] is not None:
                self.links[site, to].append(frame)
        return f'{before} sent {len(entry.sendings)}' + (f' declared {entry.declared}' if entry.declared else ''), True

    def event(self, call, process, *others):
        if process not in self.home:
            return 'refused 1'
        of = [others] if call == 'ask' else others
        return self.take(self.home[process], 'ok', call, process, *of)[0]

    def deliver(self, a, b):
        if (a, b) not in self.links:
            return 'bad link'
        link = self.links[a, b]
        if not link:
            return 'closed' if link is None else 'empty'
        numbers = [int.from_bytes(link[0][at:at + 2], 'big') for at in range(1, len(link[0]), 2)]
        answer, was_taken = self.take(b, f'got {KINDS[link[0][0]]} {" ".join(map(str, numbers))}', 'got', a, link[0])
        if was_taken:
            link.pop(0)
        return answer

    def cut(self, a, b):
        if (a, b) not in self.links:
            return 'bad link'
        link, self.links[a, b] = self.links[a, b], None
        return 'closed' if link is None else f'ok lost {len(link)}'

    def report(self):
        sites = [{'site': site, 'processes': processes} for site, processes in self.rows.items()]
        topology = json.dumps({'edition': self.edition, 'sites': sites}).encode()
        return libcmh.audit(topology, list(self.journals.values()))[1].removesuffix('\n')


def main():
    world = World()
    for line in sys.stdin:
        kind, *words = line.split() or ['#']
        numbers = list(map(int, words)) if not kind.startswith('#') else []
        if kind == 'edition':
            world.edition = numbers[0]
            print('ok')
        elif kind == 'site':
            print(world.row(*numbers))
        elif not kind.startswith('#'):
            world.begin()
            print(getattr(world, kind)(*numbers) if kind in ('deliver', 'cut', 'report') else world.event(kind, *numbers))
    world.begin()
    for site, journal in world.journals.items():
        if len(sys.argv) > 1:
            with open(os.path.join(sys.argv[1], f'site-{site}.cmhj'), 'wb') as file:
                file.write(journal)


if __name__ == '__main__':
    main()
