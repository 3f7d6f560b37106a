"""A world: a site for each server, their folders with the journals, and what is said of these afterwards. There is one world
for ever: sites that end are started again on their journals."""
from __future__ import annotations

import json
import subprocess
from collections.abc import Sequence
from pathlib import Path
from typing import NamedTuple

import needs

import cmh

AT_A_SITE, IN_A_WORLD = 256, 4096    # processes, at most


class Audit(NamedTuple):
    """What the auditor says of the journals of all sites."""
    accepted: bool
    events: int
    text: str


class World:
    """The folder with `world.json` and the folders `site-N`."""

    def __init__(self, folder: Path):
        self.folder, self.topology = folder, folder / 'world.json'
        rows = json.loads(self.topology.read_text())['sites']
        self.doors: dict[int, int] = {row['site']: row['door'] for row in rows}
        self.processes: dict[int, list[int]] = {row['site']: row['processes'] for row in rows}

    @classmethod
    def make(cls, folder: Path, links: Sequence[int], doors: Sequence[int], agents: int = AT_A_SITE) -> World:
        """A new world in a folder that has none: of sites with these ports for each other and for clients, for so many agents
        each."""
        folder.mkdir(parents=True, exist_ok=True)
        number = subprocess.run([needs.program(), 'new-world'], capture_output=True, text=True, check=True).stdout.strip()
        each = min(agents, AT_A_SITE, IN_A_WORLD // len(links))
        rows = [{'site': site, 'port': link, 'door': door, 'processes': list(range((site - 1) * each + 1, site * each + 1))}
                for site, (link, door) in enumerate(zip(links, doors), 1)]
        with open(folder / 'world.json', 'x') as file:
            json.dump({'edition': 3, 'world': number, 'sites': rows}, file)
        world = cls(folder)
        for site in world.doors:
            world.journal(site).mkdir()
            cmh.Site.run(str(world.topology), site, str(world.journal(site)), needs.program(), '--new').close()
        return world

    def journal(self, site: int) -> Path:
        return self.folder / f'site-{site}'

    def command(self, site: int) -> list[str]:
        """The words that start a site on its journal."""
        return [needs.program(), 'serve', '--topology', str(self.topology), '--site', str(site), '--journal',
                str(self.journal(site)), '--port', str(self.doors[site])]

    def audit(self) -> Audit:
        """Whether the journals of all sites are those of one run, and who was rightly declared in it."""
        lines = self._of_journals('audit', '--topology', str(self.topology)).splitlines()
        events = next((int(line.split()[1]) for line in lines if line.startswith('events ')), 0)
        return Audit('accepted' in lines, events, '\n'.join(lines))

    def entries(self) -> str:
        """The entries of all journals, as lines."""
        return self._of_journals('show')

    def draw(self) -> str:
        """A picture of what the journals have."""
        return self._of_journals('draw', '--kind', 'run', '--topology', str(self.topology))

    def _of_journals(self, *words: str) -> str:
        """What a command prints of the journals of all sites, and its fault."""
        words = (needs.program(), *words, *(str(self.journal(site)) for site in self.doors))
        done = subprocess.run(words, capture_output=True, text=True, check=False)
        return done.stdout + done.stderr
