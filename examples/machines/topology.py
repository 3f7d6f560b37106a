"""The one file of a world on several machines: a topology of cmh whose sites also say where they are."""
from __future__ import annotations

import json
from dataclasses import dataclass
from pathlib import Path

EDITION = 3
DOORS = 22000      # on each machine the tunnel of site S comes in by the port DOORS + S
CLIENTS = 23000    # clients of site S connect to the port CLIENTS + S of its machine's loopback


@dataclass(frozen=True)
class Place:
    """A site and its machine: `machine` is the name in its certificate, `port` is on the loopback of each machine."""
    site: int
    port: int
    processes: tuple[int, ...]
    machine: str
    address: str

    @property
    def clients(self) -> int:
        return CLIENTS + self.site


@dataclass(frozen=True)
class Topology:
    places: dict[int, Place]
    world: str = ''    # 32 hexadecimal digits, drawn for each run that begins

    @classmethod
    def read(cls, path: Path) -> Topology:
        text = json.loads(path.read_text())
        if text['edition'] != EDITION:
            raise SystemExit(f'{path} is not of edition {EDITION}')
        rows = [Place(row['site'], row['port'], tuple(row['processes']), row['machine'], row['address']) for row in text['sites']]
        return cls({place.site: place for place in rows}, text.get('world', ''))

    def write(self, path: Path) -> None:
        rows = [vars(place) for place in self.places.values()]
        path.write_text(json.dumps({'edition': EDITION, 'world': self.world, 'sites': rows}))

    def others(self, site: int) -> list[Place]:
        return [place for place in self.places.values() if place.site != site]
