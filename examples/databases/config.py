"""What an operator says about servers and sites: a file in TOML, as databases.toml."""
from __future__ import annotations

import tomllib
from dataclasses import dataclass
from pathlib import Path
from typing import Any, TypeVar

from mariadb import MariaDB
from postgresql import PostgreSQL
from waits import Server

KINDS: dict[str, type[Server]] = {kind.kind: kind for kind in (PostgreSQL, MariaDB)}
Made = TypeVar('Made')


class Wrong(Exception):
    """The file says something that it may not say."""


@dataclass(frozen=True)
class Watched:
    """A server, and the ports of its site: for other sites, and for the watcher."""
    kind: str
    connect: dict[str, Any]
    link: int
    door: int
    name: str
    names: str = ''
    after: float = 100.0

    def __post_init__(self) -> None:
        if self.kind not in KINDS:
            raise Wrong(f'{self.name}: kind is one of {", ".join(KINDS)}')

    def server(self) -> Server:
        return KINDS[self.kind](self.connect, self.names, self.after / 1000)


@dataclass(frozen=True)
class Config:
    folder: str
    server: tuple[Watched, ...]
    poll: float = 20.0
    after: float = 100.0
    agents: int = 256
    dry_run: bool = False
    log: str = ''
    counters: str = ''

    @classmethod
    def read(cls, path: Path) -> Config:
        try:
            said = tomllib.loads(path.read_text())
        except tomllib.TOMLDecodeError as fault:
            raise Wrong(f'{path}: {fault}') from None
        shared = {'after': said.get('after', cls.after)}
        rows = [{'name': f'server {number}', **shared, **row} for number, row in enumerate(said.get('server', []), 1)]
        said['server'] = tuple(_made(Watched, row, row['name']) for row in rows)
        return _made(cls, said, str(path))


def _made(kind: type[Made], said: dict[str, Any], where: str) -> Made:
    try:
        return kind(**said)
    except TypeError as fault:      # a name that is none, or one that is missing
        raise Wrong(f'{where}: {str(fault).partition("() ")[2]}') from None
