"""The sites and the watcher as processes of their own, as one would run them beside the servers."""
from __future__ import annotations

import json
import signal
import subprocess
import threading
import time
from collections import Counter
from collections.abc import Iterator
from pathlib import Path
from typing import Any

from ports import Port
from servers import WATCHER, Server
from world import World

WATCH = ['setpriv', '--pdeathsig', 'TERM', '--', '/usr/bin/python3', '-B', str(Path(__file__).with_name('watch')), '--config']
PATIENCE = 60.0   # seconds that a start or an end may take


def configure(servers: list[Server], folder: Path, **settings: Any) -> Path:
    """Writes the file of a watcher for these servers, and makes its folder of sites."""
    ports = [Port() for _ in range(2 * len(servers))]
    settings |= {'folder': str(folder / 'world'), 'log': str(folder / 'log'), 'counters': str(folder / 'counters')}
    lines = [f'{name} = {json.dumps(value)}' for name, value in settings.items()]
    for server, link, door in zip(servers, ports[::2], ports[1::2]):
        where = ', '.join(f'{name} = {json.dumps(value)}' for name, value in server.where(WATCHER).items())
        lines += ['[[server]]', f'kind = "{server.kind}"', f'connect = {{ {where} }}', f'link = {link.number}',
                  f'door = {door.number}']
    config = folder / 'databases.toml'
    config.write_text('\n'.join(lines) + '\n')
    for port in ports:
        port.let_go()
    subprocess.run([*WATCH, str(config), '--init'], check=True)
    return config


class Units:
    """The watcher and the sites of a world, for the time of a `with`. Who ends is started again, as systemd does."""

    def __init__(self, config: Path):
        self._words, self._log, self._out = [*WATCH, str(config)], config.with_name('log'), config.with_name('out')
        self.world = World(config.with_name('world'))
        self._units = {'watcher': [], **{f'site {site}': ['--site', str(site)] for site in self.world.doors}}
        self.processes: dict[str, subprocess.Popen] = {}
        self.starts: Counter[str] = Counter()
        self._followed, self._ended = 0, threading.Event()
        self._keeper = threading.Thread(target=self._keep, daemon=True)

    def __enter__(self) -> Units:
        self._keeper.start()
        return self

    def _keep(self) -> None:
        """Starts them, and at the end takes them down, the watcher first. They end with this thread at the latest."""
        while not self._ended.wait(0.1):
            for unit, more in self._units.items():
                if unit not in self.processes or self.processes[unit].poll() is not None:
                    with open(self._out, 'ab') as out:
                        self.processes[unit] = subprocess.Popen([*self._words, *more], stdin=subprocess.DEVNULL, stdout=out,
                                                                stderr=out, start_new_session=True)
                    self.starts[unit] += 1
        for process in self.processes.values():
            process.send_signal(signal.SIGCONT)
            process.terminate()
            process.wait(PATIENCE)

    def __exit__(self, *_: object) -> None:
        self._ended.set()
        self._keeper.join()

    def last_words(self) -> str:
        return '; '.join(self._out.read_text().splitlines()[-5:])

    def records(self, *what: str) -> list[dict[str, Any]]:
        """What the watcher wrote into its log so far, whole lines alone."""
        text = self._log.read_text() if self._log.exists() else ''
        records = [json.loads(line) for line in text.splitlines(keepends=True) if line.endswith('\n')]
        return [record for record in records if not what or record['what'] in what]

    def follow(self, until: str, patience: float = PATIENCE) -> Iterator[dict[str, Any]]:
        """Each record of the watcher's log that was not followed yet, as it comes, up to the next one of a kind."""
        end = time.monotonic() + patience
        while time.monotonic() < end:
            for record in self.records()[self._followed:]:
                self._followed += 1
                yield record
                if record['what'] == until:
                    return
            time.sleep(0.02)
        raise TimeoutError(f'the watcher did not come to {until!r}: {self.last_words()}')
