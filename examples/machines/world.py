"""A running world: a machine for each place of a topology, with a site and its tunnel on it."""
from __future__ import annotations

import shutil
import signal
import socket
import subprocess
import sys
import time
from collections.abc import Callable
from contextlib import ExitStack
from dataclasses import replace
from pathlib import Path
from subprocess import DEVNULL, PIPE, STDOUT, Popen
from typing import Any

sys.path.append(str(Path(__file__).resolve().parents[2] / 'clients' / 'python'))

import needs
from cmh import Ended, Refused, Site3
from machines import HERE, BadNetwork, Machine, Network
from topology import Topology

PATIENCE = 30.0    # seconds that anything may take
PAUSE = 0.01


class Missed(Exception):
    """What was awaited did not come."""


FAILURES = (Missed, Ended, Refused, RuntimeError, OSError, subprocess.SubprocessError)    # of what was started, or of the system


def wait_until(holds: Callable[[], Any], what: str, patience: float = PATIENCE) -> Any:
    """Looks until it holds; answers what it was."""
    end = time.monotonic() + patience
    while not (answer := holds()):
        if time.monotonic() > end:
            raise Missed(what)
        time.sleep(PAUSE)
    return answer


def end_by_signals() -> None:
    """From now on Ctrl-C and SIGTERM end the program on the way through what it has to take down, also in a background that
    a shell protects from Ctrl-C. A second one does not disturb that."""
    def end(number: int, _: object) -> None:
        for each in (signal.SIGINT, signal.SIGTERM):
            signal.signal(each, signal.SIG_IGN)
        raise SystemExit(128 + number)
    for each in (signal.SIGINT, signal.SIGTERM):
        signal.signal(each, end)


def run_cmh(*words: object) -> list[str]:
    """The lines of a command, those of its faults last."""
    done = subprocess.run([needs.program(), *map(str, words)], capture_output=True, text=True, timeout=PATIENCE)
    return (done.stdout + done.stderr).splitlines()


class SiteThere(Site3):
    """A client of a site, on its machine. It connects again after the site was started again."""

    def __init__(self, machine: Machine, port: int):
        self._machine = machine
        super().__init__(port, patience=PATIENCE, again=PATIENCE)

    def _dial(self) -> socket.socket:
        connection = self._machine.connect(self._address[1])
        connection.settimeout(None)
        connection.setsockopt(socket.IPPROTO_TCP, socket.TCP_NODELAY, 1)
        return connection


class World:
    """The machines with their wires; nothing runs on them until it is started. All is taken down at the end of a `with`."""

    def __init__(self, topology: Topology, folder: Path, lay: type[Network] | type[BadNetwork] = Network):
        self.topology, self.folder, self._lay = replace(topology, world=run_cmh('new-world')[0]), folder, lay
        self.path = folder / 'machines.json'
        self.machines: dict[int, Machine] = {}
        self.sites: dict[int, SiteThere] = {}
        self._services: dict[int, Popen] = {}
        self._tunnels: dict[int, Popen] = {}

    def __enter__(self) -> World:
        with ExitStack() as stack:
            self.topology.write(self.path)
            self.make_certificates(self.folder / 'certificates')
            for site, place in self.topology.places.items():
                self.machines[site] = Machine(place.machine, place.address)
                stack.callback(self.machines[site].take_down)
                self.journal(site).mkdir(parents=True)
                self.give_certificate(site, self.folder / 'certificates')
            self.network = self._lay(list(self.machines.values()))
            stack.callback(self.network.take_down)
            self._all = stack.pop_all()
        return self

    def __exit__(self, *_: object) -> None:
        self._all.close()

    # ---- files

    def own_folder(self, site: int) -> Path:
        """The folder of a site's machine: in earnest it is on that machine alone."""
        return self.folder / self.topology.places[site].machine

    def journal(self, site: int) -> Path:
        return self.own_folder(site) / 'journal'

    def make_certificates(self, folder: Path) -> None:
        names = [place.machine for place in self.topology.places.values()]
        subprocess.run([HERE / 'certificates', folder, *names], check=True)

    def give_certificate(self, site: int, source: Path, name: str | None = None) -> None:
        """The machine gets the authority's certificate, and of a folder the one that was made for it, or for another name."""
        own = self.topology.places[site].machine
        shutil.copy(self.folder / 'certificates' / 'authority.pem', self.own_folder(site))
        shutil.copy(source / f'{name or own}.pem', self.own_folder(site) / f'{own}.pem')

    # ---- sites and tunnels

    def start_site(self, site: int) -> None:
        """It begins its journal, or goes on with the one that it has."""
        new = [] if any(self.journal(site).iterdir()) else ['--new']
        port = self.topology.places[site].clients
        words = [needs.program(), 'serve', '--topology', self.path, '--site', site, '--journal', self.journal(site), '--port', port]
        with open(self.own_folder(site) / 'site.log', 'w') as said:
            self._services[site] = self.machines[site].start(*words, *new, stdin=DEVNULL, stdout=PIPE, stderr=said)
        if self._services[site].stdout.readline() != b'listening\n':
            raise Missed(f'site {site}: {(self.own_folder(site) / "site.log").read_text()}')
        if site not in self.sites:
            self.sites[site] = SiteThere(self.machines[site], port)

    def configuration(self, site: int) -> str:
        words = [HERE / 'tunnel', self.path, str(site), self.own_folder(site)]
        return subprocess.run(words, check=True, capture_output=True, text=True).stdout

    def start_tunnel(self, site: int) -> None:
        file, log = (self.own_folder(site) / f'tunnel.{ending}' for ending in ('conf', 'log'))
        file.write_text(self.configuration(site))
        awaited = len(self.listening(site)) + file.read_text().count('\naccept = ')
        with open(log, 'a') as said:
            tunnel = self.machines[site].start('stunnel', file, stdin=DEVNULL, stdout=said, stderr=STDOUT)
        self._tunnels[site] = tunnel
        wait_until(lambda: tunnel.poll() is not None or len(self.listening(site)) >= awaited, f'the tunnel of site {site}')
        if tunnel.poll() is not None:
            raise Missed(f'the tunnel of site {site}: {log.read_text()}')

    def start_machine(self, site: int) -> None:
        self.start_site(site)
        self.start_tunnel(site)

    def start(self) -> None:
        """All of them, until all links are open."""
        for site in self.topology.places:
            self.start_machine(site)
        self.await_open()

    def kill_site(self, site: int) -> None:
        self.machines[site].end(self._services.pop(site))

    def kill_tunnel(self, site: int) -> None:
        self.machines[site].end(self._tunnels.pop(site))

    def kill_machine(self, site: int) -> None:
        self.kill_site(site)
        self.kill_tunnel(site)

    def listening(self, site: int) -> list[str]:
        """The addresses and ports at which something on the machine awaits a connection."""
        lines = self.machines[site].run('ss', '--no-header', '--listening', '--tcp', '--udp', '--numeric')
        return [line.split()[4] for line in lines.splitlines()]

    # ---- what sites say

    def running(self) -> list[SiteThere]:
        return [self.sites[site] for site in self._services]

    def link(self, site: int, way: str, other: int) -> str:
        return self.sites[site].links()[way, other]

    def is_open(self) -> bool:
        return all(set(site.links().values()) == {'open'} for site in self.running())

    def await_open(self, patience: float = PATIENCE) -> None:
        wait_until(self.is_open, 'open links', patience)

    def await_link(self, site: int, way: str, other: int, *states: str, patience: float = PATIENCE) -> str:
        """The state, once it begins with one of these words."""
        return wait_until(lambda: (state := self.link(site, way, other)).startswith(states) and state,
                          f'{way} {other} of site {site} that is {" or ".join(states)}', patience)

    def site_of(self, process: int) -> int:
        return next(site for site, place in self.topology.places.items() if process in place.processes)

    def home(self, process: int) -> SiteThere:
        return self.sites[self.site_of(process)]

    def ask(self, asker: int, *holders: int) -> None:
        self.home(asker).ask(asker, holders)

    def is_declared(self, process: int) -> bool:
        """Whether its site runs, and has declared it."""
        return self.site_of(process) in self._services and process in self.home(process).declared()

    def kept(self) -> int:
        """How many messages wait, at all sites, that are not known to have come."""
        return sum(kept for _, kept in self._figures())

    def audit(self, *options: str) -> list[str]:
        """The lines of an audit of all journals, of sites that run, too."""
        return run_cmh('audit', *options, '--topology', self.path, *map(self.journal, self.topology.places))

    def settle(self, patience: float = PATIENCE) -> None:
        """Waits until each message that was sent has come, and its sender knows it."""
        wait_until(self._is_settled, 'all messages', patience)

    def _is_settled(self) -> bool:
        """Whether no site keeps a message, and none took a step while all were asked."""
        before = self._figures()
        return all(kept == 0 for _, kept in before) and self._figures() == before

    def _figures(self) -> list[tuple[int, int]]:
        return [(status['entries'], status['kept']) for status in (site.status() for site in self.running())]
