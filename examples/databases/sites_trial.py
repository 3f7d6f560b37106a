#!/usr/bin/python3
"""Tries sites.py without a database: waits that begin, end, grow and shrink at random, told to running sites, which are killed,
and whose client begins anew, as after the death of a watcher. After each step each cycle of the waits that stand must have
somebody who is declared. At the end the journals must be those of one run.

    sites_trial.py [STEPS]
"""
from __future__ import annotations

import itertools
import random
import subprocess
import sys
import tempfile
import time
from pathlib import Path

import needs

needs.or_leave(needs.program)

import graph
from mapping import Agent, Waits
from ports import Port
from sites import Sites
from waits import Wait
from world import World

AGENTS = [Agent(server, f'T{number}') for server in (1, 2, 3) for number in range(10)]
SETTLED = 20.0    # seconds in which each cycle must have been declared, also where a site was killed


class Trial:
    """Waits that change by chance, and the sites that follow them."""

    def __init__(self, seed: int, folder: Path):
        self._random, self._marks = random.Random(seed), itertools.count(1)
        ports = [Port() for _ in range(6)]
        self.world = World.make(folder, [port.number for port in ports[:3]], [port.number for port in ports[3:]])
        self._running = {site: self._start(site) for site in self.world.doors}
        self.sites, self.waits, self.killed, self.cycles = Sites(self.world), Waits(), 0, 0

    def _start(self, site: int) -> subprocess.Popen:
        process = subprocess.Popen(self.world.command(site), stdout=subprocess.PIPE)
        assert process.stdout and process.stdout.readline() == b'listening\n'
        return process

    def step(self, number: int) -> None:
        if number % 20 == 7:
            site = self._random.choice(list(self._running))
            self._running[site].kill()
            self._running[site].wait()
            self._running[site] = self._start(site)
            self.killed += 1
        if number % 50 == 30:
            self.sites.close()
            self.sites = Sites(self.world)
        for agent in self._random.sample(AGENTS, 4):
            self._change(agent)
        self._settle()

    def _change(self, agent: Agent) -> None:
        """A wait begins, ends, or has a holder more or one less."""
        holders = self.waits.pop(agent, {})
        chosen, others = self._random.random(), [other for other in AGENTS if other != agent and other not in holders]
        if holders and chosen < 0.4:
            return
        if holders and chosen < 0.6:
            holders.pop(self._random.choice(list(holders)))
        else:
            mark = next(iter(holders.values())).mark if holders else next(self._marks)
            for other in self._random.sample(others, self._random.randint(1, 2)):
                holders[other] = Wait(0, 0, mark, 0.0)
        if holders:
            self.waits[agent] = holders

    def _settle(self) -> None:
        """Until each cycle has a declared member. Looking once more tells the pairs that could not be asked at once."""
        end = time.monotonic() + SETTLED
        while True:
            self.sites.follow(self.waits)
            self.sites.wait(time.monotonic() + 0.01)
            cycles = [cycle for agent in self.waits if (cycle := self._cycle(agent))]
            declared = {agent for agent in self.sites.deadlocked() if self._cycle(agent)}
            missed = [cycle for cycle in cycles if not declared & self._reached(cycle[0])]
            if not missed:
                self.cycles += bool(cycles)
                return
            if time.monotonic() > end:
                raise SystemExit(f'FAULT nobody is declared on the cycle {missed[0]}')

    def _cycle(self, agent: Agent) -> list[Agent] | None:
        return graph.shortest_cycle(agent, lambda each: self.waits.get(each, {}))

    def _reached(self, agent: Agent) -> set[Agent]:
        reached = [agent]
        for each in reached:
            reached += [other for other in self.waits.get(each, {}) if other not in reached]
        return set(reached)

    def close(self) -> None:
        self.sites.close()
        for process in self._running.values():
            process.terminate()
            process.wait()


def main() -> int:
    steps = int(sys.argv[1]) if len(sys.argv) > 1 else 300
    with tempfile.TemporaryDirectory(prefix='cmh-sites-') as folder:
        trial = Trial(1983, Path(folder) / 'world')
        for number in range(steps):
            trial.step(number)
        trial.close()
        audit = trial.world.audit()
    print(f'{steps} steps, {trial.cycles} with a cycle, {trial.killed} sites killed; one world, {audit.events} events: '
          f'{"accepted" if audit.accepted else audit.text}; {dict(trial.sites.counts)}')
    return 0 if audit.accepted else 1


if __name__ == '__main__':
    raise SystemExit(main())
