"""Keeps running sites in step with waits that somebody else owns, and says which agents are deadlocked.

An agent is whatever waits or is waited for. It has a server, and a process of that server's site stands for it while it waits
or is waited for. `follow` takes the waits that stand, and tells what leads there from those that were told before: a wait that
is there is asked, one that is gone is withdrawn. Nobody replies: who waits leaves by itself. What the sites hold they tell,
so nothing has to be kept here: after a fault of a site, or of the program that used it before, its processes are read again.
"""
from __future__ import annotations

import select
import time
from collections import Counter
from collections.abc import Callable, Hashable
from typing import TypeVar

import cmh
from mapping import Agent, Waits
from world import World

SILENCE = 2.0          # seconds after which a site that does not answer counts as lost
RETRY = 0.25, 5.0      # seconds until a lost one is tried again, at first and at most
UNKNOWN = object()     # the mark of a wait that a site has and this program does not: it is no other mark

Answer = TypeVar('Answer')


class Sites:
    """The sites of a world, as their client."""

    def __init__(self, world: World, say: Callable[[str], None] = lambda text: None):
        self._say, self._doors, self._rows = say, world.doors, world.processes
        self._home = {process: site for site, processes in world.processes.items() for process in processes}
        self._clients: dict[int, cmh.Site3] = {}
        self._again = dict.fromkeys(world.doors, 0.0)       # of each site: not to be tried before
        self._pause = dict.fromkeys(world.doors, RETRY[0])  # and for how long, the next time
        self._told: dict[int, dict[int, Hashable]] = {}     # of each process that waits: for whom, and the marks
        self._leaving: dict[int, set[int]] = {}             # of each process: whom it can't ask again yet
        self._declared: set[int] = set()                    # all that are declared now, and maybe others
        self._busy: set[int] = set()                        # processes that stand in a wait, or did so just now
        self.process: dict[Agent, int] = {}                 # that stands for an agent
        self._agent: dict[int, Agent] = {}
        self.told_at: dict[Agent, float] = {}               # the newest ask of an agent
        self.counts: Counter[str] = Counter()

    # ---- sites that are lost and come back

    def _with(self, site: int, call: Callable[[cmh.Site3], Answer]) -> Answer | None:
        """What the call answers at a site that is there. One that ends at it is lost, and so is one that refuses: it holds
        something else than was thought, or is sealed."""
        if client := self._clients.get(site):
            try:
                return call(client)
            except (cmh.Ended, cmh.Refused, cmh.BadLine, OSError) as reason:
                self._clients.pop(site).close()
                self._again[site] = time.monotonic() + self._pause[site]
                self._pause[site] = min(RETRY[1], 2 * self._pause[site])
                self.counts['sites lost'] += 1
                self._say(f'site {site} is lost: {reason}')
        return None

    def _connect(self, site: int) -> None:
        """Tries a site that is lost, and reads what its processes wait for."""
        if site in self._clients or time.monotonic() < self._again[site]:
            return
        try:
            self._clients[site] = cmh.Site3.at(self._doors[site], patience=SILENCE, again=0)
        except OSError:
            self._again[site] = time.monotonic() + RETRY[0]
            return
        if self._with(site, lambda client: self._read(client, site)):
            self._say(f'site {site} is there')

    def _read(self, client: cmh.Site3, site: int) -> bool:
        """What the processes of a site wait for and leave, by its own word. A wait that was told keeps its mark."""
        client.watch()
        rows = self._rows[site]
        client.send(*(f'{question} {process}' for question in ('waits', 'leaving') for process in rows))
        found = [{int(word) for word in cmh.words_of(client.receive())[2:]} for _ in rows + rows]
        for process, waits, leaving in zip(rows, found, found[len(rows):]):
            old, self._leaving[process] = self._told.pop(process, {}), leaving
            if waits:
                self._told[process] = {other: old.get(other, UNKNOWN) for other in waits}
        return True

    # ---- following

    def follow(self, waits: Waits) -> None:
        """Tells the sites what leads from the waits that they have to these. All lines of a site are on their way together, and
        so share what they can. Where one fails, the site is read again later."""
        for site in self._doors:
            self._connect(site)
        self._hear_all()
        lines = {site: self._withdrawals(site, waits) for site in self._clients}
        self._give_back(waits)
        for site, some in lines.items():
            some += self._asks(site, waits)
        for site, some in lines.items():
            self._with(site, lambda client, some=some: client.send(*some))
        for site, some in lines.items():
            if self._with(site, lambda client, some=some: _take(client, some)):
                self._pause[site] = RETRY[0]

    def _withdrawals(self, site: int, waits: Waits) -> list[str]:
        """Of each wait that is gone, or is another one now."""
        lines = []
        for process in [process for process in self._told if self._home[process] == site]:
            marks = {self.process.get(holder): wait.mark for holder, wait in waits.get(self._agent.get(process), {}).items()}
            gone = {other for other, mark in self._told[process].items() if mark != marks.get(other)}
            if gone:
                lines.append(' '.join(map(str, ['withdraw', process, *sorted(gone)])))
                self._leaving[process] |= {other for other in gone if self._home[other] != site}
                self._told[process] = {other: mark for other, mark in self._told[process].items() if other not in gone}
            if not self._told[process]:
                del self._told[process]
                self._declared.discard(process)
        self.counts['withdrawals'] += len(lines)
        return lines

    def _asks(self, site: int, waits: Waits) -> list[str]:
        """For all waits that are not told yet, the oldest first. Those that can't be asked yet are asked later."""
        lines = []
        for agent, holders in waits.items():
            if agent.server != site:
                continue
            asker, *numbers = [self._allot(member) for member in (agent, *holders)]
            marks = {number: wait.mark for number, wait in zip(numbers, holders.values()) if number is not None}
            if asker is None or len(marks) < len(holders):
                self.counts['waits told late: no process is free'] += 1
            elif new := marks.keys() - self._told.get(asker, {}).keys() - self._leaving.get(asker, set()):
                lines.append(' '.join(map(str, ['ask', asker, *sorted(new)])))
                self._told.setdefault(asker, {}).update({number: marks[number] for number in new})
                self._declared.discard(asker)
                self.told_at[agent] = time.time()
        self.counts['asks'] += len(lines)
        return lines

    def _give_back(self, waits: Waits) -> None:
        """Processes of agents that are in no wait any more."""
        used = waits.keys() | {holder for holders in waits.values() for holder in holders}
        waited_for = {other for others in (*self._told.values(), *self._leaving.values()) for other in others}
        self._busy = waited_for | self._told.keys() | {process for process, others in self._leaving.items() if others}
        for agent, process in list(self.process.items()):
            if agent not in used and process not in self._busy:
                del self.process[agent], self._agent[process]
                self.told_at.pop(agent, None)

    def _allot(self, agent: Agent) -> int | None:
        """The process of an agent, or None where none is free. One that still stands in a wait of before is none."""
        free = (each for each in self._rows[agent.server] if each not in self._agent and each not in self._busy)
        if agent not in self.process and (process := next(free, None)):
            self.process[agent], self._agent[process] = process, agent
        return self.process.get(agent)

    # ---- what the sites tell

    def _hear_all(self) -> bool:
        """Whether somebody was declared since the last time."""
        return any([self._with(site, self._hear) for site in list(self._clients)])

    def _hear(self, client: cmh.Site3) -> bool:
        found = False
        for what in client.happenings(0):
            if what.kind == 'free':
                self._leaving[what.numbers[0]].discard(what.numbers[1])
            elif what.kind == 'back':
                raise cmh.Ended('the connection ended')
            elif what.kind == 'declared':
                found = True
                self._declared.add(what.numbers[0])
        return found

    def wait(self, end: float) -> None:
        """Until somebody is declared, or this moment."""
        while not self._hear_all() and (left := end - time.monotonic()) > 0:
            select.select([client.owner for client in self._clients.values()], [], [], left)

    def deadlocked(self) -> list[Agent]:
        """The agents whose processes are declared. Whether a cycle is there now, their waits tell."""
        return [self._agent[process] for process in sorted(self._declared & self._told.keys()) if process in self._agent]

    def close(self) -> None:
        for client in self._clients.values():
            client.close()


def _take(client: cmh.Site3, lines: list[str]) -> bool:
    """Reads the answers to events that are sent, all of them before it raises a refusal."""
    for answer, line in [(client.receive(), line) for line in lines]:
        cmh.words_of(answer, line)
    return True
