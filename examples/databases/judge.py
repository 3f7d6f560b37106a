"""Judges what ended transactions by the clients' own log, and by nothing that the watcher or a server says.

By the log a transaction holds a row from `got` to `end`, and waits from `want` to `got` or `end` for whoever holds the row.
So each waits for at most one, and a cycle begins with the `want` that closes it, and is over with the first `end` on it.
"""
from __future__ import annotations

from bisect import bisect_right
from collections import Counter, defaultdict
from collections.abc import Iterable, Iterator
from dataclasses import dataclass, field, fields
from statistics import median
from typing import Any, NamedTuple

import graph
from workload import Log, Note, Row
from world import Audit

LONGEST = 15.0   # seconds that a cycle may last, also where the machine has much else to do, and nothing dies meanwhile
NOTICED = 0.05   # seconds that may pass from the end of a wait to the client's note of it
STEPS = 'to the last ask', 'to the declaration', 'to the cancel'   # from the last wait of a cycle on


@dataclass
class Cycle:
    """Clients that waited for each other, and when."""
    members: frozenset[str]
    began: float
    ended: float = float('inf')


@dataclass
class History:
    """Who held and wanted what, as the notes go on."""
    wants: dict[str, Row] = field(default_factory=dict)
    holder: dict[Row, str] = field(default_factory=dict)
    cycles: list[Cycle] = field(default_factory=list)
    _open: dict[str, Cycle] = field(default_factory=dict)

    def take(self, note: Note) -> None:
        if note.what == 'want' and note.row:
            self.wants[note.client] = note.row
            self._look_for_cycle(note)
        elif note.what == 'got' and note.row:
            self.wants.pop(note.client, None)
            self.holder[note.row] = note.client
        elif note.what == 'end':
            self._end(note)

    def waits_for(self, client: str) -> str | None:
        row = self.wants.get(client)
        return None if row is None else self.holder.get(row)

    def cycle_through(self, client: str) -> list[str] | None:
        path, seen = [client], {client}
        while (following := self.waits_for(path[-1])) is not None:
            if following == client:
                return path
            if following in seen:
                return None
            path.append(following)
            seen.add(following)
        return None

    def _look_for_cycle(self, note: Note) -> None:
        members = self.cycle_through(note.client)
        if members:
            cycle = Cycle(frozenset(members), note.at)
            self.cycles.append(cycle)
            self._open.update(dict.fromkeys(members, cycle))

    def _end(self, note: Note) -> None:
        self.wants.pop(note.client, None)
        for row in [row for row, holder in self.holder.items() if holder == note.client]:
            del self.holder[row]
        if cycle := self._open.get(note.client):
            cycle.ended = note.at
            for member in cycle.members:
                self._open.pop(member, None)


@dataclass
class Use:
    """A row in a client's transaction. The client waited for it at most from `wanted` to `waited`, and had a lock or a place
    in its queue at most from `wanted` to `released`: the server granted and released it between two notes."""
    row: Row
    wanted: float
    waited: float = float('inf')
    released: float = float('inf')


def _uses(notes: list[Note]) -> dict[str, list[Use]]:
    """The uses of each client, in their order."""
    uses: dict[str, list[Use]] = defaultdict(list)
    current: dict[str, list[Use]] = defaultdict(list)   # of the transaction that the client is in
    for note in notes:
        if note.what == 'want' and note.row:
            current[note.client].append(Use(note.row, note.at))
            uses[note.client].append(current[note.client][-1])
            continue
        for use in current[note.client]:
            if note.what in ('got', 'end'):
                use.waited = min(use.waited, note.at)
            elif note.what in ('committed', 'aborted'):
                use.released = note.at
        if note.what in ('committed', 'aborted'):
            current.pop(note.client, None)
    return uses


@dataclass
class Verdict:
    """What the judge found. `faults` says what must not be; nothing else does. Two of them are added field by field."""
    seconds: float = 0.0
    commits: int = 0
    aborts: Counter[str] = field(default_factory=Counter)       # by the server's word
    on_a_cycle: Counter[str] = field(default_factory=Counter)   # of these, those whose transaction lay on a cycle when its wait
                                                                # was ended, or just before
    hung: int = 0                 # clients that never came to an end
    cycle_seconds: list[float] = field(default_factory=list)    # how long each cycle lasted
    lock_ms: list[float] = field(default_factory=list)          # how long each lock took
    steps_ms: list[tuple[float, ...]] = field(default_factory=list)   # of each cancel: how long each of STEPS took
    cancels: int = 0
    phantoms: int = 0             # of these
    dropped: int = 0
    declarations: int = 0
    mixtures: int = 0             # of these, those whose waits were there one after the other, and not at one moment
    disturbed: Counter[str] = field(default_factory=Counter)    # what went wrong meanwhile
    audits: list[Audit] = field(default_factory=list)
    faults: list[str] = field(default_factory=list)

    def __add__(self, other: Verdict) -> Verdict:
        return Verdict(*(getattr(self, each.name) + getattr(other, each.name) for each in fields(self)))


def judge(log: Log, records: list[dict[str, Any]] | None = None, audit: Audit | None = None,
          cycles_must_end: bool = True, longest: float = LONGEST) -> Verdict:
    """The verdict over a workload, what the watcher wrote into its log, if one worked, and the audit of all journals. Where
    nobody breaks cycles, they may last."""
    notes = sorted(log.notes, key=lambda note: note.at)
    history = History()
    for note in notes:
        history.take(note)
    verdict = _of_the_workload(log, notes, history.cycles)
    if cycles_must_end:
        if log.hung:
            verdict.faults.append(f'{log.hung} transactions hang')
        verdict.faults += [f'a cycle lasted {seconds:.1f} s' for seconds in verdict.cycle_seconds if seconds > longest]
    if records is not None:
        _judge_cancels(verdict, notes, history.cycles, records)
        _judge_declarations(verdict, notes, history.cycles, records)
    if audit:
        verdict.audits.append(audit)
        verdict.faults += [] if audit.accepted else [f'the journals are not accepted: {audit.text}']
    return verdict


def _of_the_workload(log: Log, notes: list[Note], cycles: list[Cycle]) -> Verdict:
    return Verdict(
        seconds=log.seconds,
        commits=sum(note.what == 'committed' for note in notes),
        aborts=Counter(note.fault for note in notes if note.what == 'aborted'),
        on_a_cycle=Counter(_aborted_on_cycles(notes, cycles)),
        hung=log.hung,
        cycle_seconds=[min(cycle.ended, log.ended) - cycle.began for cycle in cycles],
        lock_ms=_lock_times(notes))


def _aborted_on_cycles(notes: list[Note], cycles: list[Cycle]) -> Iterator[str]:
    """Each abort of a transaction that lay on a cycle until it ended, or until so shortly before that whoever ended its wait
    could not know: by the server's word."""
    of_client = _by_client(cycles)
    ends: dict[str, float] = {}
    for note in notes:
        if note.what == 'end':
            ends[note.client] = note.at
        elif note.what == 'aborted':
            end = ends[note.client]
            if any(cycle.began <= end <= cycle.ended + NOTICED for cycle in of_client[note.client]):
                yield note.fault


def _by_client(cycles: list[Cycle]) -> dict[str, list[Cycle]]:
    of_client: dict[str, list[Cycle]] = defaultdict(list)
    for cycle in cycles:
        for member in cycle.members:
            of_client[member].append(cycle)
    return of_client


def _histories_at(notes: list[Note], moments: list[float]) -> Iterator[History]:
    """The history at each of these moments, which ascend. It goes on, so look at each before the next."""
    history = History()
    times = [note.at for note in notes]
    done = 0
    for moment in moments:
        until = bisect_right(times, moment)
        for note in notes[done:until]:
            history.take(note)
        done = until
        yield history


def _lock_times(notes: list[Note]) -> list[float]:
    """How long each lock took, in ms."""
    wanted: dict[str, float] = {}
    times = []
    for note in notes:
        if note.what == 'want':
            wanted[note.client] = note.at
        elif note.what in ('got', 'end') and note.client in wanted:
            times.append(1000 * (note.at - wanted.pop(note.client)))
    return times


class Spread(NamedTuple):
    """Of times in ms."""
    median: float
    p95: float
    most: float

    def __str__(self) -> str:
        return f'median {self.median:.1f}, p95 {self.p95:.0f}, at most {self.most:.0f} ms'


def spread(times: Iterable[float]) -> Spread:
    """Of no times it is zero."""
    ordered = sorted(times) or [0.0]
    return Spread(median(ordered), ordered[(len(ordered) - 1) * 95 // 100], ordered[-1])


def _client(agent: list[Any]) -> str | None:
    """The client of an agent as the watcher's log names it, [server, name]; of a session without a name nobody."""
    return None if agent[1].startswith('#') else agent[1]


def _judge_cancels(verdict: Verdict, notes: list[Note], cycles: list[Cycle], records: list[dict[str, Any]]) -> None:
    """Each cancel, at the moment between the two looks: its victim lay on a cycle, else it is a phantom."""
    of_client = _by_client(cycles)
    cancels = sorted((record for record in records if record['what'] == 'cancelled'), key=lambda record: record['between'])
    verdict.cancels = len(cancels)
    verdict.dropped = sum(record['what'] == 'dropped' for record in records)
    verdict.steps_ms = [(1000 * (record['told'] - cycle.began), 1000 * (record['declared'] - record['told']),
                         1000 * (record['done'] - record['declared'])) for record in cancels
                        for cycle in of_client.get(_client(record['victim']), [])
                        if cycle.began <= record['between'] <= cycle.ended]
    histories = _histories_at(notes, [record['between'] for record in cancels])
    for record, history in zip(cancels, histories):
        victim = _client(record['victim'])
        if victim is not None and history.cycle_through(victim):
            continue
        members = [member for agent in record['cycle'] if (member := _client(agent)) is not None]
        bystander = any(history.cycle_through(member) for member in members)    # another agent of its declaration was on one
        verdict.phantoms += not bystander
        verdict.faults.append(f'a {"bystander" if bystander else "phantom"} was cancelled: {record}')


def _judge_declarations(verdict: Verdict, notes: list[Note], cycles: list[Cycle], records: list[dict[str, Any]]) -> None:
    """Each declaration, by the look at the servers that it rests on, however much later the sites declared it: the clients
    were in each wait of its cycle during that look. The look takes one server after the other, so these waits need not have
    been there at one moment. That is no fault: the two looks before a cancel drop such a mixture."""
    uses, of_client = _uses(notes), _by_client(cycles)
    for record in records:
        if record['what'] != 'declared':
            continue
        verdict.declarations += 1
        began, ended = record['look']
        if not all(_was_there(uses, agent, holder, began, ended) for agent, holder in graph.edges(record['cycle'])):
            verdict.faults.append(f'a declaration of waits that were not there: {record}')
        clients = [client for agent in record['cycle'] if (client := _client(agent)) is not None]
        if not any(cycle.began <= ended and began <= cycle.ended for client in clients for cycle in of_client[client]):
            verdict.mixtures += 1


def _was_there(uses: dict[str, list[Use]], agent: list[Any], holder: list[Any], began: float, ended: float) -> bool:
    """Whether an agent may have waited for another between two moments, by the clients: for a row that the other had or
    wanted too; or for its own transaction, which waited at the other's server."""
    waiter, other = _client(agent), _client(holder)
    if waiter is None or other is None:
        return False
    wanted = {use.row for use in uses[waiter] if use.row.server == holder[0] and use.wanted <= ended and began <= use.waited}
    if waiter == other:
        return bool(wanted)
    return agent[0] == holder[0] and any(
        use.row in wanted and use.wanted <= ended and began <= use.released for use in uses[other])
