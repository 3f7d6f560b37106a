"""Random transactions over all servers, and a log of what their clients saw.

Each transaction updates two or three rows, each at a server chosen by chance, thinks after each, and commits everywhere.
A client that meets an error rolls back everywhere, as each client of several servers must. The log is all that the judge
knows: it is written by the clients alone.
"""
from __future__ import annotations

import random
import threading
import time
from collections.abc import Callable, Collection
from dataclasses import dataclass, field
from typing import Any, NamedTuple

from servers import CLERK, Server, faults


@dataclass(frozen=True)
class Load:
    """What the clients do. The time to think after each row is at most so many seconds."""
    clients: int
    rows: int
    think: float
    timeout_ms: int = 0    # of a wait for a lock; none where 0


class Row(NamedTuple):
    server: int
    number: int


class Note(NamedTuple):
    """What a client notes of a row or of its transaction: `want`, `got`, `end` right before its commits or rollbacks, then
    `committed` or `aborted`, with the server's word for the fault."""
    at: float
    client: str
    what: str
    row: Row | None = None
    fault: str = ''


@dataclass
class Log:
    """All notes, until when they were taken, and how many clients had not come to an end by then."""
    seconds: float
    notes: list[Note] = field(default_factory=list)
    ended: float = 0.0
    hung: int = 0


class Client:
    """A client with a session at each server, one transaction after the other. Its name is that of its transactions."""

    def __init__(self, name: str, servers: list[Server], hear: Callable[[Note], None], timeout_ms: int = 0):
        self._name, self._hear, self._timeout_ms = name, hear, timeout_ms
        self._servers = {server.number: server for server in servers}
        self._sessions: dict[int, Any] = {}
        self._faults = faults()

    def transact(self, rows: Collection[Row], think: Callable[[], None] = lambda: None) -> bool:
        """Updates these rows, and thinks after each. Whether it committed everywhere; else it rolled back everywhere."""
        try:
            for row in rows:
                session = self._session(row.server)
                self._note('want', row)
                session.cursor().execute(
                    f'update {self._servers[row.server].account} set value = value + 1 where id = %s', (row.number,))
                self._note('got', row)
                think()
            self._note('end')
            for server in dict.fromkeys(row.server for row in rows):
                self._sessions[server].commit()
            self._note('committed')
            return True
        except self._faults as fault:
            self._note('end')
            self._roll_back()
            self._note('aborted', fault=_word(fault))
            return False

    def _note(self, what: str, row: Row | None = None, fault: str = '') -> None:
        self._hear(Note(time.time(), self._name, what, row, fault))

    def _session(self, server: int) -> Any:
        """The session at a server; a new one after one was lost."""
        if server not in self._sessions:
            self._sessions[server] = self._servers[server].connect(CLERK, f'gt:{self._name}', self._timeout_ms)
        return self._sessions[server]

    def _roll_back(self) -> None:
        """A session that can't roll back is lost, and its transaction with it."""
        for server, session in list(self._sessions.items()):
            try:
                session.rollback()
            except self._faults:
                del self._sessions[server]

    def close(self) -> None:
        for session in self._sessions.values():
            session.close()


def _word(fault: Exception) -> str:
    """A server's word for a fault, without what differs each time."""
    text = str(fault.args[-1] if fault.args else '').strip().splitlines() or ['connection lost']
    return 'connection lost' if any(word in text[0].lower() for word in ('connect', 'lost', 'server', 'closed')) else text[0]


class Workload:
    """Clients at work, each in a thread of its own. What they draw by chance is another thing for each number."""

    def __init__(self, servers: list[Server], load: Load, seconds: float, number: int = 1):
        self.log = Log(seconds)
        self._servers, self._load, self._end = servers, load, time.time() + seconds
        self._rows = [Row(server.number, row) for server in servers for row in range(1, load.rows + 1)]
        self._threads = [threading.Thread(target=self._work, args=(client, number), daemon=True)
                         for client in range(load.clients)]
        for thread in self._threads:
            thread.start()

    def _work(self, name: int, number: int) -> None:
        client = Client(str(name), self._servers, self.log.notes.append, self._load.timeout_ms)
        chance = random.Random(1000 * number + name)
        while time.time() < self._end:
            rows = dict.fromkeys(chance.choices(self._rows, k=chance.randint(2, 3)))
            if not client.transact(rows, lambda: time.sleep(chance.uniform(0.002, self._load.think))):
                time.sleep(chance.uniform(0, 0.05))
        client.close()

    def finish(self, patience: float) -> Log:
        """Waits for the clients' last transactions; who has not come to an end after `patience` seconds more, hangs."""
        for thread in self._threads:
            thread.join(max(0.0, self._end + patience - time.time()))
        self.log.ended = time.time()
        self.log.hung = sum(thread.is_alive() for thread in self._threads)
        return self.log
