"""Who waits for whom at a server, in words that all kinds of servers share, and the small interface that each kind has."""
from __future__ import annotations

from collections.abc import Hashable, Iterable
from types import ModuleType
from typing import Any, NamedTuple

import needs

NAME = 'cmh-watcher'   # the watcher's own sessions, which are no part of what it sees
PREFIX = 'gt:'         # begins the name of a transaction
ANSWER = 5             # seconds that a server may take to answer


class Session(NamedTuple):
    """A session, and what it does."""
    number: int
    idle: Hashable     # a mark that stays as long as it does nothing in its transaction; None where it works
    began: float       # its transaction, in seconds of this machine's clock
    statement: str     # its last one


class Wait(NamedTuple):
    """A session waits for another one, which has the lock or stands before it in its queue: for all such at once. Without a
    holder it is idle, and waits until its client is done elsewhere."""
    session: int
    holder: int | None
    mark: Hashable     # equal where it is the same wait
    since: float
    in_queue: bool = False   # of a row, and not yet for the row


class Picture(NamedTuple):
    """What stands at a server, and the moment after which it was seen."""
    taken: float
    waits: list[Wait]
    sessions: dict[int, Session]
    names: dict[int, str]    # of transactions, by session


class Unreachable(Exception):
    """The server does not answer; it is tried again later."""


class NotAllowed(Exception):
    """The watcher's role may not do this."""


class Server:
    """A server as the watcher sees it. A lost connection is made anew when the server is back."""
    kind = NAMES = ''
    slow = False       # whether a look has to wait for a new picture

    def __init__(self, connect: dict[str, Any], names: str = '', after: float = 0.1):
        """`names` is the query for the names of transactions by session, and `after` how old a wait is that is looked at."""
        self._where, self._names, self._after = connect, names or self.NAMES, after
        self._library: ModuleType = needs.library(self.kind)
        self._connection: Any = None

    def waits(self) -> Picture:
        """What stands."""

    def still(self, waits: Iterable[Wait]) -> bool:
        """Whether all these waits stand, after this call began."""

    def cancel(self, wait: Wait) -> bool:
        """Ends the statement that is in this wait, and no other; whether there was one."""

    def lacks(self) -> str:
        """Which rights the watcher's role lacks, in words."""

    def _connect(self) -> Any:
        """A connection, on which each statement is a transaction."""

    def _wait(self, connection: Any) -> None:
        """Until the answer is there, where the library does not."""

    def _is_denied(self, error: Exception) -> bool:
        """Whether a right is missing."""

    def _query(self, sql: str, *values: object) -> list[tuple]:
        try:
            if self._connection is None:
                self._connection = self._connect()
            with self._connection.cursor() as cursor:
                cursor.execute(sql, values or None)
                self._wait(self._connection)
                return list(cursor.fetchall()) if cursor.description else []
        except self._library.Error as error:
            if self._is_denied(error):
                raise NotAllowed(first_line(error)) from error
            self._connection = None     # its last reference closes it
            raise Unreachable(first_line(error)) from error

    def _named(self) -> dict[int, str]:
        return {session: name.removeprefix(PREFIX) for session, name in self._query(self._names) if name.startswith(PREFIX)}


def first_line(error: Exception) -> str:
    return (str(error).strip().splitlines() or ['no answer'])[0]
