"""A MariaDB server: the waits of InnoDB, and the cancel of one."""
from __future__ import annotations

import itertools
import time
from collections.abc import Iterable
from typing import Any

from waits import ANSWER, Picture, Server, Session, Unreachable, Wait

# InnoDB keeps one picture of these tables for all who read them, and makes another only where nobody has read them for 0.1
# seconds. The watcher's own transaction is in the picture, with its statement and so with the number there: this tells
# whether the picture was made for it.
PAUSE = 0.105
WAITS = """
select /* picture {} */ t.trx_mysql_thread_id, t.trx_requested_lock_id, t.trx_wait_started,
    timestampdiff(second, t.trx_started, now()), t.trx_query, h.trx_mysql_thread_id
from information_schema.innodb_trx as t left join information_schema.innodb_lock_waits on requesting_trx_id = t.trx_id
left join information_schema.innodb_trx as h on h.trx_id = blocking_trx_id"""
SESSIONS = 'select id, query_id, command, time_ms, info, connection_id() from information_schema.processlist'
DENIED = {1044, 1045, 1095, 1142, 1227}
GONE = {1094, 1957}     # no such session, no such statement


class MariaDB(Server):
    """Its sessions are connections. A statement has a number that never comes again, which is in each mark."""
    kind, slow = 'mariadb', True
    NAMES = 'select id, name from cmh.sessions'

    def __init__(self, *words: Any, **names: Any):
        super().__init__(*words, **names)
        self._numbers = itertools.count(1)
        self._due, self._last = 0.0, Picture(0.0, [], {}, {})

    def _connect(self) -> Any:
        connection = self._library.connect(**self._where, connect_timeout=2, read_timeout=ANSWER, write_timeout=ANSWER)
        connection.autocommit(True)
        return connection

    def _is_denied(self, error: Exception) -> bool:
        return error.args[:1] and error.args[0] in DENIED

    def lacks(self) -> str:
        grants = ' '.join(row[0].upper() for row in self._query('show grants'))
        wanted = [right for right in ('PROCESS', 'CONNECTION ADMIN') if right not in grants]
        return '' if 'ALL PRIVILEGES ON *.*' in grants else ' and '.join(wanted)

    def waits(self) -> Picture:
        if time.monotonic() >= self._due:
            self._last = self._take()
        return self._last

    def _take(self) -> Picture:
        """A picture that was made after this call began."""
        for _ in range(5):
            time.sleep(max(0.0, self._due - time.monotonic()))
            taken, name = time.time(), f'/* picture {next(self._numbers)} */'
            self._query('start transaction with consistent snapshot')
            rows = self._query(WAITS.replace('/* picture {} */', name))
            self._due = time.monotonic() + PAUSE
            self._query('rollback')
            if any(name in (row[4] or '') for row in rows):
                return self._seen(taken, rows)
        raise Unreachable('somebody else reads information_schema.innodb_trx every 0.1 seconds, so no new picture comes')

    def _seen(self, taken: float, rows: list[tuple]) -> Picture:
        listed = {row[0]: row for row in self._query(SESSIONS)}
        sessions, waits = {}, []
        for number, lock, start, age, _, holder in rows:
            if number not in listed or number == listed[number][5]:
                continue
            _, statement, command, ms, text, _ = listed[number]
            idle = (number, statement) if command == 'Sleep' else None
            sessions[number] = Session(number, idle, taken - age, (text or '')[:200])
            if holder is not None:
                waits.append(Wait(number, holder, (number, statement, lock, start), taken - float(ms) / 1000))
        return Picture(taken, waits, sessions, self._named() if waits else {})

    def still(self, waits: Iterable[Wait]) -> bool:
        self._last = picture = self._take()
        locks = {(wait.holder, wait.mark) for wait in picture.waits}
        idle = {(None, session.idle) for session in picture.sessions.values()}
        return {(wait.holder, wait.mark) for wait in waits} <= locks | idle

    def cancel(self, wait: Wait) -> bool:
        try:
            self._query('kill query id %s', wait.mark[1])
        except Unreachable as reason:
            if getattr(reason.__cause__, 'args', (0,))[0] in GONE:
                return False
            raise
        return True
