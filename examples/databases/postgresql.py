"""A PostgreSQL server: its waits, and the cancel of one."""
from __future__ import annotations

import select
import time
from collections.abc import Iterable
from typing import Any

from waits import ANSWER, NAME, Picture, Server, Session, Wait

# pg_blocking_pids stops the lock manager for a moment, so it is asked of old waits alone. In a row of pg_locks
# `waitstart` is empty for a moment after the wait began: such a wait is young.
WAITS = """
select pid, waitstart, extract(epoch from clock_timestamp() - waitstart)::float8, pg_blocking_pids(pid), locktype = 'tuple'
from pg_locks where not granted and waitstart < clock_timestamp() - make_interval(secs => %s)"""
SESSIONS = """
select pid, case when state = 'idle in transaction' then state_change end,
    coalesce(extract(epoch from clock_timestamp() - xact_start), 0)::float8, left(query, 200)
from pg_stat_activity where backend_type = 'client backend' and application_name <> %s"""
IN_LOCK = 'select %s = any(pg_blocking_pids(pid)) from pg_locks where pid = %s and not granted and waitstart = %s'
IDLE = "select state = 'idle in transaction' from pg_stat_activity where pid = %s and state_change = %s"
CANCEL = 'select pg_cancel_backend(pid) from pg_locks where pid = %s and not granted and waitstart = %s'
RIGHTS = "select pg_has_role('pg_read_all_stats', 'usage') and pg_has_role('pg_signal_backend', 'usage')"


class PostgreSQL(Server):
    """Its sessions are backends. The mark of a wait is when it began, that of an idle session when it became idle."""
    kind = 'postgresql'
    NAMES = "select pid, application_name from pg_stat_activity where application_name like 'gt:%'"

    def _connect(self) -> Any:
        connection = self._library.connect(**self._where, application_name=NAME, async_=True)
        self._wait(connection)
        return connection

    def _wait(self, connection: Any) -> None:
        """For an answer, but not for ever, as the library does of itself."""
        while (state := connection.poll()) != self._library.extensions.POLL_OK:
            reads, writes = ([connection], []) if state == self._library.extensions.POLL_READ else ([], [connection])
            if not any(select.select(reads, writes, [], ANSWER)):
                raise self._library.OperationalError(f'no answer within {ANSWER} seconds')

    def _is_denied(self, error: Exception) -> bool:
        return getattr(error, 'pgcode', None) == '42501'

    def lacks(self) -> str:
        return '' if self._query(RIGHTS)[0][0] else 'the roles pg_monitor and pg_signal_backend'

    def waits(self) -> Picture:
        taken = time.time()
        rows = self._query(WAITS, self._after)
        if not rows:
            return Picture(taken, [], {}, {})
        sessions = [Session(pid, idle and (pid, idle), taken - age, statement)
                    for pid, idle, age, statement in self._query(SESSIONS, NAME)]
        waits = [Wait(pid, blocker, (pid, start), taken - age, in_queue)
                 for pid, start, age, blockers, in_queue in rows for blocker in blockers]
        return Picture(taken, waits, {session.number: session for session in sessions}, self._named())

    def still(self, waits: Iterable[Wait]) -> bool:
        return all(self._stands(wait) for wait in waits)

    def _stands(self, wait: Wait) -> bool:
        rows = self._query(IDLE, *wait.mark) if wait.holder is None else self._query(IN_LOCK, wait.holder, *wait.mark)
        return any(row[0] for row in rows)

    def cancel(self, wait: Wait) -> bool:
        return any(row[0] for row in self._query(CANCEL, *wait.mark))
