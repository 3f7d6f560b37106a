"""PostgreSQL and MariaDB servers in a folder of their own: made, started, restarted, and taken down with the program that made
them. Both kinds are driven by the same words."""
from __future__ import annotations

import os
import pwd
import signal
import subprocess
import tempfile
import time
from collections.abc import Iterable, Iterator
from contextlib import ExitStack, closing, contextmanager, suppress
from pathlib import Path
from typing import Any

import ending
import needs
from ports import Port

OWNER = 'owner'      # who may do everything at a server
CLERK = 'clerk'      # the clients' role
WATCHER = 'watcher'  # the watcher's: it sees all sessions, and may cancel statements of others
PATIENCE = 60.0      # seconds that a start or a stop may take


def faults() -> tuple[type[Exception], ...]:
    """What the client libraries raise."""
    return tuple(needs.library(kind).Error for kind in needs.kinds())


class Server:
    """A server on 127.0.0.1, with data that are not kept. Of each kind there is `where` a role connects, in the words of the
    client library, and a session by `connect`: of a transaction's name, with so much patience for a lock."""
    kind, user, account, stops = '', '', 'account', (signal.SIGKILL,)

    def __init__(self, number: int, folder: Path):
        self.number, self.folder, self.log = number, folder / f'server-{number}', folder / f'server-{number}.log'
        self._process: subprocess.Popen | None = None
        self._port = Port()
        self.port = self._port.number
        self.folder.mkdir(0o700)
        os.chown(self.folder, self._owner().pw_uid, self._owner().pw_gid)
        words = self._words(*self._make_data())
        subprocess.run(words, check=True, stdout=subprocess.DEVNULL, timeout=PATIENCE, cwd='/')

    def _owner(self) -> pwd.struct_passwd:
        """Servers refuse to run as root: then their own user runs them, or nobody."""
        names = {user.pw_name: user for user in pwd.getpwall()}
        return (names.get(self.user) or names['nobody']) if os.geteuid() == 0 else pwd.getpwuid(os.geteuid())

    def _words(self, *words: str) -> list[str]:
        """A command that runs as that user, and ends when this program ends."""
        user = self._owner()
        become = [f'--reuid={user.pw_uid}', f'--regid={user.pw_gid}', '--clear-groups'] if os.geteuid() == 0 else []
        return ['setpriv', *become, '--pdeathsig', self.stops[0].name[3:], '--', *words]

    def start(self) -> None:
        """Starts the server as a child, and waits until it takes connections."""
        with open(self.log, 'ab') as log:
            self._process = subprocess.Popen(self._words(*self._command()), stdin=subprocess.DEVNULL, stdout=log,
                                             stderr=log, cwd='/', start_new_session=True)
        end = time.monotonic() + PATIENCE
        while True:
            try:
                return self.connect(OWNER).close()
            except faults():
                if self._process.poll() is not None or time.monotonic() > end:
                    raise RuntimeError(f'server {self.number} did not start: {self.log.read_text()[-500:]}') from None
            time.sleep(0.05)

    def stop(self) -> None:
        """A fast shutdown: sessions are ended and their transactions rolled back."""
        process, self._process = self._process, None
        for number in self.stops if process else ():
            with suppress(subprocess.TimeoutExpired):
                process.send_signal(number)
                process.wait(PATIENCE / 4)
                break

    def remove(self) -> None:
        self.stop()
        self._port.let_go()

    def execute(self, *statements: str) -> list[tuple]:
        """Runs statements as the owner; what the last one answers."""
        with closing(self.connect(OWNER)) as session, session.cursor() as cursor:
            for statement in statements:
                cursor.execute(statement)
            rows = list(cursor.fetchall()) if cursor.description else []
            session.commit()
            return rows


class PostgreSQL(Server):
    kind, user = 'postgresql', 'postgres'
    stops = signal.SIGINT, signal.SIGQUIT, signal.SIGKILL

    def _make_data(self) -> list[str]:
        return [str(needs.postgres_folder() / 'initdb'), '-D', str(self.folder), '-U', OWNER, '-A', 'trust', '-E', 'UTF8',
                '--no-locale', '--no-sync']

    def _command(self) -> list[str]:
        settings = {'listen_addresses': '127.0.0.1', 'port': self.port, 'unix_socket_directories': '', 'max_connections': 200,
                    'shared_buffers': '64MB', 'fsync': 'off', 'log_min_messages': 'warning'}
        words = [word for name, value in settings.items() for word in ('-c', f'{name}={value}')]
        return [str(needs.postgres_folder() / 'postgres'), '-D', str(self.folder), *words]

    def where(self, role: str) -> dict[str, Any]:
        return {'host': '127.0.0.1', 'port': self.port, 'dbname': 'postgres', 'user': role}

    def connect(self, role: str, name: str = '', timeout_ms: int = 0) -> Any:
        return needs.library('postgresql').connect(**self.where(role), application_name=name, connect_timeout=5,
                                                 options=f'-clock_timeout={timeout_ms}')

    def prepare(self) -> None:
        self.execute(f'create role {CLERK} login', f'create role {WATCHER} login in role pg_monitor, pg_signal_backend',
                     f'grant create on schema public to {CLERK}')

    def make_accounts(self, rows: int) -> None:
        """A table; a row has room for its next version on its page."""
        self.execute('drop table if exists account',
                     'create table account (id int primary key, value int not null) with (fillfactor = 20)',
                     f'insert into account select number, 0 from generate_series(1, {rows}) as number',
                     f'grant select, update on account to {CLERK}')


class MariaDB(Server):
    kind, user, account = 'mariadb', 'mysql', 'cmh.account'
    stops = signal.SIGTERM, signal.SIGKILL

    def _make_data(self) -> list[str]:
        return ['mariadb-install-db', '--no-defaults', f'--datadir={self.folder}', '--auth-root-authentication-method=normal',
                '--skip-test-db', '--skip-name-resolve', '--tmpdir=/tmp']

    def _command(self) -> list[str]:
        setup = self.folder / 'setup.sql'
        if not setup.exists():
            setup.write_text(f"create user if not exists {OWNER}@'127.0.0.1';\n"
                             f"grant all on *.* to {OWNER}@'127.0.0.1' with grant option;\n")
        return [needs.mariadb(), '--no-defaults', f'--datadir={self.folder}', f'--port={self.port}', '--bind-address=127.0.0.1',
                f'--socket={self.folder}/socket', f'--pid-file={self.folder}/pid', '--skip-name-resolve',
                f'--init-file={setup}', '--innodb-buffer-pool-size=32M', '--innodb-log-file-size=16M',
                '--innodb-flush-log-at-trx-commit=0', '--max-connections=200', '--tmpdir=/tmp']

    def where(self, role: str) -> dict[str, Any]:
        return {'host': '127.0.0.1', 'port': self.port, 'user': role}

    def connect(self, role: str, name: str = '', timeout_ms: int = 0) -> Any:
        session = needs.library('mariadb').connect(**self.where(role), connect_timeout=5)
        if name:
            session.cursor().execute('replace into cmh.sessions values (connection_id(), %s)', (name,))
        if timeout_ms:
            session.cursor().execute('set innodb_lock_wait_timeout = %s', (max(1, timeout_ms // 1000),))
        session.commit()
        return session

    def prepare(self) -> None:
        self.execute('create database cmh',
                     'create table cmh.sessions (id bigint unsigned primary key, name varchar(64) not null) engine = memory',
                     f"create user {CLERK}@'127.0.0.1'", f"create user {WATCHER}@'127.0.0.1'",
                     f"grant select, insert, update, delete on cmh.sessions to {CLERK}@'127.0.0.1'",
                     f"grant process, connection admin on *.* to {WATCHER}@'127.0.0.1'",
                     f"grant select, delete on cmh.sessions to {WATCHER}@'127.0.0.1'")

    def make_accounts(self, rows: int) -> None:
        self.execute('drop table if exists cmh.account',
                     'create table cmh.account (id int primary key, value int not null) engine = innodb',
                     'insert into cmh.account values ' + ', '.join(f'({number}, 0)' for number in range(1, rows + 1)),
                     f"grant select, update on cmh.account to {CLERK}@'127.0.0.1'")


KINDS: dict[str, type[Server]] = {kind.kind: kind for kind in (PostgreSQL, MariaDB)}


@contextmanager
def running_servers(kinds: Iterable[str]) -> Iterator[list[Server]]:
    """Servers of these kinds, with the roles of clients and watcher, for the time of a `with`."""
    with tempfile.TemporaryDirectory(prefix='cmh-databases-', ignore_cleanup_errors=True) as folder, ExitStack() as stack:
        Path(folder).chmod(0o711)     # the servers' users go through it
        servers = []
        for number, kind in enumerate(kinds, 1):
            servers.append(KINDS[kind](number, Path(folder)))
            stack.callback(servers[-1].remove)
            servers[-1].start()
            servers[-1].prepare()
        stack.callback(ending.no_more)
        yield servers
