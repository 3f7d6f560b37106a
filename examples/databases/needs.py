"""What the example needs beside Python: PostgreSQL or MariaDB, or both, their client libraries, and the program cmh."""
from __future__ import annotations

import importlib
import os
import shutil
import sys
from collections.abc import Callable
from contextlib import suppress
from pathlib import Path
from types import ModuleType

TOP = Path(__file__).resolve().parents[2]
LEFT_OUT = 77  # the exit status where something is missing, by the custom of test programs
LIBRARIES = {'postgresql': 'psycopg2', 'mariadb': 'pymysql'}

sys.path.append(str(TOP / 'clients' / 'python'))


class Missing(Exception):
    """Something that the example needs, and how to get it."""


def postgres_folder() -> Path:
    """The folder of the newest PostgreSQL's programs. Debian keeps them off the PATH."""
    installed = Path('/usr/lib/postgresql').glob('*/bin/initdb')
    newest = max(installed, key=lambda path: int(path.parts[-3]), default=None)
    if newest is None and (found := shutil.which('initdb')):
        newest = Path(found).resolve()
    if newest is None:
        raise Missing('PostgreSQL (apt-get install postgresql)')
    return newest.parent


def mariadb() -> str:
    """The server's program. Debian keeps it off the PATH of users."""
    found = shutil.which('mariadbd', path=os.environ.get('PATH', '') + ':/usr/sbin:/usr/local/sbin')
    if found is None or shutil.which('mariadb-install-db') is None:
        raise Missing('MariaDB (apt-get install mariadb-server)')
    return found


def library(kind: str) -> ModuleType:
    """The client library of a kind of servers."""
    try:
        return importlib.import_module(LIBRARIES[kind])
    except ImportError:
        raise Missing(f'{LIBRARIES[kind]} for /usr/bin/python3 (apt-get install python3-{LIBRARIES[kind]})') from None


def program() -> str:
    """cmh: what CMH names, else the proved program of this repository, else the one on the PATH."""
    built = TOP / 'crates' / 'cmh' / 'out' / 'cmh'
    path = os.environ.get('CMH') or (str(built) if built.exists() else shutil.which('cmh'))
    if path is None:
        raise Missing('the program cmh (cd crates/cmh && rt run < stdin, or CMH=its path)')
    return path


def kinds() -> list[str]:
    """The kinds of servers that can be started and watched here."""
    there = []
    for kind, server in (('postgresql', postgres_folder), ('mariadb', mariadb)):
        with suppress(Missing):
            server()
            library(kind)
            there.append(kind)
    return there


def a_server() -> None:
    """At least one kind of servers."""
    if not kinds():
        raise Missing('postgresql and python3-psycopg2, or mariadb-server and python3-pymysql, or all four (apt-get install)')


def or_leave(*needed: Callable[[], object]) -> None:
    """Ends the program with `left out` and what is missing of these."""
    missing = []
    for need in needed:
        try:
            need()
        except Missing as reason:
            missing.append(str(reason))
    if missing:
        print('left out: needs ' + '; '.join(missing))
        raise SystemExit(LEFT_OUT)
