"""A client of running sites of cmh, for Python 3.10 and later: `Site.run` starts a `cmh site` and speaks by its pipes,
`Site.at` connects to a site that serves TCP. `Site3.at` connects to one of edition 3, and again after it was started again.
All take the lines of docs/formats.md, from one thread at a time.
"""
from __future__ import annotations

import os
import socket
import time
from collections import deque
from collections.abc import Callable, Iterable, Iterator
from contextlib import suppress
from dataclasses import dataclass
from selectors import EVENT_READ, PollSelector
from subprocess import PIPE, Popen

REFUSALS = {1: 'unknown process', 2: 'not here', 3: 'bad targets', 4: 'blocked', 5: 'not blocked', 6: 'not owed',
            7: 'already declared', 8: 'unlawful', 9: 'sealed', 10: 'disk', 11: 'out of memory', 12: 'journal full',
            13: 'behind', 14: 'leaving', 15: 'already waits', 16: 'not waiting', 17: 'clock spent', 18: 'waits for its peers'}


class Ended(Exception):
    """The site, or the connection to it, has ended; the text is the fault that it named, if any."""


class Timeout(Ended):
    """No answer came within `patience` seconds. The site is given up, since a late answer would be taken for the next
    one: a child is killed, and a connection closed."""


class InDoubt(Ended):
    """An event has no answer: the connection ended before it, or it did not come in time. It may have taken place, or still do
    so. `became` asks its site."""
    def __init__(self, line: str, why: str):
        super().__init__(f'no answer to {line!r}: {why}')
        self.line = line


class BadLine(Exception):
    """The site takes no such line, or not any more; the text is its answer, and the line. `connect` is for a child;
    `waits`, `owed`, `status` and `watch` are for a service."""


class Refused(Exception):
    """The site refused the event, and nothing changed."""
    def __init__(self, number: int):
        super().__init__(f'refused {number}: {REFUSALS.get(number, "for another reason")}')
        self.number = number


class Site:
    """A running site, asked a line at a time, or by `send` and `receive` with many lines under way."""

    def __init__(self, owner: Popen | socket.socket, readable: int, writable: int, patience: float | None = None):
        self.owner, self._readable, self._writable = owner, readable, writable
        self.patience, self.fault = patience, ''    # how many seconds an answer may take; none: for ever
        self._rest = b''                     # what has come after the last whole line

    @classmethod
    def run(cls, topology: str, site: int, journal: str, program: str = 'cmh', *more: str) -> Site:
        """Starts `cmh site`, which ends with this program at the latest. Once all sites listen, `connect` each; those of edition
        3 connect by themselves, and the first start of one takes `--new` at the end."""
        words = [program, 'site', '--topology', topology, '--site', str(site), '--journal', journal, *more]
        child = Popen(words, bufsize=0, stdin=PIPE, stdout=PIPE, stderr=PIPE, start_new_session=True)
        running = cls(child, child.stdout.fileno(), child.stdin.fileno())
        running.receive()                    # `listening`; else Ended, with the site's fault
        return running

    @classmethod
    def at(cls, port: int, host: str = '127.0.0.1') -> Site:
        connection = socket.create_connection((host, port))
        connection.setsockopt(socket.IPPROTO_TCP, socket.TCP_NODELAY, 1)
        return cls(connection, connection.fileno(), connection.fileno())

    def send(self, *lines: str) -> None:
        """Sends lines ahead of their answers: to a child at most 256, lest both wait for full pipes."""
        data = ''.join(line + '\n' for line in lines).encode()
        with suppress(OSError):              # where the site has ended, `receive` tells it
            while data:
                data = data[os.write(self._writable, data):]

    def receive(self) -> str:
        """The next line of the site, once it is whole."""
        return self._next_line(self.patience)

    def _next_line(self, patience: float | None) -> str:
        end = None if patience is None else time.monotonic() + patience
        while b'\n' not in self._rest:
            piece = b''
            with suppress(OSError, ValueError), PollSelector() as ready:   # where it was reset, or has ended before
                ready.register(self._readable, EVENT_READ)
                if not ready.select(end and max(0.0, end - time.monotonic())):
                    self._give_back()
                    raise Timeout(f'no answer within {patience:g} seconds')
                piece = os.read(self._readable, 65536)
            if not piece:
                raise Ended(self._give_back())
            self._rest += piece
        line, self._rest = self._rest.split(b'\n', 1)
        return line.decode()

    def call(self, *words: object) -> str:
        """The answer to a line of these words."""
        self.send(' '.join(map(str, words)))
        return self.receive()

    def _words(self, *words: object) -> list[str]:
        """The words of the answer to a line; raises where it refuses the line."""
        line = ' '.join(map(str, words))
        return words_of(self.call(line), line)

    def connect(self) -> int:
        """How many links to other sites failed. A service connects by itself."""
        return int(self._words('connect')[3])

    def ask(self, asker: int, holders: Iterable[int]) -> int | None:
        """The asker waits for all holders from now on, who may come in any order; the answer is the process that this
        declared, if it did."""
        return declared_by(self._words('ask', asker, *targets(asker, holders)))

    def reply(self, holder: int, asker: int) -> int | None:
        """The holder grants what the asker asked for. Until the request has come to its site this is `Refused` 6."""
        return declared_by(self._words('reply', holder, asker))

    def start(self, process: int) -> int | None:
        """A computation starts for the process. In edition 2 each ask starts one by itself."""
        return declared_by(self._words('start', process))

    def waits(self, process: int) -> list[int]:
        """For whom the process waits. A service tells nobody when a wait ends: ask again."""
        return [int(word) for word in self._words('waits', process)[2:]]

    def owed(self, process: int) -> list[int]:
        """Whose requests the process has not answered."""
        return [int(word) for word in self._words('owed', process)[2:]]

    def declared(self) -> list[int]:
        """Whom the site declared so far, in their order in time."""
        return [int(word) for word in self._words('declared')[3:]]

    def links(self) -> dict[tuple[str, int], str]:
        """The state of each link: that of `('out', S)` to site S and of `('in', S)` from it, as `open` or `closed 5`."""
        self.send('links', 'declared')       # the answer to the second ends the lines of the first
        lines = []
        while not (line := self.receive()).startswith('site '):
            lines.append(line)
        return {(way, int(site)): ' '.join(state) for way, site, *state in map(words_of, lines)}

    def status(self) -> dict[str, int | bool]:
        """The figures of a service by their names: `entries`, `room`, `declared`, `clients`, `out`, `in`, `sealed`."""
        words = self._words('status')
        return {name: value == 'yes' if value in ('yes', 'no') else int(value) for name, value in zip(words[::2], words[1::2])}

    def declarations(self, pause: float = 0.01) -> Iterator[int]:
        """Each declaration once, those of before first. A service tells them as they come, and this connection is for
        nothing else from then on; a child is asked every `pause` seconds, and takes other calls between. The next one
        may be long in coming: for it `patience` is not the limit."""
        if isinstance(self.owner, socket.socket):
            self._words('watch')
            while True:
                yield int(self._next_line(None).split()[2])      # `! declared i`
        told = 0
        while True:
            for told, process in enumerate(self.declared()[told:], told + 1):
                yield process
            time.sleep(pause)

    def close(self) -> None:
        """Ends a child, with its journal whole; of a service it ends this connection alone."""
        with suppress(Ended):
            while self.call('quit'):             # first what was not read yet, then `stopped`, then its end
                pass

    def _give_back(self) -> str:
        """Gives back what the system keeps for this site, and answers why it ended."""
        self._readable = self._writable = -1     # the system may give these numbers to other files
        if isinstance(self.owner, socket.socket):
            self.owner.close()
            return 'the connection was closed'
        self.owner.kill()                        # one that is silent; another is at its end
        if not self.owner.stderr.closed:
            self.fault = self.owner.communicate()[1].decode().strip()
        return self.fault or f'ended with status {self.owner.returncode}'


@dataclass(frozen=True)
class Happening:
    """What a site of edition 3 tells by itself. `kind` says how to read the numbers:

    `declared` i n   i lay on a cycle at stop n      `active` j    j waits for nobody any more, by a reply
    `declared` i     the same, of before it watched
    `asked` k j      j has asked k, who may reply    `free` j k    j gave k up, and may ask it again
    `link` S         `way` is 'out' or 'in', `state` as in `links`
    `back`           the connection was lost and is there again: what happened meanwhile is not told, so look"""
    kind: str
    numbers: tuple[int, ...] = ()
    way: str = ''
    state: str = ''

    @classmethod
    def of(cls, line: str) -> Happening:
        """Of a line that begins with `! `."""
        _, kind, *words = line.split()
        if kind == 'link':
            return cls(kind, (int(words[1]),), words[0], ' '.join(words[2:]))
        return cls(kind, tuple(int(word) for word in words if word != 'at'))


class Site3(Site):
    """A site of edition 3 that serves. Where its connection ends it connects again, for `again` seconds, and a question is asked
    again. An event that has no answer is `InDoubt`; once that is raised, the next call connects again."""

    def __init__(self, port: int, host: str = '127.0.0.1', patience: float | None = None, again: float = 60.0):
        self._address, self.again = (host, port), again
        self._told: deque[Happening] = deque()
        self._watches = False
        connection = self._dial()
        super().__init__(connection, connection.fileno(), connection.fileno(), patience)

    @classmethod
    def at(cls, port: int, host: str = '127.0.0.1', patience: float | None = None, again: float = 60.0) -> Site3:
        return cls(port, host, patience, again)

    def _dial(self) -> socket.socket:
        connection = socket.create_connection(self._address, timeout=5)
        connection.settimeout(None)
        connection.setsockopt(socket.IPPROTO_TCP, socket.TCP_NODELAY, 1)
        return connection

    def receive(self) -> str:
        """The next answer. What the site tells by itself is kept for `happenings`."""
        while (line := super().receive()).startswith('! '):
            self._told.append(Happening.of(line))
        return line

    def connect_again(self) -> None:
        """A new connection, once the site is there."""
        end, pause = time.monotonic() + self.again, 0.02
        while True:
            try:
                self._rest, self.owner = b'', self._dial()
                self._readable = self._writable = self.owner.fileno()
                if self._watches:
                    Site.call(self, 'watch')
                    self._told.append(Happening('back'))
                return
            except (OSError, Ended) as why:
                if time.monotonic() + pause > end:
                    raise Ended(f'the site is not there again within {self.again:g} seconds ({why})') from None
            time.sleep(pause)
            pause = min(0.5, 2 * pause)

    def _again(self, call: Callable):
        """What a question answers, on a new connection where the old one ended. A timeout is the caller's."""
        while True:
            try:
                return call()
            except Timeout:
                raise
            except Ended:
                self.connect_again()

    def call(self, *words: object) -> str:
        """The answer to a line of these words."""
        line = ' '.join(map(str, words))
        if line.split()[:1] not in (['ask'], ['start'], ['reply'], ['withdraw']):
            return self._again(lambda: Site.call(self, line))
        if self._is_lost():
            self.connect_again()
        try:
            return Site.call(self, line)
        except Ended as why:
            raise InDoubt(line, str(why)) from None

    def _is_lost(self) -> bool:
        """Whether the connection has ended; what was told meanwhile is read."""
        with suppress(OSError, ValueError), PollSelector() as ready:
            ready.register(self._readable, EVENT_READ)
            while ready.select(0):
                piece = os.read(self._readable, 65536)
                if not piece:
                    return True
                self._rest += piece
            return False
        return True

    def became(self, line: str) -> bool | None:
        """Whether an event in doubt took place, as far as `waits`, `owed` and `leaving` tell; None where they don't. What did
        is among the last entries, which `tail` tells."""
        verb, process, *others = line.split()
        named = {int(word) for word in others}
        if verb == 'ask':                       # what isn't waited for may have been granted since
            return True if named <= set(self.waits(int(process))) else None
        if verb == 'reply':                     # where it is not owed any more, it was granted or given up
            return not named & set(self.owed(int(process)))
        if verb == 'withdraw':
            waits = set(self.waits(int(process)))
            if waits & named or (waits and not named):
                return False
            return True if named & set(self.leaving(int(process))) else None
        return None

    def tail(self, count: int) -> list[str]:
        """The last entries of the site's journal, at most 1,000, each with its number and in the words of `cmh show`. An event
        that was `Refused` 10, or is in doubt, is among them where it took place."""
        return self._again(lambda: self._tail(count))

    def _tail(self, count: int) -> list[str]:
        self.send(f'tail {count}')
        lines: list[str] = []
        while (line := self.receive()) != 'ok':
            if not line[:1].isdigit():
                words_of(line, f'tail {count}')
            lines.append(line)
        return lines

    def turn(self) -> int:
        """The site begins its next epoch, in a new file of its journal; the answer is the number of the epoch."""
        return int(self._words('turn')[2])

    def withdraw(self, process: int, holders: Iterable[int] = ()) -> None:
        """The process gives up its waits for these, or all of its waits."""
        self._words('withdraw', process, *sorted(set(holders)))

    def status(self) -> dict[str, int | bool]:
        """The figures of the site: `entries`, `declared`, `clients`, `out`, `in`, `kept` messages and `sealed`; where it is
        sealed by another site, which `site`, and by what `mismatch`."""
        return super().status()

    def leaving(self, process: int) -> list[int]:
        """Whom the process gave up, and can't ask again yet: `free` tells when."""
        return [int(word) for word in self._words('leaving', process)[2:]]

    def declared(self) -> list[int]:
        """Who is declared now, ascending."""
        return [int(word) for word in self._words('declared')[3:]]

    def links(self) -> dict[tuple[str, int], str]:
        """The state of each link, as `open` or `down 3`."""
        return self._again(super().links)

    def watch(self) -> None:
        """Has the site tell what happens from now on; the declarations of before come first."""
        if not self._watches:
            self._words('watch')
            self._watches = True

    def happenings(self, patience: float | None = None) -> Iterator[Happening]:
        """What happens, as it comes; other calls may stand between. Where nothing comes within `patience` seconds it ends,
        and may be called again."""
        self.watch()
        while True:
            if not self._told and not self._hear(patience):
                return
            yield self._told.popleft()

    def _hear(self, patience: float | None) -> bool:
        """Whether a line came in time, or a new connection."""
        try:
            if b'\n' not in self._rest:
                with PollSelector() as ready:
                    ready.register(self._readable, EVENT_READ)
                    if not ready.select(patience):
                        return False
            self._told.append(Happening.of(self._next_line(self.patience)))
        except (Ended, OSError, ValueError):
            self.connect_again()
        return True

    def close(self) -> None:
        """Ends this connection alone."""
        self._give_back()


def targets(asker: int, holders: Iterable[int]) -> list[int]:
    """Whom an ask names: ascending, each once. Nobody may ask nobody, or itself."""
    ascending = sorted(set(holders))
    if not ascending or asker in ascending:
        raise Refused(3)
    return ascending


def words_of(answer: str, line: str = '') -> list[str]:
    """The words of an answer; raises where it refuses the line."""
    match answer.split():
        case ['bad', 'line'] | ['late']:
            raise BadLine(f'{answer}: {line}')
        case ['refused', number]:
            raise Refused(int(number))
        case words:
            return words


def declared_by(words: list[str]) -> int | None:
    """`ok sent N`, and maybe ` declared I`."""
    return int(words[4]) if len(words) > 4 else None
