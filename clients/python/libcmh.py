"""The proved core of cmh as a library, for Python 3.10 and later: `Site`, `Site3`, `got3`, `sent3`, `Reader` and `audit` over
include/cmh.h.

`scripts/library/build` makes the shared library. It is found where LIBCMH names it, else at out/library/libcmh.so, else
where the system looks for libraries. Nothing here reads a file, opens a socket or starts a thread. An object is used by
one thread at a time.

A number that fits into no number of a site, process or edition is refused as any other wrong one, by the library's code.
"""
from __future__ import annotations

import ctypes
import operator
import os
from collections.abc import Iterable, Mapping, Sequence
from ctypes import POINTER, byref, c_bool, c_char_p, c_size_t, c_uint8, c_uint16, c_uint32, c_uint64, c_void_p
from dataclasses import dataclass

CODES = {1: 'unknown process', 2: 'not here', 3: 'bad targets', 4: 'blocked', 5: 'not blocked', 6: 'not owed',
         7: 'already declared', 8: 'unlawful', 11: 'out of memory', 12: 'journal full', 14: 'leaving', 15: 'already waits',
         16: 'not waiting', 17: 'clock spent', 20: 'not an event or an entry',
         21: 'too short', 22: 'closed', 23: 'open already', 24: 'no such edition', 25: 'not the rows of a topology',
         26: 'an entry is prepared', 27: 'no entry is prepared', 28: 'not the number of a site', 29: 'no such frame',
         30: 'lengths that do not fit', 31: 'too many sites or processes', 32: 'a site has two rows',
         33: 'a process is named twice', 34: 'not the number of a site or a process', 41: 'bad hello', 42: 'bad frame',
         43: 'hello of another site', 50: 'not the number of a world', 51: 'not a segment', 52: 'a damaged journal',
         53: 'the journal of another site or world', 54: 'an unlawful entry', 67: 'more was got than sent',
         68: 'other messages were got'}
VERSION, HEADER_LEN, HELLO_LEN, FRAME_LEFT, ENTRY_MAX, PROCESSES_MAX = 0x00010000, 7, 6, 6, 20881, 64
WORLD_LEN, HEAD_LEN_3 = 16, 71
SONAME = f'libcmh.so.{VERSION >> 24}.{VERSION >> 16 & 0xFF}'
BAD_TARGETS, NOT_WAITING, SHORT, NO_SENDING, DAMAGED, UNLAWFUL_ENTRY = 3, 16, 21, 29, 52, 54


class Refused(Exception):
    """The library refused the call, and nothing changed; `code` is of include/cmh.h. `place` is where a journal is at fault:
    after code 52 the offset of the damage, and after 54 the number of the entry, from 1."""

    def __init__(self, code: int, place: int | None = None):
        super().__init__(f'code {code}: {CODES.get(code, "unknown")}' + ('' if place is None else f' at {place}'))
        self.code, self.place = code, place


def _fitting(number: int, most: int = 0xFFFF) -> int:
    """The number, or else 0, which the library refuses everywhere: ctypes would drop the upper bits of a larger one."""
    return number if 0 <= operator.index(number) <= most else 0


class _Byte(c_uint8):
    """An argument of one byte: an edition."""

    @classmethod
    def from_param(cls, number: int) -> c_uint8:
        return c_uint8(_fitting(number, 0xFF))


class _Word(c_uint16):
    """An argument of two bytes: a site or a process."""

    @classmethod
    def from_param(cls, number: int) -> c_uint16:
        return c_uint16(_fitting(number))


class _Handle(ctypes.Structure):
    _fields_ = [('is_open', c_bool), ('held', c_void_p)]


class _Sending(ctypes.Structure):
    _fields_ = [('to', c_uint16), ('offset', c_size_t), ('len', c_size_t)]


_BYTES, _WORDS, _COUNT, _HANDLE = POINTER(c_uint8), POINTER(c_uint16), POINTER(c_size_t), POINTER(_Handle)
_IN, _OUT = [c_char_p, c_size_t], [_BYTES, c_size_t]
_CALLS = {
    'cmh_site_new': [_HANDLE, _Byte, _WORDS, c_size_t, _Word],
    'cmh_site_new_json': [_HANDLE, *_IN, _Word],
    'cmh_site_header': [_HANDLE, *_OUT],
    'cmh_site_step': [_HANDLE, *_IN, *_OUT, _COUNT],
    'cmh_site_prepare': [_HANDLE, *_IN, *_OUT, _COUNT],
    'cmh_site_keep': [_HANDLE],
    'cmh_site_drop': [_HANDLE],
    'cmh_site_declared': [_HANDLE, _WORDS, c_size_t, _COUNT],
    'cmh_site_waits': [_HANDLE, _Word, _WORDS, c_size_t, _COUNT],
    'cmh_site_owed': [_HANDLE, _Word, _WORDS, c_size_t, _COUNT],
    'cmh_site3_new': [_HANDLE, *_IN, _WORDS, c_size_t, _Word],
    'cmh_site3_open': [_HANDLE, *_IN, _WORDS, c_size_t, _Word, *_IN, POINTER(c_uint64)],
    'cmh_site3_head': [_HANDLE, *_OUT],
    'cmh_site3_prepare': [_HANDLE, *_IN, *_OUT, _COUNT],
    'cmh_site3_keep': [_HANDLE],
    'cmh_site3_drop': [_HANDLE],
    'cmh_site3_declared': [_HANDLE, _WORDS, c_size_t, _COUNT],
    'cmh_site3_waits': [_HANDLE, _Word, _WORDS, c_size_t, _COUNT],
    'cmh_site3_owed': [_HANDLE, _Word, _WORDS, c_size_t, _COUNT],
    'cmh_site3_leaving': [_HANDLE, _Word, _WORDS, c_size_t, _COUNT],
    'cmh_entry3_sendings': [*_IN, POINTER(_Sending), c_size_t, _COUNT],
    'cmh_entry3_declared': [*_IN, _WORDS, POINTER(c_uint64)],
    'cmh_journal3_got': [*_IN, _Word, POINTER(c_uint64), POINTER(c_uint64)],
    'cmh_journal3_sent': [*_IN, _Word, c_uint64, c_uint64, *_OUT, _COUNT],
    'cmh_entry_sending': [_Byte, *_IN, c_size_t, POINTER(_Sending)],
    'cmh_entry_declared': [_Byte, *_IN, _WORDS],
    'cmh_reader_new': [_HANDLE, _Byte, _WORDS, c_size_t],
    'cmh_reader_feed': [_HANDLE, *_IN, *_OUT, _COUNT],
    'cmh_hello': [_Byte, _Word, *_OUT],
    'cmh_audit': [*_IN, *_IN, _COUNT, c_size_t, *_OUT, _COUNT, _BYTES],
}


def _load() -> ctypes.CDLL:
    beside = os.path.join(os.path.dirname(os.path.abspath(__file__)), '..', '..', 'out', 'library', 'libcmh.so')
    library = ctypes.CDLL(os.environ.get('LIBCMH') or (beside if os.path.exists(beside) else SONAME))
    for name, arguments in _CALLS.items():
        call = getattr(library, name)
        call.argtypes, call.restype = arguments, c_uint32
    library.cmh_version.argtypes, library.cmh_version.restype = [], c_uint32
    library.cmh_reader_sender.argtypes, library.cmh_reader_sender.restype = [_HANDLE], c_uint16
    library.cmh_site3_entry_max.argtypes, library.cmh_site3_entry_max.restype = [], c_size_t
    for name in ('cmh_site_free', 'cmh_site3_free', 'cmh_reader_free'):
        getattr(library, name).argtypes, getattr(library, name).restype = [_HANDLE], None
    if library.cmh_version() >> 16 != VERSION >> 16:
        raise ImportError(f'libcmh has version {library.cmh_version():#010x}, and this module is for {VERSION:#010x}')
    return library


_library = _load()


def _call(name: str, *arguments: object) -> None:
    code = getattr(_library, name)(*arguments)
    if code:
        raise Refused(code)


def _number(of: int) -> bytes:
    return _fitting(of).to_bytes(2, 'big')


def _words(words: Iterable[int]) -> tuple[ctypes.Array, int]:
    listed = [_fitting(word) for word in words]
    return (c_uint16 * max(len(listed), 1))(*listed), len(listed)


def _row(site: int, processes: Iterable[int]) -> list[int]:
    """A row of a topology, as words. No edition has a site of 65,535 processes, so a longer row is refused like this one."""
    named = list(processes)[:0xFFFF]
    return [site, len(named), *named]


def _rows(rows: Mapping[int, Sequence[int]]) -> tuple[ctypes.Array, int]:
    return _words(word for site, processes in rows.items() for word in _row(site, processes))


@dataclass(frozen=True)
class Entry:
    """What a site's journal holds next. It is appended and synced before its frames are sent."""
    bytes: bytes
    sendings: tuple[tuple[int, bytes], ...]     #: each frame to send, in this order: the site that it goes to, and its bytes
    declared: int | None                        #: the process that was declared deadlocked

    @classmethod
    def of(cls, edition: int, spelled: bytes) -> Entry:
        """Reads the bytes of one entry."""
        sendings, sending, declared = [], _Sending(), c_uint16()
        while not (code := _library.cmh_entry_sending(edition, spelled, len(spelled), len(sendings), byref(sending))):
            sendings.append((sending.to, spelled[sending.offset:sending.offset + sending.len]))
        if code != NO_SENDING:
            raise Refused(code)
        _call('cmh_entry_declared', edition, spelled, len(spelled), byref(declared))
        return cls(spelled, tuple(sendings), declared.value or None)


@dataclass(frozen=True)
class Entry3(Entry):
    """The same in edition 3. Its sendings are messages."""
    stamp: int | None                           #: of the stop at which the cycle of that process stood

    @classmethod
    def of(cls, spelled: bytes) -> Entry3:
        """Reads the bytes of one entry. Its mark is not looked at."""
        room = max(len(spelled) // 16, 1)
        sent, count, declared, stamp = (_Sending * room)(), c_size_t(), c_uint16(), c_uint64()
        _call('cmh_entry3_sendings', spelled, len(spelled), sent, room, byref(count))
        _call('cmh_entry3_declared', spelled, len(spelled), byref(declared), byref(stamp))
        sendings = tuple((each.to, spelled[each.offset:each.offset + each.len]) for each in sent[:count.value])
        return cls(spelled, sendings, declared.value or None, stamp.value or None)


class _Site:
    """What the sites of all editions have. The names of their calls begin with `_calls`."""

    def _begin(self, room: int) -> None:
        self._handle, self._out, self._count = _Handle(), (c_uint8 * room)(), c_size_t()

    def _head(self, call: str, length: int) -> bytes:
        _call(call, byref(self._handle), self._out, len(self._out))
        return bytes(self._out[:length])

    def step(self, event: bytes) -> Entry:
        """Takes an event, in the bytes of docs/formats.md."""
        return self._entry('step', event)

    def _named(self, kind: bytes, process: int, others: Iterable[int], nobody: int) -> Entry:
        """Takes an event of a process that names others, in any order."""
        ascending = sorted(set(others))
        if not ascending:
            raise Refused(nobody)
        if len(ascending) > 255 or process in ascending:
            raise Refused(BAD_TARGETS)
        return self.step(kind + _number(process) + bytes([len(ascending)]) + b''.join(map(_number, ascending)))

    def ask(self, asker: int, holders: Iterable[int]) -> Entry:
        """A process of this site asks for what these hold, in any order, and waits for all of them."""
        return self._named(b'\x01', asker, holders, BAD_TARGETS)

    def reply(self, holder: int, asker: int) -> Entry:
        """A process of this site grants what the asker asked for."""
        return self.step(b'\x02' + _number(holder) + _number(asker))

    def start(self, process: int) -> Entry:
        """A computation starts for a process of this site. In edition 2 each ask starts one by itself."""
        return self.step(b'\x03' + _number(process))

    def got(self, sender: int, frame: bytes) -> Entry:
        """A frame came from another site."""
        return self.step(b'\x04' + _number(sender) + frame)

    def prepare(self, event: bytes) -> Entry:
        """The first half of a step: then `keep` once the journal holds the entry, or `drop` where it can't."""
        return self._entry('prepare', event)

    def keep(self) -> None:
        _call(f'{self._calls}keep', byref(self._handle))

    def drop(self) -> None:
        """The site is as it was before the event."""
        _call(f'{self._calls}drop', byref(self._handle))

    def declared(self) -> list[int]:
        """The processes of this site that are declared deadlocked, ascending."""
        return self._processes('declared')

    def waits(self, process: int) -> list[int]:
        """The processes that a process of this site waits for, ascending."""
        return self._processes('waits', process)

    def owed(self, process: int) -> list[int]:
        """The processes whose requests a process of this site has not answered, ascending."""
        return self._processes('owed', process)

    def close(self) -> None:
        """Gives the memory back. An entry that is prepared is dropped."""
        getattr(_library, f'{self._calls}free')(byref(self._handle))

    def _entry(self, call: str, event: bytes) -> Entry:
        _call(self._calls + call, byref(self._handle), event, len(event), self._out, len(self._out), byref(self._count))
        return self._read(ctypes.string_at(self._out, self._count.value))

    def _processes(self, call: str, *process: int) -> list[int]:
        # No process waits for, owes or leaves more others than a world has.
        room = (c_uint16 * 4096)()
        _call(self._calls + call, byref(self._handle), *process, room, len(room), byref(self._count))
        return room[:self._count.value]

    def __enter__(self) -> _Site:
        return self

    def __exit__(self, *_: object) -> None:
        self.close()

    def __del__(self) -> None:
        if hasattr(self, '_handle'):
            self.close()


class Site(_Site):
    """The controller of one site, before its first step. A refused call raises `Refused`, and changes nothing."""
    _calls = 'cmh_site_'

    def __init__(self, edition: int, rows: Mapping[int, Sequence[int]], number: int):
        """Opens site `number` of the world in which each site of `rows` has these processes."""
        self._begin(ENTRY_MAX)
        _call('cmh_site_new', byref(self._handle), edition, *_rows(rows), number)
        self._edition = edition

    @classmethod
    def from_json(cls, topology: bytes, number: int) -> Site:
        """Opens site `number` of the world that the text of a topology file gives."""
        site = cls.__new__(cls)
        site._begin(ENTRY_MAX)
        _call('cmh_site_new_json', byref(site._handle), topology, len(topology), number)
        site._edition = site.header()[4]
        return site

    def header(self) -> bytes:
        """The bytes with which the journal begins."""
        return self._head('cmh_site_header', HEADER_LEN)

    def _read(self, spelled: bytes) -> Entry:
        return Entry.of(self._edition, spelled)


class Site3(_Site):
    """The controller of one site of edition 3, before its first step, or by `open` where its journal ends: a blocked process may
    ask for more, and a process may withdraw its waits, so a deadlock ends."""
    _calls = 'cmh_site3_'

    def __init__(self, world: bytes, rows: Mapping[int, Sequence[int]], number: int):
        """Opens site `number` of the world with this number, 16 bytes, in which each site of `rows` has these processes."""
        self._begin(4096)
        _call('cmh_site3_new', byref(self._handle), world, len(world), *_rows(rows), number)

    @classmethod
    def open(cls, world: bytes, rows: Mapping[int, Sequence[int]], number: int, journal: bytes) -> tuple[Site3, int]:
        """Opens the site on its journal, and tells how many of these bytes are the journal: cut the file there. Before anything is
        sent or told, write the last bytes of the journal once more over themselves, `entry_max()` of them or all, and sync."""
        site, place = cls.__new__(cls), c_uint64()
        site._begin(4096)
        code = _library.cmh_site3_open(byref(site._handle), world, len(world), *_rows(rows), number, journal, len(journal), byref(place))
        if code:
            raise Refused(code, place.value if code in (DAMAGED, UNLAWFUL_ENTRY) else None)
        return site, place.value

    def head(self) -> bytes:
        """The bytes with which the journal begins."""
        return self._head('cmh_site3_head', HEAD_LEN_3)

    def withdraw(self, process: int, holders: Iterable[int]) -> Entry3:
        """A process of this site gives up its waits for these, in any order."""
        return self._named(b'\x07', process, holders, NOT_WAITING)

    def leaving(self, process: int) -> list[int]:
        """The processes of other sites that a process of this site gave up, and can't ask again before their sites have
        answered, ascending."""
        return self._processes('leaving', process)

    def step(self, event: bytes) -> Entry3:
        """Takes an event, in the bytes of docs/formats.md: both halves of a step, since out of memory may also come once the
        entry is read."""
        entry = self.prepare(event)
        self.keep()
        return entry

    def _entry(self, call: str, event: bytes) -> Entry3:
        try:
            return super()._entry(call, event)
        except Refused as refused:
            if refused.code != SHORT:
                raise
        self._out = (c_uint8 * self._count.value)()
        return super()._entry(call, event)

    def _read(self, spelled: bytes) -> Entry3:
        try:
            return Entry3.of(spelled)
        except BaseException:
            self.drop()
            raise


def entry_max() -> int:
    """How many bytes the longest entry of edition 3 has."""
    return _library.cmh_site3_entry_max()


def got3(journal: bytes, sender: int) -> tuple[int, int]:
    """How many messages of this site a journal of edition 3 has got, and the mark of their bytes: tell both to that site when a
    connection is made."""
    count, mark = c_uint64(), c_uint64()
    _call('cmh_journal3_got', journal, len(journal), sender, byref(count), byref(mark))
    return count.value, mark.value


def sent3(journal: bytes, to: int, count: int, mark: int) -> bytes:
    """The messages that a journal of edition 3 sends to this site, but for the first `count`, which the site has got, as the mark
    confirms: write them to the connection, and then those of further entries."""
    room, len_ = 4096, c_size_t()
    while True:
        out = (c_uint8 * room)()
        code = _library.cmh_journal3_sent(journal, len(journal), to, count, mark, out, room, byref(len_))
        if code == SHORT:
            room = len_.value
        elif code:
            raise Refused(code)
        else:
            return bytes(out[:len_.value])


class Reader:
    """A reader of a link from one of these sites: its bytes may be cut anywhere."""

    def __init__(self, edition: int, senders: Iterable[int]):
        self._handle = _Handle()
        _call('cmh_reader_new', byref(self._handle), edition, *_words(senders))

    def feed(self, piece: bytes) -> list[bytes]:
        """The frames that are whole by the next piece of the stream, in their order. A fault raises `Refused` once the
        frames before it were given, and at each later call; after code 11 the piece may be fed again."""
        out, count = (c_uint8 * (len(piece) + FRAME_LEFT))(), c_size_t()
        _call('cmh_reader_feed', byref(self._handle), piece, len(piece), out, len(out), byref(count))
        frames, at, spelled = [], 0, bytes(out[:count.value])
        while at < len(spelled):
            end = at + (7 if spelled[at] == 3 else 5)
            frames.append(spelled[at:end])
            at = end
        return frames

    @property
    def sender(self) -> int | None:
        """The site whose hello was read, if one was."""
        return _library.cmh_reader_sender(byref(self._handle)) or None

    def close(self) -> None:
        """Gives the memory back."""
        _library.cmh_reader_free(byref(self._handle))

    def __enter__(self) -> Reader:
        return self

    def __exit__(self, *_: object) -> None:
        self.close()

    def __del__(self) -> None:
        if hasattr(self, '_handle'):
            self.close()


def hello(edition: int, site: int) -> bytes:
    """The bytes with which a link from the site begins."""
    out = (c_uint8 * HELLO_LEN)()
    _call('cmh_hello', edition, site, out, len(out))
    return bytes(out)


def audit(topology: bytes, journals: Sequence[bytes]) -> tuple[int, str]:
    """Whether the journals of all sites come from one run: the status and the lines of `cmh audit`. The status is 0 where
    they do, 1 where they don't, and 3 where a file is at fault."""
    files, lens = b''.join(journals), (c_size_t * max(len(journals), 1))(*map(len, journals))
    count, status, room = c_size_t(), c_uint8(), 4096
    while True:
        out = (c_uint8 * room)()
        code = _library.cmh_audit(topology, len(topology), files, len(files), lens, len(journals), out, room, byref(count),
                                  byref(status))
        if code == SHORT:
            room = count.value
        elif code:
            raise Refused(code)
        else:
            return status.value, bytes(out[:count.value]).decode()
