"""What the two ends of a link of edition 3 say, as bytes, by docs/formats.md; and a script at an end of such a link.

Messages, marks and numbers are spelled by scripts/model3, which shares nothing with the program.
"""
import os
import socket
import struct
import sys

sys.path.insert(0, os.path.join(os.path.dirname(os.path.abspath(__file__)), '..', 'model3'))

from files import Bytes, message_of
from journals import mark_of, message, number
from model import Frame

NAME = b'CMH\x03'
EMPTY_MARK = mark_of(b'')
HELLO, ANSWER, REFUSAL, ACKNOWLEDGEMENT, NOTE, MISMATCH = 28, 44, 5, 13, 5, 2
PROBE = 23
LENGTHS = {0: MISMATCH, 1: 13, 2: 13, 3: PROBE, 4: 13, 5: NOTE}
OTHER_EDITION, OTHER_WORLD, NOT_HERE, NO_SENDER, CLOSED, STOPPED, SENDER_LACKS, OTHER_HISTORY, RECEIVER_LACKS = range(1, 10)


class Bad(Exception):
    """These bytes are none that the other end may say."""


class Gone(Exception):
    """The other end has closed, or reset, the connection."""


# ---- what is said

def hello(world, source, to, epoch=0):
    return NAME + world + number(source) + number(to) + number(epoch, 4)


def answer(world, source, to, count, mark, epoch=0):
    return hello(world, source, to, epoch) + number(count, 8) + number(mark, 8)


def refusal(reason):
    return b'CMH\x00' + bytes([reason])


def acknowledgement(count, epoch=0):
    return b'\x06' + number(count, 8) + number(epoch, 4)


def note(epoch=0):
    return b'\x05' + number(epoch, 4)


def mismatch(reason):
    return bytes([0, reason])


def frame(kind, *numbers, clock):
    """The bytes of a message, as `frame('request', 1, 2, clock=3)`."""
    return message(Frame(kind, numbers, clock))


# ---- what is heard

def read_hello(data):
    """The world, the sites and the epoch of 28 bytes; or the number of the refusal that they deserve."""
    if data[:4] != NAME:
        raise Bad('another edition')
    source, to, epoch = struct.unpack('>HHI', data[20:28])
    return data[4:20], source, to, epoch


def read_answer(data):
    """The count and the mark, by the world and the sites that are expected; or the number of a refusal."""
    world, source, to, epoch = read_hello(data[:HELLO])
    count, mark = struct.unpack('>QQ', data[HELLO:ANSWER])
    return world, source, to, epoch, count, mark


def item_in(data, at=0):
    """What a sender says at a place: 'message' with its frame, 'note' with the epoch or 'mismatch' with the number, and its
    length; or None where it isn't all there."""
    if len(data) <= at:
        return None
    length = LENGTHS.get(data[at])
    if length is None:
        raise Bad('a first byte %d' % data[at])
    if len(data) < at + length:
        return None
    piece = bytes(data[at:at + length])
    if piece[0] == 0:
        return ('mismatch', piece[1]), length
    if piece[0] == 5:
        return ('note', int.from_bytes(piece[1:], 'big')), length
    return ('message', message_of(Bytes(piece))), length


# ---- a script at an end

class End:
    """A connection of a script with a site, at either end of a link."""

    def __init__(self, peer, patience=10.0):
        self.peer, self.kept = peer, b''
        peer.settimeout(patience)
        peer.setsockopt(socket.IPPROTO_TCP, socket.TCP_NODELAY, 1)

    @classmethod
    def dial(cls, port, patience=10.0):
        return cls(socket.create_connection(('127.0.0.1', port), timeout=patience), patience)

    def say(self, *pieces):
        try:
            self.peer.sendall(b''.join(pieces))
        except (BrokenPipeError, ConnectionResetError):
            raise Gone() from None

    def hear(self, count):
        """So many bytes."""
        while len(self.kept) < count:
            try:
                piece = self.peer.recv(65536)
            except ConnectionResetError:
                piece = b''
            if not piece:
                raise Gone()
            self.kept += piece
        piece, self.kept = self.kept[:count], self.kept[count:]
        return piece

    def hear_answer(self):
        """The epoch, the count and the mark of an answer, or the number of a refusal alone."""
        first = self.hear(REFUSAL)
        if first[:4] == b'CMH\x00':
            return first[4]
        return read_answer(first + self.hear(ANSWER - REFUSAL))[3:]

    def hear_acknowledgement(self):
        data = self.hear(ACKNOWLEDGEMENT)
        if data[0] != 6:
            raise Bad('%r in the place of an acknowledgement' % data)
        return int.from_bytes(data[1:9], 'big')

    def hear_acknowledged(self, count):
        """Acknowledgements up to this count; whether none was greater."""
        while (heard := self.hear_acknowledgement()) < count:
            pass
        return heard == count

    def hear_item(self):
        """The next of what a sender says."""
        while (found := item_in(self.kept)) is None:
            whole = self.hear(len(self.kept) + 1)
            self.kept = whole + self.kept
        what, length = found
        self.kept = self.kept[length:]
        return what

    def hear_message(self):
        """The next message; notes are passed over."""
        while (what := self.hear_item())[0] == 'note':
            pass
        if what[0] != 'message':
            raise Bad('refusal %d in the place of a message' % what[1])
        return what[1]

    def is_closed(self):
        """Whether the other end closes, whatever it says before."""
        try:
            while self.peer.recv(65536):
                pass
        except ConnectionResetError:
            pass
        except TimeoutError:
            return False
        return True

    def reset(self):
        self.peer.setsockopt(socket.SOL_SOCKET, socket.SO_LINGER, struct.pack('ii', 1, 0))
        self.peer.close()

    def close(self):
        self.peer.close()
