"""How the programs of this example end when they are told to."""
from __future__ import annotations

import signal
from types import FrameType


class Ended(SystemExit):
    """A signal came; what was started is taken down on the way out."""


def _end(number: int, _: FrameType | None) -> None:
    no_more()
    raise Ended(128 + number)


def no_more() -> None:
    """From now on signals are ignored, so that they don't disturb the taking down."""
    for each in (signal.SIGINT, signal.SIGTERM):
        signal.signal(each, signal.SIG_IGN)


def at_signals() -> None:
    """From now on Ctrl-C and SIGTERM raise `Ended`, also in a background that a shell protects from Ctrl-C."""
    for each in (signal.SIGINT, signal.SIGTERM):
        signal.signal(each, _end)
