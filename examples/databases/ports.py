"""Free ports, below those that the system gives to outgoing connections."""
from __future__ import annotations

import random
import socket

PORTS = range(22000, 32000)


class Port:
    """A free TCP port. Until `let_go` the same number is held as a UDP port, so that no other run takes it meanwhile."""

    def __init__(self) -> None:
        for self.number in random.sample(PORTS, 1000):
            self._held = socket.socket(socket.AF_INET, socket.SOCK_DGRAM)
            try:
                self._held.bind(('127.0.0.1', self.number))
                with socket.socket() as probe:
                    probe.bind(('127.0.0.1', self.number))
                return
            except OSError:
                self._held.close()
        raise OSError('no free port was found')

    def let_go(self) -> None:
        self._held.close()
