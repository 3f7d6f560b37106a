"""Machines, each a network namespace of its own, and the wires between them.

A namespace lives as long as a process is in it. Each process that is started here ends with this program at the latest,
even by a SIGKILL: then the namespaces are gone, too, and their wires with them. So nothing is left to be removed.
"""
from __future__ import annotations

import ctypes
import os
import socket
import subprocess
from concurrent.futures import ThreadPoolExecutor
from pathlib import Path
from subprocess import DEVNULL, PIPE, Popen
from typing import Any

WITH_US = ['setpriv', '--pdeathsig', 'KILL', '--']   # the kernel ends such a process once its parent has ended
WIRE = 'wire'                                        # the name of a machine's end of its wire
HERE = Path(__file__).resolve().parent
CLONE_NEWNET = 0x40000000

libc = ctypes.CDLL(None, use_errno=True)


def enter(holder: int | str) -> None:
    """This thread goes into the network namespace of a process, and may not be let back."""
    with open(f'/proc/{holder}/ns/net') as place:
        if libc.setns(place.fileno(), CLONE_NEWNET):
            raise OSError(ctypes.get_errno(), f'setns: {os.strerror(ctypes.get_errno())}')


class Machine:
    """A network namespace with its loopback, held by a process that sleeps."""

    def __init__(self, name: str, address: str = ''):
        self.name, self.address = name, address
        stay = 'ip link set lo up && echo up && exec sleep infinity'
        self._holder = Popen([*WITH_US, 'unshare', '--net', 'sh', '-c', stay], stdin=DEVNULL, stdout=PIPE, start_new_session=True)
        self._running = [self._holder]
        if self._holder.stdout.readline() != b'up\n':
            raise RuntimeError(f'no network namespace for {name}')

    @property
    def holder(self) -> int:
        return self._holder.pid

    def inside(self, *words: object) -> list[str]:
        """The words that run these in this machine."""
        return ['nsenter', f'--net=/proc/{self.holder}/ns/net', '--', *map(str, words)]

    def start(self, *words: object, **how: Any) -> Popen:
        """A process in this machine. A Ctrl-C at the terminal does not reach it: the program that started it takes it down."""
        child = Popen(WITH_US + self.inside(*words), start_new_session=True, **how)
        self._running.append(child)
        return child

    def run(self, *words: object) -> str:
        """What a program prints in this machine."""
        return subprocess.run(self.inside(*words), check=True, capture_output=True, text=True).stdout

    def connect(self, port: int) -> socket.socket:
        """A connection to a port of this machine's loopback. A thread goes there for it, and ends."""
        with ThreadPoolExecutor(1) as away:
            return away.submit(self._dial, port).result()

    def _dial(self, port: int) -> socket.socket:
        enter(self.holder)
        return socket.create_connection(('127.0.0.1', port), timeout=5)

    def end(self, child: Popen) -> None:
        """As a power cut does: it says nothing any more."""
        self._running.remove(child)
        child.kill()
        child.wait()

    def take_down(self) -> None:
        while self._running:
            self.end(self._running[-1])


class Network:
    """A switch with a wire to each machine, which can be cut there."""

    def __init__(self, machines: list[Machine]):
        self._switch = Machine('switch')
        self._switch.run('ip', 'link', 'add', 'switch', 'type', 'bridge')
        self._switch.run('ip', 'link', 'set', 'switch', 'up')
        for machine in machines:
            self._lay(machine)

    def _lay(self, machine: Machine) -> None:
        """A pair of ends: one in the machine, and one with the machine's name in the switch."""
        self._switch.run('ip', 'link', 'add', machine.name, 'type', 'veth', 'peer', 'name', WIRE, 'netns', machine.holder)
        self._switch.run('ip', 'link', 'set', machine.name, 'master', 'switch', 'up')
        machine.run('ip', 'address', 'add', f'{machine.address}/24', 'dev', WIRE)
        machine.run('ip', 'link', 'set', WIRE, 'up')

    def cut(self, machine: Machine) -> None:
        self._switch.run('ip', 'link', 'set', machine.name, 'down')

    def join(self, machine: Machine) -> None:
        self._switch.run('ip', 'link', 'set', machine.name, 'up')

    def take_down(self) -> None:
        self._switch.take_down()


class BadNetwork:
    """Wires that delay, lose and reorder packets, or carry none from one machine to another: see `bad_wire`."""

    def __init__(self, machines: list[Machine]):
        ends = [f'{machine.holder}:{machine.address}' for machine in machines]
        self._wire = Popen([*WITH_US, HERE / 'bad_wire', *ends], stdin=PIPE, stdout=PIPE, text=True, start_new_session=True)
        if self._wire.stdout.readline() != 'up\n':
            raise RuntimeError('no wires')

    def tell(self, line: str) -> None:
        """A line of `bad_wire`, which has taken it once this ends."""
        self._wire.stdin.write(line + '\n')
        self._wire.stdin.flush()
        if self._wire.stdout.readline() != 'ok\n':
            raise RuntimeError(f'bad_wire did not take {line!r}')

    def take_down(self) -> None:
        self._wire.kill()
        self._wire.communicate()
