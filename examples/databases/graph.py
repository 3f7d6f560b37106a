"""Cycles of a wait-for graph, given as the targets of each node."""
from __future__ import annotations

from collections.abc import Callable, Iterable
from typing import TypeVar

Node = TypeVar('Node')


def shortest_cycle(start: Node, targets: Callable[[Node], Iterable[Node]]) -> list[Node] | None:
    """A shortest cycle through `start`, which comes first, each node waiting for the next and the last for the first."""
    paths, seen = [[start]], set()
    for path in paths:
        for target in targets(path[-1]):
            if target == start:
                return path
            if target not in seen:
                seen.add(target)
                paths.append([*path, target])
    return None


def edges(cycle: list[Node]) -> list[tuple[Node, Node]]:
    """Each node of a cycle with the one that it waits for."""
    return list(zip(cycle, cycle[1:] + cycle[:1]))
