#!/usr/bin/python3
"""The judge alone, over histories that are written out here, without a server or a site: what is a cycle, a mixture of waits
that were there one after the other, a phantom, a declaration of waits that were not there."""
from __future__ import annotations

import sys
from dataclasses import dataclass
from typing import Any

import needs

if __name__ == '__main__':
    needs.or_leave(needs.a_server)

import judge
from workload import Log, Note, Row

# Lines 'SECOND CLIENT WHAT [SERVER.ROW]'. Client 1 has row 1.7 and wants 2.7, client 2 has that and wants the first.
DEADLOCK = """
1.0 1 want 1.7
1.0 2 want 2.7
1.1 1 got 1.7
1.1 2 got 2.7
2.0 1 want 2.7
2.1 2 want 1.7
4.0 1 end
4.1 1 aborted
4.2 2 got 1.7
4.3 2 end
4.4 2 committed
"""
# Client 2 commits before it wants the row of client 1, in a transaction of its own.
ONE_AFTER_THE_OTHER = """
1.0 1 want 1.7
1.0 2 want 2.7
1.1 1 got 1.7
1.1 2 got 2.7
2.0 1 want 2.7
2.4 2 end
2.5 2 committed
2.5 1 got 2.7
2.6 2 want 1.7
3.0 1 end
3.1 1 committed
3.1 2 got 1.7
3.2 2 end
3.3 2 committed
"""
# Each agent, a client at a server, waits for the next, and the last for the first.
CYCLE = [[2, '1'], [2, '2'], [1, '2'], [1, '1']]
OF_ANOTHER = [[2, '1'], [2, '3'], [1, '3'], [1, '1']]


def declared(look: tuple[float, float], cycle: list[list[Any]] = CYCLE) -> dict[str, Any]:
    """A declaration that comes long after its look."""
    return {'what': 'declared', 'at': 60.0, 'look': look, 'cycle': cycle}


def cancelled(between: float, victim: list[Any]) -> dict[str, Any]:
    return {'what': 'cancelled', 'between': between, 'victim': victim, 'cycle': CYCLE, 'told': 2.2,
            'declared': 2.3, 'done': between}


@dataclass
class Case:
    name: str
    history: str
    record: dict[str, Any]
    fault: str = ''
    mixtures: int = 0


CASES = [
    Case('a deadlock', DEADLOCK, declared((2.5, 2.6))),
    Case('a look that a member of the cycle ends', DEADLOCK, declared((3.9, 4.5))),
    Case('a look after its end', DEADLOCK, declared((5.0, 5.1)), 'a declaration of waits that were not there', 1),
    Case('a look before its begin', DEADLOCK, declared((1.2, 1.3)), 'a declaration of waits that were not there', 1),
    Case('another holder', DEADLOCK, declared((2.5, 2.6), OF_ANOTHER), 'a declaration of waits that were not there'),
    Case('one wait after the other', ONE_AFTER_THE_OTHER, declared((2.3, 2.7)), mixtures=1),
    Case('the first wait is over', ONE_AFTER_THE_OTHER, declared((2.6, 2.7)), 'a declaration of waits that were not there', 1),
    Case('a cancel', DEADLOCK, cancelled(2.5, [2, '1'])),
    Case('a cancel after its end', DEADLOCK, cancelled(5.0, [2, '1']), 'a phantom was cancelled'),
    Case('a cancel of a mixture', ONE_AFTER_THE_OTHER, cancelled(2.6, [2, '1']), 'a phantom was cancelled'),
]


def note(line: str) -> Note:
    at, client, what, *row = line.split()
    return Note(float(at), client, what, Row(*map(int, row[0].split('.'))) if row else None)


def is_right(case: Case) -> bool:
    log = Log(5.0, [note(line) for line in case.history.strip().splitlines()], ended=5.0)
    verdict = judge.judge(log, [case.record])
    right = verdict.mixtures == case.mixtures and len(verdict.faults) == bool(case.fault) and all(
        fault.startswith(case.fault) for fault in verdict.faults)
    if not right:
        print(f'{case.name}: {verdict.mixtures} mixtures, faults: {verdict.faults}')
    return right


def main() -> int:
    wrong = sum(not is_right(case) for case in CASES)
    print(f'{len(CASES)} histories, {wrong} judged wrongly')
    return 1 if wrong else 0


if __name__ == '__main__':
    sys.exit(main())
