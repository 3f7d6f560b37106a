"""Refuses each allocation and each thread of a service in turn, while a client talks to it.

    services.py PROGRAM SHIM      SHIM is refuse.c as a library; the last line is 'N passed, M failed'

Where one is refused the service ends out of memory, or an event is refused, or the client whose line it was is closed. All
else is answered as it would have been, to a client that comes later too, and the journal is that of a run.
"""
import os
import signal
import sys

sys.path.insert(0, os.path.join(os.path.dirname(os.path.abspath(__file__)), '..', 'sites'))
from services import Service, cmh
from world import ALL_TRIALS, Collided, Missed, World, allow

LONE = {1: [1, 2]}
MOST_COLLISIONS = 5

# Lines with their answers, and what answers an event that was taken before, when nobody heard of it.
LINES = (
    ('ask 1 2', 'ok sent 0', 'refused 4'),
    ('ask 2 1', 'ok sent 0', 'refused 4'),
    ('waits 1', 'waits 1 2', None),
    ('owed 1', 'owed 1 2', None),
    ('start 1', 'ok sent 0 declared 1', 'refused 7'),
    ('declared', 'site 1 declared 1', None),
)


class Talk:
    """What clients ask a service of which something may be refused, once."""

    def __init__(self, service, mark):
        self.service, self.mark = service, mark
        self.client = service.client()
        self.may_miss = True

    def missed(self):
        """Whether this was the one refusal."""
        misses, self.may_miss = self.may_miss and os.path.exists(self.mark), False
        return misses

    def say(self, line, answer, taken):
        try:
            said = self.client.call(line)
            if said != 'refused 11':
                return said == answer
            taken = None
        except (cmh.Ended, OSError):
            self.client = self.service.client()
        return self.missed() and self.client.call(line) in (answer, taken)

    def watch(self):
        """Whether a client that watches is told what was declared."""
        for _ in range(2):
            try:
                return next(self.service.client().declarations()) == 1
            except (cmh.Ended, OSError):
                if not self.missed():
                    break
        return False


def ends_out_of_memory(service):
    return (service.wait(), service.process.stderr.read()) == (1, b'fault memory\n')


def talk(service, mark):
    """Yields what holds of the answers of a service that listens."""
    talk = Talk(service, mark)
    for line, answer, taken in LINES:
        yield line, talk.say(line, answer, taken)
    yield 'watch', talk.watch()


def run(program, shim, refusal):
    """Yields what holds of a run, and at last whether something was refused."""
    with World(program, LONE) as world:
        mark = world.path('mark')
        before = ('env', f'REFUSE={refusal}', f'REFUSE_MARK={mark}', f'LD_PRELOAD={shim}')
        service = world.start(1, kind=Service, before=before)
        if service.hear() != 'listening':
            yield 'it says why it does not listen', ends_out_of_memory(service)
        else:
            try:
                yield from talk(service, mark)
                yield 'it ends by a signal', service.ends_by(signal.SIGTERM)
            except (cmh.Ended, OSError):
                yield 'it says why it ends', ends_out_of_memory(service)
        yield 'the journal is of a run', world.is_accepted()
        yield None, os.path.exists(mark)


def undisturbed(program, shim, refusal):
    """The results of a run in which no stranger took a port, and whether something was refused."""
    for _ in range(MOST_COLLISIONS):
        allow(ALL_TRIALS)
        results = []
        try:
            for result in run(program, shim, refusal):
                results.append(result)
            return results[:-1], results[-1][1]
        except Collided as collided:
            print(f'again: a stranger took the port {collided}', flush=True)
        except Missed as missed:
            return [*results, (f'missed: {missed}', False)], False
    return [('no stranger on its ports', False)], False


def each(program, shim, kind):
    """Refuses each call of a kind, until a run meets no refusal."""
    place = 0
    is_refused = True
    while is_refused:
        place += 1
        results, is_refused = undisturbed(program, shim, f'{kind}:{place}')
        for what, holds in results:
            yield f'{kind} {place}: {what}', holds
    yield f'no {kind} was refused at all', place > 1


def main(program, shim):
    passed = failed = 0
    for kind in ('memory', 'thread'):
        for what, holds in each(program, shim, kind):
            passed, failed = passed + bool(holds), failed + (not holds)
            if not holds:
                print(f'FAILED a service, {what}', flush=True)
    print(f'{passed} passed, {failed} failed')
    return failed > 0


if __name__ == '__main__':
    sys.exit(main(*sys.argv[1:]))
