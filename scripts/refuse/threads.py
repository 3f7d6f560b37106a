"""Refuses each thread that a running site makes, in turn, while its peer is left alone.

    threads.py PROGRAM SHIM      SHIM is refuse.c as a library; the last line is 'N passed, M failed'

A site of two makes four threads: one that watches the clock, one that accepts connections, one that writes to the other
site, and one that reads from it. Where one is refused, the site says so: it ends out of memory before it listens, or the link is closed or stays new. It
answers all else, it ends when it is told to, and the journals are those of one run.
"""
import os
import sys

sys.path.insert(0, os.path.join(os.path.dirname(os.path.abspath(__file__)), '..', 'sites'))
from world import Collided, Missed, World, wait_until

PAIR = {1: [1], 2: [2]}
THREADS = ('watching', 'accepting', 'writing', 'reading')
AT_ITS_START = 2  # of these
MOST_COLLISIONS = 5


def talk(site, peer, place):
    """Both sites connect and ask for each other's process; yields what holds where the thread at a place is refused."""
    writes, reads = THREADS[place:place + 1] != ('writing',), THREADS[place:place + 1] != ('reading',)
    yield 'connect', site.ask('connect') == ('connected 1 failed 0' if writes else 'connected 0 failed 1')
    yield 'connect of the peer', peer.ask('connect') == 'connected 1 failed 0'
    yield 'each ask', (site.ask('ask 1 2'), peer.ask('ask 2 1')) == ('ok sent 1', 'ok sent 1')
    if writes:
        peer.await_link('in 1', 'open')
    else:
        yield 'the link is closed for its cause', site.links()['out 2'] == 'closed 6'
    if reads:
        site.await_link('in 2', 'open')
        wait_until(lambda: len(site.world.entries(1)) == 2, 'the request of the peer')
    else:
        yield 'the link is new', site.links()['in 2'] == 'new'
    wait_until(lambda: not writes or len(site.world.entries(2)) == 2, 'the request of the site')
    yield 'start', site.ask('start 1') == 'ok sent 1'
    if writes and reads:
        site.await_declared('site 1 declared 1')
    yield 'declared', site.ask('declared') == ('site 1 declared 1' if writes and reads else 'site 1 declared')


def run(program, shim, place):
    """Yields what holds of a run in which the thread at a place is refused; past the last place nothing is."""
    with World(program, PAIR) as world:
        mark = world.path('mark')
        peer = world.start(2)
        peer.await_listening()
        site = world.start(1, before=('env', f'REFUSE=thread:{place + 1}', f'REFUSE_MARK={mark}', f'LD_PRELOAD={shim}'))
        if place < AT_ITS_START:
            yield 'it ends before it listens', site.hear_all() == []
            yield 'it says why', (site.wait(), site.process.stderr.read()) == (1, b'fault memory\n')
        else:
            site.await_listening()
            yield from talk(site, peer, place)
            # The reading thread is made once the peer's connection has come, whenever that is.
            wait_until(lambda: place >= len(THREADS) or os.path.exists(mark), 'the thread that is refused')
            yield 'it ends', site.end()
        yield 'a thread was refused', os.path.exists(mark) == (place < len(THREADS))
        yield 'the peer ends', peer.end()
        yield 'the journals are of one run', world.is_accepted()


def undisturbed(program, shim, place):
    """The results of a run in which no stranger took a port."""
    for _ in range(MOST_COLLISIONS):
        results = []
        try:
            for result in run(program, shim, place):
                results.append(result)
            return results
        except Collided as collided:
            print(f'again: a stranger took the port {collided}', flush=True)
        except (Missed, OSError) as missed:
            return [*results, (f'missed: {missed}', False)]
    return [('no stranger on its ports', False)]


def main(program, shim):
    passed = failed = 0
    for place, name in enumerate((*THREADS, 'no')):
        for what, holds in undisturbed(program, shim, place):
            passed, failed = passed + bool(holds), failed + (not holds)
            if not holds:
                print(f'FAILED a site of two, {name} thread refused: {what}', flush=True)
    print(f'{passed} passed, {failed} failed')
    return failed > 0


if __name__ == '__main__':
    sys.exit(main(*sys.argv[1:]))
