"""The trial of the client in Python (clients/python) over running sites."""
import os
import signal
import sys

sys.path.insert(0, os.path.join(os.path.dirname(os.path.abspath(__file__)), '..', '..', 'clients', 'python'))

from cmh import BadLine, Ended, Refused, Site
from world import Collided, World, patience, wait_until

PAIR = {1: [1], 2: [2]}


def run(world, number):
    """A running site, spoken to by the client."""
    try:
        site = Site.run(world.path('topology'), number, world.journal(number), world.program)
    except Ended as ended:
        if str(ended) == 'fault listen':
            raise Collided(world.ports[number]) from None
        raise
    site.patience = patience()
    return site


def raised(call):
    """What a call raises, or None."""
    try:
        call()
    except (BadLine, Ended, Refused) as raised_here:
        return raised_here
    return None


def python_client(program):
    with World(program, PAIR) as world:
        sites = {number: run(world, number) for number in PAIR}
        yield 'each connects', [site.connect() for site in sites.values()] == [0, 0]
        yield 'an ask of each', sites[1].ask(1, [2]) is None and sites[2].ask(2, [1]) is None
        wait_until(lambda: len(world.entries(1)) == 2 and len(world.entries(2)) == 2, 'both requests')
        refused = raised(lambda: sites[1].ask(1, [2]))
        yield 'a refusal has its number', isinstance(refused, Refused) and refused.number == 4
        refused = raised(lambda: sites[1].reply(1, 2))
        yield 'a blocked process grants nothing', isinstance(refused, Refused) and refused.number == 4
        yield 'a site is no service', isinstance(raised(lambda: sites[1].waits(1)), BadLine)
        yield 'any line can be called', sites[1].call('start', 1) == 'ok sent 1'
        yield 'a declaration comes', next(sites[1].declarations()) == 1
        yield 'it is listed', sites[1].declared() == [1] and sites[2].declared() == []
        sites[2].send(*['start 2', 'declared'] * 100)
        answers = [sites[2].receive() for _ in range(200)]
        yield 'events ahead are answered', all(answer.split()[0] in ('ok', 'refused') for answer in answers[::2])
        yield 'and questions between them', all(answer.startswith('site 2 declared') for answer in answers[1::2])
        for site in sites.values():
            site.close()
        yield 'both ended', all(site.owner.wait(patience()) == 0 for site in sites.values())
        yield 'an ended site answers nothing', isinstance(raised(sites[1].declared), Ended)
        yield 'accepted', world.is_accepted('wait 1 2', 'wait 2 1')


def lost_sites(program):
    with World(program, PAIR) as world:
        site = run(world, 1)
        twice = raised(lambda: Site.run(world.path('topology'), 1, world.path('other'), program))
        yield 'a taken port is named', isinstance(twice, Ended) and str(twice) == 'fault listen'
        failed = site.connect()
        yield 'a peer that is not there is counted', failed == 1
        site.owner.send_signal(signal.SIGKILL)
        killed = raised(site.declared)
        yield 'a killed site has ended', isinstance(killed, Ended) and str(killed) == 'ended with status -9'
        silent = run(world, 2)
        silent.patience = 0.2
        silent.owner.send_signal(signal.SIGSTOP)
        yield 'a silent site has ended', isinstance(raised(silent.declared), Ended)
        yield 'and is gone', silent.owner.poll() is not None
