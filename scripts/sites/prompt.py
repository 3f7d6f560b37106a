"""The trials of how soon a deadlock over four sites is found: each step wakes the threads that have a frame to write. A
frame whose thread is not woken waits for the look that its site has once a second. A try takes two steps of site 1, one
after the other round all sites: so where the steps of commands wake nobody each try takes a second."""
import time

from services import cmh, serve, status_of
from world import Missed, World, wait_until

SITES = 4
TRIES = 10
SOON = 0.5  # seconds that the best try may take


def members():
    """Each site has a process for each try."""
    return {site: list(range(TRIES * (site - 1) + 1, TRIES * site + 1)) for site in range(1, SITES + 1)}


def receipts(world, site):
    return sum(kind == 4 for kind, _, _ in world.entries(site))


def await_entry(world, process):
    """Waits until the journal of site 1 declares a process."""
    wait_until(lambda: any(declared == process for _, _, declared in world.entries(1)), 'the declaration of %d' % process)


def seconds_of(world, number, say, await_declared):
    """How long it takes to close the cycle of a try and to find it."""
    cycle = [TRIES * place + number for place in range(SITES)]
    begin = time.monotonic()
    for place, process in enumerate(cycle):
        holder = (place + 1) % SITES
        before = receipts(world, holder + 1)
        say(place + 1, 'ask %d %d' % (process, cycle[holder]))
        wait_until(lambda: receipts(world, holder + 1) > before, 'the request of %d' % process)
    say(1, 'start %d' % number)
    await_declared(world, number)
    return time.monotonic() - begin


def outcome(world, say, await_declared=await_entry):
    seconds = [seconds_of(world, number, say, await_declared) for number in range(1, TRIES + 1)]
    return 'found within %.3f seconds at best, %.3f at worst' % (min(seconds), max(seconds)), min(seconds) < SOON


def prompt_lines(program):
    """Lines of a site, each after the answer to the one before."""
    with World(program, members()) as world:
        sites = world.start_all()

        def say(site, line):
            sites[site].say(line)
            sites[site].expect('ok sent 1')
        yield outcome(world, say)
        yield 'each quit ends', all(site.end() for site in sites.values())
        yield 'accepted', world.is_accepted()


def prompt_lines_ahead(program):
    """Two lines at once, which a site gives to its station together."""
    with World(program, members()) as world:
        sites = world.start_all()

        def say(site, line):
            sites[site].say(line, line)
            sites[site].expect('ok sent 1')
            sites[site].hear()
        yield outcome(world, say)
        yield 'each quit ends', all(site.end() for site in sites.values())
        yield 'accepted', world.is_accepted()


def prompt_services(program):
    """The same of services, one of which tells a client that watches."""
    with World(program, members()) as world:
        served = {number: serve(world, number) for number in world.sites}
        clients = {number: service.client() for number, service in served.items()}
        watching = served[1].client()
        yield 'one watches', watching.call('watch') == 'ok'
        for client in clients.values():
            wait_until(lambda: status_of(client)['out'] == status_of(client)['in'] == str(SITES - 1), 'open links')

        def say(site, line):
            clients[site].send(line, line)
            clients[site].receive()
            clients[site].receive()

        def await_told(_, process):
            try:
                while watching.receive() != '! declared %d' % process:
                    pass
            except cmh.Timeout:
                raise Missed('that %d is told' % process) from None
        yield outcome(world, say, await_told)
        yield 'accepted', world.is_accepted()


PROMPT = [prompt_lines, prompt_lines_ahead, prompt_services]
