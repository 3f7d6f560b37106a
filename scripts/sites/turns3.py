"""The trials of sites of edition 3 that begin later epochs: each goes on in a new segment, the others follow, and nothing that was
answered is lost, whenever a site is killed. What the folders hold is audited by definition (scripts/model3/folders.py)."""
import os
import random
import sys
import time

from world import Missed, patience, wait_until
from world3 import World3, cmh, effort, lost_of, noted

HERE = os.path.dirname(os.path.abspath(__file__))
sys.path.insert(0, os.path.join(HERE, '..', 'model3'))
from folders import Journal, Turn, audited  # noqa: E402
from journals import entry_line  # noqa: E402

PAIR = {1: [1, 3], 2: [2, 4]}


def epochs_of(world, site):
    """The epochs of the segments in the folder of a site."""
    return sorted(int(name[:10]) for name in os.listdir(world.folder(site)) if name.endswith('.cmhj'))


def is_audited(world, *lines):
    """Whether the folders come from one run, with these lines about it; and what is said of them."""
    is_accepted, found = audited(world.sites, world.world, [world.folder(site) for site in world.sites])
    return '; '.join(found[:4]), is_accepted and all(line in found for line in lines)


def lines_of(world, site):
    """The entries of all segments of a site, as lines of `cmh show`."""
    return [entry_line(step) for step in Journal(world.folder(site)).steps if not isinstance(step, Turn)]


def turn_of(site):
    """The epoch that a site begins when it is told to."""
    answer = site.ask('turn')
    if not answer.startswith('ok epoch '):
        raise Missed('an epoch of site %d: %s' % (site.number, answer))
    return int(answer.split()[-1])


def await_epoch(world, epoch, *sites):
    for site in sites or world.sites:
        wait_until(lambda: epochs_of(world, site)[-1] == epoch, 'epoch %d of site %d' % (epoch, site))


def sites_turn(program):
    """A site begins an epoch, the other one follows, and a deadlock over both epochs is found."""
    with World3(program, PAIR) as world:
        sites = world.up_all()
        one, two = sites[1].client(), sites[2].client()
        for site in sites.values():
            site.await_links()
        yield 'an ask before', one.ask(1, [2]) is None
        yield 'it begins the next epoch', turn_of(sites[1]) == 1 and epochs_of(world, 1) == [0, 1]
        yield 'its new segment has no entry', sites[1].status()['entries'] == '0' and one.waits(1) == [2]
        yield 'an ask after', one.ask(3, [4]) is None
        await_epoch(world, 1)
        yield 'and the deadlock', two.ask(2, [1]) is None
        wait_until(lambda: one.declared() + two.declared(), 'a declaration')
        declared = one.declared() + two.declared()
        for epoch in (2, 3):
            yield 'epoch %d' % epoch, turn_of(sites[1 + epoch % 2]) == epoch
            await_epoch(world, epoch)
        world_settles(world, sites)
        yield 'who was declared is so still', one.declared() + two.declared() == declared
        for site in sites.values():
            site.kill()
        sites = world.up_all()
        again = sites[1].client().declared() + sites[2].client().declared()
        yield 'also after a restart: %s' % again, again == declared
        world_settles(world, sites)
        for site in sites.values():
            site.kill()
        told, is_right = is_audited(world)
        yield told, is_right
        yield 'cmh audit says the same', world.is_accepted(*told_lines(world))


def told_lines(world):
    """The report on the folders by definition, but for the numbers of events and turns."""
    _, found = audited(world.sites, world.world, [world.folder(site) for site in world.sites])
    return [line for line in found if not line.startswith('events ')]


def world_settles(world, sites):
    """All sites are in the newest epoch, and no message is under way."""
    for site in sites.values():
        site.await_links()
    wait_until(lambda: len({epochs_of(world, site)[-1] for site in world.sites}) == 1, 'one epoch')
    wait_until(lambda: all(site.status()['kept'] == '0' for site in sites.values()), 'all messages')


def absent_sites_follow(program):
    """A site that is down while others begin epochs goes straight to the newest one, and what waited for it comes."""
    with World3(program, PAIR) as world:
        sites = world.up_all()
        for site in sites.values():
            site.await_links()
        sites[2].kill()
        one = sites[1].client()
        yield 'an ask while it is down', one.ask(1, [2]) is None
        yield 'epochs', [turn_of(sites[1]) for _ in range(3)] == [1, 2, 3]
        yield 'another ask', one.ask(3, [2, 4]) is None
        sites[2] = world.up(2)
        two = sites[2].client()
        await_epoch(world, 3, 2)
        wait_until(lambda: two.owed(2) == [1, 3] and two.owed(4) == [3], 'what was asked')
        yield 'it goes straight there: %s' % epochs_of(world, 2), epochs_of(world, 2) == [0, 3]
        yield 'it answers', two.reply(2, 1) is None and two.reply(4, 3) is None
        wait_until(lambda: one.waits(1) == [] and one.waits(3) == [2], 'the answers')
        for site in sites.values():
            site.kill()
        told, is_right = is_audited(world)
        yield told, is_right


def turns_under_load(program):
    """Clients go on while sites begin epochs all the time and are killed: each answered event stands in a journal."""
    with World3(program, {1: [1, 11, 12], 2: [2, 21, 22]}) as world:
        running = world.up_all()
        clients = noted(world)
        for client in clients:
            client.start()
        draw, turns, kills = random.Random(7), 0, 0
        for _ in range(12 * effort.times):
            time.sleep(0.1)
            number = draw.choice(sorted(world.sites))
            if draw.random() < 0.25:
                running[number].kill()
                running[number] = world.up(number)
                kills += 1
                continue
            try:
                turns += turn_of(running[number]) > 0
            except (Missed, OSError, cmh.Ended):
                pass
        for client in clients:
            client.stop()
        world_settles(world, running)
        for site in running.values():
            site.kill()
        told, is_right = is_audited(world)
        yield '%d turns, %d kills: %s' % (turns, kills, told), is_right and turns > 3
        yield 'cmh audit says the same', world.is_accepted(*told_lines(world))
        lost = sum(lost_of(client.notes, lines_of(world, client.site), client.own) for client in clients)
        yield '%d events were answered, %d are lost' % (sum(client.answered() for client in clients), lost), lost == 0


def moments_of_a_turn(program):
    """A site is killed, or loses its power, or its disk is full, at each call of a turn that writes: it starts again in the one epoch
    or in the other, and what was answered is there."""
    for what in ('kill', 'power', 'fail'):
        with World3(program, PAIR) as world:
            sites = world.up_all(power=0)
            site, disk, answered, seen = sites[1], world.disk(1), 0, []
            for moment in range(1, 30):
                site.await_links()
                client = site.client()
                client.ask(1, [2])
                client.withdraw(1, [2])
                wait_until(lambda: client.leaving(1) == [], 'that it is free')
                answered += 2
                before = epochs_of(world, 1)[-1]
                disk.at_moment('fail' if what == 'fail' else 'kill', moment)
                told = told_turn(site)
                seen.append(told.split()[0])
                disk.no_moment()
                if told.startswith('ok'):
                    break
                if what == 'fail' and site.status()['sealed'] == 'no':
                    client.ask(3, [1])
                    yield 'it goes on in its epoch', epochs_of(world, 1)[-1] == before and client.withdraw(3, [1]) is None
                    answered += 2
                site.kill()
                if what == 'power':
                    disk.cut_power()
                site = sites[1] = world.up(1, power=0, new=False)
                yield '%s at %d: it is in %d after %d' % (what, moment, epochs_of(world, 1)[-1], before), epochs_of(world, 1)[-1] in (before, before + 1)
            yield '%s: %d moments, then a turn' % (what, len(seen)), len(seen) > 4 and told.startswith('ok')
            world_settles(world, sites)
            for each in sites.values():
                each.kill()
            mine = [line for line in lines_of(world, 1) if line.split()[0] in ('ask', 'withdraw')]
            yield '%d events were answered, %d are there' % (answered, len(mine)), len(mine) == answered
            told, is_right = is_audited(world)
            yield told, is_right


def told_turn(site):
    """What a site answers to `turn`; 'none' where it ends meanwhile."""
    try:
        return site.ask('turn')
    except (OSError, cmh.Ended):
        site.process.wait(patience())
        return 'none'


TURNS = [sites_turn, absent_sites_follow, turns_under_load, moments_of_a_turn]
