"""The trials of `cmh restore`: the sites of a world are set back together to where they began an epoch, and go on from there as a
new world. What the old folders hold before the epoch and the new ones from it on is audited by definition, as one history
(scripts/model3/folders.py)."""
import os
import random
import shutil
import sys
import time

from turns3 import await_epoch, epochs_of, turn_of, world_settles
from world import Missed, wait_until
from world3 import World3, cmh, effort, noted

HERE = os.path.dirname(os.path.abspath(__file__))
sys.path.insert(0, os.path.join(HERE, '..', 'model3'))
from files import Segment  # noqa: E402
from folders import Base, Epochs, Turn, base_in  # noqa: E402

THREE = {1: [1, 11, 12], 2: [2, 21, 22], 3: [3, 31, 32]}


# ---- the folders of both worlds

def read(path):
    with open(path, 'rb') as file:
        return file.read()


def segments_in(folder):
    """The segments of a folder, in order, each with its bytes."""
    files = [read(os.path.join(folder, name)) for name in sorted(os.listdir(folder)) if name.endswith('.cmhj')]
    return [(Segment(data), data) for data in files]


def standing_in(folder, epoch):
    """The segment that stands for an epoch: the first one that is of no earlier."""
    return next(found for found in segments_in(folder) if found[0].epoch >= epoch)


def history_of(old, new, epoch):
    """What a site did in the old world before the epoch, and in the new one from it on."""
    steps = []
    for segment, data in [each for each in segments_in(old) if each[0].epoch < epoch] + segments_in(new):
        if segment.damage is not None:
            raise Missed('a damaged segment of epoch %d' % segment.epoch)
        steps += [Turn(segment.epoch, Base(base_in(data)))] if segment.epoch else []
        steps += segment.entries
    return steps


def is_one_history(old, new, epoch):
    """Whether the entries of the old world before the epoch and those of the new one come from one run, with the bases between."""
    merge = Epochs(old.sites, {site: history_of(old.folder(site), new.folder(site), epoch) for site in old.sites})
    stops = ['stop %d at %d' % stop for stop in merge.stops()]
    report = merge.world.report().splitlines()[2:]
    return '; '.join([*stops, *merge.wrong, *report][:4]), not stops and not merge.wrong


def restored(old, new, epoch, folders=None, to=None, topology=None):
    """The command: its status, lines and fault."""
    folders = folders or [old.folder(site) for site in old.sites]
    return old.call('restore', '--topology', topology or new.topology(), '--epoch', str(epoch), '--to', to or new.room.name, *folders)


def up_again(world):
    return {site: world.up(site, new=False) for site in world.sites}


def kill_all(sites):
    for site in sites.values():
        site.kill()


def is_restored(old, new, epoch):
    """Whether each new folder holds just the segment with the base that stands for the epoch."""
    for site in old.sites:
        names = sorted(set(os.listdir(new.folder(site))) - {'lock'})
        if names != ['%010d.cmhj' % epoch]:
            return False
        (segment, data), (_, stood) = segments_in(new.folder(site))[0], standing_in(old.folder(site), epoch)
        head = (segment.site, segment.world, segment.epoch, segment.before, segment.entries, segment.tail)
        if head != (site, new.world, epoch, 0, [], b'') or base_in(data) != base_in(stood):
            return False
    return True


# ---- trials

def sites_are_set_back(program):
    """Three sites run, ask and turn. They are set back to an epoch in which messages were under way and a deadlock stood, and which
    one site jumped over; links resume, clients go on, and what came later is gone."""
    with World3(program, THREE) as old, World3(program, THREE) as new:
        sites = old.up_all()
        one, two = sites[1].client(), sites[2].client()
        for site in sites.values():
            site.await_links()
        yield 'a deadlock', one.ask(1, [2]) is None and two.ask(2, [1]) is None
        declared = wait_until(lambda: one.declared() + two.declared(), 'a declaration')
        world_settles(old, sites)
        sites[3].kill()
        yield 'what waits for a site that is down', one.ask(11, [31]) is None and two.ask(21, [31, 32]) is None
        yield 'epoch 1', turn_of(sites[1]) == 1
        await_epoch(old, 1, 1, 2)
        yield 'what comes later', one.ask(12, [22]) is None
        wait_until(lambda: two.owed(22) == [12], 'what was asked later')
        yield 'epoch 2', turn_of(sites[2]) == 2
        await_epoch(old, 2, 1, 2)
        sites[3] = old.up(3)
        three = sites[3].client()
        await_epoch(old, 2, 3)
        wait_until(lambda: three.owed(31) == [11, 21] and three.owed(32) == [21], 'what was asked')
        yield 'and answers', three.reply(31, 11) is None and three.reply(32, 21) is None and two.reply(22, 12) is None
        world_settles(old, sites)
        kill_all(sites)
        yield 'one site jumped over it: %s' % epochs_of(old, 3), epochs_of(old, 3) == [0, 2]
        kept = {name: read(os.path.join(old.folder(site), name)) for site in old.sites for name in os.listdir(old.folder(site))}
        status, lines, fault = restored(old, new, 1)
        yield 'restored: %s %s' % (lines, fault), (status, lines) == (0, ['site 1', 'site 2', 'site 3', 'restored epoch 1'])
        yield 'each has its base', is_restored(old, new, 1)
        now = {name: read(os.path.join(old.folder(site), name)) for site in old.sites for name in os.listdir(old.folder(site))}
        yield 'the old folders are as they were', now == kept

        sites = up_again(new)
        one, two, three = (sites[site].client() for site in (1, 2, 3))
        for site in sites.values():
            site.await_links()
        yield 'the deadlock stands: %s' % declared, one.declared() + two.declared() == declared
        wait_until(lambda: three.owed(31) == [11, 21] and three.owed(32) == [21], 'what was under way')
        yield 'what came later is gone', one.waits(12) == [] and one.waits(11) == [31] and two.waits(21) == [31, 32] and two.owed(22) == []
        yield 'clients go on', three.reply(31, 11) is None and three.reply(31, 21) is None and one.ask(12, [21]) is None
        wait_until(lambda: one.waits(11) == [] and two.waits(21) == [32], 'the answers')
        yield 'a deadlock from here', three.ask(32, [12]) is None
        wait_until(lambda: set(one.declared() + two.declared() + three.declared()) > set(declared), 'its declaration')
        yield 'the first one ends', one.withdraw(1, [2]) is None
        yield 'it turns again', turn_of(sites[3]) == 2
        await_epoch(new, 2)
        world_settles(new, sites)
        kill_all(sites)
        told, is_right = is_one_history(old, new, 1)
        yield told, is_right
        sites = up_again(new)
        world_settles(new, sites)
        yield 'it starts on its newest segment', epochs_of(new, 1) == [1, 2]


def old_sites_never_meet_them(program):
    """A site of the old world that is started beside the restored ones is refused by them."""
    with World3(program, THREE) as old, World3(program, THREE) as new:
        sites = old.up_all()
        yield 'an ask', sites[1].client().ask(1, [2]) is None and turn_of(sites[1]) == 1
        await_epoch(old, 1)
        kill_all(sites)
        status, lines, fault = restored(old, new, 1)
        yield 'restored: %s %s' % (lines, fault), status == 0
        sites = {site: new.up(site, new=False) for site in (1, 2)}
        stranger = new.start(3, topology=old.write_topology(None, old.path('beside'), sites=rows_of(new)), folder=old.folder(3))
        stranger.await_listening()
        wait_until(lambda: any(state.startswith('refused') for state in stranger.links().values()), 'a refusal')
        yield 'refused: %s' % stranger.links(), 'open' not in stranger.links().values()
        stranger.kill()
        kill_all(sites)
        sites = up_again(new)
        for site in sites.values():
            site.await_links()
        yield 'their own is not', set(sites[3].links().values()) == {'open'}


def rows_of(world):
    return [{'site': site, 'port': world.ports[site].number, 'processes': processes} for site, processes in world.sites.items()]


def load_is_set_back(program):
    """Clients go on while sites begin epochs and are killed. Then all are set back to each epoch, and clients go on from there."""
    draw = random.Random(11)
    with World3(program, THREE) as old:
        running = old.up_all()
        under_load(old, running, draw, 12 * effort.times)
        kill_all(running)
        last = min(epochs_of(old, site)[-1] for site in old.sites)
        yield '%d epochs' % last, last > 2
        for epoch in sorted(draw.sample(range(1, last + 1), min(last, 3))):
            with World3(program, THREE) as new:
                status, lines, fault = restored(old, new, epoch)
                yield 'epoch %d: %s %s' % (epoch, lines, fault), status == 0 and is_restored(old, new, epoch)
                running = up_again(new)
                under_load(new, running, draw, 5)
                world_settles(new, running)
                kill_all(running)
                told, is_right = is_one_history(old, new, epoch)
                yield told, is_right and epochs_of(new, 1)[-1] > epoch


def under_load(world, running, draw, rounds):
    """Clients ask and grant while sites turn and are killed."""
    clients = noted(world)
    for client in clients:
        client.start()
    for _ in range(rounds):
        time.sleep(0.1)
        number = draw.choice(sorted(world.sites))
        if draw.random() < 0.25:
            running[number].kill()
            running[number] = world.up(number, new=False)
            continue
        try:
            turn_of(running[number])
        except (Missed, OSError, cmh.Ended):
            pass
    for client in clients:
        client.stop()


def nothing_is_restored(program):
    """What is refused, each time with nothing made."""
    with World3(program, THREE) as old, World3(program, THREE) as new:
        sites = old.up_all()
        one, two = sites[1].client(), sites[2].client()
        for site in sites.values():
            site.await_links()
        for _ in range(2):
            yield 'an ask', one.ask(1, [2]) is None
            wait_until(lambda: two.owed(2) == [1], 'it')
            yield 'a grant', two.reply(2, 1) is None
            wait_until(lambda: one.waits(1) == [], 'it')
            world_settles(old, sites)
            epoch = turn_of(sites[1])
            await_epoch(old, epoch)
        kill_all(sites)
        folders = [old.folder(site) for site in old.sites]

        def refused(*wanted, **options):
            found = restored(old, new, options.pop('epoch', 1), **options)
            made = [name for site in new.sites for name in os.listdir(new.folder(site))]
            return '%s, %s' % (found, made), found == (wanted[0], list(wanted[1]), wanted[2]) and not made

        yield refused(3, [], 'fault set 5', topology=old.topology())
        yield refused(3, [], 'fault set 4', folders=folders[:2])
        yield refused(3, [], 'fault set 3', folders=[*folders, folders[0]])
        yield refused(3, [], 'fault set 6', epoch=3)
        yield refused(3, [], 'fault file 2', folders=[folders[0], old.path('nowhere'), folders[2]])
        yield refused(3, [], 'fault file topology', topology=old.path('nowhere'))
        yield refused(3, [], 'fault json', topology=old.segment(1))
        fewer = new.write_topology(None, new.path('fewer'), sites=rows_of(new)[:2])
        yield refused(3, [], 'fault set 1', topology=fewer)
        yield refused(3, [], 'fault file out', to=new.path('nowhere'))
        yield refused(3, [], 'fault file out', to=new.topology())

        yield 'a base of another epoch', has_agreed(old, new, folders)
        yield from damaged(old, refused, folders)

        used = os.path.join(new.folder(3), 'kept')
        with open(used, 'w') as file:
            file.write('kept')
        found = restored(old, new, 1)
        held = [os.listdir(new.folder(site)) for site in new.sites]
        yield 'a folder that holds something: %s %s' % (found, held), found == (3, [], 'fault file out') and held == [[], [], ['kept']]
        os.remove(used)
        os.rmdir(new.folder(2))
        status, lines, fault = restored(old, new, 2)
        yield 'a folder that is not there: %s %s' % (lines, fault), status == 0 and is_restored(old, new, 2)
        found = restored(old, new, 1)
        yield 'over a restored world: %s' % (found,), found == (3, [], 'fault file out') and is_restored(old, new, 2)
        status = old.call('restore', '--topology', new.topology(), '--epoch', '0', '--to', new.room.name, *folders)[0]
        yield 'epoch 0 is no word of it', status == 2


def has_agreed(old, new, folders):
    """Whether a folder that is put back by an epoch, by hand, is refused: its base of epoch 1 has the name and the number of 2."""
    put_back = old.path('put-back')
    shutil.copytree(old.folder(2), put_back)
    first, second = (os.path.join(put_back, '%010d.cmhj' % epoch) for epoch in (1, 2))
    data = read(first)
    with open(second, 'wb') as file:
        file.write(renumbered(data, 2, 1))
    found = restored(old, new, 2, folders=[folders[0], put_back, folders[2]])
    made = [name for site in new.sites for name in os.listdir(new.folder(site))]
    if found[0] != 1 or len(found[1]) != 1 or not found[1][0].startswith('link ') or found[2] or made:
        raise Missed('bases that do not agree: %s, %s' % (found, made))
    return True


def renumbered(data, epoch, before):
    """The head of a segment with other epochs in it, and its right mark."""
    from journals import mark_of
    base = base_in(data)
    head = data[:23] + epoch.to_bytes(4, 'big') + before.to_bytes(4, 'big') + len(base).to_bytes(4, 'big') + base
    return head + mark_of(head).to_bytes(8, 'big')


def damaged(old, refused, folders):
    """Segments that are no more what they were."""
    hurt = old.path('hurt')
    shutil.copytree(old.folder(1), hurt)
    others = [hurt, *folders[1:]]
    second = os.path.join(hurt, '%010d.cmhj' % 2)
    data = read(second)
    with open(second, 'wb') as file:
        file.write(data[:30] + bytes([data[30] ^ 1]) + data[31:])
    yield refused(3, [], 'fault journal 1 1', folders=others)
    with open(second, 'wb') as file:
        file.write(data)
    os.remove(os.path.join(hurt, '%010d.cmhj' % 1))
    yield refused(3, [], 'fault set 6', folders=others)
    os.remove(second)
    os.remove(os.path.join(hurt, '%010d.cmhj' % 0))
    yield refused(3, [], 'fault file 1', folders=others)


RESTORED = [sites_are_set_back, old_sites_never_meet_them, load_is_set_back, nothing_is_restored]
