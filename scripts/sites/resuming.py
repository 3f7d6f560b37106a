#!/usr/bin/env python3
"""The trials of running sites of edition 3: sites that are killed and start again, links that are cut and resume, disks that
lose what was not synced, journals that don't fit, and peers that lie.

    scripts/sites/resuming.py [[--binary] PROGRAM|--fake] [--long] [TRIAL..]
    scripts/sites/resuming.py --wrong [MISTAKE..]

PROGRAM: crates/cmh/out/cmh unless given; `--fake` tries the trials on the small site of fake3.py. All trials end within a
minute; `--long` makes the rounds in which sites are killed twenty times as many. Each trial prints a line, and the last line is
'N passed, M failed'. `--wrong` has the small site make each of its mistakes, and says whether the trial of it fails. It needs
python3 and a C compiler.
"""
import concurrent.futures
import os
import random
import shutil
import signal
import subprocess
import sys
import threading
import time
import traceback

import wire3
from audits3 import AUDITS
from clients3 import CLIENTS
from fake3 import MISTAKES
from peers3 import PEERS, SLOW
from restored3 import RESTORED
from turns3 import TURNS
from journals import chained, segment
from world import Collided, Missed, Port, allow, of_size, patience, wait_until
from world3 import FAKE, Noting, Told, World3, cmh, effort, judged, noted

HERE = os.path.dirname(os.path.abspath(__file__))
PAIR = {1: [1, 3], 2: [2, 4]}
THREE = {1: [1, 11, 12], 2: [2, 21, 22], 3: [3, 31, 32]}


# ---- how a site starts

def starts(program):
    """A folder without a journal, one with a journal, and what a restart answers to questions."""
    with World3(program, PAIR) as world:
        site = world.start(1)
        yield 'without --new there must be a journal', site.faults() == (3, 'fault journal disk')
        yield 'and nothing is made', not os.path.exists(world.segment(1))
        site = world.up(1, new=True)
        client = site.client()
        yield 'it begins', client.ask(1, [2, 3]) is None and client.ask(3, [4]) is None
        kept = read(world.segment(1))
        status, fault = beside(world).faults()
        yield 'a second process: %d %s' % (status, fault), (status, fault) == (3, 'fault journal disk')
        site.kill()
        again = world.start(1, new=True)
        yield '--new over a journal', again.faults() == (3, 'fault journal disk')
        yield 'touches nothing', read(world.segment(1)) == kept
        site = world.up(1)
        yield 'the same client goes on', client.waits(1) == [2, 3] and client.waits(3) == [4] and client.owed(3) == [1]
        yield 'entries', site.status()['entries'] == '2' and len(world.entries(1)) == 2
        yield 'what was sent waits: %s' % site.links(), site.links()['out', 2].startswith('down')
        site.process.terminate()
        yield 'a signal ends it', site.process.wait(patience()) in (-15, 0)
        for at in range(300):
            write(os.path.join(world.folder(1), 'kept-%d' % at), b'')
        among = world.up(1)
        yield 'among many other files', among.status()['entries'] == '2' and len(world.entries(1)) == 2
        among.kill()
        gone = world.start(1, folder=world.path('nowhere'))
        yield 'a folder that is not there', gone.faults() == (3, 'fault journal disk')


def beside(world):
    """Another process on the folder of site 1, with ports of its own."""
    own, rows = Port(), [{'site': site, 'port': world.ports[site].number, 'processes': processes} for site, processes in world.sites.items()]
    rows[0]['port'] = own.number
    door = Port()
    own.let_go()
    return world.start(1, door=door, topology=world.write_topology(None, world.path('beside'), sites=rows))


def read(path):
    with open(path, 'rb') as file:
        return file.read()


def write(path, data):
    with open(path, 'wb') as file:
        file.write(data)


# ---- sites that are killed

def stormy(program, sites, seed, rounds, relayed=False, power=None, most=None, peer=None):
    """Sites whose clients go on while they are killed, lose power, or are cut from one another, in turn. `peer` is a site that
    another program runs."""
    draw = random.Random(seed)
    with World3(program, sites, relayed=relayed) as world:
        of = {peer: {'program': FAKE, 'more': ()}} if peer else {}
        running = {site: world.up(site, power=power, **of.get(site, {})) for site in sites}
        clients = noted(world)
        for client in clients:
            client.start()
        kills = cuts = 0
        for relay in world.relays.values():
            relay.draw, relay.most = draw, most
        for _ in range(rounds):
            time.sleep(0.02 + 0.15 * draw.random())
            if relayed and draw.random() < 0.6:
                draw.choice(list(world.relays.values())).cut_all()
                continue
            several = draw.sample(list(sites), draw.choice([1, 1, 1, 2]))
            for site in several:
                running[site].kill()
                kills += 1
            time.sleep(draw.choice([0, 0, 0.1 * draw.random()]))
            for site in several:
                if power is not None and draw.random() < 0.7:
                    world.disk(site).cut_power(draw)
                    cuts += 1
                running[site] = world.up(site, power=power, **of.get(site, {}))
        for relay in world.relays.values():
            relay.most = None
        for each in judged(world, running, clients):
            yield each
        if most:
            yield 'connections were cut', sum(relay.cuts for relay in world.relays.values()) > 2
        elif rounds >= 8:
            yield 'sites were killed', kills >= rounds / 2 and (power is None or cuts > 0)


def killed_sites(program):
    for seed in range(effort.times):
        yield from stormy(program, THREE, seed, 12)


def cut_connections(program):
    """Connections between sites are reset in the middle of frames, hellos, answers and acknowledgements."""
    for seed in range(effort.times):
        yield from stormy(program, THREE, 100 + seed, 12, relayed=True, most=1500)


def power_cuts(program):
    """What was not synced is dropped, or kept up to some byte of it."""
    for seed in range(effort.times):
        yield from stormy(program, THREE, 200 + seed, 12, power=10000)


def answers_last(program):
    """What was answered `ok` is there after a power cut, which comes right after an answer, or in the middle of a sync."""
    draw, answered = random.Random(4), 0
    with World3(program, PAIR) as world:
        for turn in range(6):
            site = world.up(1, power=20000)
            client = site.client(again=0)
            if turn == 0:
                client.ask(1, [2])
                answered = 1
            timer = threading.Timer(0.05 + 0.1 * draw.random(), site.process.kill)
            (timer.start if turn % 2 else timer.cancel)()
            try:
                for _ in range(1000 if turn % 2 else draw.randint(2, 8)):
                    client.start(1)
                    answered += 1
            except cmh.Ended:
                timer.join()
            site.kill()
            world.disk(1).cut_power()
            found = len(world.entries(1))
            yield 'turn %d: %d were answered, %d are there' % (turn, answered, found), answered <= found <= answered + 1
            answered = found
        yield 'some were: %d, and %d bytes were lost' % (answered, world.disk(1).lost), answered > 10


def model_peer(program):
    """One of the sites is the small one of fake3.py."""
    for seed in range(effort.times):
        yield from stormy(program, PAIR, 300 + seed, 8, relayed=True, most=3000, peer=2)


# ---- journals that don't fit

def some_events(one, two, count):
    """Asks of 1 for 2, each granted; so that frames go both ways."""
    for _ in range(count):
        one.ask(1, [2])
        wait_until(lambda: two.owed(2) == [1], 'a request')
        two.reply(2, 1)
        wait_until(lambda: one.waits(1) == [], 'a grant')


def backups(program, later):
    """A backup of site 1 after some events, then one more ask, and then the backup put back."""
    world = World3(program, PAIR)
    running = world.up_all()
    one, two = running[1].client(), running[2].client()
    some_events(one, two, 2)
    world.await_drained(running)
    running[1].kill()
    shutil.copytree(world.folder(1), world.path('backup'))
    running[1] = world.up(1)
    one.ask(1, [2])                             # all that the backup lacks are messages that were sent
    wait_until(lambda: two.owed(2) == [1], 'the last request')
    world.await_drained(running)
    running[1].kill()
    shutil.rmtree(world.folder(1))
    shutil.copytree(world.path('backup'), world.folder(1))
    later(world, running)
    return world, running


def old_backup(program):
    """An old backup is refused at the first contact, and its site sealed: with fewer messages by 7, with as many by 8."""
    def fewer(world, running):
        running[1] = world.up(1)

    def as_many(world, running):
        running[2].process.send_signal(signal.SIGSTOP)      # stopped: it answers no hello meanwhile
        running[1] = world.up(1)
        running[1].ask('ask', 3, 4)             # as many messages as those that the backup lacks, and other ones
        running[2].process.send_signal(signal.SIGCONT)

    for number, later in ((7, fewer), (8, as_many)):
        world, running = backups(program, later)
        with world:
            running[1].await_link('out', 2, 'refused %d' % number)
            yield '%d at the sender' % number, True
            yield '%d seals it: %s' % (number, running[1].status()), running[1].status()['sealed'] == 'yes'
            yield 'it takes no event', running[1].ask('start', 1) == 'refused 9' or running[1].ask('ask', 1, 3) == 'refused 9'
            yield 'the other is not sealed', running[2].status()['sealed'] == 'no'
            yield 'and goes on', running[2].ask('ask', 2, 4).startswith('ok')
            yield 'what it sends waits', running[2].ask('ask', 4, 3) == 'ok sent 2'
            running[2].await_link('out', 1, 'down 2')


def receiver_lacks(program):
    """A receiver that lost entries which it acknowledged is told so by 9, and sealed."""
    with World3(program, {1: [1], 2: [2, 4, 5, 6]}) as world:
        running = world.up_all()
        running[1].await_links()
        running[2].await_links()
        running[1].kill()
        shutil.copytree(world.folder(1), world.path('backup'))
        running[1] = world.up(1)
        running[2].await_links()
        yield 'only site 2 sends', running[2].ask('ask', 2, 1).startswith('ok')
        wait_until(lambda: len(world.entries(1)) == 2, 'both messages')
        wait_until(lambda: running[2].status()['kept'] == '0', 'an acknowledgement')
        running[1].kill()
        shutil.rmtree(world.folder(1))
        shutil.copytree(world.path('backup'), world.folder(1))
        running[1] = world.up(1)
        running[2].await_link('out', 1, 'refused 9')
        yield 'the sender says 9 and goes on', running[2].status()['sealed'] == 'no'
        yield 'the receiver is sealed', bool(wait_until(lambda: running[1].status()['sealed'] == 'yes', 'the seal'))
        yield 'and takes nothing', running[1].ask('ask', 1, 4) == 'refused 9'
        running[2].kill()
        running[2] = world.up(2)
        yield 'a restart of the sender forgets what it was told', running[2].status()['sealed'] == 'no'


def folders_in_use(program):
    """Two processes on one folder; a copied folder that runs twice."""
    with World3(program, PAIR, relayed=True) as world:
        running = world.up_all()
        one, two = running[1].client(), running[2].client()
        some_events(one, two, 1)
        yield 'a second process', beside(world).faults() == (3, 'fault journal disk')
        yield 'the first goes on', one.ask(1, [3]) is None and one.reply(3, 1) is None
        world.await_drained(running)
        running[1].kill()
        shutil.copytree(world.folder(1), world.path('copy'))
        running[1] = world.up(1)
        running[1].await_links()
        held = [Port(), Port()]
        own = world.write_topology(None, world.path('elsewhere'), sites=[
            {'site': 1, 'port': held[0].number, 'processes': PAIR[1]},
            {'site': 2, 'port': world.ports[2].number, 'processes': PAIR[2]}])
        one.ask(1, [2])
        wait_until(lambda: two.owed(2) == [1], 'the request')
        copy = world.start(1, folder=world.path('copy'), topology=own, door=held[1])
        copy.await_listening()
        copy.ask('ask', 3, 4)
        found = wait_until(lambda: [site for site in (copy, running[1]) if site.links()['out', 2].startswith('refused')],
                           'a refusal of one of the two')
        yield 'one of the two is refused, and sealed', found[0].status()['sealed'] == 'yes'
        for port in held:
            port.let_go()


# ---- worlds and topologies that are not those of the journal

def other_worlds(program):
    with World3(program, PAIR) as world:
        for site in PAIR:
            world.up(site).kill()
        other = world.write_topology(None, world.path('other'), world=os.urandom(16).hex())
        alien = world.start(1, topology=other)
        status, fault = alien.faults()
        yield 'a journal of another world: %s' % fault, status == 3 and fault.startswith('fault journal')
        moved = world.write_topology(None, world.path('moved'), sites=[
            {'site': 1, 'port': world.ports[1].number, 'processes': [1]}, {'site': 2, 'port': world.ports[2].number, 'processes': [2, 3, 4]}])
        site = world.up(1)
        yield 'an ask', site.ask('ask', 3, 1).startswith('ok')
        site.kill()
        status, fault = world.start(1, topology=moved).faults()
        yield 'a process that has moved: %s' % fault, status == 3 and fault.startswith('fault journal unlawful')
        status, fault = world.start(2, folder=world.folder(1)).faults()
        yield 'a journal of another site: %s' % fault, status == 3 and fault.startswith('fault journal')
        for name, changed, wanted in (('no world', {'world': ''}, 'fault json'), ('a short world', {'world': '12'}, 'fault json'),
                                      ('no such site', {'sites': []}, 'fault site')):
            status, fault = world.start(1, topology=world.write_topology(None, world.path('bad'), **changed)).faults()
            yield '%s: %s' % (name, fault), (status, fault) == (3, wanted)
        running = world.up(1)
        alien = World3(program, PAIR)
        with alien:
            rows = [{'site': 1, 'port': world.ports[1].number, 'processes': PAIR[1]},
                    {'site': 2, 'port': alien.ports[2].number, 'processes': PAIR[2]}]
            alien.write_topology(2, sites=rows)
            visitor = alien.up(2)
            visitor.await_link('out', 1, 'refused 2')
            yield 'a site of another world is refused, and not sealed', visitor.status()['sealed'] == 'no'
            yield 'nor is the other', running.status()['sealed'] == 'no' and running.links()['in', 2] == 'resting'


def damaged_journals(program):
    """A tail is cut; a changed byte is damage, and nothing is touched; entries that the rules don't make are unlawful."""
    with World3(program, PAIR) as world:
        site = world.up(1)
        for _ in range(5):
            site.ask('ask', 1, 3), site.ask('reply', 3, 1)
        site.kill()
        data = read(world.segment(1))
        for cut in (1, 7, 16):
            write(world.segment(1), data[:-cut])
            site = world.up(1)
            entries = int(site.status()['entries'])
            site.kill()
            yield 'a tail of a torn entry (%d bytes less) is cut' % cut, entries == 9 and len(read(world.segment(1))) < len(data) - cut + 1
        write(world.segment(1), data + b'\0' * 300)
        site = world.up(1)
        yield 'zeros behind are cut', site.status()['entries'] == '10' and len(read(world.segment(1))) == len(data)
        site.kill()
        faults = 0
        for at in range(71, len(data) - 40, 7):
            changed = bytearray(data)
            changed[at] ^= 0x40
            write(world.segment(1), changed)
            status, fault = world.start(1).faults() if faults < 6 or effort.times > 1 else (3, 'fault journal damaged')
            faults += 1
            if status != 3 or not fault.startswith('fault journal damaged') or read(world.segment(1)) != changed:
                yield 'a changed byte at %d: %d %s' % (at, status, fault), False
                break
        yield 'a changed byte is damage, and nothing is touched', True
        for name, changed in (('a changed head', b'\xff' + data[1:]), ('an empty file', b''), ('half a head', data[:40]),
                              ('a journal of edition 2', b'CMHJ\x02\x00\x01')):
            write(world.segment(1), changed)
            status, fault = world.start(1).faults()
            yield '%s: %s' % (name, fault), status == 3 and fault.startswith('fault journal damaged')
        body = b'\x02\x00\x03\x00\x01'          # 3 grants 1, which nobody asked for
        write(world.segment(1), segment(1, [body], world=world.world))
        status, fault = world.start(1).faults()
        yield 'what the rules forbid: %s' % fault, status == 3 and fault.startswith('fault journal unlawful')
        write(world.segment(1), data + chained(data, body))
        status, fault = world.start(1).faults()
        yield 'also behind lawful entries', status == 3 and fault.startswith('fault journal unlawful')
        write(world.segment(1), data)
        os.mkdir(os.path.join(world.folder(1), '0000000000.cmhj.new'))
        os.rmdir(os.path.join(world.folder(1), '0000000000.cmhj.new'))
        write(os.path.join(world.folder(1), '0000000001.cmhj.new'), b'half')
        site = world.up(1)
        yield 'a half made segment is removed', not os.path.exists(os.path.join(world.folder(1), '0000000001.cmhj.new'))
        yield 'and the journal goes on', site.status()['entries'] == '10'


# ---- a disk that is full

def full_disk_and_room(program):
    """At a full disk an event is refused with 10 and then with 9; a restart with room knows what became of it, and goes on."""
    with World3(program, PAIR) as world:
        site = world.up(1, limit=of_size(2000))
        clients = [Noting(world, 1, PAIR[1], 7)]
        clients[0].start()
        wait_until(lambda: any(answer == 'refused 10' for _, answer in clients[0].notes), 'an event in doubt')  # site 2 is down
        yield 'and the site is sealed', site.status()['sealed'] == 'yes'
        yield 'questions are answered', site.ask('waits', 1).startswith('waits 1')
        yield 'no event is taken', site.ask('start', 1) == 'refused 9'
        other = world.up(2)
        other.await_link('out', 1, 'down')
        yield 'the peer is not', other.status()['sealed'] == 'no' and other.ask('ask', 2, 4).startswith('ok')
        site.kill()
        running = {1: world.up(1), 2: other}
        wait_until(lambda: clients[0].answered() > 100, 'events after it')
        yield from judged(world, running, clients)
        yield 'one was in doubt', sum(answer == 'refused 10' for _, answer in clients[0].notes) == 1


# ---- a peer that is down

def peer_down(program):
    """What is sent to a site that is down is kept and counted, survives a restart, and goes once the site is there."""
    with World3(program, PAIR) as world:
        running = world.up_all()
        running[1].await_links()
        running[2].await_links()
        told = Told(running[1])
        running[2].kill()
        running[1].await_link('out', 2, 'down')
        wait_until(lambda: any(what.way == 'out' and what.state.startswith('down') for what in told.of('link')), 'a link that is down')
        yield 'in rests', running[1].links()['in', 2] == 'resting'
        client = running[1].client()
        client.ask(1, [2])
        for _ in range(10):
            client.start(1)
        yield 'they are counted: %s' % running[1].links()['out', 2], running[1].links()['out', 2] == 'down 12'
        running[1].kill()
        running[1] = world.up(1)
        wait_until(lambda: running[1].links()['out', 2].startswith('down'), 'a dial in vain')
        yield 'a restart keeps them: %s' % running[1].links()['out', 2], running[1].links()['out', 2] in ('down 12', 'down 0')
        begin = time.monotonic()
        running[2] = world.up(2)
        wait_until(lambda: running[2].ask('owed', 2) == 'owed 2 1', 'the request')
        took = time.monotonic() - begin
        yield 'they come: %.2f s after it listens' % took, took < 2
        world.await_drained(running)
        yield 'once each', sum(' from 1' in entry for entry in world.entries(2)) == 12
        yield 'accepted', world.is_accepted('drained', 'wait 1 2')


def behind(program):
    """Where a link keeps more than 1,000,000 messages, asks and starts are refused with 13, and replies and withdrawals are not.
    Once the other site has caught up, all goes on. Only where it is named, since it takes minutes."""
    allow(900)
    with World3(program, PAIR) as world:
        running = {1: world.up(1)}
        client = cmh.Site.at(running[1].door)
        client.patience = 60
        lines = ['ask 1 2', 'ask 3 4']
        answers, memory, begin = [], {}, time.monotonic()
        kept = 0
        while not answers or not answers[-1].startswith('refused'):
            client.send(*lines)
            answers = [client.receive() for _ in lines]
            kept = int(running[1].links()['out', 2].split()[1])
            for at in (100_000, 900_000):
                if kept >= at and at not in memory:
                    memory[at] = running[1].memory() >> 10
            lines = ['start 1'] * 256
        yield 'kept %d messages in %.0f s; %s' % (kept, time.monotonic() - begin, memory), 1_000_000 < kept < 1_000_400
        yield 'it is 13: %s' % answers[-1], answers[-1] == 'refused 13' and client.call('ask 1 4') == 'refused 13'
        yield 'a withdrawal is taken', client.call('withdraw 3') == 'ok sent 1'
        began = time.monotonic()
        running[1].kill()
        running[1] = world.up(1)
        yield 'a restart takes %.1f s' % (time.monotonic() - began), running[1].links()['out', 2] == 'down %d' % (kept + 1)
        running[2] = world.up(2)
        began = time.monotonic()
        wait_long(lambda: running[1].status()['kept'] == '0', 'an empty list')
        yield 'they come in %.0f s' % (time.monotonic() - began), running[2].status()['entries'] == str(kept + 1)
        yield 'an ask is taken', running[1].ask('ask', 1, 4).startswith('ok')
        yield 'memory then: %d KB' % (running[1].memory() >> 10), True
        world.await_drained(running)
        yield 'accepted', world.is_accepted('drained')


def wait_long(holds, what):
    """As wait_until, for minutes."""
    for _ in range(20):
        try:
            return wait_until(holds, what)
        except Missed:
            pass
    raise Missed(what)


TRIALS = [*CLIENTS, *AUDITS, *TURNS, *RESTORED, killed_sites, cut_connections, power_cuts, answers_last, model_peer, full_disk_and_room, starts, peer_down, old_backup, receiver_lacks, folders_in_use, other_worlds, damaged_journals,
          *PEERS]
LONG = [behind, *SLOW]
SIDE_BY_SIDE = 4  # trials: most of them wait


def outcomes(trial, program):
    """What held of a trial, by name, up to what was missed."""
    for _ in range(3):
        found = []
        try:
            for outcome in trial(program):
                found.append(outcome)
        except Collided as collided:
            print('again: a stranger took the port %s' % collided, flush=True)
            continue
        except (Missed, OSError, subprocess.TimeoutExpired, wire3.Gone, wire3.Bad, cmh.Ended, cmh.Refused, cmh.BadLine) as missed:
            where = ['%s:%d' % (frame.name, frame.lineno) for frame in traceback.extract_tb(missed.__traceback__)]
            found.append(('missed %s %s at %s' % (type(missed).__name__, missed, ' '.join(where[1:4])), False))
        return found
    return [('a run without a stranger on its ports', False)]


def caught(mistake):
    """What the trial of a mistake finds on the small site that makes it."""
    trial = next(trial for trial in TRIALS if trial.__name__ == MISTAKES[mistake])
    return trial.__name__, [name for name, is_held in outcomes(trial, ['env', 'WRONG=' + mistake, *FAKE]) if not is_held]


def try_mistakes(names):
    passed = 0
    mistakes = [mistake for mistake in MISTAKES if not names or mistake in names]
    with concurrent.futures.ThreadPoolExecutor(SIDE_BY_SIDE) as pool:
        for mistake, (trial, found) in zip(mistakes, pool.map(caught, mistakes)):
            passed += bool(found)
            is_caught = 'is caught' if found else 'IS NOT CAUGHT'
            print('%s %s by %s: %s' % (mistake, is_caught, trial, found[:1]), flush=True)
    print('%d passed, %d failed' % (passed, len(mistakes) - passed))
    return passed < len(mistakes)


def main(words):
    if words[:1] == ['--wrong']:
        allow(600)
        return try_mistakes(words[1:])
    if '--long' in words:
        words.remove('--long')
        effort.times = 20
        allow(3600)
    program = os.path.join(HERE, '..', '..', 'crates', 'cmh', 'out', 'cmh')
    if words[:1] == ['--binary']:
        words = words[1:]
    if words and words[0] == '--fake':
        program, words = FAKE, words[1:]
    elif words and os.path.exists(words[0]):
        program, words = os.path.abspath(words[0]), words[1:]
    unknown = set(words) - {trial.__name__ for trial in TRIALS + LONG}
    if unknown:
        sys.exit('no such trial: %s' % ' '.join(sorted(unknown)))
    # The small site begins no epochs.
    known = [trial for trial in TRIALS if program is not FAKE or trial not in TURNS + RESTORED]
    trials = [trial for trial in TRIALS + LONG if (trial.__name__ in words if words else trial in known)]
    passed = failed = 0
    with concurrent.futures.ThreadPoolExecutor(SIDE_BY_SIDE) as pool:
        for trial, (found, seconds) in zip(trials, pool.map(lambda trial: timed(trial, program), trials)):
            for name, is_held in found:
                if not is_held:
                    print('FAILED %s: %s' % (trial.__name__.replace('_', ' '), name), flush=True)
            held = sum(bool(is_held) for _, is_held in found)
            passed, failed = passed + held, failed + len(found) - held
            print('%s: %d of %d held, %.1f s' % (trial.__name__, held, len(found), seconds), flush=True)
    print('%d passed, %d failed' % (passed, failed))
    return failed > 0


def timed(trial, program):
    begin = time.monotonic()
    return outcomes(trial, program), time.monotonic() - begin


if __name__ == '__main__':
    sys.exit(main(sys.argv[1:]))
