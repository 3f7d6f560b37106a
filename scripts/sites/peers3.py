"""The trials of what sites of edition 3 say to each other: a script is the other end of a link. It comes late, in pieces, twice
at once; it counts wrong, and lies."""
import random
import select
import socket
import threading
import time

import wire3
from files import Segment
from turns3 import epochs_of
from world import patience, wait_until
from world3 import World3, cmh

PAIR = {1: [1, 3], 2: [2, 4]}


def listener(world, site):
    """A script listens in the place of a site."""
    made = socket.socket()
    made.setsockopt(socket.SOL_SOCKET, socket.SO_REUSEADDR, 1)
    made.bind(('127.0.0.1', world.ports[site].number))
    made.listen(16)
    made.settimeout(patience())
    return made


def accepted(made):
    return wire3.End(made.accept()[0], patience())


def request(at):
    """The messages of link 2 to 1 in turn: 2 asks 1, gives it up, asks again .. each is lawful."""
    clock = 1 + at // 2
    return wire3.frame(('request', 'withdraw')[at % 2], 2, 1, clock=clock)


def bad_hellos(program):
    """What a receiver answers to the hellos of strangers, and to those that come in pieces."""
    with World3(program, PAIR) as world:
        site = world.up(1)
        port = world.ports[1].number
        of = world.world
        hellos = [(wire3.OTHER_EDITION, b'CMH\x02\x00\x02'), (wire3.OTHER_EDITION, b'CMH\x01\x00\x02'),
                  (wire3.OTHER_WORLD, wire3.hello(bytes(16), 2, 1)), (wire3.NOT_HERE, wire3.hello(of, 2, 9)),
                  (wire3.NO_SENDER, wire3.hello(of, 9, 1)), (wire3.NO_SENDER, wire3.hello(of, 1, 1))]
        for reason, bytes_of in hellos:
            end = wire3.End.dial(port, patience())
            end.say(bytes_of)
            heard = end.hear_answer()
            yield 'refusal %d: %s' % (reason, heard), heard == reason and end.is_closed()
        end = wire3.End.dial(port, patience())
        for byte in wire3.hello(of, 2, 1):
            end.say(bytes([byte]))
            time.sleep(0.002)
        answer = end.hear_answer()
        yield 'a hello in pieces', answer == (0, 0, wire3.EMPTY_MARK)
        noise = [wire3.End.dial(port, patience()) for _ in range(40)]
        for at, each in enumerate(noise):
            each.say(random.Random(at).randbytes(random.Random(at).choice([1, 5, 27, 28, 300])))
        end.say(request(0))
        yield 'noise of others is no matter', end.hear_acknowledged(1)
        for each in noise:
            each.reset()
        yield 'one entry', site.status()['entries'] == '1' and site.ask('owed', 1) == 'owed 1 2'


def sender_that_resumes(program):
    """A script sends as site 2: the count and the mark that it is told are those of what is synced, over cuts and kills."""
    with World3(program, PAIR) as world:
        site = world.up(1)
        sent, mark, draw = 0, wire3.EMPTY_MARK, random.Random(5)
        reply_count = 0
        for turn in range(12):
            end = wire3.End.dial(world.ports[1].number, patience())
            end.say(wire3.hello(world.world, 2, 1))
            _, count, told = end.hear_answer()
            if count > sent or told != marks(count):
                yield 'turn %d: count %d of %d' % (turn, count, sent), False
            whole = [request(at) for at in range(count, count + 6)]
            part = request(count + 6)[:draw.randint(0, 12)]
            end.say(*whole, part)
            sent = max(sent, count + 6)
            if turn % 3 == 0:
                end.hear_acknowledged(count + 6)
            if turn % 4 == 1:
                site.kill()
                site = world.up(1)
            (end.reset if turn % 2 else end.close)()
        end = wire3.End.dial(world.ports[1].number, patience())
        end.say(wire3.hello(world.world, 2, 1))
        _, count, told = end.hear_answer()
        yield 'each turn was right; at the end %d' % count, told == marks(count) and count <= sent
        yield 'each message once', sum(' from 2' in entry for entry in world.entries(1)) == count


def marks(count):
    mark = wire3.EMPTY_MARK
    for at in range(count):
        mark = wire3.mark_of(request(at), mark)
    return mark


def stale_connections(program):
    """N1, N3 and N3b: messages of an older connection are not taken once a newer one was answered, and what was counted is not
    taken again."""
    with World3(program, PAIR) as world:
        site = world.up(1)
        hello = wire3.hello(world.world, 2, 1)
        old = wire3.End.dial(world.ports[1].number, patience())
        old.say(hello)
        yield 'the first', old.hear_answer() == (0, 0, wire3.EMPTY_MARK)
        new = wire3.End.dial(world.ports[1].number, patience())
        new.say(hello)
        yield 'a second is answered', new.hear_answer() == (0, 0, wire3.EMPTY_MARK)
        try:
            old.say(request(0))
        except wire3.Gone:
            pass
        yield 'the first is closed', old.is_closed()
        new.say(request(0), request(1))
        yield 'the second counts alone', new.hear_acknowledged(2) and site.status()['entries'] == '2'
        late = wire3.End.dial(world.ports[1].number, patience())      # its hello comes late
        newer = wire3.End.dial(world.ports[1].number, patience())
        newer.say(hello)
        yield 'the count goes on', newer.hear_answer() == (0, 2, marks(2))
        newer.say(request(2))
        yield 'a third message', newer.hear_acknowledged(3)
        late.say(hello)
        yield 'a hello that comes late is told the newest count', late.hear_answer() == (0, 3, marks(3))
        try:
            newer.say(request(3))
        except wire3.Gone:
            pass
        yield 'and has the claim', newer.is_closed() and site.status()['entries'] == '3'
        late.say(request(3))
        yield 'each once', late.hear_acknowledged(4) and len(world.entries(1)) == 4
        race = [wire3.End.dial(world.ports[1].number, patience()) for _ in range(8)]
        for end in race:                        # hellos and messages of all of them at once
            end.say(hello)
        counts = []
        for end in race:
            try:
                end.say(request(4), request(5))
            except wire3.Gone:
                pass
        for end in race:
            try:
                counts.append(end.hear_answer()[1])
            except wire3.Gone:
                pass
        last = wire3.End.dial(world.ports[1].number, patience())
        last.say(hello)
        _, count, mark = last.hear_answer()
        yield 'of eight at once: %s, then %d' % (counts, count), counts == sorted(counts) and counts[:1] <= [4]
        yield 'no message came twice', count <= 4 + 2 * len(race) and count == sum(' from 2' in entry for entry in world.entries(1))
        yield 'the journal is lawful', restarted(world, site, 1) is not None


def restarted(world, site, number):
    site.kill()
    return world.up(number)


def lying_sender(program):
    """What the rules forbid closes the link for good; a restart asks for it again. A refusal 9 of the sender seals."""
    with World3(program, PAIR) as world:
        site = world.up(1)
        hello = wire3.hello(world.world, 2, 1)
        end = wire3.End.dial(world.ports[1].number, patience())
        end.say(hello)
        end.hear_answer()
        end.say(request(0), request(0))         # 2 asks 1 twice
        yield 'the connection is closed', end.is_closed()
        yield 'the link too: %s' % site.links(), site.links()['in', 2] == 'closed 4'
        end = wire3.End.dial(world.ports[1].number, patience())
        end.say(hello)
        yield 'its hello is refused with 5', end.hear_answer() == wire3.CLOSED
        yield 'the site goes on', site.status()['sealed'] == 'no' and site.ask('ask', 1, 3).startswith('ok')
        site = restarted(world, site, 1)
        end = wire3.End.dial(world.ports[1].number, patience())
        end.say(hello)
        yield 'after a restart it may go on from there', end.hear_answer() == (0, 1, marks(1))
        end.say(b'\x09')
        yield 'bytes that are no message', end.is_closed()
        site = restarted(world, site, 1)
        end = wire3.End.dial(world.ports[1].number, patience())
        end.say(hello)
        end.hear_answer()
        end.say(wire3.note(), request(1), wire3.mismatch(wire3.RECEIVER_LACKS))
        yield 'a 9 of the sender seals the receiver', bool(wait_until(lambda: site.status()['sealed'] == 'yes', 'the seal'))
        yield 'it takes no event', site.ask('start', 1) in ('refused 9', 'refused 5')
        end = wire3.End.dial(world.ports[1].number, patience())
        end.say(hello)
        yield 'and refuses hellos with 6', end.hear_answer() == wire3.STOPPED


def later_epochs(program):
    """What a peer says of a later epoch is taken in that epoch. What is too far ahead closes its connection."""
    with World3(program, PAIR) as world:
        site = world.up(1)
        of, port = world.world, world.ports[1].number
        end = wire3.End.dial(port, patience())
        end.say(wire3.hello(of, 2, 1, epoch=1))
        yield 'a hello', end.hear_answer() == (1, 0, wire3.EMPTY_MARK) and epochs_of(world, 1) == [0, 1]
        end.say(wire3.note(2))
        yield 'a note', end.hear_acknowledged(0) and epochs_of(world, 1)[-1] == 2
        end.say(wire3.frame('request', 2, 1, clock=5 << 32))
        yield 'a message', end.hear_acknowledged(1) and epochs_of(world, 1) == [0, 1, 2, 5]
        yield 'it is the first entry of its epoch', site.status()['entries'] == '1' and site.ask('owed', 1) == 'owed 1 2'
        far, mark = 5 + 65537, wire3.mark_of(wire3.frame('request', 2, 1, clock=5 << 32))
        for name, said in (('a hello', wire3.hello(of, 2, 1, epoch=far)), ('a note', wire3.note(far)),
                           ('a message', wire3.frame('withdraw', 2, 1, clock=far << 32)),
                           ('one of the last epoch', wire3.frame('withdraw', 2, 1, clock=(1 << 64) - 1))):
            end = wire3.End.dial(port, patience())
            if name != 'a hello':
                end.say(wire3.hello(of, 2, 1))
                yield name + ' comes', end.hear_answer() == (5, 1, mark)
            end.say(said)
            yield name + ' too far ahead', end.is_closed() and site.status()['entries'] == '1' and epochs_of(world, 1)[-1] == 5
        end = wire3.End.dial(port, patience())
        end.say(wire3.hello(of, 2, 1, epoch=3), wire3.frame('withdraw', 2, 1, clock=5 << 32))
        yield 'the link goes on', end.hear_answer() == (5, 1, mark) and end.hear_acknowledged(2)


def lying_receiver(program):
    """A script answers as site 2: wrong counts and marks, acknowledgements of what was never sent."""
    with World3(program, PAIR) as world, listener(world, 2) as made:
        site = world.up(1)
        of, end = world.world, accepted(made)

        def answered(count, mark):
            said = wire3.read_hello(end.hear(wire3.HELLO))
            end.say(wire3.answer(of, 2, 1, count, mark))
            return said
        yield 'a hello', answered(0, wire3.EMPTY_MARK) == (of, 1, 2, 0)
        yield 'an event', site.ask('ask', 1, 2) == 'ok sent 2'
        first, second = end.hear_message(), end.hear_message()
        yield 'its messages: %s, %s' % (first, second), (str(first), str(second)) == ('request 1 2', 'probe 1 1 1 2')
        spelled = [wire3.message(first), wire3.message(second)]
        end.reset()
        end = accepted(made)
        answered(1, wire3.mark_of(spelled[0]))
        yield 'it goes on behind the count', end.hear_message() == second
        end.say(wire3.acknowledgement(2))
        end.reset()
        end = accepted(made)
        answered(2, wire3.mark_of(spelled[0] + spelled[1]))
        yield 'and sends nothing that was counted', site.ask('start', 1) == 'ok sent 1' and str(end.hear_message()) == 'probe 1 2 1 2'
        end.reset()
        end = accepted(made)
        answered(1, wire3.mark_of(spelled[0]))
        yield 'less than was acknowledged is refused with 9', end.hear_item() == ('mismatch', 9)
        site.await_link('out', 2, 'refused 9')
        yield 'and seals nobody here', site.status()['sealed'] == 'no' and site.ask('start', 1) == 'ok sent 1'
        for name, count, mark, reason in (('more than was sent', 9, 5, 7), ('another mark', 2, 5, 8)):
            site = restarted(world, site, 1)
            end = accepted(made)
            answered(count, mark)
            yield '%s is refused with %d' % (name, reason), end.hear_item() == ('mismatch', reason)
            site.await_link('out', 2, 'refused %d' % reason)
            yield '%s seals the sender' % name, site.status()['sealed'] == 'yes' and site.ask('start', 1) == 'refused 9'
        site = restarted(world, site, 1)
        end = accepted(made)
        answered(0, wire3.EMPTY_MARK)
        yield 'after a restart all is sent that is asked for', [str(end.hear_message()) for _ in range(3)] == [
            'request 1 2', 'probe 1 1 1 2', 'probe 1 2 1 2']
        end.say(wire3.acknowledgement(77))
        yield 'an acknowledgement of too much is 7', bool(wait_until(lambda: site.status()['sealed'] == 'yes', 'the seal'))


def refusing_receiver(program):
    """A receiver that has closed the link, or stopped for good, is dialled again; one that is of another world, say, is not."""
    with World3(program, PAIR) as world, listener(world, 2) as made:
        site = world.up(1)
        site.ask('ask', 1, 2)
        for reason in (wire3.CLOSED, wire3.STOPPED):
            end = accepted(made)
            end.hear(wire3.HELLO)
            end.say(wire3.refusal(reason))
            yield '%d: the connection is closed' % reason, end.is_closed()
            site.await_link('out', 2, 'down 2')
        end = accepted(made)
        end.hear(wire3.HELLO)
        end.say(wire3.answer(world.world, 2, 1, 0, wire3.EMPTY_MARK))
        yield 'then it goes on', str(end.hear_message()) == 'request 1 2' and site.status()['sealed'] == 'no'
        for reason in (wire3.OTHER_EDITION, wire3.OTHER_WORLD, wire3.NOT_HERE, wire3.NO_SENDER):
            end.reset()
            end = accepted(made)
            end.hear(wire3.HELLO)
            end.say(wire3.refusal(reason))
            site.await_link('out', 2, 'refused %d' % reason)
            yield '%d is for good, and seals nobody' % reason, site.status()['sealed'] == 'no'
            site = restarted(world, site, 1)
        end = accepted(made)
        end.hear(wire3.HELLO)
        yield 'a restart tries again', True


def silent_peers3(program):
    """A receiver that acknowledges nothing is dialled again within 15 s, a sender that says nothing is given up within 30 s, and
    where nothing is sent a note comes every 5 s. Only where it is named."""
    with World3(program, PAIR) as world, listener(world, 2) as made:
        site = world.up(1)
        end = accepted(made)
        end.hear(wire3.HELLO)
        end.say(wire3.answer(world.world, 2, 1, 0, wire3.EMPTY_MARK))
        quiet = wire3.End.dial(world.ports[1].number, 40)
        quiet.say(wire3.hello(world.world, 2, 1))
        quiet.hear_answer()
        begin = time.monotonic()
        yield 'a note', end.hear_item() == ('note', 0)
        yield 'within 5 s: %.1f' % (time.monotonic() - begin), 4 < time.monotonic() - begin < 7
        site.ask('ask', 1, 2)
        first, sent = end.hear_message(), time.monotonic()
        yield 'a message', str(first) == 'request 1 2'
        while True:
            made.settimeout(20)
            try:
                end = accepted(made)
                break
            except TimeoutError:
                yield 'it is dialled again', False
                return
        yield 'after 15 s: %.1f' % (time.monotonic() - sent), 14 < time.monotonic() - sent < 18
        end.hear(wire3.HELLO)
        end.say(wire3.answer(world.world, 2, 1, 0, wire3.EMPTY_MARK))
        yield 'the same message', end.hear_message() == first
        yield 'the silent sender is given up', quiet.is_closed()
        yield 'after 30 s: %.1f' % (time.monotonic() - begin), 28 < time.monotonic() - begin < 34
        yield 'its link rests', site.links()['in', 2] == 'resting'


def alien_answers(program):
    """Answers of another world, from or to another site, or with no name are none: the connection is dialled again."""
    with World3(program, PAIR) as world, listener(world, 2) as made:
        site = world.up(1)
        of, empty = world.world, wire3.EMPTY_MARK
        for name, said in (('another world', wire3.answer(bytes(16), 2, 1, 0, empty)), ('another site', wire3.answer(of, 3, 1, 0, empty)),
                           ('an answer to another site', wire3.answer(of, 2, 2, 0, empty)),
                           ('no name', b'SMH' + wire3.answer(of, 2, 1, 0, empty)[3:])):
            end = accepted(made)
            end.hear(wire3.HELLO)
            end.say(said)
            yield name, end.is_closed() and site.links()['out', 2] == 'down 0'
        end = accepted(made)
        end.hear(wire3.HELLO)
        end.say(wire3.answer(of, 2, 1, 0, empty))
        site.await_link('out', 2, 'open')
        yield 'nobody is sealed', site.status()['sealed'] == 'no'


def acknowledged_is_synced(program):
    """N2 and N4: what a receiver has acknowledged, or counted in an answer, no power cut takes away; and no message goes out
    before its entry lasts. A sync takes so long that nearly each kill falls into one."""
    draw = random.Random(3)
    with World3(program, PAIR) as world, listener(world, 2) as made:
        site = world.up(1, power=20000)
        got = told = 0
        for turn in range(12):
            out = answered_dial(made, world, got)
            end = wire3.End.dial(world.ports[1].number, patience())
            end.say(wire3.hello(world.world, 2, 1))
            _, count, mark = end.hear_answer()
            if count < told or mark != marks(count):
                yield 'turn %d: %d were acknowledged, %d are there' % (turn, told, count), False
                return
            told = count
            if turn == 0:
                site.ask('ask', 1, 2)
            if turn % 3 != 1:                   # in the others it is killed as soon as it has told the count
                lines = threading.Thread(target=send_some, args=(site, end, count), daemon=True)
                lines.start()
                time.sleep(0.1 * draw.random())
                told = max([told, *all_of(end.hear_acknowledgement, end, 0.001)])
                got += len(list(all_of(out.hear_message, out, 0.001)))
                if turn % 3:
                    await_more(out if turn % 2 else end)            # and at once the kill
            else:
                time.sleep(0.005)
            site.kill()
            told, got = max([told, *all_of(end.hear_acknowledgement, end)]), got + len(list(all_of(out.hear_message, out)))
            if turn % 3 != 0:
                world.disk(1).cut_power()
            site = world.up(1, power=20000)
            sent = len(sendings(world.entries(1)))
            if sent < got:
                yield 'turn %d: %d messages went out, the journal has %d' % (turn, got, sent), False
                return
        yield 'acknowledged %d, gone out %d, bytes lost %d' % (told, got, world.disk(1).lost), told >= 5 and got >= 5


def answered_dial(made, world, got):
    """The newest dial of site 1, answered with the count and the mark of so many of its messages."""
    while True:
        out = accepted(made)
        try:
            out.hear(wire3.HELLO)
            out.say(wire3.answer(world.world, 2, 1, got, sent_mark(world, got)))
            return out
        except wire3.Gone:                      # of the site that was killed
            pass


def await_more(end):
    """Waits until something comes, and leaves it there."""
    select.select([end.peer], [], [], 0.3)


def all_of(hear, end, seconds=1):
    """All that is there on a connection, up to a pause of so many seconds."""
    end.peer.settimeout(seconds)
    try:
        while True:
            yield hear()
    except (TimeoutError, wire3.Gone):
        return


def send_some(site, end, count):
    """Messages and events, until the site is killed."""
    try:
        client = cmh.Site.at(site.door)
        for at in range(100):
            end.say(request(count + at))
            client.send('start 1')
            time.sleep(0.002)
    except (OSError, cmh.Ended, wire3.Gone):
        pass


def sendings(entries):
    """What entries sent, in their order, as words."""
    return [part.split(' to ')[0] for entry in entries for part in entry.split(' declared ')[0].split(' sent ')[1:]]


def sent_mark(world, count):
    """The mark of the first messages of site 1's journal, by its bytes."""
    with open(world.segment(1), 'rb') as file:
        frames = [frame for entry in Segment(file.read()).entries for _, frame in entry.sent]
    return wire3.mark_of(b''.join(wire3.message(frame) for frame in frames[:count]))


SLOW = [silent_peers3]
PEERS = [bad_hellos, sender_that_resumes, stale_connections, lying_sender, later_epochs, lying_receiver, refusing_receiver, alien_answers, acknowledged_is_synced]
