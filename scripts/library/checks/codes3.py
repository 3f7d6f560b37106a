"""Each code of include/cmh.h at a site of edition 3, and that nothing has changed after it. The expected values are those of
docs/rules.md and docs/formats.md."""
from ctypes import byref, c_size_t, c_uint8, c_uint16, c_uint64

import libcmh
from libcmh import Entry3, Refused, Site3, got3, sent3
from segments import mark_of

WORLD, ROWS = bytes(16), {1: [1, 2], 2: [3, 4]}

# The example of docs/formats.md.
HEAD = bytes.fromhex('434D484A03 0001' + '00' * 24 + '0000001C' + '00' * 28 + '98E58B9ED9EA60A3')
ASKED = bytes.fromhex('00000030 010001010002 050002 010000000000000001 0001 0002'
                      '050002 030000000000000001 0000000000000001 0001 0001 0002 177CDDDCF8DF7696')


def code(call, *of):
    """The code that a call is refused with, or 0."""
    try:
        call(*of)
    except Refused as refused:
        return refused.code
    return 0


def expect(what, found, wanted):
    if found != wanted:
        raise SystemExit(f'{what}: {found}, and not {wanted}')


def raw(name, site, *of):
    return getattr(libcmh._library, name)(byref(site._handle), *of)


def openings():
    expect('no world', [code(Site3, bytes(count), ROWS, 1) for count in (0, 15, 17)], [50, 50, 50])
    expect('not here', [code(Site3, WORLD, ROWS, number) for number in (3, 0, 10000)], [2, 2, 2])
    expect('no rows', code(Site3, WORLD, {}, 1), 2)
    most = {1: range(1, 257)}
    expect('limits', [code(Site3, WORLD, rows, 1) for rows in (
        most, {1: range(1, 258)}, {site: [site] for site in range(1, 65)}, {site: [site] for site in range(1, 66)},
        {site: range(256 * site, 256 * site + 256) for site in range(1, 17)},
        {site: range(256 * site, 256 * site + 256 + (site == 1)) for site in range(1, 17)},
        {site: range(256 * site, 256 * site + (1 if site == 17 else 256)) for site in range(1, 18)})],
        [0, 31, 0, 31, 0, 31, 31])
    expect('a process twice', code(Site3, WORLD, {1: [1], 2: [1]}, 1), 33)
    expect('bad number', [code(Site3, WORLD, {1: [of]}, 1) for of in (0, 10000)], [34, 34])
    handle = libcmh._Handle()
    new = lambda world, *words: libcmh._library.cmh_site3_new(byref(handle), world, len(world), *libcmh._words(words), 1)
    expect('a site twice', new(WORLD, 1, 1, 1, 1, 1, 2), 32)
    expect('a row that is cut', [new(WORLD, 1), new(WORLD, 1, 2, 1), new(WORLD, 1, 1)], [25, 25, 25])
    expect('the world comes first', new(b'', 1), 50)
    expect('a good row', new(WORLD, 1, 1, 1), 0)
    expect('open', new(b'', 1), 23)
    libcmh._library.cmh_site3_free(byref(handle))
    libcmh._library.cmh_site3_free(byref(handle))
    expect('opened again', new(WORLD, 1, 1, 1), 0)
    libcmh._library.cmh_site3_free(byref(handle))


def example():
    site = Site3(WORLD, {1: [1], 2: [2]}, 1)
    expect('head', site.head(), HEAD)
    out = (c_uint8 * 71)(*[0xEE] * 71)
    expect('short head', (raw('cmh_site3_head', site, out, 70), bytes(out)), (21, b'\xee' * 71))
    event, count = b'\x01\x00\x01\x01\x00\x02', c_size_t(77)
    for call in ('cmh_site3_step', 'cmh_site3_prepare'):
        for room in (0, 59):
            expect('short', (raw(call, site, event, 6, out, room, byref(count)), count.value, bytes(out)), (21, 60, b'\xee' * 71))
            count.value = 77
    expect('not taken', (site.waits(1), code(site.keep), code(site.drop)), ([], 27, 27))
    expect('the entry', site.prepare(event).bytes, ASKED)
    busy = [lambda: site.step(event), lambda: site.prepare(event), site.declared, lambda: site.waits(1), lambda: site.owed(1),
            lambda: site.leaving(1)]
    expect('while prepared', [code(call) for call in busy], [26] * 6)
    expect('the head, too', site.head(), HEAD)
    site.drop()
    expect('taken in one', (raw('cmh_site3_step', site, event, 6, out, 71, byref(count)), count.value, bytes(out[:60]), bytes(out[60:])),
           (0, 60, ASKED, b'\xee' * 11))
    expect('it waits', site.waits(1), [2])
    site.close()
    expect('closed', [code(call) for call in busy] + [code(site.keep), code(site.drop), code(site.head)], [22] * 9)


def entries():
    sent = ((2, ASKED[13:26]), (2, ASKED[29:52]))
    expect('what it says', Entry3.of(ASKED), Entry3(ASKED, sent, None, None))
    expect('its mark is not looked at', Entry3.of(ASKED[:-1] + b'\x00').sendings, sent)
    wrong = [b'', ASKED[:-1], ASKED + b'\x00', b'\x00\x00\x00\x2f' + ASKED[4:-1], b'\x00\x00\x00\x00' + bytes(8),
             b'\x00\x00\x00\x31' + ASKED[4:52] + b'\x07' + ASKED[52:]]
    expect('no entry', [code(Entry3.of, spelled) for spelled in wrong], [20] * 6)
    room, count, process, stamp = (libcmh._Sending * 2)((77, 77, 77), (77, 77, 77)), c_size_t(77), c_uint16(77), c_uint64(77)
    sendings = lambda spelled, length: libcmh._library.cmh_entry3_sendings(spelled, len(spelled), room, length, byref(count))
    expect('no entry changes nothing', (sendings(b'', 2), count.value, room[0].to), (20, 77, 77))
    expect('short', [(sendings(ASKED, length), count.value, room[0].to) for length in (0, 1)], [(21, 2, 77)] * 2)
    expect('enough', (sendings(ASKED, 2), count.value, [(each.to, each.offset, each.len) for each in room]), (0, 2, [(2, 13, 13), (2, 29, 23)]))
    declared = lambda spelled: libcmh._library.cmh_entry3_declared(spelled, len(spelled), byref(process), byref(stamp))
    expect('nobody known', (declared(b''), process.value, stamp.value), (20, 77, 77))
    expect('nobody', (declared(ASKED), process.value, stamp.value), (0, 0, 0))


def steps():
    site = Site3(WORLD, ROWS, 1)
    bad = [b'', b'\x01\x00\x01\x00', b'\x01\x00\x01\x01\x00\x01', b'\x01\x00\x01\x02\x00\x03\x00\x02', b'\x07\x00\x01\x00',
           b'\x07\x00\x01\x01\x00\x01', b'\x03\x00', b'\x03\x00\x00', b'\x03\x00\x01\x00', b'\x08', ASKED[4:52],
           b'\x04\x00\x02\x01\x00\x01\x00\x03']
    expect('no event', [code(site.step, event) for event in bad], [20] * 12)
    expect('refusals', [code(site.ask, 9, [1]), code(site.ask, 3, [1]), code(site.ask, 1, [9]), code(site.start, 1),
                        code(site.reply, 1, 2), code(site.withdraw, 1, [2]), code(site.withdraw, 1, [])], [1, 2, 3, 5, 6, 16, 16])
    expect('unlawful', code(site.got, 2, b'\x01' + bytes(8) + b'\x00\x01\x00\x03'), 8)
    first = site.ask(1, [2, 3])
    expect('of a blocked process', [code(site.ask, 1, [3]), code(site.reply, 1, 2), code(site.ask, 1, [4])], [15, 4, 0])
    expect('waits', (site.waits(1), site.owed(2), site.leaving(1)), ([2, 3, 4], [1], []))
    expect('withdrawn', code(site.withdraw, 1, [2, 3]), 0)
    expect('leaving', (site.waits(1), site.owed(2), site.leaving(1), code(site.ask, 1, [3])), ([4], [], [3], 14))
    expect('of others', [code(call, of) for call in (site.waits, site.owed, site.leaving) for of in (9, 3, 65537)], [1, 2, 1] * 3)
    site.ask(2, [1])
    found = site.ask(1, [2])
    expect('declared at the ask', (found.declared, found.stamp, site.declared()), (1, 4, [1]))
    site.withdraw(1, [2, 4])
    expect('and it ends', (site.declared(), site.waits(1), site.waits(2), code(site.reply, 1, 2), site.waits(2)), ([], [], [1], 0, []))
    expect('events of no numbers', [code(site.ask, 65538, [3]), code(site.withdraw, 2, [65537]), code(site.start, -1)], [20] * 3)
    count, room = c_size_t(), (c_uint16 * 2)(77, 77)
    site.ask(2, [1, 3, 4])
    expect('less room than processes', (raw('cmh_site3_waits', site, 2, room, 1, byref(count)), count.value, list(room)), (0, 3, [1, 77]))
    expect('each sending', [len(message) for _, message in first.sendings], [13, 23])


def long_entry():
    """Process 1 asks for 199 that each wait for 100 others: 19,900 probes."""
    site = Site3(WORLD, {1: range(1, 257), 2: range(301, 401)}, 1)
    for process in range(2, 201):
        site.ask(process, range(301, 401))
    asked = site.ask(1, range(2, 201))
    expect('probes', (len(asked.sendings), len(asked.bytes)), (19900, 12 + 4 + 2 * 199 + 26 * 19900))
    expect('the longest', libcmh._library.cmh_site3_entry_max(), 1701897)


def place(*of):
    """The code that a site is not opened with, and the place that is told."""
    try:
        Site3.open(*of)
    except Refused as refused:
        return refused.code, refused.place
    return 0


def chained(journal, body):
    """The journal with one entry more."""
    framed = len(body).to_bytes(4, 'big') + body
    return journal + framed + mark_of(journal[-8:] + framed)


def head_of(site, world, epoch=0):
    head = b'CMHJ\x03' + site.to_bytes(2, 'big') + world + epoch.to_bytes(4, 'big') + bytes(4) + b'\x00\x00\x00\x1c' + bytes(28)
    return head + mark_of(head)


def again():
    first = Site3(WORLD, ROWS, 1)
    asked = [first.ask(1, [2, 3]), first.ask(2, [1])]
    journal = first.head() + b''.join(entry.bytes for entry in asked)
    opened, end = Site3.open(WORLD, ROWS, 1, journal)
    expect('it stands where it stood', (end, opened.declared(), opened.waits(1), opened.owed(1)),
           (len(journal), first.declared(), first.waits(1), first.owed(1)))
    expect('and steps on', opened.withdraw(1, [2, 3]).bytes, first.withdraw(1, [2, 3]).bytes)
    expect('a head alone', (Site3.open(WORLD, ROWS, 1, HEAD)[1], head_of(1, WORLD)), (71, HEAD))
    expect('each part of an entry is cut', {Site3.open(WORLD, ROWS, 1, journal[:at])[1] for at in range(71 + len(asked[0].bytes), len(journal))},
           {71 + len(asked[0].bytes)})
    expect('each part of a head is none', {place(WORLD, ROWS, 1, HEAD[:at]) for at in range(71)}, {(51, None)})
    expect('so is another byte', {place(WORLD, ROWS, 1, HEAD[:at] + bytes([HEAD[at] ^ 1]) + HEAD[at + 1:]) for at in range(71)}, {(51, None)})
    expect('an entry in the middle', [place(WORLD, ROWS, 1, journal[:at] + bytes([journal[at] ^ 1]) + journal[at + 1:]) for at in (71, 80, 120)],
           [(52, 71)] * 3)
    expect('a long tail', [place(WORLD, ROWS, 1, journal + bytes(more)) for more in (1701897, 1701898)], [0, (52, len(journal))])
    expect('a body that is none', place(WORLD, ROWS, 1, chained(journal, b'\x09')), (52, len(journal)))
    expect('of others', [place(WORLD, ROWS, 2, journal), place(b'\x01' * 16, ROWS, 1, journal), place(WORLD, ROWS, 1, head_of(1, WORLD, 1))],
           [(53, None)] * 3)
    expect('unlawful', [place(WORLD, ROWS, 1, chained(journal, body)) for body in
                        (b'\x02\x00\x01\x00\x04', asked[0].bytes[4:-8], b'\x07\x00\x02\x01\x00\x01\x06\x00\x01' + bytes(8))], [(54, 3)] * 3)
    expect('another stamp', place(WORLD, ROWS, 1, chained(HEAD + asked[0].bytes, asked[1].bytes[4:-9] + b'\x07')), (54, 2))
    expect('of other rows', place(WORLD, {1: [1, 2]}, 1, journal), (54, 1))
    expect('what is said first', [place(bytes(15), {}, 3, b''), place(WORLD, {1: [0]}, 3, b''), place(WORLD, ROWS, 3, b''), place(WORLD, ROWS, 2, b'')],
           [(50, None), (34, None), (2, None), (51, None)])
    handle, where, words = libcmh._Handle(), c_uint64(77), libcmh._rows(ROWS)
    reopen = lambda of: (libcmh._library.cmh_site3_open(byref(handle), WORLD, 16, *words, 1, of, len(of), byref(where)), where.value)
    expect('nothing else is told', [reopen(b''), reopen(journal), reopen(b'')], [(51, 77), (0, len(journal)), (23, len(journal))])
    libcmh._library.cmh_site3_free(byref(handle))


def links():
    first, second = Site3(WORLD, ROWS, 1), Site3(WORLD, ROWS, 2)
    sent = [message for _to, message in first.ask(1, [3]).sendings + first.ask(2, [4]).sendings]
    one = first.head() + Site3(WORLD, ROWS, 1).ask(1, [3]).bytes
    journal = Site3.open(WORLD, ROWS, 1, one)[0]
    one += journal.ask(2, [4]).bytes
    got = [second.got(1, message).bytes for message in sent]
    journals = [second.head() + b''.join(got[:count]) for count in range(len(got) + 1)]
    marks = [int.from_bytes(mark_of(b''.join(sent[:count])), 'big') for count in range(len(sent) + 1)]
    expect('messages', len(sent), 4)
    expect('got', [got3(each, 1) for each in journals], list(enumerate(marks)))
    expect('of nobody', [got3(journals[4], 2), got3(one, 2)], [(0, marks[0])] * 2)
    expect('sent', [sent3(one, 2, count, mark) for count, mark in enumerate(marks)], [b''.join(sent[count:]) for count in range(5)])
    expect('to nobody', sent3(one, 9999, 0, marks[0]), b'')
    expect('more', [code(sent3, one, 2, 5, marks[4]), code(sent3, one, 2, 2**64 - 1, 0), code(sent3, HEAD, 2, 1, marks[1])], [67] * 3)
    expect('others', [code(sent3, one, 2, 4, marks[4] ^ 1), code(sent3, one, 2, 3, marks[4]), code(sent3, one, 2, 0, 0)], [68] * 3)
    expect('no number', [code(got3, b'', number) for number in (0, 10000)] + [code(sent3, b'', number, 0, 0) for number in (0, 10000)], [28] * 4)
    wrong = [b'', HEAD[:70], one[:80] + b'\xee' + one[81:], chained(one, b'\x09'), head_of(1, WORLD, 1)]
    expect('no journals', [code(got3, each, 2) for each in wrong] + [code(sent3, each, 2, 9, 9) for each in wrong], [51, 51, 52, 52, 53] * 2)
    expect('a tail is not looked at', [got3(journals[4][:-1], 1), got3(journals[4] + bytes(9), 1)], [(3, marks[3]), (4, marks[4])])
    out, count = (c_uint8 * 72)(*[0xee] * 72), c_size_t(77)
    rest = lambda room, got: (libcmh._library.cmh_journal3_sent(one, len(one), 2, got, marks[0], out, room, byref(count)), count.value)
    expect('too short', ([rest(room, 0) for room in (0, 71)], bytes(out)), ([(21, 72)] * 2, b'\xee' * 72))
    count.value = 77
    expect('refused', (rest(72, 9), bytes(out)), ((67, 77), b'\xee' * 72))
    expect('enough', (rest(72, 0), bytes(out)), ((0, 72), b''.join(sent)))
    count, mark = c_uint64(77), c_uint64(77)
    expect('nothing is told', (libcmh._library.cmh_journal3_got(b'', 0, 1, byref(count), byref(mark)), count.value, mark.value), (51, 77, 77))


openings()
again()
links()
example()
entries()
steps()
long_entry()
