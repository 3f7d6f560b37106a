"""Each code of include/cmh.h, and that nothing has changed after it. The expected values are those of docs/formats.md."""
import ctypes
import os
from ctypes import byref, c_size_t, c_uint8, c_uint16

import libcmh
from libcmh import Entry, Reader, Refused, Site, audit, hello

OUT = os.path.join(os.path.dirname(os.path.abspath(__file__)), '..', '..', '..', 'examples', 'audit')
WORLD, ROWS = {1: [1, 2], 2: [3]}, b'{"edition":1,"sites":[{"site":1,"processes":[1,2]},{"site":2,"processes":[3]}]}'


def code(call, *of):
    """The code that a call is refused with, or 0."""
    try:
        call(*of)
    except Refused as refused:
        return refused.code
    return 0


def expect(what, found, wanted):
    if found != wanted:
        raise SystemExit(f'{what}: {found}, and not {wanted}')


def openings():
    expect('no edition', code(Site, 3, WORLD, 1), 24)
    expect('not here', [code(Site, 1, WORLD, number) for number in (3, 0, 10000)], [2, 2, 2])
    expect('too many', code(Site, 1, {1: range(1, 34)}, 1), 31)
    expect('a process twice', code(Site, 1, {1: [1], 2: [1]}, 1), 33)
    expect('bad number', code(Site, 1, {1: [0]}, 1), 34)
    handle = libcmh._Handle()
    new = lambda *words: libcmh._library.cmh_site_new(byref(handle), 1, *libcmh._words(words), 1)
    expect('a site twice', new(1, 1, 1, 1, 1, 2), 32)
    expect('a row that is cut', [new(1), new(1, 2, 1), new(1, 1)], [25, 25, 25])
    expect('no rows', new(), 2)
    expect('a good row', new(1, 1, 1), 0)
    expect('open', new(1, 1, 1), 23)
    libcmh._library.cmh_site_free(byref(handle))
    libcmh._library.cmh_site_free(byref(handle))
    expect('opened again', new(1, 1, 1), 0)
    libcmh._library.cmh_site_free(byref(handle))
    expect('JSON', [code(Site.from_json, text, 1) for text in (ROWS, b'', b'{', b'{"edition":1}', ROWS[:-1])], [0, 25, 25, 25, 25])
    expect('JSON of no topology', code(Site.from_json, ROWS.replace(b'[3]', b'[1]'), 1), 33)
    expect('JSON, not here', code(Site.from_json, ROWS, 3), 2)


def steps():
    site = Site(1, WORLD, 1)
    expect('header', site.header(), b'CMHJ\x01\x00\x01')
    bad = [b'\x01\x00\x01\x01\x00\x01', b'\x01\x00\x01\x02\x00\x03\x00\x02', b'\x01\x00\x01\x00', b'', b'\x07', b'\x03\x00', b'\x03\x00\x00', b'\x03\x00\x01\x00']
    expect('no event', [code(site.step, event) for event in bad], [20] * 8)
    expect('refusals', [code(site.ask, 9, [1]), code(site.ask, 3, [1]), code(site.ask, 1, [9]), code(site.start, 1),
                        code(site.reply, 1, 2)], [1, 2, 3, 5, 6])
    expect('unlawful', code(site.got, 2, b'\x01\x00\x01\x00\x03'), 8)
    # The example of docs/formats.md, with process 3 for 2.
    asked = bytes.fromhex('000E 0100 0101 0003 0500 0201 0001 0003')
    count, short = c_size_t(77), (c_uint8 * 15)(*[0xEE] * 15)
    event = b'\x01\x00\x01\x01\x00\x03'
    expect('short', libcmh._library.cmh_site_step(byref(site._handle), event, 6, short, 15, byref(count)), 21)
    expect('short changes nothing', (bytes(short), count.value), (b'\xee' * 15, 77))
    expect('keep, drop', [code(site.keep), code(site.drop)], [27, 27])
    expect('prepared', site.prepare(event).bytes, asked)
    busy = [lambda: site.step(event), lambda: site.prepare(event), site.declared, lambda: site.waits(1), lambda: site.owed(1)]
    expect('while prepared', [code(call) for call in busy], [26] * 5)
    site.drop()
    expect('dropped', site.waits(1), [])
    site.prepare(event)
    site.keep()
    expect('kept', (site.waits(1), code(site.ask, 1, [2])), ([3], 4))
    expect('waits of others', [code(site.waits, 9), code(site.waits, 3), code(site.owed, 3)], [1, 2, 2])
    site.close()
    expect('closed', [code(site.step, event), code(site.declared), code(site.keep), code(site.header)], [22] * 4)
    expect('the entry', Entry.of(1, asked), Entry(asked, ((2, bytes.fromhex('01 0001 0003')),), None))
    process, sending = c_uint16(77), libcmh._Sending(77, 77, 77)
    entry_of = lambda edition, spelled, place: libcmh._library.cmh_entry_sending(edition, spelled, len(spelled), place, byref(sending))
    by = lambda spelled: libcmh._library.cmh_entry_declared(1, spelled, len(spelled), byref(process))
    wrong = [b'', asked[:-1], asked + b'\x00', b'\x00\x0d' + asked[2:-1], asked[:-1] + b'\x01', b'\x00\x10' + asked[2:] + b'\x06\x00']
    expect('no entry', [entry_of(1, spelled, 0) for spelled in wrong] + [by(spelled) for spelled in wrong], [20] * 12)
    expect('no such frame', [entry_of(1, asked, 1), entry_of(3, asked, 0), entry_of(2, asked, 0)], [29, 24, 20])
    expect('nothing changed', (process.value, sending.to, sending.offset, sending.len), (77, 77, 77, 77))
    two = Site(2, {1: [1, 2]}, 1)
    two.ask(1, [2])
    found = two.ask(2, [1])
    expect('declared at the ask', (found.declared, two.declared(), code(two.start, 2)), (2, [2], 7))


def numbers():
    """A number that is too large or too small for the header's types is refused, and taken for no other."""
    site = Site(2, {1: [1, 2, 3], 2: [4]}, 1)
    site.ask(1, [2])
    expect('waits of no number', [code(site.waits, of) for of in (65537, -65535, 2 ** 64 + 1, -1)], [1] * 4)
    expect('owed by no number', [code(site.owed, of) for of in (65538, -65534)], [1, 1])
    expect('rows', [code(Site, 1, rows, 1) for rows in ({1: [65537, 2]}, {1: [70000]}, {1: [1], 65538: [2]}, {1: [-1]})], [34] * 4)
    expect('a long row', [code(Site, 1, {1: [1] * 65536}, 1), code(Site, 1, {1: range(1, 65538)}, 1)], [31, 31])
    expect('no site', [code(Site, 1, WORLD, 65537), code(Site.from_json, ROWS, 65537), code(hello, 1, 65537), code(Reader, 1, [65537])],
           [2, 2, 28, 28])
    expect('no edition', [code(Site, 257, WORLD, 1), code(hello, 258, 1), code(Reader, 257, [2]), code(Entry.of, 257, b'')], [24] * 4)
    events = [lambda: site.ask(65538, [3]), lambda: site.ask(2, [65537]), lambda: site.reply(65538, 1), lambda: site.reply(2, 65537),
              lambda: site.start(65537), lambda: site.got(65538, b'\x01\x00\x04\x00\x01')]
    expect('events', [code(event) for event in events], [20] * 6)
    expect('bad targets', [code(site.ask, 3, of) for of in ([], [3], [1, 3], range(4, 400), [9])], [3] * 5)
    site.ask(3, [2, 1, 2])
    expect('holders in any order', (site.waits(3), site.owed(2), site.waits(1)), ([1, 2], [1, 3], [2]))


def links():
    expect('hello', (hello(2, 258), code(hello, 3, 1), code(hello, 1, 0)), (b'CMH\x02\x01\x02', 24, 28))
    out = (c_uint8 * 5)()
    expect('short hello', libcmh._library.cmh_hello(1, 1, out, 5), 21)
    request, probe = bytes.fromhex('01 0001 0002'), bytes.fromhex('03 0001 0001 0002')
    stream = hello(1, 7) + request + probe + request
    for cut in range(len(stream) + 1):
        reader = Reader(1, [7, 9])
        expect('no sender yet', reader.sender, None)
        expect(f'cut at {cut}', reader.feed(stream[:cut]) + reader.feed(stream[cut:]), [request, probe, request])
        expect('sender', reader.sender, 7)
    expect('readers', [code(Reader, 3, [1]), code(Reader, 1, [0])], [24, 28])
    faults = []
    for bad in (b'CMH\x02\x00\x07', b'XMH\x01\x00\x07', hello(1, 8), hello(1, 7) + b'\x09', hello(1, 7) + bytes.fromhex('01 0001 0001')):
        reader = Reader(1, [7])
        faults.append((code(reader.feed, bad), code(reader.feed, b'')))
    expect('faults stay', faults, [(41, 41), (41, 41), (43, 43), (42, 42), (42, 42)])
    reader = Reader(1, [7])
    expect('frames before a fault', (reader.feed(hello(1, 7) + request + b'\x09'), code(reader.feed, b'')), ([request], 42))
    reader, count, out = Reader(1, [7]), c_size_t(77), (c_uint8 * 16)()
    expect('room', libcmh._library.cmh_reader_feed(byref(reader._handle), stream, 11, out, 16, byref(count)), 21)
    reader.close()
    expect('closed', (code(reader.feed, b''), reader.sender), (22, None))


def audits():
    read = lambda name: open(os.path.join(OUT, name), 'rb').read()
    world, one, two = read('world.json'), read('one.cmhj'), read('two.cmhj')
    accepted = 'accepted\nevents 7\nwait 1 2\nwait 2 1\ndeclared 1 cycle 1 2 1\n'
    expect('accepted', (audit(world, [one, two]), audit(world, [two, one])), ((0, accepted), (0, accepted)))
    expect('cut', audit(world, [one, read('two-cut.cmhj')])[1].split('\n')[0], 'cut 2 9')
    expect('refused', audit(world, [read('one-without-its-start.cmhj'), two]), (1, 'refused\nstop 1 at 3\nstop 2 at 3\n'))
    expect('faults', [audit(*of) for of in ((b'', []), (world, [one]), (world, [one, b'x']), (world, [one, one]))],
           [(3, 'fault json\n'), (3, 'fault set 4\n'), (3, 'fault journal 2 1\n'), (3, 'fault set 3\n')])
    lens, count, status, out = (c_size_t * 2)(63, 54), c_size_t(77), c_uint8(77), (c_uint8 * 9)(*[0xEE] * 9)
    call = lambda: libcmh._library.cmh_audit(world, len(world), one + two, 118, lens, 2, out, 9, byref(count), byref(status))
    expect('lengths', (call(), count.value), (30, 77))
    lens[1] = 55
    expect('short', (call(), count.value, status.value, bytes(out)), (21, len(accepted), 77, b'\xee' * 9))


openings()
steps()
numbers()
links()
audits()
