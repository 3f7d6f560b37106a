"""Files of edition 3 that are damaged or mixed up, and whether `cmh show` and `cmh audit` say of them what files.py says by
docs/formats.md.

- A journal that is cut at each byte, and one with each byte changed.
- Journals whose entries are left out, doubled, moved or changed, with marks that are right again; of another world, another
  site's number or a later epoch; with a base; twice, or not there; of edition 1 or 2; with bytes behind the last entry.
- Tails at the longest length, and tails in which a chained body stands.
"""
import os
import random
import subprocess
import tempfile

import files
import journals
from model import Play, answers_to
from walk import Walk

SECONDS = 60
SETS = 90
SMALL = b"site 1 1\nsite 2 2\nask 1 2\nask 2 1\ndeliver 2 1\nwithdraw 1 2\n"


def told(program, *words):
    try:
        ran = subprocess.run([program, *words], stdin=subprocess.DEVNULL, capture_output=True, timeout=SECONDS)
    except subprocess.TimeoutExpired:
        return f"no end within {SECONDS} seconds", "", None
    return ran.stdout.decode("utf-8", "replace"), ran.stderr.decode("utf-8", "replace"), ran.returncode


class Attack:
    def __init__(self, count, program, folder):
        self.count, self.program, self.folder = count, program, folder

    def put(self, name, data):
        path = os.path.join(self.folder, name)
        with open(path, "wb") as file:
            file.write(data)
        return path

    def show(self, what, *given):
        paths = [self.put(f"{place}.cmhj", data) for place, data in enumerate(given, 1)]
        self.count.expect(f"show {what}", told(self.program, "show", *paths), files.shown(given))

    def audit(self, what, play, given):
        paths = [self.put(f"{place}.cmhj", data) for place, data in enumerate(given, 1)]
        topology = self.put("world.json", journals.topology_of(play).encode())
        wanted = files.audited(journals.world_of(play).topology, given)
        self.count.expect(f"audit {what}", told(self.program, "audit", "--topology", topology, *paths), wanted)

    def each_byte(self):
        play = Play()
        answers_to(SMALL, play)
        data = journals.journals_of(play)[1]
        head = len(journals.head(1))
        changed = [data[:at] + bytes([data[at] ^ 1 << at % 8]) + data[at + 1:] for at in range(len(data))]
        self.show("a journal that is cut in its entries", *(data[:at] for at in range(head, len(data))))
        self.show("a journal with a changed byte in its entries", *changed[head:])
        for at in range(0, head, 3):
            self.show(f"a head that is cut at {at}", data[:at])
            self.show(f"a head with a changed byte {at}", changed[at])

    def tails(self):
        head = journals.head(1)
        for junk in (b"\0", b"\0" * 9, b"\xff" * 12):
            for body in (b"\3\0\1", b"\x09", b""):
                self.show("a chained body in a tail", head + junk + journals.chained(head + junk, body))
        self.show("a body that is no entry's", head + journals.chained(head, b"\x08\0\1"))
        self.show("too long a tail", head + b"\xff" * (files.LONGEST_TAIL + 1))

    def sets(self):
        for seed in range(1, 1 + SETS // 3):
            play, draw = Walk(seed, checks=False).play, random.Random(seed)
            for _ in range(3):
                what, given = mixed_up(draw, play)
                self.audit(f"{what} of the random script {seed}", play, given)


# ---- journals that are mixed up


def entries_changed(draw, bodies, processes):
    """The bodies of a journal with a change, and its name."""
    change, bodies = draw.choice(["left out", "doubled", "moved", "cut", "changed", "declares", "added"]), list(bodies)
    at = draw.randrange(len(bodies)) if bodies else 0
    if not bodies or change == "added":
        bodies.insert(at, b"\3" + journals.number(draw.choice(processes)))
    elif change == "left out":
        del bodies[at]
    elif change == "doubled":
        bodies.insert(at, bodies[at])
    elif change == "moved":
        bodies.insert(draw.randrange(len(bodies)), bodies.pop(at))
    elif change == "cut":
        bodies[at] = bodies[at][:draw.randrange(len(bodies[at]))]
    elif change == "declares":
        bodies[at] += b"\6" + journals.number(draw.choice(processes)) + journals.number(draw.randrange(4), 8)
    else:
        body = bytearray(bodies[at])
        place = draw.randrange(len(body))
        body[place] = draw.choice([0, 1, 2, 3, 7, 255, body[place] ^ 1, (body[place] + 1) % 256])
        bodies[at] = bytes(body)
    return change, bodies


def mixed_up(draw, play):
    """Journals of a script in a random order with a change, and its name."""
    world = journals.world_of(play)
    bodies = {site: [journals.body(entry) for entry in journals.entries_of(world, site)] for site in world.topology}
    given = journals.journals_of(play)
    site, other = draw.sample(sorted(given), 2)
    change = draw.choice(["entries"] * 8 + ["cut"] * 3 + ["world", "epoch", "number", "base", "missing", "twice", "edition", "behind"])
    if change == "entries":
        change, here = entries_changed(draw, bodies[site], sorted(world.home))
        given[site] = journals.segment(site, here)
    elif change == "cut":
        given[site] = given[site][:draw.randrange(60, len(given[site]) + 1)]
    elif change == "world":
        given[site] = journals.segment(site, bodies[site], world=b"\1" * 16)
    elif change == "epoch":
        given[site] = journals.segment(site, bodies[site], epoch=draw.choice([0, 1, 5]), before=draw.choice([0, 1, 4, 5]))
    elif change == "number":
        given[site] = journals.segment(draw.choice([other, 9999, 10000, 0]), bodies[site])
    elif change == "base":
        row = journals.number(1, 4) + journals.number(draw.choice([1, 0])) + journals.number(2) + bytes(8)
        given[site] = journals.segment(site, bodies[site], base=draw.choice([row + bytes(24), bytes(27), bytes(29)]))
    elif change == "missing":
        del given[site]
    elif change == "twice":
        given[0] = given[site]
    elif change == "edition":
        given[site] = b"CMHJ" + bytes([draw.choice([0, 1, 2, 4])]) + journals.number(site)
    else:
        given[site] += draw.choice([b"\0", bytes(60), given[other], given[site][71:], given[site][-60:]])
    order = list(given.values())
    draw.shuffle(order)
    return change, order


def compare(count, program):
    with tempfile.TemporaryDirectory() as folder:
        attack = Attack(count, program, folder)
        attack.each_byte()
        attack.tails()
        attack.sets()
