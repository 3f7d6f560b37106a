#!/usr/bin/env python3
"""Holds `cmh segments` and `cmh audit --record` of a program against folders of sites that have begun several epochs: the lines,
the records and the faults that this script works out by itself.

    scripts/model3/segments.py PROGRAM    the last line is 'N passed, M failed'
    scripts/model3/segments.py --lines TOPOLOGY DIR..
                                          prints the lines of the segments in the folders

It was written from docs/formats.md, over the segments of epochs.py and files.py, and shares nothing with the program. It needs
python3, and a program that has both commands; proved or not does not matter. Its folders are in a temporary one.
"""
import argparse
import json
import os
import re
import shutil
import subprocess
import sys
import tempfile

from epochs import played, write_all
from files import Bad, Segment
from journals import ZEROS, chained, folder_of, segment

SECONDS = 60
ROWS = {1: [1, 2], 2: [11, 12], 3: [21]}
NAME = re.compile(r"\d{10}\.cmhj\Z")

# Two sites talk, and all three turn: site 3 jumps over epoch 1, and site 1 is alone in epoch 3.
TALK = b"""site 1 1 2
site 2 11 12
site 3 21
ask 1 11
deliver 1 2
turn 1 1
turn 2 1
reply 11 1
deliver 2 1
ask 2 12
turn 3 2
turn 2 2
turn 1 2
ask 21 1
turn 1 3
"""
# The same with a later epoch of all.
LATER = TALK + b"turn 2 3\nturn 3 3\nstart 21\n"


# ---- the lines


def read(path):
    with open(path, "rb") as file:
        return file.read()


def name_of(epoch):
    return f"{epoch:010}.cmhj"


class Kept:
    """A segment in the folder of a journal."""

    def __init__(self, folder, data):
        here = Segment(data)
        if here.damage is not None:
            raise Bad("damaged")
        self.site, self.world, self.epoch, self.before = here.site, here.world, here.epoch, here.before
        self.entries, self.bytes, self.tail = len(here.entries), len(data), len(here.tail)
        end = len(data) - self.tail
        self.mark = data[end - 8:end].hex()
        record = os.path.join(folder, f"{self.epoch:010}.audited")
        self.is_audited = os.path.exists(record) and read(record) == f"accepted {self.mark}\n".encode()


def segments_in(folder):
    """The segments of a folder: the newest one, and those before it as far as they are there. Ascending."""
    newest = max(name for name in os.listdir(folder) if NAME.match(name))
    segments = [Kept(folder, read(os.path.join(folder, newest)))]
    while segments[0].epoch:
        path = os.path.join(folder, name_of(segments[0].before))
        if not os.path.exists(path):
            break
        segments.insert(0, Kept(folder, read(path)))
    return segments


def state_of(journal, others, segment):
    if segment is journal[-1]:
        return "newest"
    return "closed" if all(other[-1].epoch > segment.epoch for other in others) else "open"


def lines_of(folders):
    """The lines of all segments in the folders."""
    journals = sorted(map(segments_in, folders), key=lambda journal: journal[0].site)
    lines = []
    for journal in journals:
        audited_before = True
        for here in journal:
            state = state_of(journal, journals, here)
            words = [f"site {here.site} epoch {here.epoch} entries {here.entries} bytes {here.bytes} mark {here.mark} {state}"]
            words += ["audited"] * here.is_audited
            words += ["archive"] * (state == "closed" and here.is_audited and audited_before)
            lines.append(" ".join(words) + "\n")
            audited_before = here.is_audited
    return "".join(lines)


def states_in(text):
    """Of each line its site and epoch, and the words behind the mark."""
    return [(int(line.split()[1]), int(line.split()[3]), " ".join(line.split()[10:])) for line in text.splitlines()]


# ---- trials


class Trial:
    """A program, and folders of sites for it."""

    def __init__(self, program, work):
        self.program, self.work, self.passed, self.failed = os.path.abspath(program), work, 0, 0
        self.topology = self.write("world.json", json.dumps(rows_of(ROWS)).encode())

    def write(self, name, data):
        path = os.path.join(self.work, name)
        with open(path, "wb") as file:
            file.write(data)
        return path

    def expect(self, what, got, wanted):
        if got == wanted:
            self.passed += 1
        else:
            self.failed += 1
            print(f"FAILED {what}\n    got    {got}\n    wanted {wanted}")

    def folders(self, name, script, world=None):
        """The folders of the sites after a script."""
        folder = os.path.join(self.work, name)
        world = world or played(script)
        write_all(world, folder)
        return [folder_of(folder, site) for site in sorted(world.segments)]

    def run(self, command, folders, *words, topology=None):
        words = [self.program, command, *words, "--topology", topology or self.topology, *folders]
        ran = subprocess.run(words, input=b"", capture_output=True, timeout=SECONDS)
        return ran.returncode, ran.stdout.decode(), ran.stderr.decode()

    def lists(self, what, folders, states=None):
        """The program lists the segments as this script does; and so it stands with them."""
        got = self.run("segments", folders)
        self.expect(what, got, (0, lines_of(folders), ""))
        if states is not None:
            self.expect(f"{what}: states", states_in(got[1]), states)

    def faults(self, what, folders, fault, **of):
        status = 1 if fault == "fault memory" else 3
        self.expect(what, self.run("segments", folders, **of), (status, "", fault + "\n"))


def rows_of(rows, world=ZEROS):
    return {"edition": 3, "world": world.hex(), "sites": [{"site": site, "processes": members} for site, members in rows.items()]}


def open_folders(trial):
    """Nothing is recorded, and the last epochs are open."""
    folders = trial.folders("open", TALK)
    states = [
        (1, 0, "closed"), (1, 1, "closed"), (1, 2, "open"), (1, 3, "newest"),
        (2, 0, "closed"), (2, 1, "closed"), (2, 2, "newest"),
        (3, 0, "closed"), (3, 2, "newest"),
    ]
    trial.lists("segments without records", folders, states)
    trial.lists("folders in another order", folders[::-1], states)
    first = trial.folders("first", b"".join(TALK.splitlines(True)[:4]))
    trial.lists("the first epoch alone", first, [(site, 0, "newest") for site in ROWS])
    alone = trial.folders("alone", b"".join(TALK.splitlines(True)[:3]) + b"turn 1 4294967295\n")
    trial.lists("the last epoch that there can be", alone, [(1, 0, "open"), (1, 2**32 - 1, "newest"), (2, 0, "newest"), (3, 0, "newest")])


def recorded(trial):
    """What an audit records, and what may be archived then."""
    folders = trial.folders("recorded", TALK)
    plain = trial.run("audit", folders)
    trial.expect("an audit that records nothing", (plain[0], records_in(folders)), (0, []))
    trial.expect("an audit that records", trial.run("audit", folders, "--record"), plain)
    closed = [(1, 0), (1, 1), (2, 0), (2, 1), (3, 0)]
    trial.expect("its records", records_in(folders), closed)
    states = [
        (1, 0, "closed audited archive"), (1, 1, "closed audited archive"), (1, 2, "open"), (1, 3, "newest"),
        (2, 0, "closed audited archive"), (2, 1, "closed audited archive"), (2, 2, "newest"),
        (3, 0, "closed audited archive"), (3, 2, "newest"),
    ]
    trial.lists("segments with records", folders, states)
    trial.run("audit", folders, "--record")
    trial.lists("recorded again", folders, states)
    os.remove(os.path.join(folders[0], "0000000000.audited"))
    states[0], states[1] = (1, 0, "closed"), (1, 1, "closed audited")
    trial.lists("the one before is not audited", folders, states)
    os.remove(os.path.join(folders[0], name_of(0)))
    states[:2] = [(1, 1, "closed audited archive")]
    trial.lists("the one before is not there any more", folders, states)
    later = trial.folders("later", LATER)
    trial.expect("a later audit that records", trial.run("audit", later, "--record")[0], 0)
    trial.expect("its later records", records_in(later), [*closed[:2], (1, 2), *closed[2:4], (2, 2), (3, 0), (3, 2)])
    trial.lists("later segments with records", later)


def recorded_by_epoch(trial):
    """An audit of one epoch records the segments of that alone, and only once all sites have ended it."""
    folders = trial.folders("by-epoch", TALK)
    plain = trial.run("audit", folders, "--epoch", "1")
    trial.expect("an audit of an epoch that records", trial.run("audit", folders, "--epoch", "1", "--record"), plain)
    trial.expect("the records of an epoch", (plain[0], records_in(folders)), (0, [(1, 1), (2, 1)]))
    states = [
        (1, 0, "closed"), (1, 1, "closed audited"), (1, 2, "open"), (1, 3, "newest"),
        (2, 0, "closed"), (2, 1, "closed audited"), (2, 2, "newest"),
        (3, 0, "closed"), (3, 2, "newest"),
    ]
    trial.lists("the first epoch is not audited", folders, states)
    trial.expect("an epoch that is open", (trial.run("audit", folders, "--epoch", "2", "--record")[0], records_in(folders)), (0, [(1, 1), (2, 1)]))
    trial.run("audit", folders, "--epoch", "0", "--record")
    closed = [(1, 0), (1, 1), (2, 0), (2, 1), (3, 0)]
    trial.expect("the records of the other epoch", records_in(folders), closed)
    trial.lists("epochs that were audited one by one", folders)
    later = trial.folders("from", TALK)
    trial.expect("an audit from an epoch on", (trial.run("audit", later, "--from", "1", "--record")[0], records_in(later)), (0, [(1, 1), (2, 1)]))
    world = played(TALK)
    world.segments[2][1].entries.pop(0)
    wrong = trial.folders("wrong-epoch", TALK, world)
    trial.expect("an epoch that is refused", (trial.run("audit", wrong, "--epoch", "1", "--record")[0], records_in(wrong)), (1, []))


def records_in(folders):
    """The sites and epochs of the records in folders. Each is of the mark that is there."""
    found = []
    for folder in folders:
        for here in segments_in(folder):
            if os.path.exists(os.path.join(folder, f"{here.epoch:010}.audited")):
                found.append((here.site, here.epoch))
        unfinished = [name for name in os.listdir(folder) if name.endswith(".new")]
        found += unfinished
    return found


def wrong_records(trial):
    """A record that is not that line of this mark counts as none."""
    folders = trial.folders("wrong", TALK)
    trial.run("audit", folders, "--record")
    path = os.path.join(folders[0], "0000000001.audited")
    right = read(path)
    for what, data in [
        ("a record of another mark", right[:-2] + (b"0" if right[-2:-1] != b"0" else b"1") + b"\n"),
        ("a record of a neighbour's mark", read(os.path.join(folders[0], "0000000000.audited"))),
        ("an empty record", b""),
        ("a record that was cut off", right[:-1]),
        ("a record with a line more", right + b"\n"),
        ("a record of two lines", right + right),
        ("a record in upper case", right.upper()),
        ("a record without its word", right[9:]),
        ("a record with a space more", b" " + right),
        ("a long record", right * 100000),
    ]:
        trial.write(path, data)
        trial.lists(what, folders)
        trial.expect(f"{what}: it counts as none", states_in(lines_of(folders))[1], (1, 1, "closed"))
    os.remove(path)
    os.mkdir(path)
    trial.expect("a folder in place of a record", states_in(trial.run("segments", folders)[1])[1], (1, 1, "closed"))
    trial.expect("a record that can't be kept", trial.run("audit", folders, "--record")[::2], (3, "fault file out\n"))
    os.rmdir(path)
    trial.write(path, right)
    # A closed segment that has changed since, with right marks.
    older = os.path.join(folders[0], name_of(1))
    data = read(older)
    trial.write(older, data + chained(data, b"\x03\x00\x01"))
    trial.lists("a segment that has grown since", folders)
    trial.expect("a segment that has grown since is not audited", states_in(lines_of(folders))[1], (1, 1, "closed"))
    trial.write(os.path.join(folders[1], "0000000002.audited"), f"accepted {segments_in(folders[1])[-1].mark}\n".encode())
    trial.lists("a record of the newest segment", folders)
    trial.expect("it is not to be archived", states_in(lines_of(folders))[6], (2, 2, "newest audited"))


def refused_audits(trial):
    """An audit that does not accept records nothing."""
    world = played(TALK)
    world.segments[2][1].entries.pop(0)
    folders = trial.folders("refused", TALK, world)
    status, out, err = trial.run("audit", folders, "--record")
    trial.expect("an audit that refuses", (status, out.split("\n")[1], err), (1, "refused", ""))
    trial.expect("it records nothing", records_in(folders), [])
    folders = trial.folders("few", TALK)
    trial.expect("an audit of too few folders", trial.run("audit", folders[:2], "--record"), (3, "", "fault set 4\n"))
    trial.expect("it records nothing of them", records_in(folders), [])


def tails(trial):
    """What a write left that was cut off stands behind the newest segment alone."""
    folders = trial.folders("tails", TALK)
    newest = os.path.join(folders[1], name_of(2))
    trial.write(newest, read(newest) + b"\0\0\0")
    trial.lists("a tail of the newest segment", folders)
    older = os.path.join(folders[1], name_of(1))
    data = read(older)
    trial.write(older, data + b"\0\0\0")
    trial.faults("a tail of an older segment", folders, f"fault journal 2 2 at {len(data)}")


def damage(trial):
    """Files that are no segments, or are damaged, and which file can't be read."""
    folders = trial.folders("damage", TALK)
    path = os.path.join(folders[2], name_of(0))
    data = read(path)
    for what, changed, fault in [
        ("an empty segment", b"", "fault journal 3 1"),
        ("a head with another byte", data[:30] + bytes([data[30] ^ 1]) + data[31:], "fault journal 3 1"),
        ("a journal of edition 2", b"CMHJ\x02\x00\x03", "fault set 2"),
        ("text in place of a segment", b"no segment\n", "fault journal 3 1"),
        ("a segment of another epoch", segment(3, [], epoch=1, before=0), "fault set 6"),
        ("a segment of another site", segment(2, []), "fault set 6"),
        ("a segment of another world", segment(3, [], world=b"\1" * 16), "fault set 5"),
    ]:
        trial.write(path, changed)
        trial.faults(what, folders, fault)
    trial.write(path, data)
    middle = os.path.join(folders[0], name_of(0))
    data = read(middle)
    at = len(segment(1, []))
    trial.write(middle, data[:at + 5] + bytes([data[at + 5] ^ 1]) + data[at + 6:])
    status, out, err = trial.run("segments", folders)
    wanted = "fault journal 1 2 at %d\n" % at
    trial.expect("an entry with another byte", (status, out, err), (3, "", wanted))
    trial.write(middle, data)
    empty = os.path.join(trial.work, "empty")
    os.makedirs(empty, exist_ok=True)
    trial.faults("a folder without a segment", [folders[0], empty, folders[2]], "fault file 2")
    trial.faults("a folder that is not there", [*folders[:2], os.path.join(trial.work, "nowhere")], "fault file 3")


def sets(trial):
    """The folders are to be those of all sites of the world."""
    folders = trial.folders("sets", TALK)
    trial.faults("a missing site", folders[:2], "fault set 4")
    trial.faults("a site twice", [*folders, folders[0]], "fault set 3")
    trial.faults("an unknown site", folders, "fault set 1", topology=trial.write("two.json", json.dumps(rows_of({1: [1, 2], 2: [11, 12]})).encode()))
    trial.faults("another world", folders, "fault set 5", topology=trial.write("other.json", json.dumps(rows_of(ROWS, b"\2" * 16)).encode()))
    trial.faults("no topology", folders, "fault file topology", topology=os.path.join(trial.work, "nowhere"))
    trial.faults("a topology that is no JSON", folders, "fault json", topology=trial.write("text", b"text"))
    trial.faults("a topology of edition 1", folders, "fault json", topology=trial.write("one.json", b'{"sites":[{"site":1,"processes":[1]}]}'))
    trial.faults("a process at two sites", folders, "fault topology 3", topology=trial.write("twice.json", json.dumps(rows_of({1: [1], 2: [1]})).encode()))


TRIALS = [open_folders, recorded, recorded_by_epoch, wrong_records, refused_audits, tails, damage, sets]


def main():
    parser = argparse.ArgumentParser(description="the segments of folders of edition 3, and what a program says of them")
    parser.add_argument("words", nargs="+", metavar="PROGRAM", help="the program; with --lines a topology and folders")
    parser.add_argument("--lines", action="store_true", help="prints the lines of the segments in folders")
    options = parser.parse_args()
    if options.lines:
        sys.stdout.write(lines_of(options.words[1:]))
        return 0
    work = tempfile.mkdtemp()
    try:
        trial = Trial(options.words[0], work)
        for each in TRIALS:
            each(trial)
    finally:
        shutil.rmtree(work)
    print(f"{trial.passed} passed, {trial.failed} failed")
    return 1 if trial.failed else 0


if __name__ == "__main__":
    sys.exit(main())
