"""Pages of edition 3 for scripts/page/run. The expected values come from the model of scripts/model3, which follows the rules by
definition, in the order of the page's own run; and from what `cmh audit` says."""
import glob
import json
import os
import re
import sys

ROOT = os.path.realpath(os.path.join(os.path.dirname(os.path.abspath(__file__)), "..", ".."))
sys.path.append(os.path.join(ROOT, "scripts", "model3"))

import journals
from model import Play, Stop, World, answers_to, spelled, waits_after

EVENT = re.compile(r"(\d+) (\d+) (.*)")

# What the page shows; `known` are the cells of its table.
LOOK = """
const texts = query => [...document.querySelectorAll(query)].map(node => node.textContent);
const count = query => document.querySelectorAll(query).length;
return {moment: texts('#moment')[0], title: texts('#title')[0], line: texts('#line')[0], words: texts('#words p'),
waits: texts('#waits li'), way: texts('#way li'), head: texts('thead th'),
known: [...document.querySelectorAll('#known tr')].map(row => [...row.children].map(cell => cell.textContent)),
arrows: count('#graph .wait') + count('#graph .cycle'), thick: count('#graph .cycle'), dots: count('#graph .leaving'),
octagons: count('#graph polygon.declared'), broken: count('#graph polygon.over'), diamonds: count('#diagram .withdrawal.now')}
"""
HEAD = ["site", "clock", "waits", "leaving", "owed", "marks", "declared"]


# The holder grants what its asker has given up, since the withdraw is still under way.
CROSSED = b"""site 1 1
site 2 2
ask 1 2
deliver 1 2
deliver 1 2
withdraw 1 2
reply 2 1
deliver 1 2
deliver 2 1
ask 1 2
"""


def scripts():
    """Each script of edition 3 by its name: those of lesson 7, of tests/edition3, and one more."""
    yield "crossed", CROSSED
    for folder in ("docs/lessons/edition3", "tests/edition3"):
        for path in sorted(glob.glob(os.path.join(ROOT, folder, "*.script"))):
            with open(path, "rb") as file:
                yield os.path.basename(path)[:-7], file.read()


class Played:
    """A script that the model played: its topology, its journals as the model spells them, and the page of them."""

    def __init__(self, trials, name, script):
        self.trials, self.name, self.play = trials, name, Play()
        answers_to(script, self.play)
        self.world = journals.world_of(self.play)
        self.folder = trials.folder("edition3-" + name)
        journals.write_all(self.play, self.folder)
        self.topology = os.path.join(self.folder, "world.json")
        with open(self.topology, "w", encoding="ascii") as file:
            file.write(journals.topology_of(self.play))
        self.journals = [os.path.join(journals.folder_of(self.folder, site), journals.FIRST) for site in self.world.topology]
        self.page = os.path.join(self.folder, "run.html")

    def draw(self):
        drawn = self.trials.cmh("draw", "--page", "--topology", self.topology, *self.journals)
        self.trials.check(f"{self.name}: a page is drawn", (drawn.returncode, drawn.stderr), (0, b""))
        with open(self.page, "wb") as file:
            file.write(drawn.stdout)
        return drawn.stdout.decode("ascii")

    def entries_in(self, lines):
        """The entries of the model in the order of these lines, each of which names one."""
        told = [EVENT.fullmatch(line) for line in lines]
        return [journals.entries_of(self.world, int(line[1]))[int(line[2]) - 1] for line in told if line]


def trial_of_text(trials, played, parts):
    """The page has the topology, the audit's lines and each entry once, in the order of a run, between what stands in every page
    of edition 3. Answers its events."""
    text = played.draw()
    trials.check(f"{played.name}: what stands in every page", (text.startswith(parts["HEAD"]), text.endswith(parts["FOOT"])), (True, True))
    lines = text[len(parts["HEAD"]) : len(text) - len(parts["FOOT"])].split("\n")[:-1]
    sites = sorted((site, sorted(members)) for site, members in played.world.topology.items())
    audit = trials.cmh("audit", "--topology", played.topology, *played.journals).stdout.decode().split("\n")[:-1]
    front = ["edition 3", *(spelled("site", site, *members) for site, members in sites), *audit]
    trials.check(f"{played.name}: the topology and the audit", lines[: len(front)], front)
    trials.check(f"{played.name}: the report by the rules", "\n".join(audit), played.world.report())
    events = lines[len(front) :]
    entries = played.entries_in(events)
    told = {site: 0 for site in played.world.topology}
    wanted = []
    for entry in entries:
        told[entry.site] += 1
        wanted.append(f"{entry.site} {told[entry.site]} {journals.entry_line(entry)}")
    trials.check(f"{played.name}: its entries", events, wanted)
    trials.check(f"{played.name}: all entries", len(events), len(played.world.entries))
    return entries


def trial_of_moments(trials, driver, played, entries, press):
    """At each moment the page shows what the model has after so many entries of the page's run."""
    world = World(played.world.topology)
    for moment in range(len(entries) + 1):
        name = f"{played.name} at {moment}"
        clocks = {site: has.clock for site, has in world.sites.items()}
        if moment:
            begins = words_of(world, entries[moment - 1])
            take(trials, name, world, entries[moment - 1])
        shown = driver.execute_script(LOOK)
        trials.check(f"{name}: its number", shown["moment"], f"{moment} of {len(entries)}")
        told = told_of(world)
        trials.check(f"{name}: waits, leaving and declared", shown["waits"], told["waits"] + told["leaving"] + told["declared"])
        trials.check(f"{name}: what controllers know", (shown["head"], shown["known"]), (HEAD, known_of(world)))
        trials.check(f"{name}: frames under way", sorted(shown["way"]), way_of(world))
        standing = [text for text in told["declared"] if text.endswith(" stands")]
        trials.check(f"{name}: its arrows", (shown["arrows"], shown["dots"]), (len(waits_after(world.entries)), len(told["leaving"])))
        trials.check(f"{name}: its octagons", (shown["octagons"], shown["broken"]), (len(standing), len(told["declared"]) - len(standing)))
        trials.check(f"{name}: a thick cycle where one stands", shown["thick"] > 0, len(standing) > 0)
        if moment:
            trial_of_words(trials, name, clocks, begins, world.entries[-1], shown)
        press(driver, "ArrowRight")
    trials.check(f"{played.name}: the browser's complaints", driver.get_log("browser"), [])


def take(trials, name, world, entry):
    """Goes on by an entry; a frame that it got was the next of its link."""
    if entry.event.source:
        link = world.links[entry.event.source, entry.site]
        trials.check(f"{name}: the next frame of its link", link[:1], [entry.event.frame])
        link.pop(0)
    trials.check(f"{name}: the entry by the rules", world.step(entry.site, entry.event), entry)


def told_of(world):
    """The list below the waits."""
    waits = [f"{j} waits for {k}" for j, k in sorted(waits_after(world.entries))]
    leaving = sorted(set().union(*(site.leaving for site in world.sites.values())))
    declared = sorted(pair for site in world.sites.values() for pair in site.declared.items())
    became = [Stop.of(world.entries, n).cycle_of(i) for i, n in declared]
    return {
        "waits": waits or ["Nobody waits."],
        "leaving": [f"{j} gave up its wait for {k}" for j, k in leaving],
        "declared": [f"{i} is declared at stop {n}: its {of.replace(' left by', ' was left by')}" for (i, n), of in zip(declared, became)],
    }


def known_of(world):
    def spelling(rows):
        return ", ".join(spelled(*row) for row in sorted(rows))

    return [
        [
            str(number), str(site.clock), spelling((*wait, n) for wait, n in site.waits.items()), spelling(site.leaving), spelling(site.owed),
            spelling((*mark, n) for mark, n in site.marks.items()), ", ".join(f"{i} at {n}" for i, n in sorted(site.declared.items())),
        ]
        for number, site in sorted(world.sites.items())
    ]


def way_of(world):
    texts = [f"{frame} from site {a} to site {b}, clock {frame.clock}" for (a, b), frames in world.links.items() for frame in frames]
    return sorted(texts) or ["No frame is under way."]


WORDS = {
    "ask": "Process {0} asks ",
    "start": "A computation starts for process {0}, which waits.",
    "reply": "Process {0} grants {1} what it asked for. It may, since it is active and owed {1} a reply. ",
    "withdraw": "Process {0} gives up its wait",
    "got request": "request {0} {1} came from site {source}. From now on {1} owes {0} a reply.",
    "got reply": "reply {0} {1} came from site {source}. ",
    "got withdraw": "withdraw {0} {1} came from site {source}: {0} has given up its wait for {1}.",
    "got probe": "probe {0} {1} {2} {3} ",
}
FATES = {
    "active": "ignored: {3} is active, it waits for nobody.",
    "younger": "ignored: each wait of {3} is younger than the ask of {0} with stamp {1}.",
    "answered": "ignored: {3} owes {2} nothing.",
    "known": "ignored: {3} has a mark of the ask of {0} with stamp {1}, or of a newer one.",
    "acts": "acts: {3} has a wait that is no younger than the ask of {0} with stamp {1}, owes {2} a reply, and has no mark ",
}


def fate_of(site, i, n, j, k):
    """What becomes of a probe that comes to a site: the first reason for which it is ignored, or it acts."""
    if not site.waits_of(k):
        return "active"
    if not site.passes(k, i, n):
        return "younger"
    if (k, j) not in site.owed:
        return "answered"
    return "known" if site.marks.get((k, i), 0) >= n else "acts"


def words_of(world, entry):
    """How the words of an entry begin, by the rules, where the world has come to it."""
    frame, site = entry.event.frame, world.sites[entry.site]
    numbers = frame.numbers if frame else entry.event.numbers
    kind = f"got {frame.kind}" if frame else entry.event.kind
    words = WORDS[kind]
    if kind == "got probe":
        words += FATES[fate_of(site, *numbers)]
    elif kind == "got reply":
        words += "For its controller, {1} no longer waits for {0}." if numbers[::-1] in site.waits else "{1} had given up its wait for {0}, "
    elif kind == "reply":
        words += "The wait of {1} for {0} ends." if numbers[::-1] in waits_after(world.entries) else "{1} has given up that wait, "
    return words.format(*numbers, source=entry.event.source)


def trial_of_words(trials, name, clocks, begins, entry, shown):
    trials.check(f"{name}: its words", shown["words"][0][: len(begins)], begins)
    trials.check(f"{name}: a diamond where it is a withdrawal", shown["diamonds"], int(entry.event.kind == "withdraw"))
    rises = f"The clock of site {entry.site} rises from {clocks[entry.site]} to {entry.stamp}"
    told = [words for words in shown["words"] if words.startswith("The clock of site ")]
    trials.check(f"{name}: its clock", [words[: len(rises)] for words in told], [rises] if entry.stamp > clocks[entry.site] else [])
    if entry.declared:
        told = [words for words in shown["words"] if words.startswith(spelled(entry.declared[0], "is declared at stop", entry.declared[1]))]
        trials.check(f"{name}: a sentence for who is declared", len(told), 1)


def trial_of_refused(trials, driver, played, open_page):
    """A journal whose last entries another site denies: the page has what stands before the stops, and a cross."""
    first, second = sorted(played.world.topology)[:2]
    short = os.path.join(trials.folder("edition3-refused"), "short.cmhj")
    with open(short, "wb") as file:
        file.write(journals.segment(second, journals.entries_of(played.world, second)[:1]))
    paths = [short if path.endswith(os.path.join(f"site-{second}", journals.FIRST)) else path for path in played.journals]
    audit = trials.cmh("audit", "--topology", played.topology, *paths)
    drawn = trials.cmh("draw", "--page", "--topology", played.topology, *paths)
    trials.check("refused segments", (audit.returncode, audit.stdout.split(b"\n")[0], drawn.returncode, drawn.stderr), (1, b"refused", 0, b""))
    page = os.path.join(trials.folder("edition3-refused"), "run.html")
    with open(page, "wb") as file:
        file.write(drawn.stdout)
    lines = drawn.stdout.decode().partition('id="run">\n')[2].partition("</script>")[0].split("\n")[:-1]
    stops = [line for line in lines if line.startswith("stop ")]
    trials.check("refused segments: the reasons", [line.split()[:4] for line in lines if line.startswith("why ")], [["why", *line.split()[1:]] for line in stops])
    if driver:
        open_page(driver, page, moment=99999)
        crosses = driver.execute_script("return document.querySelectorAll('#diagram .cross').length")
        trials.check("refused segments: a cross for each stop", crosses, len(stops))
        words = driver.execute_script(LOOK)["words"]
        trials.check("refused segments: the words of the stops", [text[: len("Site 1 stops")] for text in words[-len(stops) :]], [f"Site {line.split()[1]} stops" for line in stops])


def trials_of_faults(trials, played):
    def of(name, words, err):
        got = trials.cmh("draw", "--page", *words)
        trials.check(f"edition 3, {name}", (got.returncode, got.stderr.decode(), got.stdout), (3, err, b""))

    of("a missing site", ["--topology", played.topology, played.journals[0]], "fault set 4\n")
    of("no segment's bytes", ["--topology", played.topology, played.topology], "fault journal 1 1\n")
    of("no journal", ["--topology", played.topology, "none"], "fault file 1\n")


def many(trials, count, sites=8):
    """The page of so many events of a script that the program plays: asks that are answered, each with its probe."""
    lines, turn = [f"site {site} {site}" for site in range(1, sites + 1)], 0
    for at in range(0, count, 5):
        j, turn = turn % sites + 1, turn + 1
        k = j % sites + 1
        lines += [f"ask {j} {k}", f"deliver {j} {k}", f"deliver {j} {k}", f"reply {k} {j}", f"deliver {k} {j}"][: count - at]
    folder = trials.folder(f"edition3-{count}")
    trials.cmh("play", "--edition", "3", "--journals", folder, text="\n".join(lines) + "\n")
    topology = os.path.join(folder, "world.json")
    with open(topology, "w", encoding="ascii") as file:
        json.dump({"edition": 3, "world": journals.ZEROS.hex(), "sites": [{"site": site, "processes": [site]} for site in range(1, sites + 1)]}, file)
    drawn = trials.cmh("draw", "--page", "--topology", topology, *(os.path.join(folder, f"site-{site}") for site in range(1, sites + 1)))
    page = os.path.join(folder, "run.html")
    with open(page, "wb") as file:
        file.write(drawn.stdout)
    return drawn, page


def trials_of_many(trials):
    """A page has at most 20,000 events. Answers one of 5,000."""
    drawn, page = many(trials, 5000)
    trials.check("edition 3, 5,000 events", (drawn.returncode, drawn.stdout.count(b"\nevents 5000\n")), (0, 1))
    drawn, _ = many(trials, 20000)
    trials.check("edition 3, 20,000 events", (drawn.returncode, drawn.stdout.count(b"\nevents 20000\n")), (0, 1))
    drawn, _ = many(trials, 20001)
    trials.check("edition 3, 20,001 events", (drawn.returncode, drawn.stderr, drawn.stdout), (3, b"fault page\n", b""))
    return page


def all_trials(trials, driver, parts, open_page, press):
    """All of them; without a browser those of what stands in the pages. Answers the page of a victim and one of 5,000 events."""
    everything = [Played(trials, name, script) for name, script in scripts()]
    for played in everything:
        entries = trial_of_text(trials, played, parts)
        if driver:
            open_page(driver, played.page)
            trial_of_moments(trials, driver, played, entries, press)
    trials_of_faults(trials, everything[0])
    victim = next(played for played in everything if played.name == "7-victim")
    trial_of_refused(trials, driver, victim, open_page)
    return victim.page, trials_of_many(trials)
