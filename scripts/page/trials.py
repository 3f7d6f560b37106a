"""What scripts/page/run tries. The expected values come from the rules (rules.py), and from `cmh audit` of the journals cut
at each moment."""
import glob
import importlib.machinery
import importlib.util
import json
import os
import re
import shutil
import subprocess
import sys
import tempfile
import time

import edition3
import rules

ROOT = os.path.realpath(os.path.join(os.path.dirname(os.path.abspath(__file__)), "..", ".."))
LESSONS = os.path.join(ROOT, "docs", "lessons")
WIDTHS = [360, 480, 768, 1024, 1440, 1920, 2560]
OPENS, STEPS = 2.0, 0.05

spec = importlib.util.spec_from_loader("make", importlib.machinery.SourceFileLoader("make", os.path.join(ROOT, "scripts/page/make")))
make = importlib.util.module_from_spec(spec)
spec.loader.exec_module(make)


class Trials:
    def __init__(self, program, scratch):
        self.program, self.scratch, self.passed, self.failed = program, scratch, 0, 0

    def check(self, name, got, wanted):
        if got == wanted:
            self.passed += 1
            return
        self.failed += 1
        print(f"FAILED {name}\n    got    {str(got)[:600]}\n    wanted {str(wanted)[:600]}")

    def cmh(self, *words, text=""):
        return subprocess.run([self.program, *words], input=text.encode(), capture_output=True)

    def folder(self, name):
        path = os.path.join(self.scratch, name)
        os.makedirs(path, exist_ok=True)
        return path


class Played:
    """A script that was played: its topology, its journals, and its page."""

    def __init__(self, trials, name, script):
        self.trials, self.name = trials, name
        self.folder = trials.folder(name)
        self.edition, self.sites = 1, []
        for line in script.split("\n"):
            words = line.split()
            if words[:1] == ["edition"]:
                self.edition = int(words[1])
            elif words[:1] == ["site"] and all(re.fullmatch("[1-9][0-9]{0,3}", word) for word in words[1:]):
                self.sites.append((int(words[1]), sorted(map(int, words[2:]))))
        self.sites.sort()
        trials.cmh("play", "--journals", self.folder, text=script)
        self.page = os.path.join(self.folder, "run.html")
        answers = trials.cmh("play", "--page", self.page, text=script)
        self.status, self.fault = answers.returncode, answers.stderr.decode()
        self.topology = os.path.join(self.folder, "world.json")
        with open(self.topology, "w", encoding="ascii") as file:
            json.dump({"edition": self.edition, "sites": [{"site": s, "processes": ps} for s, ps in self.sites]}, file)
        self.journals = [os.path.join(self.folder, f"site-{site}.cmhj") for site, _ in self.sites]
        self.audit = trials.cmh("audit", "--run", "--topology", self.topology, *self.journals).stdout.decode().split("\n")[:-1]
        self.events = [rules.Event(line) for line in self.audit if rules.ENTRY.fullmatch(line)]

    def text(self):
        with open(self.page, "rb") as file:
            return file.read().decode("ascii")

    def waits_at(self, moment):
        """The waits that `cmh audit` finds in the journals up to this moment."""
        counts = {site: 0 for site, _ in self.sites}
        for event in self.events[:moment]:
            counts[event.site] += 1
        folder = self.trials.folder("cut")
        paths = []
        for site, _ in self.sites:
            path = os.path.join(folder, f"site-{site}.cmhj")
            with open(os.path.join(self.folder, f"site-{site}.cmhj"), "rb") as file:
                data = file.read()
            with open(path, "wb") as file:
                file.write(data[: end_of(data, counts[site])])
            paths.append(path)
        told = self.trials.cmh("audit", "--topology", self.topology, *paths).stdout.decode().split("\n")
        return [line for line in told if line.startswith("wait ")]


def end_of(journal, entries):
    """Where so many entries of a journal's file end."""
    size, at = (2 if journal[4] == 1 else 4), 7
    for _ in range(entries):
        at += size + int.from_bytes(journal[at : at + size], "big")
    return at


def pairs(found):
    return ", ".join(f"{a} {b}" for a, b in sorted(found))


# ---- what stands in a page


def trial_of_text(trials, played):
    """The page has the lines that the rules give, between what stands in every page."""
    parts = make.parts()
    lines = "".join(line + "\n" for line in rules.lines_of(played.edition, played.sites, played.audit))
    trials.check(f"{played.name}: the page of its script", played.text(), parts["HEAD"] + lines + parts["FOOT"])
    drawn = trials.cmh("draw", "--page", "--topology", played.topology, *reversed(played.journals))
    again = trials.cmh("draw", "--page", "--topology", played.topology, *played.journals)
    trials.check(f"{played.name}: the page of its journals", (again.returncode, again.stdout.decode()), (0, played.text()))
    trials.check(f"{played.name}: journals in another order", (drawn.returncode, drawn.stderr), (0, b""))


def trials_of_faults(trials, played):
    def of(name, got, status, err):
        trials.check(name, (got.returncode, got.stderr.decode(), got.stdout), (status, err, b""))

    of("no topology", trials.cmh("draw", "--page", "--topology", "none", *played.journals), 3, "fault file topology\n")
    of("no journal", trials.cmh("draw", "--page", "--topology", played.topology, "none"), 3, "fault file 1\n")
    of("a missing site", trials.cmh("draw", "--page", "--topology", played.topology, played.journals[0]), 3, "fault set 4\n")
    of("no journal's bytes", trials.cmh("draw", "--page", "--topology", played.topology, played.topology), 3, "fault journal 1 1\n")
    of("no json", trials.cmh("draw", "--page", "--topology", played.journals[0], *played.journals), 3, "fault json\n")
    for words in (["--kind", "run"], ["--format", "dot"]):
        got = trials.cmh("draw", "--page", *words, "--topology", played.topology, *played.journals)
        trials.check(f"a page and {words[0]}", (got.returncode, got.stdout), (2, b""))
    got = trials.cmh("play", "--page", played.page, "--journals", played.folder)
    trials.check("a page and journals", got.returncode, 2)
    got = trials.cmh("play", "--page", os.path.join(played.folder, "none", "run.html"), text="site 1 1\n")
    trials.check("no folder for a page", (got.returncode, got.stdout, got.stderr), (3, b"ok\n", b"fault file out\n"))


def refused(trials):
    """The journals of lesson 6 of which no run has both."""
    honest, denial = Played(trials, "honest", lesson("6-honest")), Played(trials, "denial", lesson("6-denial"))
    journals = [os.path.join(honest.folder, "site-1.cmhj"), os.path.join(denial.folder, "site-2.cmhj")]
    drawn = trials.cmh("draw", "--page", "--topology", honest.topology, *journals)
    page = os.path.join(trials.folder("refused"), "run.html")
    with open(page, "wb") as file:
        file.write(drawn.stdout)
    told = drawn.stdout.decode().partition('id="run">\n')[2].partition("</script>")[0].split("\n")[:-1]
    wanted = """edition 1
site 1 1
site 2 2
refused
stop 1 at 2
1 1 ask 1 2 sent request 1 2 to 2
begins 1 2
2 1 got request 1 2 from 1
why 1 at 2 waits next nothing from 2 in got reply 2 1 from 2"""
    trials.check("refused journals", (drawn.returncode, told), (0, wanted.split("\n")))
    return page


def lesson(name):
    with open(os.path.join(LESSONS, name + ".script"), encoding="ascii") as file:
        return file.read()


HOSTILE = """site 1 1 2
# </script><script>alert(1)</script>
ask 1 2
<script>alert(1)</script>
ask 1 "2" & <b>'3'</b>
%s
reply 2 1
report
""" % ("<&'\">" * 200)


def long_script(events, sites=8):
    """So many events: asks that are answered, and now and then a probe."""
    lines = ["edition 1"] + [f"site {s} {s}" for s in range(1, sites + 1)]
    made, turn = 0, 0
    while made < events:
        j, k = turn % sites + 1, (turn * 3 + 1) % sites + 1
        turn += 1
        if j == k:
            continue
        block = [f"ask {j} {k}", f"deliver {j} {k}", f"start {j}", f"deliver {j} {k}", f"reply {k} {j}", f"deliver {k} {j}"]
        lines += block[: events - made]
        made += len(block)
    return "\n".join(lines) + "\n"


def wide_script():
    """64 sites that wait for each other in one cycle, in edition 2."""
    lines = ["edition 2"] + [f"site {s} {s} {s + 100}" for s in range(1, 65)]
    lines += [f"ask {s} {s % 64 + 1}" for s in range(1, 65)]
    for _ in range(4):
        lines += [f"deliver {s} {s % 64 + 1}" for s in range(1, 65)]
    return "\n".join(lines) + "\n"


# ---- what it shows

LOOK = """
const texts = query => [...document.querySelectorAll(query)].map(node => node.textContent);
return {moment: document.getElementById('moment').textContent, title: texts('#title')[0], line: texts('#line')[0],
words: texts('#words p'), waits: texts('#waits li'), way: texts('#way li'),
known: [...document.querySelectorAll('#known tr')].map(row => [...row.children].map(cell => cell.textContent)),
thick: document.querySelectorAll('#graph .cycle').length, thin: document.querySelectorAll('#graph .wait').length,
octagons: document.querySelectorAll('#graph polygon.declared').length}
"""

PRESS = "document.dispatchEvent(new KeyboardEvent('keydown', {key: arguments[0], bubbles: true}))"

TIMED = """
const start = performance.now();
document.body.dispatchEvent(new KeyboardEvent('keydown', {key: arguments[0], bubbles: true}));
document.body.getBoundingClientRect();
return (performance.now() - start) / 1000;
"""

OPENED = """
const entry = performance.getEntriesByType('navigation')[0];
document.body.getBoundingClientRect();
return entry.domContentLoadedEventEnd / 1000;
"""


def browser():
    """A browser, or why there is none."""
    try:
        from selenium import webdriver
        from selenium.webdriver.chrome.options import Options
        from selenium.webdriver.chrome.service import Service
    except ImportError:
        return None, "python's selenium"
    paths = {name: shutil.which(name) for name in ("chromium", "chromedriver")}
    missing = [name for name, path in paths.items() if path is None]
    if missing:
        return None, " and ".join(missing)
    options = Options()
    options.binary_location = paths["chromium"]
    for word in ("--headless=new", "--no-sandbox", "--disable-gpu", "--disable-dev-shm-usage"):
        options.add_argument(word)
    options.set_capability("goog:loggingPrefs", {"browser": "ALL"})
    return webdriver.Chrome(options=options, service=Service(paths["chromedriver"])), None


def open_page(driver, page, width=1280, moment=0):
    driver.execute_cdp_cmd("Emulation.setDeviceMetricsOverride", {"width": width, "height": 900, "deviceScaleFactor": 1, "mobile": False})
    driver.get("about:blank")
    driver.get(f"file://{page}#{moment}")


def press(driver, key):
    driver.execute_script(PRESS.replace("document.dispatch", "document.body.dispatch"), key)


def trial_of_moments(trials, driver, played):
    """At each moment the waits are those that an audit of the journals so far finds, and what each controller knows is what
    the rules say."""
    open_page(driver, played.page)
    world = rules.World(played.sites)
    for moment in range(len(played.events) + 1):
        name = f"{played.name} at {moment}"
        fate = world.take(played.events[moment - 1]) if moment else None
        shown = driver.execute_script(LOOK)
        trials.check(f"{name}: its number", shown["moment"], f"{moment} of {len(played.events)}")
        waits = [f"wait {j} {k}" for j, k in sorted(world.waits)]
        trials.check(f"{name}: the waits of the audit", played.waits_at(moment), waits)
        listed = [line.replace("wait ", "").replace(" ", " waits for ") for line in waits]
        trials.check(f"{name}: the waits", shown["waits"], listed or ["Nobody waits."])
        trials.check(f"{name}: the arrows of waits", shown["thick"] + shown["thin"], len(waits))
        known = [[str(s), pairs(has.waits), pairs(has.owed), pairs(has.dependents), ", ".join(map(str, has.declared))] for s, has in sorted(world.sites.items())]
        trials.check(f"{name}: what controllers know", shown["known"], known)
        way = sorted(f"{frame} from site {a} to site {b}" for frame, a, b in world.way)
        trials.check(f"{name}: frames under way", sorted(shown["way"]), way or ["No frame is under way."])
        declared = sum(len(has.declared) for has in world.sites.values())
        trials.check(f"{name}: who is declared", shown["octagons"], declared)
        trials.check(f"{name}: a thick cycle where somebody is declared", shown["thick"] > 0, declared > 0)
        if moment:
            trial_of_words(trials, name, played.events[moment - 1], fate, shown)
        press(driver, "ArrowRight")
    for moment in range(len(played.events), -1, -1):
        trials.check(f"{played.name}: back at {moment}", driver.execute_script(LOOK)["moment"].split()[0], str(moment))
        press(driver, "ArrowLeft")
    trials.check(f"{played.name}: the browser's complaints", driver.get_log("browser"), [])


WORDS = {
    "ask": "Process {0} asks ",
    "reply": "Process {0} grants {1} what it asked for.",
    "start": "A computation starts for process {0}, which waits.",
    "got request": "request {0} {1} came from site {site}. From now on {1} owes {0} a reply.",
    "got reply": "reply {0} {1} came from site {site}. For its controller, {1} no longer waits for {0}.",
}
FATES = {
    "acts": "probe {0} {1} {2} acts: ",
    "ignored active": "probe {0} {1} {2} ignored: {2} is active, it waits for nobody.",
    "ignored answered": "probe {0} {1} {2} ignored: {2} no longer owes {1}.",
    "ignored known": "probe {0} {1} {2} ignored: {0} is already known to depend on {other}.",
}


def trial_of_words(trials, name, event, fate, shown):
    numbers = event.numbers
    other = "itself" if numbers[0] == numbers[-1] else numbers[-1]
    wanted = (FATES[fate] if fate else WORDS[event.kind]).format(*numbers, site=event.source, other=other)
    trials.check(f"{name}: its words", shown["words"][0][: len(wanted)], wanted)
    trials.check(f"{name}: its line", shown["line"], event.line)
    if event.declared:
        told = [words for words in shown["words"] if words.startswith(f"Process {event.declared} is declared: ")]
        trials.check(f"{name}: a sentence for who is declared", len(told), 1)


def trial_of_keys(trials, driver, played):
    from selenium.webdriver.common.by import By
    from selenium.webdriver.common.keys import Keys

    open_page(driver, played.page, moment=3)
    total = len(played.events)

    def at(name, wanted):
        trials.check(f"{name}", driver.execute_script(LOOK)["moment"], f"{wanted} of {total}")

    def button(name):
        return driver.find_element(By.ID, name)

    body = driver.find_element(By.TAG_NAME, "body")
    at("a page that is opened at a moment", 3)
    for key, wanted in ((Keys.ARROW_RIGHT, 4), (Keys.ARROW_LEFT, 3), (Keys.END, total), (Keys.ARROW_RIGHT, total), (Keys.HOME, 0), (Keys.ARROW_LEFT, 0)):
        body.send_keys(key)
        at(f"the key {key!r}", wanted)
    for name, wanted in (("forth", 1), ("forth", 2), ("back", 1), ("last", total), ("first", 0)):
        button(name).click()
        at(f"the button {name}", wanted)
    slider = button("slider")
    for key, wanted in ((Keys.ARROW_RIGHT, 1), (Keys.ARROW_RIGHT, 2), (Keys.ARROW_LEFT, 1), (Keys.END, total), (Keys.HOME, 0)):
        slider.send_keys(key)
        at(f"the slider with {key!r}", wanted)
    button("play").click()
    trials.check("a run that plays can be paused", button("play").text, "Pause")
    time.sleep(1.9)
    at("a run that plays", 1)
    button("play").click()
    trials.check("a run that is paused can be played", button("play").text, "Play")
    time.sleep(1.7)
    at("a run that is paused", 1)
    trials.check("the words are told", driver.find_element(By.ID, "told").get_attribute("aria-live"), "polite")
    names = [node.accessible_name for node in driver.find_elements(By.CSS_SELECTOR, "button, input")]
    trials.check("each control has a name", all(names), True)


def trial_of_sizes(trials, driver, page, name):
    for width in WIDTHS:
        open_page(driver, page, width, moment=99999)
        wide = driver.execute_script("return [document.documentElement.scrollWidth, window.innerWidth, ...[...document.querySelectorAll('section, header, button')].map(node => Math.ceil(node.getBoundingClientRect().right))]")
        trials.check(f"{name}: nothing is wider than {width}", max(wide) <= width, True)
    trials.check(f"{name}: the browser's complaints", driver.get_log("browser"), [])


def trial_of_time(trials, driver, page, name, has_limits):
    opened = []
    for _ in range(3):
        open_page(driver, page, moment=2500)
        opened.append(driver.execute_script(OPENED))
    steps = sorted(driver.execute_script(TIMED, "ArrowRight" if turn % 3 else "ArrowLeft") for turn in range(60))
    ends = [driver.execute_script(TIMED, key) for key in ("Home", "End", "Home", "End")]
    print(f"{name}: {os.path.getsize(page)} bytes, opens in {min(opened):.2f} s, steps in {steps[30] * 1000:.0f} ms (at most {steps[-1] * 1000:.0f}), jumps in {max(ends) * 1000:.0f} ms")
    if has_limits:
        trials.check(f"{name}: it opens within {OPENS} s", min(opened) <= OPENS, True)
        trials.check(f"{name}: it steps within {STEPS} s", steps[30] <= STEPS, True)


def trial_of_refused(trials, driver, page):
    open_page(driver, page, moment=2)
    shown = driver.execute_script(LOOK)
    trials.check("refused journals: the words of the stop", shown["words"][-1], "Site 1 stops at its entry 2: waits next nothing from 2 in got reply 2 1 from 2")
    trials.check("refused journals: the waits", shown["waits"], ["1 waits for 2"])
    trials.check("refused journals: a cross", driver.execute_script("return document.querySelectorAll('#diagram .cross').length"), 1)


def main():
    program = sys.argv[1]
    with tempfile.TemporaryDirectory() as scratch:
        trials = Trials(program, scratch)
        lessons = [Played(trials, name, lesson(name)) for name in sorted(os.path.basename(path)[:-7] for path in glob.glob(os.path.join(LESSONS, "*.script")))]
        for played in lessons:
            trial_of_text(trials, played)
        trials_of_faults(trials, lessons[2])
        hostile = Played(trials, "hostile", HOSTILE)
        trials.check("a page has no text of a script", any(word in hostile.text() for word in ("alert", "<b>", "'3'")), False)
        trial_of_text(trials, hostile)
        empty = Played(trials, "empty", "")
        trials.check("no sites", (empty.status, empty.text().count("edition 1\naccepted\nevents 0\n")), (0, 1))
        refused_page = refused(trials)
        long = Played(trials, "5000 events", long_script(5000))
        trials.check("5,000 events", len(long.events), 5000)
        trial_of_text(trials, long)
        most = Played(trials, "20000 events", long_script(20000))
        trials.check("20,000 events", (most.status, len(most.events)), (0, 20000))
        more = Played(trials, "20001 events", long_script(20001))
        trials.check("20,001 events", (more.status, more.fault, os.path.exists(more.page)), (3, "fault page\n", False))
        drawn = trials.cmh("draw", "--page", "--topology", more.topology, *more.journals)
        trials.check("20,001 events, drawn", (drawn.returncode, drawn.stderr, drawn.stdout), (3, b"fault page\n", b""))
        drawn = trials.cmh("draw", "--page", "--explain", "--topology", more.topology, *more.journals)
        trials.check("20,001 events, explained", drawn.stderr, b"fault page\ncmh: a page tells at most 20,000 events\n")
        wide = Played(trials, "64 sites", wide_script())
        trial_of_text(trials, wide)
        driver, missing = browser()
        try:
            victim, long3 = edition3.all_trials(trials, driver, make.parts(3), open_page, press)
            if driver is None:
                print(f"skipped: no browser, {missing} is missing")
            else:
                for played in [*lessons, hostile]:
                    trial_of_moments(trials, driver, played)
                trial_of_keys(trials, driver, lessons[3])
                trial_of_refused(trials, driver, refused_page)
                for page, name in ((lessons[5].page, lessons[5].name), (refused_page, "refused"), (wide.page, "64 sites"), (empty.page, "no sites"), (victim, "edition 3")):
                    trial_of_sizes(trials, driver, page, name)
                trial_of_time(trials, driver, long.page, "5,000 events", True)
                trial_of_time(trials, driver, long3, "5,000 events of edition 3", True)
                trial_of_time(trials, driver, most.page, "20,000 events", False)
                trial_of_time(trials, driver, wide.page, "64 sites", False)
        finally:
            if driver:
                driver.quit()
        print(f"{trials.passed} passed, {trials.failed} failed")
        return trials.failed > 0


sys.exit(main())
