"""The lines of tests/lab/program: each is a run of the program `cmh`, over bytes that earlier lines named."""
import os
import subprocess

SECONDS = 60
# The command of each line that audits, and its options.
AUDITS = {"audit": [], "why": ["--why"], "run": ["--run"]}


def lines_of(text):
    """A text as words: each line with a stroke after it. A last line without an end has none."""
    return " ".join(line + " /" for line in text.split("\n")[:-1]) + (f" {text.split(chr(10))[-1]}" if not text.endswith("\n") and text else "")


class Program:
    """The bytes that lines have named, as files of a folder, and the program that is run on them."""

    def __init__(self, program, shim, room):
        self.program, self.shim, self.room = program, shim, room
        self.named = {}

    def path(self, name):
        path = os.path.join(self.room, name)
        with open(path, "wb") as file:
            file.write(self.named[name])
        return path

    def ran(self, *words, data=b"", **shim):
        """The status, the lines that were written, and after `err` the fault."""
        env = {name: value for name, value in os.environ.items() if name != "LD_PRELOAD"}
        if shim:
            env.update(shim, LD_PRELOAD=self.shim)
        ran = subprocess.run([self.program, *words], input=data, capture_output=True, env=env, timeout=SECONDS)
        out, err = (lines_of(text.decode(errors="replace")).strip() for text in (ran.stdout, ran.stderr))
        return " ".join(word for word in (str(ran.returncode), out, err and f"err {err}") if word)

    def named_by(self, words):
        """A change of the bytes of a name, which a line that makes none leaves as it is."""
        name, call, *rest = words
        if name == "bytes":
            self.named[call] = b"" if rest == ["none"] else bytes.fromhex(rest[0])
            return "ok"
        if name == "text":
            self.named[call] = (" ".join(rest) + " ").replace(" / ", "\n").rstrip(" ").encode()
            return "ok"
        self.named[name] += int(rest[0]) * bytes.fromhex(rest[1]) if call == "repeat" else bytes.fromhex(rest[0])
        return str(len(self.named[name]))

    def answer(self, line):
        words = line.split(" ")
        call, names = words[0], words[1:]
        if call == "forget":
            self.named.clear()
            return "ok"
        if call == "play":
            short = {"REFUSE": "short"} if names[0] == "bytewise" else {}
            return self.ran("play", data=self.named[names[-1]], **short)
        if call in AUDITS:
            return self.ran("audit", *AUDITS[call], "--topology", *map(self.path, names))
        if call == "show":
            return self.ran("show", *map(self.path, names))
        if call == "ports":
            # No topology has site 9999 here, so no port is opened.
            return self.ran("site", "--topology", self.path(names[0]), "--site", "9999", "--journal", os.path.join(self.room, "none", "kept"))
        return self.named_by(words)
