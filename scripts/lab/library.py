"""Loops of the laboratory of the C library: lines and the answers that the rules and the formats give, worked out here.

Each function of GENERATORS yields pairs (name, [(line, answer), ..]). They are many lines, so they are run once each and
not under refused memory.
"""
import spell

HELLO = spell.hello(1, 1)
FRAMES = ["request 1 2", "reply 2 1", "probe 9999 1 2", "probe 2 2 1", "request 9999 1"]


# ---- streams

def stream(pieces, frames, bad=False):
    """The answers of a reader to the pieces of a hello, these frames and, where `bad`, a byte that begins none."""
    ends, at = [], len(HELLO)
    for frame in frames:
        at += len(spell.frame(frame))
        ends.append(at)
    rows, seen, given = [("reader r 1 1 2", "ok")], 0, 0
    for piece in pieces:
        seen += len(piece)
        new = [frame for end, frame in zip(ends, frames) if given < end <= seen]
        given = max([end for end in ends if end <= seen], default=given)
        answer = " ".join(["ok", *new]) if new or not (bad and seen > at) else "bad 2"
        rows.append((f"r feed {spell.digits(piece)}", answer))
    return [*rows, ("r sender", "1")]


def cut_streams():
    """A stream gives its frames wherever it is cut in two, and in pieces of each size; behind them its fault."""
    short = HELLO + spell.frame(FRAMES[0])
    rows = []
    for cut in range(len(short) + 1):
        rows += stream([short[:cut], short[cut:]], FRAMES[:1])
    yield "cut-in-two", rows
    long = HELLO + b"".join(map(spell.frame, FRAMES))
    for size in [1, 2, 3, 5, 7, 64]:
        yield f"pieces-of-{size}", stream([long[at:at + size] for at in range(0, len(long), size)], FRAMES)
        faulty = long + b"\x04\x01\x00"
        pieces = [faulty[at:at + size] for at in range(0, len(faulty), size)] + [b""]
        yield f"faulty-pieces-of-{size}", stream(pieces, FRAMES, bad=True)


def front(data, answer):
    """A link whose frames begin so."""
    return [("reader r 1 1", "ok"), (f"r feed {spell.digits(HELLO + data)}", answer)]


def fronts():
    """Each first byte, each beginning of a frame, each number at its bounds."""
    rows = []
    for byte in range(256):
        rows += front(bytes([byte]), "ok" if byte in (1, 2, 3) else "bad 2")
    for frame in FRAMES:
        data = spell.frame(frame)
        for cut in range(1, len(data)):
            rows += front(data[:cut], "ok")
        rows += front(data + data, f"ok {frame} {frame}")
    for kind, count in (("request", 2), ("reply", 2), ("probe", 3)):
        for place in range(count):
            for value in (0, 1, 9999, 10000, 65535):
                numbers = [2, 3, 4][:count]
                numbers[place] = value
                frame = f"{kind} {' '.join(map(str, numbers))}"
                good = all(1 <= number <= 9999 for number in numbers)
                rows += front(spell.frame(frame), f"ok {frame}" if good else "bad 2")
    yield "fronts", rows


# ---- journals, as an audit of site 1 and an idle site 2 reads them

IDLE = "topology t {0} 1:1 2:2"


def world(edition):
    return [(IDLE.format(edition), "ok"), (f"bytes n {spell.digits(spell.header(edition, 2))}", "ok")]


def asked(edition):
    """An ask of 1 for 2 and a start of 1, as entries, each with how many frames it sends."""
    probe = "probe 1 1 2 to 2"
    sent = ["request 1 2 to 2"] + ([probe] if edition == 2 else [])
    return (spell.entry(edition, "ask 1 2", sent), len(sent)), (spell.entry(edition, "start 1", [probe]), 1)


def cut_journals():
    """A journal that ends early is cut there, and keeps the entries before."""
    for edition in (1, 2):
        head, rows = spell.header(edition, 1), world(edition)
        (first, first_sent), (last, last_sent) = asked(edition)
        for cut in range(len(last) + 1):
            whole = cut == len(last)
            lines = [f"cut 1 {cut}"] if 0 < cut < len(last) else []
            lines += ["accepted", f"events {1 + whole}"]
            lines += [f"in transit {first_sent + whole * last_sent}"] if edition == 2 else []
            answer = " / ".join([*lines, "wait 1 2"])
            rows += [(f"bytes b {spell.digits(head + first + last[:cut])}", "ok"), ("audit t n b", f"0 {answer} /")]
        for cut in range(len(head)):
            rows += [(f"bytes b {spell.digits(head[:cut])}", "ok"), ("audit t n b", "3 fault journal 2 1 /")]
        yield f"cut-journals-of-edition-{edition}", rows


def targets():
    """An ask has as many targets as its edition allows, in a file and at a site."""
    for edition, limit in ((1, 16), (2, 32)):
        others = ",".join(map(str, range(2, 34)))
        rows = [(f"topology t {edition} 1:1 2:{others}", "ok"), (f"bytes n {spell.digits(spell.header(edition, 2))}", "ok")]
        rows.append(("site c t 1", "ok"))
        for count in range(1, 34):
            names = range(2, 2 + count)
            ask = f"ask 1 {' '.join(map(str, names))}"
            sent = [f"request 1 {name} to 2" for name in names]
            sent += [f"probe 1 1 {name} to 2" for name in names] if edition == 2 else []
            rows.append((f"c back {ask}", spell.accepted(sent) if count <= limit else "code 20"))
            rows.append((f"bytes b {spell.digits(spell.header(edition, 1) + spell.entry(edition, ask))}", "ok"))
            rows.append(("audit t b n", "1 refused / stop 1 at 1 /" if count <= limit else "3 fault journal 1 2 at 7 /"))
        yield f"targets-of-edition-{edition}", rows


def million():
    """A site takes 1,000,000 events, and no more; an audit reads so many entries, and no more."""
    pair = spell.digits(spell.entry(1, "ask 1 2") + spell.entry(1, "reply 2 1"))
    start = spell.digits(spell.entry(1, "start 1"))
    whole = 7 + 15 * 500_000
    rows = [
        ("topology t 1 1:1,2", "ok"),
        ("site s t 1", "ok"),
        ("s times 499999 ask 1 2 / reply 2 1", "taken 999998"),
        ("s times 1 ask 1 2 / reply 2 1 / ask 1 2", "taken 2 refused 12"),
        ("s start 9", "refused 12"),
        ("s back ask 1 2", "refused 12"),
        (f"bytes b {spell.digits(spell.header(1, 1))}", "ok"),
        (f"b repeat 500000 {pair}", str(whole)),
    ]
    accepted = "accepted / events 1000000 /"
    for behind, answer in (("none", f"0 {accepted}"), (start, "3 fault journal 1 3 /"), ("0000", "3 fault journal 1 3 /"),
                           ("00030300", f"0 cut 1 4 / {accepted}")):
        rows.append((f"b add {behind}", str(whole + (0 if behind == "none" else len(behind) // 2))))
        rows.append(("audit t b", answer))
        rows.append((f"b cut {whole}", str(whole)))
    rows += [
        (f"bytes b {spell.digits(spell.header(1, 1))}", "ok"),
        ("b add 0000", "9"),
        (f"b repeat 1000001 {start}", str(9 + 5 * 1_000_001)),
        ("audit t b", "3 fault journal 1 2 at 7 /"),
    ]
    yield "a-million-entries", rows


def fresh(generator):
    """The same, each list over no objects of another."""
    def each():
        for name, rows in generator():
            yield name, [("forget", "ok"), *rows]
    return each


GENERATORS = [fresh(each) for each in (cut_streams, fronts, cut_journals, targets, million)]
