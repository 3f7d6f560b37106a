"""What every run of edition 3 keeps (docs/rules.md, section 8), looked at by definition in a world that was played.

`broken` answers what a world breaks, as words:

    phantom I         I was declared, and lay on no cycle at the stop of that declaration
    missed I .. I     all frames have come, and nobody on this cycle is declared
    unfair I .. I     the same of somebody on it none of whose waits is younger than its newest ask
    ended J K         a wait of a cycle of some stop is over, and no member has withdrawn from its next since
    unanswered J K    J waits for K, and the controller of J does not keep the wait
    ghost J K         the controller of J keeps a wait that is over, and no reply is under way
    places J K        the wait of J for K is not at just one place
    active K          an active process has a mark, or is declared
"""
from itertools import product
from math import prod

from model import COUNTED, Stop, least_cycle, spelled, waits_after


def cycles(waits):
    """Each cycle of waits on which no process is twice, from its least member on."""

    def longer(path):
        for k in sorted(k for j, k in waits if j == path[-1]):
            if k == path[0]:
                yield path + [k]
            elif k > path[0] and k not in path:
                yield from longer(path + [k])

    for i in sorted({j for j, _ in waits}):
        yield from longer([i])


def along(cycle):
    """The waits of a cycle."""
    return list(zip(cycle, cycle[1:]))


def broken(world):
    """What a world breaks, of the whole run."""
    return [*phantoms(world), *endings(world), *broken_now(world)]


def broken_now(world):
    """What it breaks as it is now."""
    return [*places(world), *waits(world), *actives(world), *([] if world.in_transit() else missed(world))]


def phantoms(world):
    """Whoever is declared lies on a cycle at that stop, of the entries up to its declaration and of all."""
    for at, entry in enumerate(world.entries):
        if entry.declared:
            i, n = entry.declared
            runs = (world.entries[: at + 1], world.entries)
            real = on_cycle_somewhere(world, i) if world.wrong in COUNTED else all(least_cycle(Stop.of(run, n).waits, i) for run in runs)
            if not real:
                yield f"phantom {i}"


MOST_STOPS = 20_000


def on_cycle_somewhere(world, i):
    """Whether a process lies on a cycle at any consistent stop, where nothing was got that was not sent. In a world with very
    many stops nobody looks."""
    journals = {site: [entry for entry in world.entries if entry.site == site] for site in world.sites}
    if prod(len(journal) + 1 for journal in journals.values()) > MOST_STOPS:
        return True
    for lengths in product(*(range(len(journal) + 1) for journal in journals.values())):
        kept = {site: journal[:length] for (site, journal), length in zip(journals.items(), lengths)}
        if is_consistent(world, kept) and least_cycle(waits_after(in_order(world, lengths)), i):
            return True
    return False


def is_consistent(world, kept):
    return all(len(receipts(kept[b], a)) <= len(sendings(kept[a], b)) for a, b in world.links)


def sendings(journal, to):
    return [frame for entry in journal for site, frame in entry.sent if site == to]


def receipts(journal, source):
    return [entry.event.frame for entry in journal if entry.event.source == source]


def in_order(world, lengths):
    """So many entries of each site, in the order of the run."""
    left = dict(zip(world.sites, lengths))
    for entry in world.entries:
        if left[entry.site]:
            left[entry.site] -= 1
            yield entry


def endings(world):
    """Each cycle of each stop stands, or a member withdrew from its next past the stop."""
    for n in range(1, max((site.clock for site in world.sites.values()), default=0) + 1):
        stop = Stop.of(world.entries, n)
        for cycle in cycles(stop.waits):
            over = [wait for wait in along(cycle) if wait not in stop.standing]
            if over and not any(wait in stop.left for wait in along(cycle)):
                yield spelled("ended", *over[0])


def pairs(world):
    return [(j, k) for j in world.home for k in world.home if j != k]


def under_way(world, kind, a, b):
    """How many frames of this kind and these processes are under way."""
    here, there = world.home[a], world.home[b]
    return [(frame.kind, frame.numbers) for frame in world.under_way(here, there)].count((kind, (a, b))) if here != there else 0


def places(world):
    """Of each j and k: the request under way, the debt, the reply under way, and the wait or the leaving, at most once."""
    for j, k in pairs(world):
        asker, holder = world.sites[world.home[j]], world.sites[world.home[k]]
        kept = ((j, k) in asker.waits) + ((j, k) in asker.leaving)
        if kept > 1 or kept != under_way(world, "request", j, k) + ((k, j) in holder.owed) + under_way(world, "reply", k, j):
            yield f"places {j} {k}"


def waits(world):
    """A wait stands just where its asker's controller keeps it and no reply to it is under way."""
    standing = waits_after(world.entries)
    for j, k in pairs(world):
        kept, comes = (j, k) in world.sites[world.home[j]].waits, under_way(world, "reply", k, j) > 0
        if (j, k) in standing and (comes or not kept):
            yield f"unanswered {j} {k}"
        if (j, k) not in standing and kept and not comes:
            yield f"ghost {j} {k}"


def actives(world):
    """An active process has no mark and is not declared; no mark and no stamp is ahead of the clock."""
    for site in world.sites.values():
        active = {process for process, home in world.home.items() if home == site.number and not site.waits_of(process)}
        told = {k for k, _ in site.marks} | set(site.declared)
        yield from (f"active {k}" for k in sorted(active & told))
        if world.wrong not in COUNTED and max([*site.marks.values(), *site.waits.values(), 0]) > site.clock:
            yield f"active {site.number}"


def missed(world):
    """Whoever lies on a cycle none of whose waits is younger than its newest ask is declared, once all frames have come."""
    declared = {i for site in world.sites.values() for i in site.declared}
    for cycle in cycles(waits_after(world.entries)):
        members = set(cycle)
        if not members & declared:
            yield spelled("missed", *cycle)
        elif world.wrong is None and victims(world, cycle) - declared:
            yield spelled("unfair", *cycle)


def victims(world, cycle):
    """The members of a cycle none of whose waits is younger than their newest ask."""
    youngest = max((world.sites[world.home[j]].waits[j, k], j) for j, k in along(cycle))
    return {i for i in cycle if youngest <= (world.sites[world.home[i]].stamp[i], i)}


def most_deliveries(world):
    """After so many deliveries in a row nothing is under way."""
    frames = [frame for link in world.links.values() for frame in link]
    withdraws = sum(frame.kind == "withdraw" for frame in frames)
    asks = {frame.numbers[:2] for frame in frames if frame.kind == "probe"}
    waits_out = 0
    for site in world.sites.values():
        blocked = {j for j, _ in site.waits}
        waits_out += len(blocked) * sum(world.home[k] != site.number for _, k in site.waits)
    return len(frames) + withdraws + len(asks) * waits_out
