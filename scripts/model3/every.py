"""All runs of a small world with so many asks and withdrawals, the shorter ones first. A state that was met before, with the
same frames under way and as many asks and withdrawals left, is not gone on from again; whom an event declares there is looked
at all the same. So the first run that breaks a law has the fewest events.
"""
import copy
from dataclasses import dataclass, replace
from itertools import combinations

import laws
from model import Stop, World, least_cycle, spelled


@dataclass(frozen=True)
class State:
    """A world, what may still happen in it, and the lines that led there."""

    world: World
    asks: int
    withdrawals: int
    lines: tuple = ()

    def key(self):
        sites = tuple(
            (site.clock, *map(frozenset, (site.waits.items(), site.leaving, site.owed, site.marks.items(), site.declared.items(), site.stamp.items())))
            for site in self.world.sites.values()
        )
        return sites, tuple(map(tuple, self.world.links.values())), self.asks, self.withdrawals

    def after(self, line):
        """The state after a line, or None where it is refused. A frame never is."""
        world, (word, *numbers) = copied(self.world), line
        answer = world.deliver(*numbers) if word == "deliver" else world.act(word, *numbers)
        if answer.startswith("refused"):
            assert word != "deliver" or world.wrong, "a frame is refused"
            return None
        left = {"ask": "asks", "start": "asks", "withdraw": "withdrawals"}.get(word)
        rest = {left: getattr(self, left) - 1} if left else {}
        return replace(self, world=world, lines=(*self.lines, line), **rest)

    def moves(self, most_targets):
        world = self.world
        yield from (("deliver", a, b) for (a, b), frames in world.links.items() if frames)
        for site in world.sites.values():
            yield from (("reply", k, j) for k, j in sorted(site.owed))
        for j, home in sorted(world.home.items()):
            holders = [k for _, k in world.sites[home].waits_of(j)]
            if self.asks:
                others = [k for k in sorted(world.home) if k not in (j, *holders)]
                yield from (("ask", j, *some) for size in range(1, most_targets + 1) for some in combinations(others, size))
                yield ("start", j)
            if self.withdrawals:
                yield from (("withdraw", j, *some) for size in range(1, len(holders) + 1) for some in combinations(holders, size))


def copied(world):
    other = copy.copy(world)
    other.sites = {number: copied_site(site) for number, site in world.sites.items()}
    other.links = {link: list(frames) for link, frames in world.links.items()}
    other.entries = list(world.entries)
    return other


def copied_site(site):
    other = copy.copy(site)
    for name in ("waits", "leaving", "owed", "marks", "declared", "stamp", "asks"):
        setattr(other, name, copy.copy(getattr(site, name)))
    return other


def is_phantom(world):
    """Whether the last event declares a process that lies on no cycle at that stop."""
    declared = world.entries[-1].declared
    return bool(declared) and not least_cycle(Stop.of(world.entries, declared[1]).waits, declared[0])


def first_broken(topology, asks, withdrawals, most_targets=1, wrong=None):
    """The lines of a shortest run that breaks a law, or None; and how many states were met."""
    first = State(World(topology, wrong), asks, withdrawals)
    met, level = {first.key()}, [first]
    while level:
        longer = []
        for state in level:
            for after in filter(None, map(state.after, state.moves(most_targets))):
                key = after.key()
                if is_phantom(after.world) or (key not in met and laws.broken_now(after.world)):
                    return [spelled(*line) for line in after.lines], len(met)
                if key not in met:
                    met.add(key)
                    longer.append(after)
        level = longer
    return None, len(met)
