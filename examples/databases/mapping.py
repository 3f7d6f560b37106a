"""From sessions that wait to agents that wait for agents: the mapping that README.md explains, and nothing else. Plain
functions, from pictures to waits, with no server and no site behind them.
"""
from __future__ import annotations

import time
from collections import Counter, defaultdict
from dataclasses import dataclass, field
from typing import NamedTuple

from waits import Picture, Session, Wait

MOST_HOLDERS = 255   # the most for whom a process may wait


class Agent(NamedTuple):
    """A part of a transaction at one server, its session there: what waits and is waited for."""
    server: int
    transaction: str

    def __str__(self) -> str:
        return f'{self.transaction}@{self.server}'


Waits = dict[Agent, dict[Agent, Wait]]   # for whom each agent waits, for all of them, and by which wait of its session


@dataclass
class View:
    """All waits of all servers, as they were seen one server after the other; the oldest come first."""
    looked: tuple[float, float]          # the moment after which the first was seen, and that of the last
    waits: Waits = field(default_factory=dict)
    sessions: dict[Agent, Session] = field(default_factory=dict)
    left_out: Counter[str] = field(default_factory=Counter)   # what this mapping does not say


def view_of(pictures: dict[int, Picture]) -> View:
    """The waits of agents: first those in locks, then those of idle agents for their own transaction."""
    view = View((min((picture.taken for picture in pictures.values()), default=0.0), time.time()))
    for server, picture in pictures.items():
        agents = _agents(server, picture)
        view.sessions |= {agent: picture.sessions[number] for number, agent in agents.items()}
        for wait in picture.waits:
            _add_lock_wait(view, agents, wait)
    _add_idle_waits(view)
    view.waits = dict(sorted(view.waits.items(), key=lambda item: min(wait.since for wait in item[1].values())))
    return view


def _agents(server: int, picture: Picture) -> dict[int, Agent]:
    """The agent of each session. A name that two sessions of a server have names none of them."""
    uses = Counter(picture.names.get(number) for number in picture.sessions)
    names = {number: name for number, name in picture.names.items() if uses[name] == 1}
    return {number: Agent(server, names.get(number, f'#{server}:{number}')) for number in picture.sessions}


def _add_lock_wait(view: View, agents: dict[int, Agent], wait: Wait) -> None:
    agent, holder = agents.get(wait.session), agents.get(wait.holder or 0)
    if agent is None or holder is None:
        view.left_out['waits for what is no session'] += 1
    elif agent != holder:
        holders = view.waits.setdefault(agent, {})
        if len(holders) < MOST_HOLDERS:
            holders[holder] = wait
        else:
            view.left_out['holders past the 255th'] += 1


def _add_idle_waits(view: View) -> None:
    """An idle agent that blocks somebody, while its transaction waits elsewhere, waits for that."""
    waiting: dict[str, list[Agent]] = defaultdict(list)
    for agent in view.waits:
        waiting[agent.transaction].append(agent)
    blocks = {holder for holders in view.waits.values() for holder in holders}
    for agent in blocks - view.waits.keys():
        session = view.sessions[agent]
        if session.idle is not None and agent.transaction in waiting:
            view.waits[agent] = {other: Wait(session.number, None, session.idle, _since(view, other))
                                 for other in waiting[agent.transaction]}


def _since(view: View, agent: Agent) -> float:
    """When the newest wait of an agent began."""
    return max(wait.since for wait in view.waits[agent].values())
