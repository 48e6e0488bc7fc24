"""Which agent is where when, and which agents rotate."""
import collections
from typing import Iterator, Optional, Sequence

from ground import Cell, Walk, at

# The step in which agents rotate, and those agents, each behind the one that it follows.
Rotation = tuple[int, list[int]]


def cost_of(walk: Walk) -> int:
    """The time from which on an agent stays at its end."""
    cost = len(walk) - 1
    while cost and walk[cost] == walk[cost - 1]:
        cost -= 1
    return cost


class Timetable:
    """The walks of some agents, by times and cells."""

    def __init__(self) -> None:
        self.walks: dict[int, Walk] = {}
        self.held: dict[tuple[int, Cell], int] = {}
        self.times: dict[Cell, set[int]] = collections.defaultdict(set)
        # Who stays in a cell for ever, and since when.
        self.ended: dict[Cell, tuple[int, int]] = {}

    def take(self, agent: int, walk: Walk) -> None:
        self.walks[agent] = walk
        for time, cell in enumerate(walk):
            self.held[time, cell] = agent
            self.times[cell].add(time)
        self.ended[walk[-1]] = len(walk) - 1, agent

    def leave(self, agent: int) -> None:
        walk = self.walks.pop(agent)
        for time, cell in enumerate(walk):
            del self.held[time, cell]
            self.times[cell].remove(time)
        del self.ended[walk[-1]]

    def holder(self, time: int, cell: Cell) -> Optional[int]:
        """Who is in a cell at a time."""
        agent = self.held.get((time, cell))
        if agent is None and cell in self.ended:
            since, last = self.ended[cell]
            return last if since <= time else None
        return agent

    def last_held(self, cell: Cell) -> int:
        """The time from which on nobody comes into a cell, if nobody stays in it."""
        return max(self.times[cell], default=-1) + 1

    def may_step(self, time: int, cell: Cell, to: Cell) -> bool:
        """Whether one more agent may go on so: it meets nobody, exchanges cells with nobody, and of those whom it follows in the step none enters the
        cell that it leaves."""
        if self.holder(time + 1, to) is not None:
            return False
        ahead = to
        while ahead != cell:
            agent = self.holder(time, ahead)
            if agent is None:
                return True
            onward = at(self.walks[agent], time + 1)
            if onward == ahead:
                return True
            ahead = onward
        # It waits, or who is ahead comes back to it.
        return to == cell


def rotations_of(walks: Sequence[Walk]) -> Iterator[Rotation]:
    """The rotations of walks that meet nowhere, step by step."""
    for time in range(max(map(len, walks), default=1) - 1):
        here = {at(walk, time): agent for agent, walk in enumerate(walks)}
        ahead = {}
        for agent, walk in enumerate(walks):
            to = at(walk, time + 1)
            if to != at(walk, time) and to in here:
                ahead[agent] = here[to]
        seen: set[int] = set()
        for first in ahead:
            line: list[int] = []
            agent: Optional[int] = first
            while agent is not None and agent not in seen:
                seen.add(agent)
                line.append(agent)
                agent = ahead.get(agent)
            if agent in line:
                yield time, line[line.index(agent) :]
