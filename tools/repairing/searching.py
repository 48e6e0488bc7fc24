"""Walks without rotations in the place of some that have them: a search in a large neighbourhood."""
import heapq
import itertools
import random
from typing import Iterator, NamedTuple, Optional, Sequence

from ground import Cell, Ground, Walk, at, traced
from repairing.timetable import Rotation, Timetable, cost_of, rotations_of

# A walk of one agent, of one of two, and of one of more planned anew may get so many steps longer, at first and at last.
LONGER_ALONE, LONGER_OF_TWO, LONGER = 16, 16, (16, 32, 64, 128)
# So many agents, or pairs of them, are tried by themselves, and so many orders of each set of more.
MOST_SETS, ORDERS = 30, 12
# So near are agents that are planned anew with those of a rotation, at first and at last.
NEAR = (1, 2, 4, 8)
# So many agents at most are planned anew at once.
MOST_AT_ONCE = 24


class Repaired(NamedTuple):
    """Walks of some agents, and what they cost more than before."""

    walks: dict[int, Walk]
    more: int


def least_walk(ground: Ground, taken: Timetable, start: Cell, goal: Cell, most: int) -> Optional[Walk]:
    """A walk among those of others that costs least, and no more than so much: it rotates with nobody, and nobody comes into its goal later."""
    far, rests_from = ground.steps_to(goal), taken.last_held(goal)
    before: dict[tuple[int, Cell], Optional[Cell]] = {(0, start): None}
    heap = [(max(far[start], rests_from), 0, start)]
    while heap:
        through, less, cell = heapq.heappop(heap)
        time = -less
        if through > most:
            return None
        if cell == goal and time >= rests_from:
            return traced(before, cell, time)
        for to in ground.beside(cell):
            if (time + 1, to) not in before and taken.may_step(time, cell, to):
                before[time + 1, to] = cell
                heapq.heappush(heap, (max(time + 1 + far[to], rests_from), -time - 1, to))
    return None


class Repair:
    """The walks of a plan, of which some are planned anew."""

    def __init__(self, ground: Ground, walks: Sequence[Walk], seed: int) -> None:
        self.ground, self.walks = ground, [walk[: cost_of(walk) + 1] for walk in walks]
        self.tasks = [(walk[0], walk[-1]) for walk in self.walks]
        self.rng = random.Random(seed)
        self.taken = Timetable()
        for agent, walk in enumerate(self.walks):
            self.taken.take(agent, walk)

    def rotations(self) -> list[Rotation]:
        return list(rotations_of(self.walks))

    def attempts(self, rotation: Rotation) -> Iterator[bool]:
        """Tries to resolve a rotation again and again, by more and more agents, and says of each attempt whether it did."""
        _, agents = rotation
        for count, longer in ((1, LONGER_ALONE), (2, LONGER_OF_TWO)):
            sets = list(itertools.combinations(agents, count))
            tried = [self.planned(it, longer) for it in self.rng.sample(sets, min(len(sets), MOST_SETS))]
            found = [it for it in tried if it]
            if found:
                self.put(min(found, key=lambda it: it.more))
            yield bool(found)
        for near, longer in itertools.chain(zip(NEAR, LONGER), itertools.repeat((NEAR[-1], LONGER[-1]))):
            some = self.near(rotation, near)
            for _ in range(ORDERS):
                repaired = self.planned(self.rng.sample(some, len(some)), longer)
                if repaired:
                    self.put(repaired)
                yield bool(repaired)

    def near(self, rotation: Rotation, most: int) -> list[int]:
        """The agents of a rotation, and some of those that are so near then."""
        time, agents = rotation
        cells = [at(self.walks[agent], time) for agent in agents]

        def is_near(agent: int) -> bool:
            x, y = at(self.walks[agent], time)
            return any(abs(x - u) + abs(y - v) <= most for u, v in cells)

        others = [agent for agent in range(len(self.walks)) if agent not in agents and is_near(agent)]
        count = max(0, MOST_AT_ONCE - len(agents))
        return agents + self.rng.sample(others, min(len(others), count))

    def planned(self, agents: Sequence[int], longer: int) -> Optional[Repaired]:
        """These agents planned anew, one after another, among the others; the walks stay as they were."""
        old = {agent: self.walks[agent] for agent in agents}
        new: dict[int, Walk] = {}
        for agent in agents:
            self.taken.leave(agent)
        for agent in agents:
            walk = least_walk(self.ground, self.taken, *self.tasks[agent], len(old[agent]) - 1 + longer)
            if walk is None:
                break
            new[agent] = walk
            self.taken.take(agent, walk)
        for agent in new:
            self.taken.leave(agent)
        for agent in agents:
            self.taken.take(agent, old[agent])
        if len(new) < len(agents):
            return None
        return Repaired(new, sum(len(new[agent]) - len(old[agent]) for agent in agents))

    def put(self, repaired: Repaired) -> None:
        for agent in repaired.walks:
            self.taken.leave(agent)
        for agent, walk in repaired.walks.items():
            self.taken.take(agent, walk)
            self.walks[agent] = walk
