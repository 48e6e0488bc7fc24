"""Whether agents can come to their goals without a rotation at all, tried by all their moves."""
import time
from typing import Sequence

from ground import Cell, Ground, Walk

# So many ways to stand are looked at.
MOST_STANDINGS = 50_000


def is_there_none(ground: Ground, walks: Sequence[Walk], agents: Sequence[int], until: float) -> bool:
    """Whether it is certain that no walks without a rotation lead all agents to their goals. A step without one can be taken move by move, each
    into a cell in which nobody is: so all such moves are tried of the agents on the region of these ones, as far as there are few, and there is time."""
    region = ground.steps_to(walks[agents[0]][0])
    there = [agent for agent, walk in enumerate(walks) if walk[0] in region]
    start = tuple(walks[agent][0] for agent in there)
    goal = tuple(walks[agent][-1] for agent in there)
    reached, fresh = {start}, [start]
    while fresh:
        for moved in moves_of(ground, fresh.pop()):
            if moved not in reached:
                reached.add(moved)
                fresh.append(moved)
        if goal in reached or len(reached) > MOST_STANDINGS or time.monotonic() > until:
            return False
    return True


def moves_of(ground: Ground, standing: tuple[Cell, ...]) -> Sequence[tuple[Cell, ...]]:
    """How agents may stand after one move."""
    taken = set(standing)
    return [
        (*standing[:place], to, *standing[place + 1 :])
        for place, cell in enumerate(standing)
        for to in ground.beside(cell)
        if to not in taken
    ]
