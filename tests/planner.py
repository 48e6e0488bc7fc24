"""Plans of the planner of examples/fleet, in many orders of the agents, and what else a planner is asked for."""
import heapq
import random
import sys
from typing import Sequence

from harness import ROOT

# Behind the folder of the tests, which has files of the same names.
sys.path.append(str(ROOT / "examples" / "fleet"))
from planning import Cell, Path, Reservations, Task, free_cells, plan_in_order  # noqa: E402

__all__ = ["Cell", "Forgetful", "Path", "Reservations", "Task", "free_cells", "octile_length", "plan", "random_tasks"]
# How many orders of the agents are tried.
TRIES = 200


class Forgetful(Reservations):
    """A mistake that planners make: who has arrived is forgotten."""

    def take(self, path: Path) -> None:
        super().take(path)
        self.ended.clear()


def random_tasks(free: Sequence[Cell], count: int, rng: random.Random) -> list[Task]:
    """Starts and goals, no two of them the same."""
    return list(zip(rng.sample(list(free), count), rng.sample(list(free), count)))


def plan(free: Sequence[Cell], tasks: Sequence[Task], rng: random.Random, kind: type[Reservations] = Reservations) -> list[Path]:
    """Paths that never meet, in one of many orders of the agents."""
    order = list(range(len(tasks)))
    for _ in range(TRIES):
        rng.shuffle(order)
        paths = plan_in_order(set(free), tasks, order, kind())
        if paths:
            return paths
    raise ValueError(f"no order of {len(tasks)} agents leads to a plan")


def octile_length(free: set[Cell], start: Cell, goal: Cell) -> float:
    """The length of a shortest walk with diagonal steps that cut no corner, as scenarios list it."""
    heap, lengths = [(0.0, start)], {}
    while heap:
        length, cell = heapq.heappop(heap)
        if cell == goal:
            return length
        if cell in lengths:
            continue
        lengths[cell] = length
        for dx in (-1, 0, 1):
            for dy in (-1, 0, 1):
                block = {(cell[0] + x, cell[1] + y) for x in (0, dx) for y in (0, dy)}
                if block <= free:
                    heapq.heappush(heap, (length + (dx * dx + dy * dy) ** 0.5, (cell[0] + dx, cell[1] + dy)))
    raise ValueError(f"no walk leads from {start} to {goal}")
