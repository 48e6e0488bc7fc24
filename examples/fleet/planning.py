"""A small plain planner: agent after agent takes a shortest path in time that keeps clear of all those before it."""
import collections
from typing import Optional, Sequence

Cell = tuple[int, int]
Path = list[Cell]
# A start and a goal.
Task = tuple[Cell, Cell]
STEPS = [(0, -1), (1, 0), (0, 1), (-1, 0), (0, 0)]
# How long a path may get.
LONGEST = 400


class Reservations:
    """The cells that agents hold at each time, and for ever from some time on."""

    def __init__(self) -> None:
        self.held: set[tuple[Cell, int]] = set()
        self.ended: dict[Cell, int] = {}
        self.last: dict[Cell, int] = collections.defaultdict(int)
        self.steps: set[tuple[Cell, Cell, int]] = set()

    def take(self, path: Path) -> None:
        for time, cell in enumerate(path):
            self.held.add((cell, time))
            self.last[cell] = max(self.last[cell], time)
        self.steps.update((one, other, time) for time, (one, other) in enumerate(zip(path, path[1:])))
        self.ended[path[-1]] = len(path) - 1

    def is_free(self, cell: Cell, time: int) -> bool:
        return (cell, time) not in self.held and time < self.ended.get(cell, time + 1)

    def may_step(self, one: Cell, other: Cell, time: int) -> bool:
        return self.is_free(other, time + 1) and (other, one, time) not in self.steps


def search(free: set[Cell], start: Cell, goal: Cell, taken: Reservations, longest: int) -> Optional[Path]:
    """A shortest path in time, after whose end nobody comes into the goal."""
    came: dict[tuple[Cell, int], Optional[Cell]] = {(start, 0): None}
    level = [start] if taken.is_free(start, 0) else []
    for time in range(longest):
        if goal in level and time >= taken.last[goal]:
            return traced(came, goal, time)
        following = []
        for cell in level:
            for dx, dy in STEPS:
                to = cell[0] + dx, cell[1] + dy
                if to in free and (to, time + 1) not in came and taken.may_step(cell, to, time):
                    came[to, time + 1] = cell
                    following.append(to)
        level = following
    return None


def traced(came: dict[tuple[Cell, int], Optional[Cell]], cell: Cell, time: int) -> Path:
    path = [cell]
    while time:
        cell, time = came[cell, time], time - 1
        path.append(cell)
    return path[::-1]


def plan_in_order(free: set[Cell], tasks: Sequence[Task], order: Sequence[int], taken: Reservations) -> Optional[list[Path]]:
    """Paths that never meet, of the agents in this order, where each finds one."""
    paths = {}
    for agent in order:
        path = search(free, *tasks[agent], taken, LONGEST)
        if not path:
            return None
        taken.take(path)
        paths[agent] = path
    return [paths[agent] for agent in range(len(tasks))]


def free_cells(map_text: str) -> list[Cell]:
    """The cells of a map in canonical form that are plain ground."""
    return [(x, y) for y, row in enumerate(map_text.splitlines()[4:]) for x, terrain in enumerate(row) if terrain in ".G"]
