"""Where agents may walk on a map, and how far its cells are from goals."""
import collections
from typing import Iterator, Mapping, Optional

from plan_formats.walks import STEPS

Cell = tuple[int, int]
Walk = list[Cell]
# From which terrain a straight step leads to which.
JOINED = {(one, other) for group in (".GS", "W") for one in group for other in group}


def at(walk: Walk, time: int) -> Cell:
    """Where an agent is at a time: behind its walk it stays."""
    return walk[min(time, len(walk) - 1)]


class BadMap(Exception):
    """The map is none."""


class Ground:
    """A map, and how far its cells are from goals."""

    def __init__(self, text: str) -> None:
        lines = [line.removesuffix("\r") for line in text.split("\n")]
        try:
            self.height, self.width = int(lines[1].split()[1]), int(lines[2].split()[1])
            self.rows = [lines[4 + y][: self.width] for y in range(self.height)]
        except (IndexError, ValueError):
            raise BadMap("the map is none: `mapf map` says why") from None
        self.kept: dict[Cell, dict[Cell, int]] = {}

    def beside(self, cell: Cell) -> Iterator[Cell]:
        """The cells to which an act leads from a cell, itself among them."""
        x, y = cell
        own = self.rows[y][x]
        for dx, dy in STEPS.values():
            u, v = x + dx, y + dy
            if (dx, dy) == (0, 0) or 0 <= u < self.width and 0 <= v < self.height and (own, self.rows[v][u]) in JOINED:
                yield u, v

    def steps_to(self, goal: Cell) -> dict[Cell, int]:
        """How many steps lead from each cell to a goal, at least."""
        if goal not in self.kept:
            far, queue = {goal: 0}, collections.deque([goal])
            while queue:
                cell = queue.popleft()
                for to in self.beside(cell):
                    if to not in far:
                        far[to] = far[cell] + 1
                        queue.append(to)
            self.kept[goal] = far
        return self.kept[goal]


def traced(before: Mapping[tuple[int, Cell], Optional[Cell]], cell: Cell, time: int) -> Walk:
    """The cells by which a search came to one at a time, by the cell before each."""
    walk: Walk = []
    here: Optional[Cell] = cell
    while here is not None:
        walk.append(here)
        here, time = before[time, here], time - 1
    return walk[::-1]
