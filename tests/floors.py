"""The floor of a simulated fleet: where each drive is, and a referee who judges each change.

The referee knows no answer of the program. It knows the planned paths, and what each drive does.
"""
import random
from typing import Sequence

from plan_chains import Course
from random_runs import Cell, moved

# How often in a moment a drive begins a move that it may make, how often it arrives, and how often
# a hasty one makes a move of which it wasn't told.
BEGINS, ARRIVES, HASTE = 0.6, 0.5, 0.02


class Unsafe(Exception):
    """Something happened that must never happen."""


def path_of(course: Course) -> list[Cell]:
    """The cells of an agent's path, from its start."""
    path = [course.start]
    for act in course.acts:
        if act != "-":
            path.append(moved(path[-1], act))
    return path


class Referee:
    """Holds the cells of each drive: one if it stands there, both if it is between two."""

    def __init__(self) -> None:
        self.held: dict[int, tuple[Cell, ...]] = {}
        self.paths: dict[int, Sequence[Cell]] = {}
        self.walks: dict[int, list[Cell]] = {}
        # The cells that robots hold which broke down, each with its robot.
        self.broken: dict[Cell, int] = {}

    def begins(self, drive: int, path: Sequence[Cell]) -> None:
        """Starts a run: the walk of this drive begins where it stands."""
        if drive in self.held and self.held[drive] != (path[0],):
            raise Unsafe(f"drive {drive} begins at {path[0]}, and it holds {self.held[drive]}")
        self.walks[drive] = [path[0]]
        self.follows(drive, path)
        self.sees(drive, (path[0],))

    def follows(self, drive: int, path: Sequence[Cell]) -> None:
        """Takes another path of the same run. The walk must be a beginning of it too."""
        self.paths[drive] = path
        self._judge_walk(drive)

    def sees(self, drive: int, cells: tuple[Cell, ...]) -> None:
        """Takes where a drive is now, and judges it."""
        before, walk = self.held.get(drive, cells), self.walks[drive]
        if cells[0] not in before:
            raise Unsafe(f"drive {drive} jumps from {before} to {cells}")
        if cells[-1] != walk[-1]:
            walk.append(cells[-1])
        self.held[drive] = cells
        self._judge_walk(drive)
        self._judge_cells(drive)

    def takes_off(self, drive: int) -> None:
        """A robot is carried off the floor."""
        del self.held[drive]

    def breaks(self, drive: int) -> None:
        """A robot breaks down, and stays where it is."""
        self.broken.update(dict.fromkeys(self.held.pop(drive), drive))

    def _judge_walk(self, drive: int) -> None:
        walk, path = self.walks[drive], self.paths[drive]
        if walk != list(path[: len(walk)]):
            raise Unsafe(f"drive {drive} walks {walk}, and its path is {list(path)}")

    def _judge_cells(self, drive: int) -> None:
        cells = self.held[drive]
        for other, held in self.held.items():
            # Two that exchange their cells share both.
            if other != drive and set(cells) & set(held):
                raise Unsafe(f"drives {drive} at {cells} and {other} at {held} share a cell")
        for cell in cells:
            if cell in self.broken:
                raise Unsafe(f"drive {drive} is in {cell}, where {self.broken[cell]} broke down")


class Drive:
    """The drive of a robot. It enters a cell only if it was told to, and it may be late."""

    def __init__(self, name: int, referee: Referee):
        self.name, self.referee = name, referee
        # Its start, and behind it the cells into which it may go in this run.
        self.way: list[Cell] = []
        # How many moves have ended, and whether it is between two cells.
        self.done, self.is_between, self.is_frozen = 0, False, False

    def begin(self, path: Sequence[Cell]) -> None:
        """Begins a run at the start of a path."""
        self.way, self.done, self.is_between, self.is_frozen = [path[0]], 0, False, False
        self.referee.begins(self.name, path)

    @property
    def begun(self) -> int:
        return self.done + self.is_between

    @property
    def cells(self) -> tuple[Cell, ...]:
        return tuple(self.way[self.done : self.begun + 1])

    def allow(self, move: int, cell: Cell) -> None:
        """Lets it make its moves up to this one, which leads into the cell."""
        if move > len(self.way):
            raise Unsafe(f"drive {self.name} is told of move {move} behind {len(self.way) - 1}")
        if move == len(self.way):
            self.way.append(cell)
        elif self.way[move] != cell:
            raise Unsafe(f"drive {self.name} is told {cell}, and was told {self.way[move]}")

    def recall(self, moves: int) -> int:
        """Takes cells back, but those of these first moves and of what it has begun. Says how many
        it took."""
        before, last = len(self.way), max(moves, self.begun)
        del self.way[last + 1 :]
        return before - len(self.way)

    def go(self, rng: random.Random) -> None:
        """A moment of it."""
        if self.is_frozen:
            return
        if self.is_between:
            if rng.random() < ARRIVES:
                self.done, self.is_between = self.done + 1, False
                self.referee.sees(self.name, self.cells)
        elif self.done + 1 < len(self.way) and rng.random() < BEGINS:
            self.is_between = True
            self.referee.sees(self.name, self.cells)


class Hasty(Drive):
    """A mistake that drives make: at times it goes on where nobody has told it to."""

    def go(self, rng: random.Random) -> None:
        path = self.referee.paths[self.name]
        if len(self.way) < len(path) and rng.random() < HASTE:
            self.way.append(path[len(self.way)])
        super().go(rng)
