"""Orders for a fleet that never has to stop: plans, each of which goes on from the one before, so that robots take them one by one while they drive."""
import pathlib
import random
import subprocess
from typing import Sequence

from planning import Cell, Path, Reservations, free_cells, plan_in_order

ACT_OF = {(0, -1): "n", (0, 1): "s", (1, 0): "e", (-1, 0): "w", (0, 0): "-"}
# How many orders of the robots, and goals for them, are tried for one plan.
TRIES = 200


class NoPlan(Exception):
    """Nothing more can be given out."""


def acts_of(walk: Path) -> str:
    """The acts of a walk, `=` for none."""
    return "".join(ACT_OF[x - u, y - v] for (u, v), (x, y) in zip(walk, walk[1:])) or "="


class Orders:
    """What was given out so far: each plan sends every robot to some cell, behind all that was given out before."""

    def __init__(self, program: str, map_file: pathlib.Path, folder: pathlib.Path, number: int, starts: Sequence[Cell], rng: random.Random):
        self.program, self.map, self.folder, self.number, self.rng = program, map_file, folder, number, rng
        self.free = set(free_cells(map_file.read_text(encoding="ascii")))
        # Each robot's cell at each time; all walks are of one length.
        self.walks: list[Path] = [[start] for start in starts]
        self.plans: list[pathlib.Path] = []
        # How many moves each robot has made when it has carried out so many of its orders.
        self.moves: list[list[int]] = [[] for _ in starts]

    @property
    def given(self) -> int:
        """How many orders were given out."""
        return sum(map(len, self.moves))

    def carried_out(self, robot: int, done: int) -> int:
        """How many of its orders a robot has carried out that has finished so many moves."""
        return sum(moves <= done for moves in self.moves[robot])

    def give_out(self) -> None:
        """Adds a plan in which every robot has one order more. It is held against the one before, and can be driven to its end."""
        for _ in range(TRIES):
            walks = self._longer_walks()
            if walks and self._can_be_driven(walks):
                self._add(walks)
                return
        raise NoPlan(f"{TRIES} tries have found no way for {len(self.walks)} robots on {self.map}")

    def _longer_walks(self) -> list[Path]:
        """The walks with one order more a robot; none where no way was found."""
        goals = self.rng.sample(sorted(self.free), len(self.walks))
        tasks = [(walk[-1], goal) for walk, goal in zip(self.walks, goals)]
        order = self.rng.sample(range(len(tasks)), len(tasks))
        paths = plan_in_order(self.free, tasks, order, Reservations())
        longest = max(map(len, paths)) if paths else 0
        return [walk + path[1:] + path[-1:] * (longest - len(path)) for walk, path in zip(self.walks, paths or [])]

    def _can_be_driven(self, walks: Sequence[Path]) -> bool:
        """Robots that turn round in a circle would wait for ever. What is wrong with the plan besides is a fault of the planner."""
        path, nothing = self._path(), self.folder / "none.events"
        path.write_text(self._text(walks), encoding="ascii")
        nothing.write_text("mapf-events 1\n", encoding="ascii")
        said = self._said("run", self.map, path, nothing, "--complete")
        if not said.startswith(("complete ", "blocked ")):
            raise NoPlan(f"{path}: `mapf run --complete` says '{said}'")
        return said.startswith("complete ")

    def _add(self, walks: list[Path]) -> None:
        path = self._path()
        if self.plans:
            said = self._said("continues", self.map, self.plans[-1], path)
            if not said.startswith("continues "):
                raise NoPlan(f"{path}: `mapf continues` says '{said}'")
        self.walks = walks
        self.plans.append(path)
        for moves, walk in zip(self.moves, walks):
            moves.append(sum(one != other for one, other in zip(walk, walk[1:])))

    def _path(self) -> pathlib.Path:
        return self.folder / f"{len(self.plans)}.plan"

    def _text(self, walks: Sequence[Path]) -> str:
        lines = [f"agent {walk[0][0]} {walk[0][1]} {acts_of(walk)}" for walk in walks]
        return "\n".join(["mapf-plan 1", f"number {self.number}", f"agents {len(lines)}", *lines, ""])

    def _said(self, *words: object) -> str:
        """The first line that the program tells."""
        ended = subprocess.run([self.program, *map(str, words)], stdin=subprocess.DEVNULL, stdout=subprocess.PIPE, stderr=subprocess.PIPE, text=True, check=False)
        return (ended.stdout or ended.stderr).partition("\n")[0]
