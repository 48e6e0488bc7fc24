#!/usr/bin/env python3
"""Measures tools/repair.py: of how many plans with rotations it makes one without, how long it takes, and what that costs.

Usage: repairs.py [--plans N] [--seconds N] [--agents N] [--side N] [--jobs N]

Plans come from a planner that lets agents push others away, step by step (priority inheritance with
backtracking), on corridors three cells wide, and on maps of which a tenth to a third is blocked.
"""
import argparse
import dataclasses
import pathlib
import random
import re
import subprocess
import sys
import tempfile
import time
from concurrent.futures import ThreadPoolExecutor
from typing import Iterator, Mapping, Optional, Sequence

BENCH = pathlib.Path(__file__).resolve().parent
sys.path[:0] = [str(BENCH), *(str(BENCH.parent / it) for it in ("tests", "tools"))]
import generate  # noqa: E402
from ground import Cell, Ground, Walk  # noqa: E402
from optimal import map_of  # noqa: E402
from plain_formats import plan_text  # noqa: E402

MOST_STEPS = 400
SAID = re.compile(r"repaired rotations (\d+) cost (\d+) was (\d+)")


def region(ground: Ground) -> list[Cell]:
    """The cells of the greatest region of floor, row by row."""
    left = {(x, y) for y, row in enumerate(ground.rows) for x, it in enumerate(row) if it == "."}
    best: set[Cell] = set()
    while left:
        found = set(ground.steps_to(next(iter(left))))
        left -= found
        best = max(best, found, key=len)
    return sorted(best)


class Crowd:
    """Agents that all go on at once: the one that has been under way longest goes first, and whom it
    pushes away goes next."""

    def __init__(self, ground: Ground, rng: random.Random, agents: int) -> None:
        self.ground, self.rng, cells = ground, rng, region(ground)
        self.now, self.goals = rng.sample(cells, agents), rng.sample(cells, agents)
        self.far = [ground.steps_to(goal) for goal in self.goals]
        self.urgency = [rng.random() for _ in self.now]
        self.next: list[Optional[Cell]] = []
        self.taken: set[Cell] = set()
        self.here: Mapping[Cell, int] = {}

    def walks(self) -> Optional[list[Walk]]:
        """The walks of a valid plan, if all arrive in time."""
        walks = [[cell] for cell in self.now]
        for _ in range(MOST_STEPS):
            if self.now == self.goals:
                return walks
            self.go_on()
            for walk, cell in zip(walks, self.now):
                walk.append(cell)
        return None

    def go_on(self) -> None:
        for agent, (cell, goal) in enumerate(zip(self.now, self.goals)):
            self.urgency[agent] = self.urgency[agent] % 1 if cell == goal else self.urgency[agent] + 1
        self.next, self.taken = [None] * len(self.now), set()
        self.here = {cell: agent for agent, cell in enumerate(self.now)}
        for agent in sorted(range(len(self.now)), key=lambda it: -self.urgency[it]):
            if self.next[agent] is None:
                self.step(agent, None)
        self.now = [it or cell for it, cell in zip(self.next, self.now)]

    def step(self, agent: int, pushed_from: Optional[Cell]) -> bool:
        cell = self.now[agent]
        ways = list(self.ground.beside(cell))
        self.rng.shuffle(ways)
        for to in sorted(ways, key=lambda it: self.far[agent][it]):
            other = self.here.get(to, agent)
            if to in self.taken or to == pushed_from or (other != agent and self.next[other] == cell):
                continue
            self.next[agent] = to
            self.taken.add(to)
            if other == agent or self.next[other] is not None or self.step(other, cell):
                return True
        self.next[agent] = cell
        self.taken.add(cell)
        return False


@dataclasses.dataclass(frozen=True)
class Ended:
    """What came of a plan: whether it was repaired, how long that took, and what it cost beside before."""

    is_repaired: bool
    seconds: float
    ratio: float


def map_text(kind: str, side: int, seed: int) -> str:
    if kind == "corridors":
        return generate.map_text(kind, side, side, seed)
    rng = random.Random(f"rows {seed}")
    share = rng.uniform(1 / 10, 1 / 3)
    return map_of(
        ["".join("@" if rng.random() < share else "." for _ in range(side)) for _ in range(side)]
    )


def plans_of(given: argparse.Namespace, kind: str, folder: pathlib.Path) -> Iterator[tuple[str, str]]:
    """The files of plans with rotations."""
    seed, count = 0, 0
    while count < given.plans:
        seed += 1
        text = map_text(kind, given.side, seed)
        walks = Crowd(Ground(text), random.Random(f"{kind} {seed}"), given.agents).walks()
        if not walks:
            continue
        paths = [folder / f"{kind}{seed}.{it}" for it in ("map", "plan")]
        paths[0].write_text(text)
        paths[1].write_text(plan_text(walks, 7))
        words = [str(given.program), "check", *map(str, paths), "--no-rotation"]
        if b"Rotation" in subprocess.run(words, stdout=subprocess.PIPE).stdout:
            count += 1
            yield str(paths[0]), str(paths[1])


def repaired(given: argparse.Namespace, files: tuple[str, str]) -> Ended:
    words = [sys.executable, str(BENCH.parent / "tools" / "repair.py"), *files, "-o", files[1] + ".out"]
    words += ["--seconds", str(given.seconds), "--program", str(given.program)]
    begun = time.monotonic()
    done = subprocess.run(words, stdout=subprocess.PIPE, stderr=subprocess.PIPE, text=True)
    found = SAID.match(done.stdout)
    ratio = int(found[2]) / int(found[3]) if found else 0.0
    return Ended(found is not None, time.monotonic() - begun, ratio)


def main(words: Sequence[str]) -> int:
    parser = argparse.ArgumentParser(description=__doc__, formatter_class=argparse.RawDescriptionHelpFormatter)
    for name, usual in (("plans", 200), ("seconds", 10), ("agents", 50), ("side", 32), ("jobs", 2)):
        parser.add_argument(f"--{name}", type=int, default=usual)
    parser.add_argument("--program", type=pathlib.Path, default=BENCH.parent / "mapf")
    given = parser.parse_args(words)
    with tempfile.TemporaryDirectory() as name, ThreadPoolExecutor(given.jobs) as pool:
        for kind in ("corridors", "dense"):
            files = plans_of(given, kind, pathlib.Path(name))
            ended = list(pool.map(lambda it: repaired(given, it), files))
            done = [it for it in ended if it.is_repaired]
            ratio = sum(it.ratio for it in done) / max(1, len(done))
            slowest = max((it.seconds for it in done), default=0)
            print(f"{kind}: {len(done)} of {len(ended)} repaired, costs {ratio:.3f} of before, slowest {slowest:.1f} s", flush=True)
    return 0


if __name__ == "__main__":
    sys.exit(main(sys.argv[1:]))
