"""Whole scenarios, rows of them, and what plans cost at least: `rows`, `row` and `bound` beside plain searches, on maps at random."""
import dataclasses
import functools
import heapq
import json
import math
import random
import shutil
from typing import Callable, Iterator, Optional, Sequence

from answers import answer
from harness import Ended, Harness, Outcome, ended_as, side_by_side
from plan_chains import Plan, read, rested
from random_runs import Cell, random_map, random_plan

SHORT_SEEDS, LONG_SEEDS = range(1, 301), range(1, 3_001)
# How many rows of a scenario are asked for by themselves too.
ROWS_ALONE = 3
SIDES = ((0, -1), (1, 0), (0, 1), (-1, 0))
# Which terrain a straight step leads between.
GROUNDS = (".GS", "W")
# The words of a call, the files that they name, and how it ends.
Call = tuple[list[str], dict[str, str], Ended]


# ---- the model


@dataclasses.dataclass(frozen=True)
class Ground:
    """The rows of a map."""

    rows: tuple[str, ...]

    @property
    def size(self) -> tuple[int, int]:
        return len(self.rows[0]), len(self.rows)

    def at(self, cell: Cell) -> str:
        x, y = cell
        return self.rows[y][x] if 0 <= y < len(self.rows) and 0 <= x < len(self.rows[0]) else "@"

    def are_joined(self, one: Cell, other: Cell) -> bool:
        return any(self.at(one) in ground and self.at(other) in ground for ground in GROUNDS)

    def sides(self, cell: Cell) -> list[Cell]:
        x, y = cell
        return [to for to in ((x + dx, y + dy) for dx, dy in SIDES) if self.are_joined(cell, to)]

    def corners(self, cell: Cell) -> list[Cell]:
        x, y = cell
        return [
            (x + dx, y + dy)
            for dx in (-1, 1)
            for dy in (-1, 1)
            if all(self.are_joined(cell, side) and self.are_joined(side, (x + dx, y + dy)) for side in ((x + dx, y), (x, y + dy)))
        ]

    def text(self) -> str:
        width, height = self.size
        return "\n".join(["type octile", f"height {height}", f"width {width}", "map", *self.rows, ""])


def octile(ground: Ground, start: Cell, goal: Cell) -> Optional[tuple[int, int]]:
    """The straight and the diagonal steps of a shortest walk, where there is one."""
    known: dict[Cell, tuple[int, int]] = {}
    queue: list[tuple[float, tuple[int, int], Cell]] = [(0.0, (0, 0), start)]
    while queue:
        _, (straight, diagonal), cell = heapq.heappop(queue)
        if cell not in known:
            known[cell] = (straight, diagonal)
            for to in ground.sides(cell):
                heapq.heappush(queue, (straight + 1 + diagonal * math.sqrt(2), (straight + 1, diagonal), to))
            for to in ground.corners(cell):
                heapq.heappush(queue, (straight + (diagonal + 1) * math.sqrt(2), (straight, diagonal + 1), to))
    return known.get(goal)


def straight_steps(ground: Ground, start: Cell, goal: Cell) -> Optional[int]:
    known, last = {start: 0}, [start]
    while last and goal not in known:
        last = list(dict.fromkeys(to for cell in last for to in ground.sides(cell) if to not in known))
        known.update(dict.fromkeys(last, max(known.values()) + 1))
    return known.get(goal)


@dataclasses.dataclass(frozen=True)
class Row:
    size: tuple[int, int]
    start: Cell
    goal: Cell
    listed: str

    def text(self) -> str:
        return " ".join(str(field) for field in ("0 m.map", *self.size, *self.start, *self.goal, self.listed))

    def agrees(self, straight: int, diagonal: int) -> bool:
        """Whether the length is within a unit of the last decimal, by whole numbers: what is left of the listed one for the diagonal steps is
        compared by its square."""
        scale = 10 ** len(self.listed.partition(".")[2])
        left = int(self.listed.replace(".", "")) - scale * straight
        square = 2 * (scale * diagonal) ** 2
        return (left < 1 or (left - 1) ** 2 <= square) and left >= -1 and (left + 1) ** 2 >= square


def row_line(ground: Ground, row: Row) -> str:
    if row.size != ground.size:
        return "SizeDiffers"
    steps = octile(ground, row.start, row.goal)
    if steps is None:
        return "unreachable"
    return f"shortest {steps[0]} {steps[1]} listed {row.listed} {'agrees' if row.agrees(*steps) else 'differs'}"


def least_line(ground: Ground, row: Row) -> str:
    if row.size != ground.size:
        return "SizeDiffers"
    steps = straight_steps(ground, row.start, row.goal)
    return "unreachable" if steps is None else f"least {steps}"


def due_of_rows(ground: Ground, rows: Sequence[Row], first: int, end: int, is_straight: bool) -> Ended:
    """What is answered for the rows from one up to before another."""
    if first > len(rows):
        return answer(1, "NoSuchRow")
    lines = [(least_line if is_straight else row_line)(ground, row) for row in rows[first:end]]
    unreachable, sizes = lines.count("unreachable"), lines.count("SizeDiffers")
    if is_straight:
        steps = [int(line.split()[1]) for line in lines if line.startswith("least")]
        last = f"rows {len(lines)} sum {sum(steps)} greatest {max(steps, default=0)} unreachable {unreachable} size {sizes}"
        bad = unreachable + sizes
    else:
        agree = sum(line.endswith("agrees") for line in lines)
        bad = len(lines) - agree
        last = f"rows {len(lines)} agree {agree} differ {bad - unreachable - sizes} unreachable {unreachable} size {sizes}"
    text = "".join(f"{line}\n" for line in (*(f"{first + place} {line}" for place, line in enumerate(lines)), last))
    return Ended(1 if bad else 0, text.encode(), b"")


def due_of_row(ground: Ground, rows: Sequence[Row], number: int) -> Ended:
    """What is answered for one row: any length that is searched for is proved before it is told."""
    line = row_line(ground, rows[number])
    if line == "SizeDiffers":
        return answer(1, f"{line} {number}")
    return answer(0 if line.endswith("agrees") else 1, f"{line}\n")


# ---- scenarios at random


def random_ground(rng: random.Random) -> Ground:
    width, height = rng.randint(1, 9), rng.randint(1, 7)
    terrain = rng.choice(("." * 9 + "@", ".....@T", "...SGWW@O"))
    return Ground(tuple("".join(rng.choices(terrain, k=width)) for _ in range(height)))


def listed_length(rng: random.Random, length: float) -> str:
    """The length with some decimals, right as a rule, or about one or two units of the last one away."""
    decimals = rng.randrange(9)
    return f"{max(length + rng.choice((0, 0, 0, 0, -2, -1, 1, 2)) / 10**decimals, 0):.{decimals}f}"


def random_row(rng: random.Random, ground: Ground) -> Row:
    width, height = ground.size
    start, goal = ((rng.randrange(width), rng.randrange(height)) for _ in range(2))
    size = ground.size if rng.random() < 0.9 else rng.choice(((width + 1, height), (width, height + 1)))
    steps = octile(ground, start, goal)
    return Row(size, start, goal, listed_length(rng, steps[0] + steps[1] * math.sqrt(2) if steps else rng.randrange(9)))


def row_calls(seed: int) -> Iterator[Call]:
    rng = random.Random(f"scenarios {seed}")
    ground = random_ground(rng)
    rows = [random_row(rng, ground) for _ in range(rng.randrange(20))]
    files = {"m": ground.text(), "s": "".join(["version 1\n", *(f"{row.text()}\n" for row in rows)])}
    for words in ([], ["--straight"]):
        yield ["rows", "m", "s", *words], files, due_of_rows(ground, rows, 0, len(rows), bool(words))
        first, end = rng.randrange(len(rows) + 3), rng.randrange(len(rows) + 3)
        yield ["rows", "m", "s", *words, "--from", str(first), f"--to={end}"], files, due_of_rows(ground, rows, first, end, bool(words))
    for number in range(min(len(rows), ROWS_ALONE)):
        yield ["row", "m", "s", str(number)], files, due_of_row(ground, rows, number)


# ---- bounds of plans


def cost(plan: Plan, agent: int) -> int:
    return len(plan.courses[agent].acts.rstrip("-"))


def due_of_bound(ground: Ground, plan: Plan, has_agents: bool, is_json: bool) -> Ended:
    """The costs of a valid plan, each beside what its agents need at least."""
    costs = [cost(plan, agent) for agent in range(len(plan.courses))]
    bounds = [straight_steps(ground, course.start, course.place(plan.longest)) or 0 for course in plan.courses]
    total, most, least, most_bound = sum(costs), max(costs, default=0), sum(bounds), max(bounds, default=0)
    if is_json:
        sums = {"cost": total, "cost_bound": least, "makespan": most, "makespan_bound": most_bound}
        agents = {"agents": [{"cost": c, "bound": b} for c, b in zip(costs, bounds)]} if has_agents else {}
        return answer(0, json.dumps({**sums, **agents}, separators=(",", ":")) + "\n")
    lines = [f"agent {agent} cost {c} of {b}\n" for agent, (c, b) in enumerate(zip(costs, bounds))] if has_agents else []
    return answer(0, "".join([*lines, f"cost {total} of {least} makespan {most} of {most_bound}\n"]))


def due_of_check(ground: Ground, plan: Plan, is_json: bool) -> Ended:
    """The verdict with `--bound`."""
    agents = len(plan.courses)
    numbers = dict(zip(("cost", "cost_bound", "makespan", "makespan_bound"), numbers_of(ground, plan)))
    if is_json:
        ordered = {"accepted": True, "agents": agents, **{name: numbers[name] for name in ("cost", "makespan", "cost_bound", "makespan_bound")}}
        return answer(0, json.dumps(ordered, separators=(",", ":")) + "\n")
    cost_of, most_of = (f"{name} {numbers[name]} of {numbers[f'{name}_bound']}" for name in ("cost", "makespan"))
    return answer(0, f"accepted agents {agents} {cost_of} {most_of}\n")


def numbers_of(ground: Ground, plan: Plan) -> list[int]:
    return list(json.loads(due_of_bound(ground, plan, False, True).out).values())


def bound_calls(seed: int) -> Iterator[Call]:
    rng = random.Random(f"bounds {seed}")
    map_text, free = random_map(rng)
    ground = Ground(tuple(map_text.splitlines()[4:]))
    plan = rested(rng, read(random_plan(rng, free, may_turn=seed % 4 == 0)))
    files = {"m": map_text, "p": plan.text()}
    for words in ([], ["--json"]):
        yield ["check", "m", "p", "--bound", *words], files, due_of_check(ground, plan, bool(words))
    for words in ([], ["--agents"], ["--json"], ["--agents", "--json"]):
        yield ["bound", "m", "p", *words], files, due_of_bound(ground, plan, "--agents" in words, "--json" in words)


# ---- what is run


def outcomes_of(harness: Harness, calls_of: Callable[[int], Iterator[Call]], seed: int) -> list[Outcome]:
    """The calls that a seed makes."""
    found = []
    for words, files, due in calls_of(seed):
        folder = harness.folder({name: text.encode() for name, text in files.items()})
        ran = f"mapf {' '.join(words)}  with the files {files!r}"
        found.append(ended_as(f"seed {seed}, {' '.join(words)}", ran, harness.mapf(words, folder=folder), due))
        shutil.rmtree(folder)
    return found


def outcomes(harness: Harness) -> Iterator[Outcome]:
    seeds: Sequence[int] = LONG_SEEDS if harness.is_long else SHORT_SEEDS
    yield from side_by_side([functools.partial(outcomes_of, harness, calls_of, seed) for calls_of in (row_calls, bound_calls) for seed in seeds])
