"""Whole scenarios, and plans whose agents go far, on maps that `generate` makes."""
import itertools
import random
from typing import Optional, Sequence

from generate import STEPS, Cell

Pair = tuple[Cell, Cell]
# The maps of whole scenarios.
KINDS = ("open", "sparse", "dense", "maze", "corridors", "rooms")


def greatest_region(width: int, height: int, rows: Sequence[str]) -> list[Cell]:
    """The places of the cells of the greatest region of floor, row by row; no step leads from one region into another."""
    stride = width + 1
    # A blocked column behind each row, and a blocked row behind the last, so that a place before the first is blocked too.
    left = bytearray("@".join([*rows, "@" * stride]).encode())
    greatest: list[int] = []
    for first in range(stride * height):
        if left[first] != ord("."):
            continue
        left[first] = ord("@")
        region = [first]
        # It grows while it is walked through.
        for at in region:
            for to in (at - stride, at - 1, at + 1, at + stride):
                if left[to] == ord("."):
                    left[to] = ord("@")
                    region.append(to)
        if len(region) > len(greatest):
            greatest = region
    return [(at % stride, at // stride) for at in sorted(greatest)]


def pairs_of(text: str, seed: int, count: int) -> list[Pair]:
    """So many pairs of cells of a map, each of which a walk leads from the one to the other: half of them of cells anywhere in the greatest
    region, the others nearer to each other."""
    _, height, width, _, *rows = text.split("\n")[:-1]
    size = int(width.split()[1]), int(height.split()[1])
    cells = greatest_region(*size, rows)
    number_of = {cell: number for number, cell in enumerate(cells)}
    rng = random.Random(f"pairs {size} {seed}")
    pairs: list[Pair] = []
    while len(pairs) < count:
        start = rng.choice(cells)
        goal = rng.choice(cells)
        if len(pairs) % 2:
            reach = rng.randrange(1, max(size))
            goal = start[0] + rng.randint(-reach, reach), start[1] + rng.randint(-reach, reach)
        if goal in number_of:
            pairs.append((start, goal))
    return pairs


def spread(lengths: Sequence[float], count: int) -> list[int]:
    """The numbers of so many of these lengths, from the least to the greatest, with about as many in each part of the range as there
    are to be had, as in a scenario of MovingAI."""
    order = sorted(range(len(lengths)), key=lengths.__getitem__)
    most = lengths[order[-1]]
    parts = max(1, count // 10)
    by_part: list[list[int]] = [[] for _ in range(parts)]
    for number in order:
        by_part[min(parts - 1, int(lengths[number] / most * parts))].append(number)
    chosen: list[int] = []
    # From part to part, one of each, until there are enough.
    for turn in itertools.zip_longest(*by_part):
        chosen += [number for number in turn if number is not None]
        if len(chosen) >= count:
            break
    return sorted(chosen[:count], key=lengths.__getitem__)


def pairs_text(width: int, height: int, pairs: Sequence[Pair], lengths: Sequence[float]) -> str:
    """The text of a scenario with a row for each pair, which lists a length for it. A bucket is as wide as four straight steps."""
    lines = ["version 1"]
    for (start, goal), length in zip(pairs, lengths):
        fields = (int(length / 4), "maps/arena.map", width, height, *start, *goal, f"{length:.8f}")
        lines.append("\t".join(str(field) for field in fields))
    return "\n".join([*lines, ""])


def path_between(width: int, height: int, rows: Sequence[str]) -> list[Cell]:
    """The cells of a walk by straight steps through a region of floor, as far as any from its first cell leads."""
    first = greatest_region(width, height, rows)[0]
    before: dict[Cell, Optional[Cell]] = {first: None}
    reached = [first]
    # It grows while it is walked through.
    for x, y in reached:
        for dx, dy in STEPS.values():
            beside = x + dx, y + dy
            is_on = 0 <= beside[0] < width and 0 <= beside[1] < height
            if is_on and beside not in before and rows[beside[1]][beside[0]] == ".":
                before[beside] = (x, y)
                reached.append(beside)
    path: list[Cell] = []
    cell: Optional[Cell] = reached[-1]
    while cell is not None:
        path.append(cell)
        cell = before[cell]
    return path


def following_plan_text(map_text: str, count: int, acts: int, number: int = 7) -> str:
    """The text of a plan of at most so many agents on a map, one close behind the other on a walk through it, each of which takes at most so many
    steps along it."""
    _, height, width, _, *rows = map_text.split("\n")[:-1]
    path = path_between(int(width.split()[1]), int(height.split()[1]), rows)
    act_by_step = {step: act for act, step in STEPS.items()}
    ways = "".join(act_by_step[u - x, v - y] for (x, y), (u, v) in zip(path, path[1:]))
    count = min(count, len(path) // 2)
    acts = min(acts, len(ways) - count)
    lines = [f"agent {x} {y} {ways[place:place + acts] or '='}" for place, (x, y) in enumerate(path[:count])]
    return "\n".join(["mapf-plan 1", f"number {number}", f"agents {len(lines)}", *lines, ""])
