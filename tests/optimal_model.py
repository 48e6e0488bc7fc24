#!/usr/bin/env python3
"""A plain model of `mapf optimal`: what a proof that no valid plan costs less says, and whether it holds.

A node of the tree splits the valid plans in two; each child adds distinctions to agents. A leaf stands where what the agents cost at
least, each under its own distinctions, comes to the bound. Nothing is searched for: the tree is walked through as it is written.
"""
import dataclasses
import sys
from typing import Iterator, Optional, Sequence

sys.dont_write_bytecode = True

from path_model import LEGAL, STEPS, Cell, Fault, is_number  # noqa: E402

MOST_LINE, MOST_DEPTH, MOST_NODES, MOST_NUMBER, MOST_BOUND = 128, 65_535, 2**32 - 1, 65_535, 2**32 - 1
# The words of a node, and how many numbers follow.
NODES = {"vertex": 5, "swap": 7, "at": 4, "goes": 6, "stays": 2, "leaf": 0}


class Refused(Exception):
    """Why a proof whose text is well formed doesn't hold."""


@dataclasses.dataclass(frozen=True)
class Distinctions:
    """What is asked of an agent's walk. `away` are cells in which it is not at a time, `shut` cells in which it is not from a time on, `there`
    the cell in which it is; `left` and `taken` are steps by their time, that it doesn't take or takes. It costs more than `above`, and at
    most `most`."""

    away: frozenset[tuple[int, Cell]] = frozenset()
    shut: frozenset[tuple[int, Cell]] = frozenset()
    there: frozenset[tuple[int, Cell]] = frozenset()
    left: frozenset[tuple[int, Cell, Cell]] = frozenset()
    taken: frozenset[tuple[int, Cell, Cell]] = frozenset()
    above: int = -1
    most: Optional[int] = None

    def horizon(self) -> int:
        """The first time behind which nothing is asked that changes with time."""
        times = [time for time, *_ in (*self.away, *self.shut, *self.there)]
        steps = [time + 1 for time, *_ in (*self.left, *self.taken)]
        return max([0, self.above, self.most or 0, *times, *steps]) + 1

    def allows(self, time: int, cell: Cell) -> bool:
        places = [there for then, there in self.there if then == time]
        if any(there != cell for there in places) or (time, cell) in self.away:
            return False
        return not any(shut == cell and time >= then for then, shut in self.shut)

    def allows_step(self, time: int, cell: Cell, to: Cell) -> bool:
        steps = [(here, there) for then, here, there in self.taken if then == time]
        return all(step == (cell, to) for step in steps) and (time, cell, to) not in self.left


def steps_from(terrain: dict[Cell, str], cell: Cell) -> Iterator[Cell]:
    """Where an agent may be one step after it was in a cell."""
    for dx, dy in STEPS.values():
        to = cell[0] + dx, cell[1] + dy
        if to == cell or (terrain[cell], terrain.get(to, "@")) in LEGAL:
            yield to


def least_cost(terrain: dict[Cell, str], start: Cell, goal: Cell, asked: Distinctions) -> Optional[int]:
    """The least cost of a walk from a start that stays at a goal in the end, under what is asked; None where there is none. A walk costs the
    least time from which it stays."""
    end = asked.horizon()
    # Whether it may be at the goal from a time on for ever: up to the horizon it is asked for each time, and behind it once.
    may_stay = [False] * (end + 1)
    may_stay[end] = asked.allows(end, goal)
    for time in reversed(range(end)):
        may_stay[time] = may_stay[time + 1] and asked.allows(time, goal) and asked.allows_step(time, goal, goal)
    limit = end + len(terrain) + 1

    def may_cost(cost: int) -> bool:
        return cost > asked.above and (asked.most is None or cost <= asked.most) and may_stay[min(cost, end)]

    reached = {start} if asked.allows(0, start) else set()
    if start == goal and reached and may_cost(0):
        return 0
    for time in range(limit):
        after = set()
        for cell in reached:
            for to in steps_from(terrain, cell):
                if asked.allows_step(time, cell, to) and asked.allows(time + 1, to):
                    if to == goal and cell != goal and may_cost(time + 1):
                        return time + 1
                    after.add(to)
        reached = after
    return None


@dataclasses.dataclass(frozen=True)
class Task:
    start: Cell
    goal: Cell


@dataclasses.dataclass(frozen=True)
class Proof:
    objective: str
    bound: int
    nodes: int


def numbers_of(words: Sequence[str], line: int) -> list[int]:
    if not all(is_number(word, MOST_NUMBER) for word in words):
        raise Fault(f"BadNumber {line}")
    return [int(word) for word in words]


def node_of(text: str, line: int) -> tuple[str, list[int]]:
    """The word of a node and its numbers."""
    word, *rest = text.split(" ")
    if NODES.get(word) != len(rest) or "" in rest:
        raise Fault(f"BadNode {line}")
    numbers = numbers_of(rest, line)
    if word in ("vertex", "swap") and numbers[0] == numbers[1]:
        raise Fault(f"BadNode {line}")
    if word in ("swap", "goes"):
        x, y, u, v = numbers[-4:]
        if abs(x - u) + abs(y - v) != 1:
            raise Fault(f"BadNode {line}")
    return word, numbers


def with_one(asked: Sequence[Distinctions], agent: int, **more) -> list[Distinctions]:
    """The same with more asked of an agent: sets grow, and limits are made narrower."""
    old = asked[agent]
    grown = {name: getattr(old, name) | it for name, it in more.items() if isinstance(it, frozenset)}
    if "above" in more:
        grown["above"] = max(old.above, more["above"])
    if "most" in more:
        grown["most"] = more["most"] if old.most is None else min(old.most, more["most"])
    return [*asked[:agent], dataclasses.replace(old, **grown), *asked[agent + 1 :]]


def with_others(asked: Sequence[Distinctions], agent: int, **more) -> list[Distinctions]:
    made = list(asked)
    for other in range(len(asked)):
        if other != agent:
            made = with_one(made, other, **more)
    return made


def children(tasks: Sequence[Task], asked: Sequence[Distinctions], word: str, numbers: Sequence[int]) -> tuple[list[Distinctions], list[Distinctions]]:
    """What is asked of the agents in the first and in the second child of a node."""
    one = lambda *it: frozenset({it})  # noqa: E731
    if word == "vertex":
        i, j, time, x, y = numbers
        return with_one(asked, i, away=one(time, (x, y))), with_one(asked, j, away=one(time, (x, y)))
    if word == "swap":
        i, j, time, x, y, u, v = numbers
        return with_one(asked, i, left=one(time, (x, y), (u, v))), with_one(asked, j, left=one(time, (u, v), (x, y)))
    if word == "at":
        i, time, x, y = numbers
        away = one(time, (x, y))
        return with_one(asked, i, away=away), with_others(with_one(asked, i, there=away), i, away=away)
    if word == "goes":
        i, time, x, y, u, v = numbers
        step, back = one(time, (x, y), (u, v)), one(time, (u, v), (x, y))
        away = one(time, (x, y)) | one(time + 1, (u, v))
        return with_one(asked, i, left=step), with_others(with_one(asked, i, taken=step), i, away=away, left=back)
    i, time = numbers
    return with_one(asked, i, above=time), with_others(with_one(asked, i, most=time), i, shut=one(time, tasks[i].goal))


def cells_of(word: str, numbers: Sequence[int]) -> list[Cell]:
    if word in ("vertex", "at"):
        return [(numbers[-2], numbers[-1])]
    if word in ("swap", "goes"):
        return [(numbers[-4], numbers[-3]), (numbers[-2], numbers[-1])]
    return []


def agents_of(word: str, numbers: Sequence[int]) -> Sequence[int]:
    return numbers[:2] if word in ("vertex", "swap") else numbers[:1]


def leaf_bound(terrain: dict[Cell, str], tasks: Sequence[Task], asked: Sequence[Distinctions], objective: str) -> Optional[int]:
    """What the agents cost at least, each by itself; None where one has no walk."""
    costs = [least_cost(terrain, task.start, task.goal, it) for task, it in zip(tasks, asked)]
    if None in costs:
        return None
    return sum(costs) if objective == "cost" else max(costs, default=0)


def judged(terrain: dict[Cell, str], tasks: Sequence[Task], text: str) -> Proof:
    """What a proof says, if it holds. Raises the first `Fault` of its text, or why it is `Refused`."""
    lines = text.split("\n")

    def line_of(number: int) -> str:
        line = lines[number - 1] if number <= len(lines) else ""
        if len(line.encode()) > MOST_LINE:
            raise Fault(f"TooMany {number}")
        if number >= len(lines):
            raise Fault(f"Unfinished {number}")
        return line

    if line_of(1) != "mapf-proof 1":
        raise Fault("BadHeader 1")
    objective = line_of(2).removeprefix("objective ")
    if line_of(2) not in ("objective cost", "objective makespan"):
        raise Fault("BadHeader 2")
    word, _, bound = line_of(3).partition(" ")
    if word != "bound":
        raise Fault("BadHeader 3")
    if not is_number(bound, MOST_BOUND):
        raise Fault("BadNumber 3")
    # What is asked in the nodes that are still to be read, the next one last, each with how many nodes are above it.
    open_nodes = [([Distinctions()] * len(tasks), 0)]
    number = 3
    while open_nodes:
        number += 1
        asked, depth = open_nodes.pop()
        word, numbers = node_of(line_of(number), number)
        if depth > MOST_DEPTH or number - 3 > MOST_NODES:
            raise Fault(f"TooMany {number}")
        if any(agent >= len(tasks) for agent in agents_of(word, numbers)):
            raise Refused(f"NoSuchAgent {number}")
        if any(cell not in terrain for cell in cells_of(word, numbers)):
            raise Refused(f"OffMap {number}")
        if word == "leaf":
            least = leaf_bound(terrain, tasks, asked, objective)
            if least is not None and least < int(bound):
                raise Refused(f"LeafTooLow {number} {least}")
            continue
        first, second = children(tasks, asked, word, numbers)
        open_nodes += [(second, depth + 1), (first, depth + 1)]
    if lines[number:] != [""]:
        raise Fault(f"TextAfter {number + 1}")
    return Proof(objective, int(bound), number - 3)
