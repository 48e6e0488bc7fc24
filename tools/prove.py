#!/usr/bin/env python3
"""Plans the first agents of a scenario at the least sum of costs, and writes why no valid plan costs less.

Usage: prove.py MAP SCEN AGENTS -o PLAN PROOF [--seconds N] [--no-disjoint] [--number N]

A conflict-based search: each agent's walk is the least under what is asked of it, and where two walks conflict, the search goes on twice:
it asks one agent to be there, or not to be. With `--no-disjoint` it asks one of the two agents for something else each time, and often needs
many more nodes. What it tried is the tree of the proof, up to the nodes that cost as much as the bound: `mapf optimal MAP PLAN PROOF` reads it,
and believes nothing of this search. It is no rival of planners: it shows how such proofs are written.

Where the time is over, the proof is of the best bound so far, and the plan is the best of some that let agent after agent choose: there may
be none, and then none is written.

Status 0: the plan is optimal. 1: the time was over before. 2: what was asked makes no sense, or no walk leads from a start to its goal.
"""
import argparse
import dataclasses
import heapq
import itertools
import pathlib
import random
import sys
import time
from typing import Iterator, NamedTuple, Optional, Sequence

sys.dont_write_bytecode = True
sys.path.append(str(pathlib.Path(__file__).resolve().parent.parent / "examples" / "fleet"))
from given import plan_number  # noqa: E402
from ground import BadMap, Cell, Ground, Walk, at, traced  # noqa: E402
from plan_formats import mapf_plan  # noqa: E402
from plan_formats.walks import walk_of  # noqa: E402
from planning import Reservations, search  # noqa: E402
from progress import Progress  # noqa: E402

# Of so many conflicts of a node the one is taken that makes both children cost most.
COMPARED = 6
# What stands above the first node of a proof.
LINES_OF_HEAD = 3
# So many orders of the agents are tried for a plan where the time is over.
ORDERS = 20


class BadTask(Exception):
    """Why nothing can be planned."""


@dataclasses.dataclass(frozen=True)
class Asked:
    """What is asked of an agent: cells in which it is not at a time, steps that it doesn't take, and those in which it is and that it takes."""

    away: frozenset[tuple[int, Cell]] = frozenset()
    left: frozenset[tuple[int, Cell, Cell]] = frozenset()
    there: frozenset[tuple[int, Cell]] = frozenset()
    taken: frozenset[tuple[int, Cell, Cell]] = frozenset()

    def horizon(self) -> int:
        return max([-1, *(it[0] for it in self.away | self.there), *(it[0] + 1 for it in self.left | self.taken)]) + 1

    def may_be(self, when: int, cell: Cell) -> bool:
        return (when, cell) not in self.away and all(there == cell for then, there in self.there if then == when)

    def may_step(self, when: int, cell: Cell, to: Cell) -> bool:
        if (when, cell, to) in self.left or not self.may_be(when + 1, to):
            return False
        return all((cell, to) == (here, there) for then, here, there in self.taken if then == when)


def least_walk(ground: Ground, start: Cell, goal: Cell, asked: Asked) -> Optional[Walk]:
    """A walk that comes to the goal as soon as may be and stays there, under what is asked; none where there is none."""
    far, end = ground.steps_to(goal), asked.horizon()
    if start not in far or not asked.may_be(0, start):
        return None
    stays_from = end
    while stays_from and asked.may_be(stays_from - 1, goal) and (stays_from == end or asked.may_step(stays_from - 1, goal, goal)):
        stays_from -= 1
    if start == goal and stays_from == 0:
        return [start]
    before: dict[tuple[int, Cell], Optional[Cell]] = {(0, start): None}
    heap = [(max(far[start], stays_from), 0, start)]
    while heap:
        _, less, cell = heapq.heappop(heap)
        when = -less
        if cell == goal and when >= stays_from:
            return traced(before, goal, when)
        # Behind the horizon nothing is asked, and a shortest way is open.
        for to in ground.beside(cell):
            if (when + 1, to) not in before and to in far and asked.may_step(when, cell, to):
                before[when + 1, to] = cell
                heapq.heappush(heap, (max(when + 1 + far[to], stays_from), -when - 1, to))
    return None


class Conflict(NamedTuple):
    """Two agents that are in one cell at a time, or exchange two cells in the step from it on."""

    first: int
    second: int
    when: int
    cell: Cell
    to: Optional[Cell] = None

    def line(self, is_disjoint: bool) -> str:
        """The line of the node that splits it."""
        names = f"{self.first} {self.when}" if is_disjoint else f"{self.first} {self.second} {self.when}"
        if self.to is None:
            return f"{'at' if is_disjoint else 'vertex'} {names} {self.cell[0]} {self.cell[1]}"
        return f"{'goes' if is_disjoint else 'swap'} {names} {self.cell[0]} {self.cell[1]} {self.to[0]} {self.to[1]}"


def conflicts_of(walks: Sequence[Walk]) -> Iterator[Conflict]:
    """All conflicts of walks, by time."""
    for when in range(max(map(len, walks), default=0)):
        here: dict[Cell, int] = {}
        steps: dict[tuple[Cell, Cell], int] = {}
        for agent, walk in enumerate(walks):
            cell, to = at(walk, when), at(walk, when + 1)
            if cell in here:
                yield Conflict(here[cell], agent, when, cell)
            here[cell] = agent
            if cell != to and (to, cell) in steps:
                yield Conflict(steps[to, cell], agent, when, to, cell)
            steps[cell, to] = agent


@dataclasses.dataclass(eq=False)
class Node:
    """What is asked of the agents, their least walks, and by what it was split."""

    asked: tuple[Asked, ...]
    walks: Optional[list[Walk]]
    line: str = ""
    children: tuple["Node", ...] = ()

    def cost(self) -> int:
        assert self.walks is not None
        return cost_of(self.walks)


class Search:
    """The search, which goes on where plans may cost least."""

    def __init__(self, ground: Ground, tasks: Sequence[tuple[Cell, Cell]], is_disjoint: bool) -> None:
        self.ground, self.tasks, self.is_disjoint = ground, tasks, is_disjoint
        none = (Asked(),) * len(tasks)
        walks = [least_walk(ground, start, goal, Asked()) for start, goal in tasks]
        for agent, walk in enumerate(walks):
            if walk is None:
                raise BadTask(f"no walk leads from the start of agent {agent} to its goal")
        self.root = Node(none, [walk for walk in walks if walk is not None])
        self.order = itertools.count()
        self.open = [self.entry(self.root)]
        self.count = 1

    def entry(self, node: Node) -> tuple[int, int, int, Node]:
        assert node.walks is not None
        return node.cost(), sum(1 for _ in conflicts_of(node.walks)), next(self.order), node

    def child(self, node: Node, changes: dict[int, Asked]) -> Node:
        """The node where more is asked of some agents. Those whose walk still does keep it."""
        asked = tuple(changes.get(agent, it) for agent, it in enumerate(node.asked))
        assert node.walks is not None
        walks = list(node.walks)
        for agent, more in changes.items():
            if not keeps(walks[agent], more):
                walk = least_walk(self.ground, *self.tasks[agent], more)
                if walk is None:
                    return Node(asked, None)
                walks[agent] = walk
        return Node(asked, walks)

    def split(self, node: Node, it: Conflict) -> tuple[Node, Node]:
        def more(agent: int, **sets) -> Asked:
            old = node.asked[agent]
            return dataclasses.replace(old, **{name: getattr(old, name) | {one} for name, one in sets.items()})

        cell, to, when = it.cell, it.to, it.when
        if not self.is_disjoint:
            if to is None:
                return tuple(self.child(node, {agent: more(agent, away=(when, cell))}) for agent in (it.first, it.second))
            return (
                self.child(node, {it.first: more(it.first, left=(when, cell, to))}),
                self.child(node, {it.second: more(it.second, left=(when, to, cell))}),
            )
        others = [agent for agent in range(len(self.tasks)) if agent != it.first]
        if to is None:
            there = {it.first: more(it.first, there=(when, cell)), **{agent: more(agent, away=(when, cell)) for agent in others}}
            return self.child(node, {it.first: more(it.first, away=(when, cell))}), self.child(node, there)
        taken = {it.first: more(it.first, taken=(when, cell, to))}
        for agent in others:
            old = node.asked[agent]
            taken[agent] = dataclasses.replace(old, away=old.away | {(when, cell), (when + 1, to)}, left=old.left | {(when, to, cell)})
        return self.child(node, {it.first: more(it.first, left=(when, cell, to))}), self.child(node, taken)

    def expand(self, node: Node, conflicts: Sequence[Conflict]) -> None:
        """Splits a node by the conflict that makes its children cost most."""

        def gained(children: Sequence[Node]) -> list[int]:
            return sorted(10**9 if it.walks is None else it.cost() for it in children)

        best, line = max(((self.split(node, it), it.line(self.is_disjoint)) for it in conflicts), key=lambda it: gained(it[0]))
        node.line, node.children = line, best
        for it in best:
            self.count += 1
            if it.walks is not None:
                heapq.heappush(self.open, self.entry(it))

    def run(self, seconds: float) -> Optional[list[Walk]]:
        """The walks of a plan that costs least; none where the time is over before."""
        progress, until = Progress(), time.monotonic() + seconds
        while self.open:
            node = self.open[0][3]
            assert node.walks is not None
            conflicts = list(itertools.islice(conflicts_of(node.walks), COMPARED))
            if not conflicts or time.monotonic() > until:
                progress.end()
                return None if conflicts else node.walks
            heapq.heappop(self.open)
            self.expand(node, conflicts)
            progress.show(f"bound {self.bound() if self.open else '-'} nodes {self.count} open {len(self.open)}")
        raise BadTask("no valid plan leads all agents to their goals")

    def bound(self) -> int:
        return self.open[0][0]

    def some_plan(self) -> Optional[list[Walk]]:
        """The walks of the best of some plans in which agent after agent takes a shortest walk that keeps clear of those before it."""
        rng, order = random.Random(0), list(range(len(self.tasks)))
        plans = []
        for _ in range(ORDERS):
            rng.shuffle(order)
            walks = self.planned_in(order)
            if walks:
                plans.append(walks)
        return min(plans, key=cost_of, default=None)

    def planned_in(self, order: Sequence[int]) -> Optional[list[Walk]]:
        walks, taken = {}, Reservations()
        for agent in order:
            start, goal = self.tasks[agent]
            far = self.ground.steps_to(goal)
            walk = search(set(far), start, goal, taken, 2 * far[start] + 200)
            if not walk:
                return None
            taken.take(walk)
            walks[agent] = walk
        return [walks[agent] for agent in range(len(self.tasks))]

    def proof(self) -> str:
        """The text of the proof that no valid plan costs less than the bound."""
        lines, left = ["mapf-proof 1", "objective cost", f"bound {self.bound()}"], [self.root]
        while left:
            node = left.pop()
            # One that costs as much as the bound stands by itself, whatever was tried below it.
            is_split = node.children and node.cost() < self.bound()
            lines.append(node.line if is_split else "leaf")
            left += reversed(node.children if is_split else ())
        return "\n".join([*lines, ""])


def cost_of(walks: Sequence[Walk]) -> int:
    return sum(len(walk) - 1 for walk in walks)


def keeps(walk: Walk, asked: Asked) -> bool:
    """Whether a walk does what is asked."""
    times = range(max(len(walk), asked.horizon() + 1))
    return asked.may_be(0, walk[0]) and all(asked.may_step(when, at(walk, when), at(walk, when + 1)) for when in times)


def read_tasks(text: str, count: int) -> list[tuple[Cell, Cell]]:
    rows = [line.split("\t") for line in text.splitlines()[1:] if line.strip()]
    if len(rows) < count:
        raise BadTask(f"the scenario has {len(rows)} rows")
    try:
        numbers = [[int(field) for field in row[4:8]] for row in rows[:count]]
    except ValueError:
        raise BadTask("the scenario is none: `mapf scen` says why") from None
    return [((x, y), (u, v)) for x, y, u, v in numbers]


def main(words: Sequence[str]) -> int:
    parser = argparse.ArgumentParser(description=__doc__, formatter_class=argparse.RawDescriptionHelpFormatter)
    parser.add_argument("map", type=pathlib.Path, metavar="MAP", help="the map")
    parser.add_argument("scen", type=pathlib.Path, metavar="SCEN", help="the scenario, each of whose rows is an agent's task")
    parser.add_argument("agents", type=int, metavar="AGENTS", help="how many agents, from the first row on")
    parser.add_argument("-o", dest="out", nargs=2, type=pathlib.Path, metavar=("PLAN", "PROOF"), required=True, help="where plan and proof go")
    parser.add_argument("--seconds", type=float, default=60.0, metavar="N", help="how long it is searched (60)")
    about = "asks one agent to be somewhere, or not to be; else one of two for something else (--disjoint)"
    parser.add_argument("--disjoint", action=argparse.BooleanOptionalAction, default=True, help=about)
    parser.add_argument("--number", type=plan_number, metavar="N", help="the number of the plan (one that is drawn)")
    given = parser.parse_args(words)
    try:
        ground = Ground(given.map.read_text(encoding="latin-1"))
        planning = Search(ground, read_tasks(given.scen.read_text(encoding="latin-1"), given.agents), given.disjoint)
        walks = planning.run(given.seconds) or planning.some_plan()
    except (BadMap, BadTask, OSError) as fault:
        print(f"prove: {fault}", file=sys.stderr)
        return 2
    plan, proof = given.out
    text = planning.proof()
    proof.write_text(text, encoding="ascii")
    if walks:
        plan.write_text("".join(mapf_plan.write([walk_of(walk) for walk in walks], given.number)), encoding="ascii")
    is_best = walks is not None and cost_of(walks) == planning.bound()
    cost = f" cost {cost_of(walks)}" if walks else ""
    print(f"{'optimal' if is_best else f'bound {planning.bound()}'}{cost} nodes {text.count(chr(10)) - LINES_OF_HEAD}")
    return 0 if is_best else 1


if __name__ == "__main__":
    sys.exit(main(sys.argv[1:]))
