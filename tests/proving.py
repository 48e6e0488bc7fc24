"""Proofs that plans are the best: `optimal` beside a plain model, on small instances that a search of all joint plans solves.

Of each instance a conflict-based search makes a proof, with splits of all kinds. The right one has to be accepted, and one with a bound
too high refused; then each of its lines is damaged. What the model accepts of those is true all the same, as the joint search shows. And what
tools/prove.py says of greater instances, `optimal` says too."""
import dataclasses
import functools
import heapq
import itertools
import json
import random
import re
import shutil
import sys
from typing import Iterator, Optional, Sequence

import optimal_model as model
from answers import answer
from harness import ROOT, Ended, Harness, Outcome, compared, ended_as, side_by_side
from optimal_model import Distinctions, Task
from path_model import Cell, Fault
from plain_formats import plan_text
from scenarios import Call, outcomes_of

# Of three seeds, two make an instance that can be solved.
SHORT_SEEDS, LONG_SEEDS = range(1, 226), range(1, 3_401)
SIZES = ((2, 2), (3, 2), (3, 3), (4, 3), (5, 1), (7, 1), (4, 4), (2, 4))
Walk = list[Cell]
# A node's word and its numbers.
Split = tuple[str, list[int]]
TOOL = ROOT / "tools" / "prove.py"
SHORT_PLANNED, LONG_PLANNED = range(1, 7), range(1, 61)
# How long the tool searches.
SECONDS = 4
# No instance at random wants a greater tree.
MOST_TRIED = 100


@dataclasses.dataclass(frozen=True)
class Instance:
    size: tuple[int, int]
    terrain: dict[Cell, str]
    tasks: Sequence[Task]

    def map_text(self) -> str:
        width, height = self.size
        rows = "".join(f"{''.join(self.terrain[x, y] for x in range(width))}\n" for y in range(height))
        return f"type octile\nheight {height}\nwidth {width}\nmap\n{rows}"


def random_instance(rng: random.Random) -> Optional[Instance]:
    """An instance on a small map, a tree's worth of walls in some of them; none where there is no room."""
    width, height = rng.choice(SIZES)
    terrain = {(x, y): rng.choice("@TW") if rng.random() < 0.2 else rng.choice(".GS") for x in range(width) for y in range(height)}
    free = [cell for cell, kind in terrain.items() if kind in ".GS"]
    count = rng.choice((2, 2, 3, 4)) if width * height <= 8 else rng.choice((2, 2, 3))
    if len(free) < count:
        return None
    tasks = [Task(start, goal) for start, goal in zip(rng.sample(free, count), rng.sample(free, count))]
    return Instance((width, height), terrain, tasks)


def total(objective: str, costs: Sequence[int]) -> int:
    return sum(costs) if objective == "cost" else max(costs, default=0)


def may_stop(place: Cell, goal: Cell, has_stopped: bool) -> tuple[bool, ...]:
    """Whether an agent has come to rest, or has not: it may choose at its goal."""
    if has_stopped:
        return (True,)
    return (False, True) if place == goal else (False,)


def least_jointly(instance: Instance, objective: str) -> Optional[int]:
    """The least that a valid plan costs, by a search of all that the agents can do together; none where there is no plan."""
    goals = [task.goal for task in instance.tasks]

    def rests(places: Sequence[Cell], stopped: Sequence[bool]) -> Iterator[tuple[bool, ...]]:
        return itertools.product(*map(may_stop, places, goals, stopped))

    starts = tuple(task.start for task in instance.tasks)
    heap = [(0, starts, stopped) for stopped in rests(starts, [False] * len(goals))]
    heapq.heapify(heap)
    seen = set()
    while heap:
        cost, places, stopped = heapq.heappop(heap)
        if all(stopped):
            return cost
        if (places, stopped) in seen:
            continue
        seen.add((places, stopped))
        steps = [(place,) if rest else tuple(model.steps_from(instance.terrain, place)) for place, rest in zip(places, stopped)]
        for to in itertools.product(*steps):
            if len(set(to)) == len(to) and not exchanges(places, to):
                more = total(objective, [0 if rest else 1 for rest in stopped])
                for then in rests(to, stopped):
                    heapq.heappush(heap, (cost + more, to, then))
    return None


def exchanges(places: Sequence[Cell], to: Sequence[Cell]) -> bool:
    return any(to[i] == places[j] and to[j] == places[i] for i, j in itertools.combinations(range(len(to)), 2))


# ---- a search that makes proofs


@dataclasses.dataclass
class Node:
    """What is asked of the agents, their walks, and what split the node."""

    asked: list[Distinctions]
    walks: Optional[list[Walk]]
    split: Optional[Split] = None
    children: Sequence["Node"] = ()


def walk_under(terrain: dict[Cell, str], task: Task, asked: Distinctions) -> Optional[Walk]:
    """A walk of least cost, its cell at each time up to that."""
    cost = model.least_cost(terrain, task.start, task.goal, asked)
    if cost is None:
        return None
    layers: list[dict[Cell, Cell]] = [{task.start: task.start}]
    for time in range(cost):
        after: dict[Cell, Cell] = {}
        for cell in layers[-1]:
            for to in model.steps_from(terrain, cell):
                comes = time + 1 < cost or (to == task.goal and cell != task.goal)
                if comes and asked.allows_step(time, cell, to) and asked.allows(time + 1, to):
                    after.setdefault(to, cell)
        layers.append(after)
    cells = [task.goal]
    for layer in reversed(layers[1:]):
        cells.append(layer[cells[-1]])
    return cells[::-1]


def node_under(instance: Instance, asked: list[Distinctions]) -> Node:
    walks = [walk_under(instance.terrain, task, own) for task, own in zip(instance.tasks, asked)]
    return Node(asked, None if None in walks else walks)


def first_conflict(walks: Sequence[Walk]) -> Optional[tuple[int, int, int, Cell, Optional[Cell]]]:
    """Two agents, a time, the cell where they meet, or that and the one which the first goes on to while they exchange."""

    def at(walk: Walk, time: int) -> Cell:
        return walk[min(time, len(walk) - 1)]

    for time in range(max(map(len, walks))):
        for i, j in itertools.combinations(range(len(walks)), 2):
            here, there = at(walks[i], time), at(walks[j], time)
            if here == there:
                return i, j, time, here, None
            if (at(walks[i], time + 1), at(walks[j], time + 1)) == (there, here):
                return i, j, time, here, there
    return None


def split_of(rng: random.Random, instance: Instance, node: Node) -> Optional[Split]:
    """A split by which a node's walks conflict no more, of a kind at random."""
    found = first_conflict(node.walks)
    if not found:
        return None
    i, j, time, (x, y), to = found
    if to:
        u, v = to
        if rng.random() < 0.5:
            i, j, x, y, u, v = j, i, u, v, x, y
        return rng.choice((("swap", [i, j, time, x, y, u, v]), ("goes", [i, time, x, y, u, v])))
    if rng.random() < 0.5:
        i, j = j, i
    stays = [("stays", [agent, time]) for agent in (i, j) if instance.tasks[agent].goal == (x, y) and len(node.walks[agent]) - 1 <= time]
    return rng.choice([("vertex", [i, j, time, x, y]), ("at", [i, time, x, y]), *stays])


def searched(rng: random.Random, instance: Instance, objective: str) -> Optional[tuple[Node, list[Walk]]]:
    """The tree of a conflict-based search, and the walks of the plan that it found; none where it takes too long."""
    root = node_under(instance, [Distinctions()] * len(instance.tasks))
    counted = itertools.count()
    heap = [(0, next(counted), root)]
    for _ in range(MOST_TRIED):
        if not heap:
            return None
        _, _, node = heapq.heappop(heap)
        node.split = split_of(rng, instance, node) if node.walks else None
        if not node.split:
            return (root, node.walks) if node.walks else None
        node.children = [node_under(instance, asked) for asked in model.children(instance.tasks, node.asked, *node.split)]
        for child in node.children:
            if child.walks:
                heapq.heappush(heap, (total(objective, [len(walk) - 1 for walk in child.walks]), next(counted), child))
    return None


def proof_text(root: Node, objective: str, bound: int) -> str:
    lines, nodes = ["mapf-proof 1", f"objective {objective}", f"bound {bound}"], [root]
    while nodes:
        node = nodes.pop()
        lines.append(" ".join([node.split[0], *map(str, node.split[1])]) if node.children else "leaf")
        nodes.extend(reversed(node.children))
    return "".join(f"{line}\n" for line in lines)


# ---- damage


def random_node(rng: random.Random, instance: Instance) -> str:
    """A node that may make no sense."""
    width, height = instance.size
    i, j = rng.randrange(len(instance.tasks) + 1), rng.randrange(len(instance.tasks))
    time, x, y = rng.randrange(9), rng.randrange(width + 1), rng.randrange(height)
    across = f"{x} {y} {x + rng.choice((0, 1))} {y + rng.choice((0, 0, 1))}"
    places = (f"vertex {i} {j} {time} {x} {y}", f"at {i} {time} {x} {y}", f"stays {i} {time}")
    return rng.choice((*places, f"swap {i} {j} {time} {across}", f"goes {i} {time} {across}"))


def damaged(rng: random.Random, instance: Instance, text: str, at: int) -> str:
    """The text with a line that is another, or gone, or there twice, or has another word."""
    lines = text.split("\n")
    words = lines[at].split(" ")
    place = rng.randrange(len(words))
    words[place] = rng.choice((str(rng.randrange(8)), "12", "65536", "4294967296", "01", "", "x", words[place]))
    changed = (["leaf"], [], [lines[at]] * 2, [" ".join(words)], [" ".join(words)], [random_node(rng, instance), lines[at], "leaf"], [f"{lines[at]}{' ' * 130}"])
    return "\n".join([*lines[:at], *rng.choice(changed), *lines[at + 1 :]])


# ---- what is due


def due(instance: Instance, walks: Sequence[Walk], best: int, objective: str, text: str, is_json: bool) -> Ended:
    """The answer by the model, whose yes is held against the joint search."""
    try:
        proof = model.judged(instance.terrain, instance.tasks, text)
    except Fault as fault:
        return answer(1, str(fault))
    except model.Refused as fault:
        return answer(1, json.dumps({"refused": str(fault)}, separators=(",", ":")) + "\n" if is_json else f"refused {fault}\n")
    cost = total(proof.objective, [len(walk) - 1 for walk in walks])
    assert proof.objective != objective or proof.bound <= best, text
    if is_json:
        whole = {"optimal": proof.bound == cost, proof.objective: cost, "bound": proof.bound, "nodes": proof.nodes}
        return answer(0, json.dumps(whole, separators=(",", ":")) + "\n")
    begins = "optimal" if proof.bound == cost else f"bound {proof.bound}"
    return answer(0, f"{begins} {proof.objective} {cost} nodes {proof.nodes}\n")


def calls(seed: int) -> Iterator[Call]:
    """Those of an instance: the right proof, one with a bound too high, one too low, and each line damaged."""
    rng = random.Random(f"proving {seed}")
    instance, objective = random_instance(rng), rng.choice(("cost", "makespan"))
    best = least_jointly(instance, objective) if instance else None
    found = None if best is None else searched(rng, instance, objective)
    if not found:
        return
    root, walks = found
    right = proof_text(root, objective, best)
    assert model.judged(instance.terrain, instance.tasks, right).bound == best, right
    texts = [right, proof_text(root, objective, best + 1), proof_text(root, objective, rng.randrange(best + 1))]
    texts += [damaged(rng, instance, right, at) for at in range(len(right.split("\n")))]
    for text in texts:
        words = ["optimal", "m", "p", "t", *rng.choice(([], [], ["--json"]))]
        yield words, {"m": instance.map_text(), "p": plan_text(walks, 1), "t": text}, due(instance, walks, best, objective, text, "--json" in words)


# ---- tools/prove.py


def component(terrain: dict[Cell, str], start: Cell) -> set[Cell]:
    """The cells to which walks from a start lead."""
    found, left = {start}, [start]
    while left:
        more = set(model.steps_from(terrain, left.pop())) - found
        found |= more
        left += more
    return found


def greater_instance(rng: random.Random) -> Instance:
    """One of 5 to 20 agents, all in one part of the map, with walls here and there."""
    width, height = rng.randrange(16, 33), rng.randrange(16, 33)
    terrain = {(x, y): "@" if rng.random() < 0.1 else rng.choice("..S") for x in range(width) for y in range(height)}
    free = sorted(max((component(terrain, cell) for cell in rng.sample(sorted(terrain), 9) if terrain[cell] != "@"), key=len))
    count = rng.randrange(5, 21)
    return Instance((width, height), terrain, [Task(*ends) for ends in zip(rng.sample(free, count), rng.sample(free, count))])


def scenario_text(instance: Instance) -> str:
    """The rows of an instance. What they say of lengths is not looked at."""
    width, height = instance.size
    ends = ((*task.start, *task.goal) for task in instance.tasks)
    return "version 1\n" + "".join("\t".join(map(str, (0, "m", width, height, *row, 0))) + "\n" for row in ends)


def of_planner(harness: Harness, seed: int) -> list[Outcome]:
    """That `optimal` says of a plan and its proof just what the tool says that wrote both."""
    rng = random.Random(f"planned {seed}")
    instance = greater_instance(rng)
    folder = harness.folder({"m": instance.map_text().encode(), "s": scenario_text(instance).encode()})
    words = ["m", "s", str(len(instance.tasks)), "-o", "p", "t", "--seconds", str(SECONDS), *rng.choice(([], ["--no-disjoint"]))]
    wrote = harness.run([sys.executable, str(TOOL), *words], folder=folder)
    due_status = 0 if wrote.out.startswith(b"optimal ") else 1
    ran = f"prove.py {' '.join(words)}  with seed {seed}"
    return [
        ended_as(f"seed {seed}, prove.py", ran, wrote, Ended(due_status, wrote.out, b"")),
        ended_as(f"seed {seed}, what it wrote", ran, harness.mapf(["optimal", "m", "p", "t"], folder=folder), Ended(0, wrote.out, b"")),
    ]


def row_text(*ends: int) -> str:
    return "\t".join(map(str, (0, "m", 4, 4, *ends, 0))) + "\n"


def of_short_proofs(harness: Harness) -> Iterator[Outcome]:
    """Three agents cross a room and none has to leave its shortest walk: 6 steps each. So one leaf is enough, whatever was tried."""
    room = f"type octile\nheight 4\nwidth 4\nmap\n{'....' + chr(10)}".replace("....\n", "....\n" * 4)
    rows = row_text(0, 0, 3, 3) + row_text(0, 3, 3, 0) + row_text(3, 0, 0, 3)
    folder = harness.folder({"m": room.encode(), "s": f"version 1\n{rows}".encode()})
    for words in ([], ["--no-disjoint"]):
        wrote = harness.run([sys.executable, str(TOOL), "m", "s", "3", "-o", "p", "t", *words], folder=folder)
        yield ended_as(f"one leaf is enough, {words}", f"prove.py {words}", wrote, Ended(0, b"optimal cost 18 nodes 1\n", b""))
        proof = (folder / "t").read_text()
        yield compared(f"the proof, {words}", f"prove.py {words}", proof, "mapf-proof 1\nobjective cost\nbound 18\nleaf\n")


# A tree as planners keep it: a node costs as much as the bound and was split all the same, and the other one was never split.
SAMPLE = """
class Node:
    def __init__(self, cost, split="", children=()):
        self.cost, self.split, self.children = cost, split, children

pruned = Node(7, "vertex 0 1 2 1 0", (Node(7), Node(8)))
write_proof(Node(5, "vertex 0 1 1 1 0", (pruned, Node(6, "at 1 1 0 0", (Node(7), Node(9))))), 7, sys.stdout)
"""
SAMPLE_WROTE = b"mapf-proof 1\nobjective cost\nbound 7\nvertex 0 1 1 1 0\nleaf\nat 1 1 0 0\nleaf\nleaf\n"
IN_CPP = """
int main() {
    auto leaf = [](unsigned cost) { auto it = std::make_unique<Node>(); it->cost = cost; return it; };
    auto split = [](unsigned cost, const char* line, std::unique_ptr<Node> one, std::unique_ptr<Node> other) {
        auto it = std::make_unique<Node>();
        it->cost = cost, it->split = line, it->children[0] = std::move(one), it->children[1] = std::move(other);
        return it;
    };
    auto pruned = split(7, "vertex 0 1 2 1 0", leaf(7), leaf(8));
    auto last = split(6, "at 1 1 0 0", leaf(7), leaf(9));
    write_proof(*split(5, "vertex 0 1 1 1 0", std::move(pruned), std::move(last)), 7, std::cout);
}
"""


def of_samples(harness: Harness) -> Iterator[Outcome]:
    """The writers of the page make a leaf of each node that costs as much as the bound."""
    page = (ROOT / "docs" / "PROVING.md").read_text(encoding="utf-8")
    python, cpp = (re.search(rf"^```{name}\n(.*?)^```", page, re.DOTALL | re.MULTILINE)[1] for name in ("python", "cpp"))
    ended = harness.run([sys.executable, "-c", f"import sys\n{python}{SAMPLE}"])
    yield ended_as("the writer in Python", "looked at PROVING.md", ended, Ended(0, SAMPLE_WROTE, b""))
    if not shutil.which("g++"):
        yield Outcome("the writer in C++", lacks="g++")
        return
    writer = cpp.partition("void split_at")[0]
    heads = "".join(f"#include <{it}>\n" for it in ("array", "iostream", "memory", "string", "utility", "vector"))
    folder = harness.folder({"sample.cpp": f"{heads}{writer}{IN_CPP}".encode()})
    built = harness.run(["g++", "-std=c++17", "sample.cpp", "-o", "sample"], folder=folder)
    ended = harness.run([str(folder / "sample")]) if built.status == 0 else built
    yield ended_as("the writer in C++", "looked at PROVING.md", ended, Ended(0, SAMPLE_WROTE, b""))


def outcomes(harness: Harness) -> Iterator[Outcome]:
    yield from of_short_proofs(harness)
    yield from of_samples(harness)
    seeds = LONG_SEEDS if harness.is_long else SHORT_SEEDS
    yield from side_by_side([functools.partial(outcomes_of, harness, calls, seed) for seed in seeds])
    planned = LONG_PLANNED if harness.is_long else SHORT_PLANNED
    yield from side_by_side([functools.partial(of_planner, harness, seed) for seed in planned])
