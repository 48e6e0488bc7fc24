#!/usr/bin/env python3
"""Makes maps, scenarios and plans of any size, the same for the same seed.

Usage: generate.py KIND WIDTH HEIGHT [--seed N] [--rows N] [--agents N] [--acts N]
(KIND: open, random, rooms, terrain, sparse, dense, maze, corridors, mixed, patches, scen, boxes, waits, blocks, trains, regions, crowd, loops, heap, strays)
The text goes to standard output; `scen` makes a scenario of so many rows for a map of that size; `boxes`, `waits`, `blocks`, `trains`, `regions`, `crowd` and
`loops` make a valid plan of so many agents with so many acts each on an open map of that size, none a wait but in `waits`, `crowd` and `loops`;
`heap` and `strays` make one in which agents meet.
"""
import argparse
import itertools
import random
import sys
from typing import Callable, Iterable, Iterator, Sequence

Cell = tuple[int, int]
# A start, and the acts from there on.
Course = tuple[Cell, str]
# What makes courses, by width, height, agents and acts, and maybe a seed.
Maker = Callable[[int, int, int, int], Iterable[Course]]
Seeded = Callable[[int, int, int, int, int], Iterable[Course]]
KINDS = ("open", "random", "rooms", "terrain")
WALKED_KINDS = ("open", "sparse", "rooms", "maze", "corridors", "mixed", "patches")
PLAN_KINDS = ("boxes", "waits", "blocks", "trains", "regions", "crowd", "loops")
# In these agents meet.
FAULTY_KINDS = ("heap", "strays")
# In these an agent that turns back near its end meets another.
CLOSE_KINDS = ("blocks", "trains", "regions", "loops")
# By how much each act but a wait changes a column and a row.
STEPS = {"n": (0, -1), "e": (1, 0), "s": (0, 1), "w": (-1, 0)}


def table(shares: Sequence[tuple[str, int]]) -> bytes:
    """A table from a random byte to a character, by each character's share of 256."""
    text = "".join(character * share for character, share in shares)
    return text.encode().ljust(256, text[-1:].encode())[:256]


def open_rows(rng: random.Random, width: int, height: int) -> list[str]:
    return ["." * width] * height


def cell_rows(rng: random.Random, width: int, height: int, shares: Sequence[tuple[str, int]]) -> list[str]:
    cells = rng.randbytes(width * height).translate(table(shares)).decode()
    return [cells[at : at + width] for at in range(0, width * height, width)]


def random_rows(rng: random.Random, width: int, height: int) -> list[str]:
    return cell_rows(rng, width, height, [("@", 64), (".", 192)])


def terrain_rows(rng: random.Random, width: int, height: int) -> list[str]:
    return cell_rows(rng, width, height, [(".", 96), ("G", 40), ("S", 32), ("W", 32), ("T", 32), ("@", 12), ("O", 12)])


def room_rows(rng: random.Random, width: int, height: int, side: int = 16) -> list[str]:
    """Rooms of the same side, each wall with a door in it."""
    rows = []
    for y in range(height):
        if y % side == 0:
            row = ["@"] * width
            for x in range(0, width, side):
                row[min(x + rng.randrange(1, side), width - 1)] = "."
        else:
            row = ["."] * width
            for x in range(0, width, side):
                if rng.randrange(side - 1):
                    row[x] = "@"
        rows.append("".join(row))
    return rows


def cleared(rows: Sequence[str], side: int = 4) -> list[str]:
    """The same rows with floor in the upper left and the lower right corner."""
    rows = list(rows)
    for y in range(side):
        rows[y] = "." * side + rows[y][side:]
        rows[-1 - y] = rows[-1 - y][:-side] + "." * side
    return rows


def sparse_rows(rng: random.Random, width: int, height: int) -> list[str]:
    """One cell of five is blocked."""
    return cleared(cell_rows(rng, width, height, [("@", 51), (".", 205)]))


def dense_rows(rng: random.Random, width: int, height: int) -> list[str]:
    """Of a hundred cells 35 are blocked: of the others most still lie in one region."""
    return cleared(cell_rows(rng, width, height, [("@", 90), (".", 166)]))


def mixed_rows(rng: random.Random, width: int, height: int) -> list[str]:
    return cleared(cell_rows(rng, width, height, [(".", 120), ("G", 48), ("S", 40), ("W", 16), ("T", 16), ("@", 16)]))


def maze_rows(rng: random.Random, width: int, height: int) -> list[str]:
    """Corridors one cell wide, with one walk from each of their cells to each other."""
    columns, lines = (width + 1) // 2, (height + 1) // 2
    rows = [bytearray(b"@" * width) for _ in range(height)]
    rows[0][0] = ord(".")
    path = [(0, 0)]
    while path:
        x, y = path[-1]
        sides = [(x + 1, y), (x - 1, y), (x, y + 1), (x, y - 1)]
        free = [(u, v) for u, v in sides if 0 <= u < columns and 0 <= v < lines and rows[2 * v][2 * u] != ord(".")]
        if not free:
            path.pop()
            continue
        u, v = rng.choice(free)
        rows[y + v][x + u] = rows[2 * v][2 * u] = ord(".")
        path.append((u, v))
    return [row.decode() for row in rows]


def corridor_rows(rng: random.Random, width: int, height: int) -> list[str]:
    """A maze like that, whose corridors are three cells wide and its walls one."""
    columns, lines = (width - 1) // 4, (height - 1) // 4
    rows = [bytearray(b"@" * width) for _ in range(height)]

    def open_box(left: int, top: int, wide: int, high: int) -> None:
        for y in range(top, top + high):
            rows[y][left : left + wide] = b"." * wide

    open_box(1, 1, 3, 3)
    seen, path = {(0, 0)}, [(0, 0)]
    while path:
        x, y = path[-1]
        sides = [(x + 1, y), (x - 1, y), (x, y + 1), (x, y - 1)]
        free = [(u, v) for u, v in sides if 0 <= u < columns and 0 <= v < lines and (u, v) not in seen]
        if not free:
            path.pop()
            continue
        u, v = rng.choice(free)
        # From the lesser of the two boxes on, over the wall, to the end of the other.
        wide, high = (7, 3) if v == y else (3, 7)
        open_box(4 * min(x, u) + 1, 4 * min(y, v) + 1, wide, high)
        seen.add((u, v))
        path.append((u, v))
    return [row.decode() for row in rows]


def patch_rows(rng: random.Random, width: int, height: int) -> list[str]:
    """Floor with round patches of each other terrain."""
    rows = [bytearray(b"." * width) for _ in range(height)]
    for _ in range(width * height // 900):
        terrain, radius = rng.choice("GGSSSWWWWTT@O."), rng.choice([2, 3, 5, 8, 13, 21])
        x, y = rng.randrange(width), rng.randrange(height)
        for line in range(max(0, y - radius), min(height, y + radius + 1)):
            half = int((radius**2 - (line - y) ** 2) ** 0.5)
            left, right = max(0, x - half), min(width, x + half + 1)
            rows[line][left:right] = terrain.encode() * (right - left)
    return cleared([row.decode() for row in rows])


def map_text(kind: str, width: int, height: int, seed: int) -> str:
    """The text of a map."""
    makers: dict[str, Callable[[random.Random, int, int], list[str]]] = {
        "open": open_rows,
        "random": random_rows,
        "rooms": room_rows,
        "terrain": terrain_rows,
        "sparse": sparse_rows,
        "dense": dense_rows,
        "maze": maze_rows,
        "corridors": corridor_rows,
        "mixed": mixed_rows,
        "patches": patch_rows,
    }
    rows = makers[kind](random.Random(f"{kind} {width} {height} {seed}"), width, height)
    return "\n".join(["type octile", f"height {height}", f"width {width}", "map", *rows, ""])


def far_goal(kind: str, width: int, height: int) -> Cell:
    """A cell in the lower right corner of a map of a kind that walks are sought on."""
    if kind == "maze":
        return (width - 1) // 2 * 2, (height - 1) // 2 * 2
    if kind == "corridors":
        return (width - 1) // 4 * 4 - 1, (height - 1) // 4 * 4 - 1
    return width - 1, height - 1


def near_goals(width: int, height: int) -> Iterator[Cell]:
    """Cells an eighth of the way to it, one beside another, so that a walk may lead to the first of them or to a later one."""
    return ((x, height // 8) for x in range(width // 8, width // 4))


def row_text(kind: str, width: int, height: int, goal: Cell, straight: int, diagonal: int) -> str:
    """The text of a scenario with one row, from the upper left corner of such a map to a goal, that lists a length."""
    start_x, start_y = (1, 1) if kind in ("rooms", "corridors") else (0, 0)
    goal_x, goal_y = goal
    length = straight + diagonal * 2**0.5
    fields = (0, "maps/arena.map", width, height, start_x, start_y, goal_x, goal_y, f"{length:.8f}")
    return "\n".join(["version 1", "\t".join(str(field) for field in fields), ""])


def scen_text(width: int, height: int, seed: int, count: int) -> str:
    """The text of a scenario, with octile distances as its lengths."""
    rng = random.Random(f"scen {width} {height} {seed}")
    lines = ["version 1"]
    for row in range(count):
        start_x, goal_x = rng.randrange(width), rng.randrange(width)
        start_y, goal_y = rng.randrange(height), rng.randrange(height)
        less, more = sorted((abs(start_x - goal_x), abs(start_y - goal_y)))
        length = more - less + less * 2**0.5
        fields = (row // 10, "maps/arena-2048.map", width, height, start_x, start_y, goal_x, goal_y, f"{length:.8f}")
        lines.append("\t".join(str(field) for field in fields))
    return "\n".join([*lines, ""])


def loop_acts(side: int, acts: int, first: int = 0) -> str:
    """Acts that go round a square of so many steps a side, from its upper left corner on or from a place further along."""
    once = "e" * side + "s" * side + "w" * side + "n" * side
    first %= len(once)
    return (once[first:] + once * (acts // len(once) + 1))[:acts]


def loop_cell(x: int, y: int, side: int, place: int) -> Cell:
    """The cell at a place along such a square."""
    leg, along = divmod(place % (4 * side), side)
    return [(x + along, y), (x + side, y + along), (x + side - along, y + side), (x, y + side - along)][leg]


def box_courses(width: int, height: int, count: int, acts: int) -> Iterator[Course]:
    """Each agent goes round in a box of its own."""
    across = int(count**0.5 + 0.999)
    side = min(width, height) // across
    for agent in range(count):
        x, y = agent % across * side, agent // across * side
        yield (x, y), loop_acts(side - 2, acts)


def waiting_courses(width: int, height: int, count: int, acts: int, beat: int = 8) -> Iterator[Course]:
    """Each agent goes round in a box of its own, and moves once in so many steps, not all of them in the same ones."""
    for agent, (start, course) in enumerate(box_courses(width, height, count, acts)):
        moves = iter(course)
        yield start, "".join(next(moves) if step % beat == agent % beat else "-" for step in range(acts))


def block_courses(width: int, height: int, count: int, acts: int, block: int = 10) -> Iterator[Course]:
    """Blocks of agents, each of which follows the one before it, that go round as one."""
    across = int((count / block**2) ** 0.5 + 0.999)
    room = min(width, height) // across
    for agent in range(count):
        number, place = divmod(agent, block**2)
        x, y = number % across * room, number // across * room
        yield (x + place % block, y + place // block), loop_acts(room - block - 1, acts)


def train_courses(width: int, height: int, count: int, acts: int, cars: int = 100) -> Iterator[Course]:
    """Trains of agents on loops, one close behind the other."""
    across = int((count / cars) ** 0.5 + 0.999)
    room = min(width, height) // across
    side = room - 2
    for agent in range(count):
        number, car = divmod(agent, cars)
        x, y = number % across * room, number // across * room
        yield loop_cell(x, y, side, car), loop_acts(side, acts, car)


def wandering_acts(rng: random.Random, x: int, y: int, width: int, height: int, acts: int) -> str:
    """Acts that go about a box from a cell of it on, a few steps in a direction and then in another."""
    course, left = [], acts
    while left:
        act = rng.choice("nesw")
        room = {"n": y, "e": width - 1 - x, "s": height - 1 - y, "w": x}[act]
        run = min(room, left, rng.randrange(1, 9))
        course.append(act * run)
        dx, dy = STEPS[act]
        x, y, left = x + dx * run, y + dy * run, left - run
    return "".join(course)


def winding_loop(width: int, height: int) -> list[Cell]:
    """A closed walk through all cells of a box of an even height: along the first row, then to and fro, and back along the first column."""
    cells = [(x, 0) for x in range(width)]
    for y in range(1, height):
        row = [(x, y) for x in range(1, width)]
        cells += reversed(row) if y % 2 else row
    return cells + [(0, y) for y in range(height - 1, 0, -1)]


def looping_courses(rng: random.Random, cells: list[Cell], left: int, top: int, count: int, beats: Sequence[int]) -> Iterator[Course]:
    """Trains of agents on a closed walk, mostly of eight, with gaps between them. All of them step on where a beat is 1, and wait where it is 0."""
    cells = cells[::-1] if rng.random() < 0.5 else cells
    first = rng.randrange(len(cells))
    cells = cells[first:] + cells[:first]
    act_by_step = {step: act for act, step in STEPS.items()}
    ways = [act_by_step[after[0] - x, after[1] - y] for (x, y), after in zip(cells, cells[1:] + cells[:1])]
    # Free cells lie behind agents, more of them behind the last of a train; there is one at the least.
    gaps = [0] * count
    for _ in range(len(cells) - count):
        gaps[rng.choice([rng.randrange(count), rng.randrange(count) // 8 * 8])] += 1
    place = 0
    for gap in gaps:
        at, course = place, []
        for beat in beats:
            course.append(ways[at] if beat else "-")
            at = (at + beat) % len(cells)
        yield (left + cells[place][0], top + cells[place][1]), "".join(course)
        place += 1 + gap


def region_courses(width: int, height: int, count: int, acts: int, seed: int, side: int = 204) -> list[Course]:
    """A hundred agents in each region of so many cells a side. In most regions each agent goes about a box of its own; in others all move as
    one, close together or apart, or they are trains on a winding loop."""
    rng = random.Random(f"regions {width} {height} {seed}")
    across = width // side
    kinds = (["boxes"] * 84 + ["apart"] * 6 + ["loop"] * 5 + ["close"] * 5) * (count // 10_000 + 1)
    rng.shuffle(kinds)
    courses: list[Course] = []
    for region, kind in zip(range(count // 100), kinds):
        left, top = region % across * side, region // across * side
        if kind == "boxes":
            for box in range(100):
                x, y = rng.randrange(20), rng.randrange(20)
                start = (left + box % 10 * 20 + x, top + box // 10 * 20 + y)
                courses.append((start, wandering_acts(rng, x, y, 20, 20, acts)))
        elif kind == "loop":
            courses += looping_courses(rng, winding_loop(60, 60), left, top, 100, [1] * acts)
        else:
            gap = 3 if kind == "apart" else 1
            room = side - 9 * gap
            x, y = rng.randrange(room), rng.randrange(room)
            course = wandering_acts(rng, x, y, room, room, acts)
            courses += [((left + x + i % 10 * gap, top + y + i // 10 * gap), course) for i in range(100)]
    rng.shuffle(courses)
    return courses


def loop_courses(width: int, height: int, count: int, acts: int, seed: int) -> list[Course]:
    """Trains on winding loops, 50 agents in each box of 32 cells a side and 30 in each of 8, as many as there is room for. In most steps all of a
    loop step on, so nearly each move is into a cell that another agent came to before, and none is a part of a rotation."""
    rng = random.Random(f"loops {width} {height} {seed}")
    half = height // 2
    wide = [(x, y, 32, 50) for y in range(0, half - 31, 32) for x in range(0, width - 31, 32)]
    narrow = [(x, y, 8, 30) for y in range(half, height - 7, 8) for x in range(0, width - 7, 8)]
    courses: list[Course] = []
    for left, top, side, agents in wide + narrow:
        beats = [int(rng.random() >= 0.02) for _ in range(acts)]
        courses += looping_courses(rng, winding_loop(side, side), left, top, agents, beats)
    courses = courses[:count]
    rng.shuffle(courses)
    return courses


def crowd_courses(width: int, height: int, count: int, acts: int, seed: int) -> list[Course]:
    """Agents that wander close together: each goes to a free cell beside it where there is one."""
    rng = random.Random(f"crowd {width} {height} {seed}")
    starts = [(at % width, at // width) for at in rng.sample(range(width * height), count)]
    now = list(starts)
    courses: list[list[str]] = [[] for _ in starts]
    for _ in range(acts):
        # a cell that somebody is in or goes to is nobody else's, so that none conflict
        taken = set(now)
        for agent, (x, y) in enumerate(now):
            choices = [(act, (x + dx, y + dy)) for act, (dx, dy) in STEPS.items()]
            free = [(act, c) for act, c in choices if 0 <= c[0] < width and 0 <= c[1] < height and c not in taken]
            act, cell = rng.choice(free) if free else ("-", (x, y))
            taken.add(cell)
            now[agent] = cell
            courses[agent].append(act)
    return [(start, "".join(course)) for start, course in zip(starts, courses)]


def heap_courses(width: int, height: int, count: int, acts: int) -> list[Course]:
    """Agents that all stand in one cell, and stay."""
    return [((width // 2, height // 2), "-" * acts)] * count


def stray_courses(width: int, height: int, count: int, acts: int, seed: int) -> Iterator[Course]:
    """Agents that wander about without a look at the others."""
    rng = random.Random(f"strays {width} {height} {seed}")
    for _ in range(count):
        x, y = rng.randrange(width), rng.randrange(height)
        yield (x, y), wandering_acts(rng, x, y, width, height, acts)


def plan_text(kind: str, width: int, height: int, seed: int, count: int, acts: int, number: int = 7) -> str:
    """The text of a plan on an open map, valid where its kind isn't one in which agents meet."""
    makers: dict[str, Maker] = {"boxes": box_courses, "waits": waiting_courses, "blocks": block_courses, "trains": train_courses, "heap": heap_courses}
    seeded: dict[str, Seeded] = {"regions": region_courses, "crowd": crowd_courses, "loops": loop_courses, "strays": stray_courses}
    courses = seeded[kind](width, height, count, acts, seed) if kind in seeded else makers[kind](width, height, count, acts)
    lines = [f"agent {x} {y} {course or '='}" for (x, y), course in courses]
    return "\n".join(["mapf-plan 1", f"number {number}", f"agents {len(lines)}", *lines, ""])


def with_late_fault(text: str) -> str:
    """The same plan, but that the last act but one of an agent leads the other way: of one that another follows close by with the same acts, or
    else of the last."""
    lines = text.split("\n")
    fields = [line.split(" ") for line in lines[3:-1]]
    course_at = {(int(x), int(y)): course for _, x, y, course in fields}
    chosen = len(fields) - 1
    for agent, (_, x, y, course) in enumerate(fields):
        dx, dy = STEPS.get(course[-2:-1], (0, 0))
        if (dx or dy) and course_at.get((int(x) - dx, int(y) - dy)) == course:
            chosen = agent
            break
    line = lines[3 + chosen]
    other = {"n": "s", "s": "n", "e": "w", "w": "e", "-": "n"}
    lines[3 + chosen] = line[:-2] + other[line[-2]] + line[-1]
    return "\n".join(lines)


def moves_of(text: str) -> tuple[list[Cell], list[list[tuple[int, Cell]]]]:
    """The starts of a plan's agents, and for each step who moves in it and into which cell."""
    starts, courses = [], []
    for line in text.split("\n")[3:-1]:
        _, x, y, acts = line.split(" ")
        starts.append((int(x), int(y)))
        courses.append(acts.strip("="))
    now = list(starts)
    moves: list[list[tuple[int, Cell]]] = []
    for step in range(max(map(len, courses), default=0)):
        moves.append([])
        for agent, acts in enumerate(courses):
            if acts[step : step + 1] in STEPS:
                dx, dy = STEPS[acts[step]]
                now[agent] = (now[agent][0] + dx, now[agent][1] + dy)
                moves[-1].append((agent, now[agent]))
    return starts, moves


def event_lines(text: str, seed: int, mishaps: float) -> Iterator[str]:
    """Events that bring a plan without rotations to its end: each move after the message that it waits for. `mishaps` is the share of the
    moves before which a write is torn, the agent restarts and hears again, and another agent hears an old message."""
    rng = random.Random(f"events {seed} {mishaps}")
    starts, moves = moves_of(text)
    last = {cell: (agent, 0) for agent, cell in enumerate(starts)}
    done, said = [0] * len(starts), 0
    for entered in moves:
        needs = {}
        for agent, cell in entered:
            needs[agent] = last.get(cell)
        for agent, cell in entered:
            last[cell] = (agent, done[agent] + 1)
        # who enters a cell that another leaves in the same step moves after that one
        waiting = [agent for agent, _ in entered]
        while waiting:
            agent = waiting[-1]
            other = needs.get(agent)
            if agent not in needs:
                waiting.pop()
                continue
            if other and other[0] != agent and other[1] >= done[other[0]]:
                waiting.append(other[0])
                continue
            waiting.pop()
            del needs[agent]
            message = None
            if other and other[0] != agent:
                yield f"say {other[0]}"
                message, said = said, said + 1
                yield f"deliver {agent} {message}"
            if rng.random() < mishaps:
                stored = rng.randrange(10)
                yield from (f"tear {agent} {stored}", f"start {agent}", f"restart {agent}")
                if message is not None:
                    yield f"deliver {agent} {message}"
                if said:
                    yield f"deliver {rng.randrange(len(starts))} {rng.randrange(said)}"
            yield from (f"start {agent}", f"finish {agent}")
            done[agent] += 1


def events_text(text: str, seed: int, count: int, mishaps: float = 0.0, version: int = 1) -> str:
    """The text of the first so many of these events, which agents answer with messages of this version."""
    return "\n".join([f"mapf-events {version}", *itertools.islice(event_lines(text, seed, mishaps), count), ""])


def pacing_plan_text(moves: int) -> str:
    """The text of a plan of one agent that goes to and fro, so many moves."""
    return "\n".join(["mapf-plan 1", "number 7", "agents 1", f"agent 0 0 {'ew' * (moves // 2)}", ""])


def restarts_text(moves: int, restarts: int) -> str:
    """The text of events that bring this agent to its end, and then restart it so often."""
    return "\n".join(["mapf-events 1", *["start 0", "finish 0"] * moves, *["restart 0"] * restarts, ""])


def main() -> None:
    parser = argparse.ArgumentParser()
    parser.add_argument("kind", choices=(*sorted({*KINDS, *WALKED_KINDS, "dense"}), "scen", *PLAN_KINDS, *FAULTY_KINDS))
    parser.add_argument("width", type=int)
    parser.add_argument("height", type=int)
    parser.add_argument("--seed", type=int, default=1)
    parser.add_argument("--rows", type=int, default=100_000)
    parser.add_argument("--agents", type=int, default=1_000)
    parser.add_argument("--acts", type=int, default=400)
    given = parser.parse_args()
    if given.kind == "scen":
        sys.stdout.write(scen_text(given.width, given.height, given.seed, given.rows))
    elif given.kind in PLAN_KINDS + FAULTY_KINDS:
        sys.stdout.write(plan_text(given.kind, given.width, given.height, given.seed, given.agents, given.acts))
    else:
        sys.stdout.write(map_text(given.kind, given.width, given.height, given.seed))


if __name__ == "__main__":
    main()
