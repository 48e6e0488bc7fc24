"""Plans, and proofs that none costs less."""
import random
from typing import Optional, Sequence

from generate import STEPS

Cell = tuple[int, int]
Walk = list[Cell]


def distance(one: Cell, other: Cell) -> int:
    return abs(one[0] - other[0]) + abs(one[1] - other[1])


def shortest_walk(rows: Sequence[str], start: Cell, goal: Cell) -> Optional[Walk]:
    """The cells of a shortest walk through floor. A step leads nearer to the goal, or else the walk
    will be two steps longer: those wait apart."""
    before: dict[Cell, Cell] = {}
    now, later = [(start, start)], []
    while now:
        cell, came_from = now.pop()
        if cell not in before:
            before[cell] = came_from
            if cell == goal:
                return traced(before, goal)
            for dx, dy in STEPS.values():
                to = cell[0] + dx, cell[1] + dy
                if to not in before and is_floor(rows, to):
                    is_nearer = distance(to, goal) < distance(cell, goal)
                    (now if is_nearer else later).append((to, cell))
        if not now:
            now, later = later, []
    return None


def is_floor(rows: Sequence[str], cell: Cell) -> bool:
    x, y = cell
    return 0 <= y < len(rows) and 0 <= x < len(rows[0]) and rows[y][x] == "."


def traced(before: dict[Cell, Cell], cell: Cell) -> Walk:
    walk = [cell]
    while before[cell] != cell:
        cell = before[cell]
        walk.append(cell)
    return walk[::-1]


def at(walk: Walk, time: int) -> Cell:
    return walk[min(time, len(walk) - 1)]


class Taken:
    """Where agents are at each time until all have come to their ends, and their steps."""

    def __init__(self, until: int) -> None:
        self.times = range(until)
        self.cells: set[tuple[int, Cell]] = set()
        self.steps: set[tuple[int, Cell, Cell]] = set()

    def is_free(self, walk: Walk) -> bool:
        """Whether an agent that goes so meets nobody, and exchanges cells with nobody."""
        if any((time, at(walk, time)) in self.cells for time in self.times):
            return False
        steps = enumerate(zip(walk, walk[1:]))
        return not any((time, to, cell) in self.steps for time, (cell, to) in steps)

    def add(self, walk: Walk) -> None:
        self.cells.update((time, at(walk, time)) for time in self.times)
        self.steps.update((time, *step) for time, step in enumerate(zip(walk, walk[1:])))


class Crossing:
    """Agents along even rows to the east and as many along even columns to the south, each straight
    from the diagonal x + y = side - 1 to the edge. The n-th of both come to one cell at a time, so
    one of them has to wait: no plan costs less than its walks and one for each pair."""

    def __init__(self, side: int, pairs: int, time: int) -> None:
        self.side, self.time = side, time
        self.rows = range(side - 2 * pairs, side, 2)
        self.columns = [side - 1 + time - y for y in self.rows]

    def walks(self) -> list[Walk]:
        """Those along rows wait at first, so that no two conflict."""
        side = self.side
        along_rows = [[(x, y) for x in range(side - 1 - y, side)] for y in self.rows]
        along_columns = [[(x, y) for y in range(side - 1 - x, side)] for x in self.columns]
        return [walk[:1] + walk for walk in along_rows] + along_columns

    def split_lines(self) -> list[str]:
        """A node for each pair: one of the two isn't where they meet."""
        pairs = zip(self.rows, self.columns)
        count = len(self.rows)
        return [
            f"vertex {n} {count + n} {self.time} {x} {y}" for n, (y, x) in enumerate(pairs)
        ]

    def clear(self, rows: Sequence[str]) -> list[str]:
        """The rows of a map, in which the cells of the walks are floor."""
        cleared = [list(row) for row in rows]
        for walk in self.walks():
            for x, y in walk:
                cleared[y][x] = "."
        return ["".join(row) for row in cleared]


def walks_beside(rows: Sequence[str], walks: list[Walk], seed: int, count: int) -> list[Walk]:
    """Walks, and shortest ones of others beside, so many in all, of which no two conflict."""
    width, height = len(rows[0]), len(rows)
    rng = random.Random(f"walks {width} {height} {seed}")
    taken = Taken(2 * (width + height))
    for walk in walks:
        taken.add(walk)
    while len(walks) < count:
        start, goal = ((rng.randrange(width), rng.randrange(height)) for _ in range(2))
        if not (is_floor(rows, start) and is_floor(rows, goal)):
            continue
        walk = shortest_walk(rows, start, goal)
        if walk and len(walk) < len(taken.times) and taken.is_free(walk):
            taken.add(walk)
            walks.append(walk)
    return walks


def tree(splits: Sequence[str]) -> list[str]:
    """A node, and both its children, split on by the others."""
    if not splits:
        return ["leaf"]
    below = tree(splits[1:])
    return [splits[0], *below, *below]


def repeated(below: list[str], copies: int, rows: Sequence[str], agents: int) -> list[str]:
    """So many copies of a tree, under splits by a blocked cell, which ask nothing of anybody. Of the
    copies below a split each child has a quarter at least."""
    rng = random.Random(f"copies {copies}")
    x, y = next((x, y) for y, row in enumerate(rows) for x in range(len(row)) if row[x] == "@")
    lines, left = [], [copies]
    while left:
        count = left.pop()
        if count == 1:
            lines += below
            continue
        one, other = rng.sample(range(agents), 2)
        lines.append(f"vertex {one} {other} {rng.randrange(len(rows))} {x} {y}")
        least = max(1, count // 4)
        first = rng.randint(least, count - least)
        left += [count - first, first]
    return lines


def proof_text(bound: int, lines: Sequence[str]) -> str:
    return "\n".join(["mapf-proof 1", "objective cost", f"bound {bound}", *lines, ""])


def parts_of(text: str) -> tuple[list[str], list[str]]:
    """The lines of a proof's head, and those of its tree."""
    lines = text.split("\n")[:-1]
    return lines[:3], lines[3:]


def scenario_text(rows: Sequence[str], seed: int, agents: int) -> str:
    """So many rows between cells of floor from which ways lead to the others, no two with a cell in
    common."""
    rng = random.Random(f"scenario {seed}")
    cells = [(x, y) for y, row in enumerate(rows) for x in range(len(row)) if row[x] == "."]
    middle = min(cells, key=lambda cell: distance(cell, (len(rows[0]) // 2, len(rows) // 2)))
    near = [cell for cell in cells if shortest_walk(rows, middle, cell)]
    ends = rng.sample(near, 2 * agents)
    size = f"0\tm.map\t{len(rows[0])}\t{len(rows)}"
    pairs = zip(ends[::2], ends[1::2])
    lines = [f"{size}\t{x}\t{y}\t{u}\t{v}\t0" for (x, y), (u, v) in pairs]
    return "\n".join(["version 1", *lines, ""])
