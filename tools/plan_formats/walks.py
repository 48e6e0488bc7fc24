"""What a plan says, as cells: where each agent stands at each time. A reader of a format makes this record, a writer writes it.

Cells are kept as they were read, in arrays, and the acts that lead from one to the next are computed of them in one place. So what is
written of the acts can be compared with the cells.
"""
import dataclasses
from array import array
from itertools import accumulate, islice
from operator import sub
from typing import Callable, Iterable, Optional, Sequence

from mapf.numbers import MOST_NUMBER

# What a plan and a map may have.
MOST_AGENTS = 10_000
MOST_ACTS = 65_535
MOST_ACTS_IN_ALL = 16_777_216
MOST_SIDE = 65_535
MOST_CELLS = 4_194_304

Cell = tuple[int, int]
# Columns or rows, one for each time from 0: of two bytes each, or of four where one is negative, as a planner's mistake may make it.
Numbers = array
NARROW, WIDE = "H", "i"

STEPS = {"n": (0, -1), "e": (1, 0), "s": (0, 1), "w": (-1, 0), "-": (0, 0)}
ACT_OF = {step: act for act, step in STEPS.items()}
# By the byte of an act, the signed byte that it adds to the column, and the one that it adds to the row.
EAST_OF, SOUTH_OF = (bytes(STEPS.get(chr(byte), (0, 0))[axis] % 256 for byte in range(256)) for axis in (0, 1))


class Fault(Exception):
    """What is wrong with a text, and in which of its lines."""

    def __init__(self, line: int, what: str):
        super().__init__(line, what)
        self.line, self.what = line, what


class Unsolved(Fault):
    """The text says that its planner found no plan."""


class StartOffMaps(Fault):
    """An agent starts in a cell that no map has, so no plan says it. The walks are those of the agents before it."""

    def __init__(self, line: int, what: str, before: "list[Walk]"):
        super().__init__(line, what)
        self.before = before


@dataclasses.dataclass(frozen=True)
class Claim:
    """What a text says of its costs, and what its cells come to as its planner counts."""

    line: int
    # The name in the text, as `soc`.
    name: str
    said: str
    counted: int
    # Whether it is a sum of costs.
    is_cost: bool = False

    @property
    def is_right(self) -> bool:
        try:
            return float(self.said) == self.counted
        except ValueError:
            return False

    @property
    def what(self) -> str:
        return f"{self.name} is {shown(self.said.encode())}, {self.counted} was due by its cells"


@dataclasses.dataclass
class Found:
    """What a reader found beside the cells: what is to be said of them, each with its line, and what the text claims."""

    remarks: list[tuple[int, str]] = dataclasses.field(default_factory=list)
    claims: list[Claim] = dataclasses.field(default_factory=list)


@dataclasses.dataclass(frozen=True)
class Task:
    """A row of a scenario: where its agent starts, and where it is to end."""

    start: Cell
    goal: Cell


@dataclasses.dataclass(frozen=True)
class Given:
    """What a reader is given beside the text: the size of the map, or the greatest that there are, and the rows of a scenario. What it
    finds beside the cells it puts down here."""

    width: int = MOST_SIDE
    height: int = MOST_SIDE
    has_map: bool = False
    tasks: Optional[Sequence[Task]] = None
    # How many agents are due, where that is known.
    agents: Optional[int] = None
    # Whether an agent waits at times that a text leaves out.
    fills_waits: bool = False
    found: Found = dataclasses.field(default_factory=Found)


@dataclasses.dataclass
class Walk:
    """An agent's cells by time, the acts that lead from each to the next, and where the cell of a time stands: in which line."""

    xs: Numbers
    ys: Numbers
    acts: str
    line_at: Callable[[int], int]

    @property
    def start(self) -> Cell:
        return self.xs[0], self.ys[0]

    @property
    def end(self) -> Cell:
        return self.xs[-1], self.ys[-1]


def shown(text: bytes, most: int = 40) -> str:
    """A piece of a text as it stands in the line of a refusal."""
    return repr((text if len(text) <= most else text[:most] + b"..").decode(errors="replace"))


def read_number(digits: bytes, most: int = MOST_NUMBER) -> int:
    """What digits say, and no more than one above the most: Python refuses to read thousands of them."""
    text = digits.lstrip(b"0")
    return min(int(text or b"0"), most + 1) if len(text) <= 20 else most + 1


def walk_of(cells: Sequence[Cell]) -> Walk:
    """The walk along these cells, one for each time, that stand in no text. A KeyError says that a step is none."""
    xs, ys = (array(NARROW, numbers) for numbers in zip(*cells))
    return Walk(xs, ys, acts_of(xs, ys), lambda time: 0)


def acts_of(xs: Numbers, ys: Numbers) -> str:
    """The acts between these cells. A KeyError says that a step is none."""
    steps = zip(map(sub, islice(xs, 1, None), xs), map(sub, islice(ys, 1, None), ys))
    return "".join(map(ACT_OF.__getitem__, steps))


def narrowest(numbers: Iterable[int], most: int = MOST_SIDE) -> Numbers:
    """The numbers in as few bytes as they need. An OverflowError says that one is too large, or too far below 0."""
    kept = list(numbers)
    try:
        return array(NARROW, kept)
    except OverflowError:
        if min(kept) < -MOST_SIDE or max(kept) > most:
            raise
        return array(WIDE, kept)


def extended(numbers: Numbers, more: Numbers) -> Numbers:
    """The numbers with more behind them, the wider of the two."""
    if numbers.typecode == more.typecode:
        numbers.extend(more)
        return numbers
    return array(WIDE, numbers) + array(WIDE, more)


def walked(agent: int, line: int, start: Cell, acts: bytes) -> tuple[Numbers, Numbers]:
    """The cells to which acts lead."""
    lists = []
    for number, table, names in zip(start, (EAST_OF, SOUTH_OF), ("column", "row")):
        steps = array("b", acts.translate(table))
        try:
            lists.append(narrowest(accumulate(steps, initial=number)))
        except OverflowError:
            places = accumulate(steps, initial=number)
            time, place = next((time, place) for time, place in enumerate(places) if not -MOST_SIDE <= place <= MOST_SIDE)
            raise Fault(line, f"agent {agent} comes to {names} {place} at time {time}, one up to {MOST_SIDE - 1} was due") from None
    return lists[0], lists[1]


class Gathering:
    """Takes the walk of each agent once, and refuses what no plan may have."""

    def __init__(self, given: Given):
        self.given = given
        self.walks: dict[int, Walk] = {}
        self.acts = 0

    def expect(self, agent: int, line: int) -> None:
        """Refuses a number that is no agent's, and one that came before."""
        if agent >= MOST_AGENTS:
            raise Fault(line, f"agent {agent} is one too many, numbers from 0 to {MOST_AGENTS - 1} were due")
        if agent in self.walks:
            raise Fault(line, f"agent {agent} comes a second time, each agent once was due")

    def add(self, agent: int, xs: Numbers, ys: Numbers, line: int, line_of: Optional[Callable[[int], int]] = None) -> None:
        """Takes a walk, all of it in one line, or each time in a line of its own."""
        line_at = line_of or (lambda time: line)
        self.expect(agent, line)
        count = len(xs) - 1
        self.acts += count
        if count > MOST_ACTS:
            raise Fault(line_at(MOST_ACTS + 1), f"agent {agent} has more than {MOST_ACTS} acts, no more were due")
        if self.acts > MOST_ACTS_IN_ALL:
            raise Fault(line_at(0), f"with agent {agent} there are {self.acts} acts in all, at most {MOST_ACTS_IN_ALL} were due")
        self.refuse_too_far_cells(agent, xs, ys, line_at)
        try:
            acts = acts_of(xs, ys)
        except KeyError:
            raise jump(agent, xs, ys, line_at) from None
        self.walks[agent] = Walk(xs, ys, acts, line_at)

    def refuse_too_far_cells(self, agent: int, xs: Numbers, ys: Numbers, line_at: Callable[[int], int]) -> None:
        """What lies off one map may lie on another, or be a planner's mistake, as a negative cell is. The checker says so, and not a reader."""
        if max(xs) < MOST_SIDE and max(ys) < MOST_SIDE:
            return
        time = next(time for time, (x, y) in enumerate(zip(xs, ys)) if x >= MOST_SIDE or y >= MOST_SIDE)
        due = f"numbers below {MOST_SIDE}, the greatest side of a map, were due"
        raise Fault(line_at(time), f"agent {agent} stands in column {xs[time]}, row {ys[time]} at time {time}, {due}")

    def whole(self, line: int) -> list[Walk]:
        """All walks, agent 0 first. The line is the last of the text."""
        if not self.walks:
            raise Fault(line, "the text has no agent, one at least was due")
        missing = next((agent for agent in range(len(self.walks)) if agent not in self.walks), None)
        if missing is not None:
            raise Fault(line, f"agent {missing} is missing, each agent from 0 to {max(self.walks)} was due")
        walks = [self.walks[agent] for agent in range(len(self.walks))]
        refuse_starts_off_maps(walks)
        refuse_a_map_too_large(walks)
        return walks


def refuse_starts_off_maps(walks: Sequence[Walk]) -> None:
    """A plan says where agents start, and has no negative numbers."""
    for agent, walk in enumerate(walks):
        if min(walk.start) < 0:
            what = f"agent {agent} starts in column {walk.start[0]}, row {walk.start[1]}, a cell of a map was due: no plan starts elsewhere"
            raise StartOffMaps(walk.line_at(0), what, list(walks[:agent]))


def refuse_a_map_too_large(walks: Sequence[Walk]) -> None:
    """No map has both a cell so far east and one so far south."""
    (left, top), (width, height) = corner_of(walks), size_of(walks)
    if width * height > MOST_CELLS or max(width, height) > MOST_SIDE:
        last = next(it for it in walks if max(it.xs) == left + width - 1 or max(it.ys) == top + height - 1)
        raise Fault(last.line_at(0), f"the cells need a map of {width} columns and {height} rows, at most {MOST_CELLS} cells were due")


def jump(agent: int, xs: Numbers, ys: Numbers, line_at: Callable[[int], int]) -> Fault:
    """The first step that is none."""
    for time in range(1, len(xs)):
        step = (xs[time] - xs[time - 1], ys[time] - ys[time - 1])
        if step not in ACT_OF:
            came = f"agent {agent} comes from column {xs[time - 1]}, row {ys[time - 1]} to column {xs[time]}, row {ys[time]} at time {time}"
            return Fault(line_at(time), f"{came}, the same cell or one beside it was due")
    raise AssertionError("all steps are acts")


def corner_of(walks: Sequence[Walk]) -> Cell:
    """The least column and the least row of all cells, or 0 where none is negative. Narrow numbers aren't looked at: they can't be."""
    left, top = (min((min(it) for it in lists if it.typecode == WIDE), default=0) for lists in ([it.xs for it in walks], [it.ys for it in walks]))
    return min(0, left), min(0, top)


def size_of(walks: Sequence[Walk]) -> tuple[int, int]:
    """The least width and height of a map that has all cells of these walks, once they are moved so that none is negative."""
    left, top = corner_of(walks)
    return max(max(walk.xs) for walk in walks) + 1 - left, max(max(walk.ys) for walk in walks) + 1 - top


def moved(walks: Sequence[Walk]) -> list[Walk]:
    """The walks with their cells moved so that none is negative. Their acts are the same."""
    left, top = corner_of(walks)
    if not left and not top:
        return list(walks)
    return [
        dataclasses.replace(walk, xs=array(NARROW, (x - left for x in walk.xs)), ys=array(NARROW, (y - top for y in walk.ys))) for walk in walks
    ]


def last_time(walks: Sequence[Walk]) -> int:
    """The last time of which any agent has a cell."""
    return max(len(walk.xs) for walk in walks) - 1


def makespan(walks: Sequence[Walk]) -> int:
    """The time from which all agents stay for ever."""
    return max(len(walk.acts.rstrip("-")) for walk in walks)


def sum_of_costs(walks: Sequence[Walk]) -> int:
    """The sum of the times from which each agent stays for ever."""
    return sum(len(walk.acts.rstrip("-")) for walk in walks)


def claim_of_makespan(stated: bytes, line: int, name: str, walks: Sequence[Walk]) -> Claim:
    """What a text says of its makespan: the last time, or the one from which all stay. Where its times end before, it may have been cut."""
    ends = (last_time(walks), makespan(walks))
    said = read_number(stated) if stated.isdigit() else None
    if said is not None and said > ends[0]:
        raise Fault(line, f"the makespan is {shown(stated)}, {ends[0]} was due by its cells: their end may be cut off")
    return Claim(line, name, stated.decode(errors="replace"), said if said in ends else ends[0])


def padded(walks: Sequence[Walk]) -> list[Walk]:
    """The walks with waits behind those that end before the last."""
    count = last_time(walks) + 1

    def longer(walk: Walk) -> Walk:
        more = count - len(walk.xs)
        ends = [numbers + array(numbers.typecode, [numbers[-1]]) * more for numbers in (walk.xs, walk.ys)]
        return dataclasses.replace(walk, xs=ends[0], ys=ends[1], acts=walk.acts + "-" * more)

    return [longer(walk) for walk in walks]


def difference(walks: Sequence[Walk], others: Sequence[Walk]) -> Optional[str]:
    """The first agent and time at which the cells of two records differ."""
    if len(walks) != len(others):
        return f"{len(others)} agents in place of {len(walks)}"
    for agent, (one, other) in enumerate(zip(walks, others)):
        if (one.xs, one.ys) != (other.xs, other.ys):
            cells = zip(zip(one.xs, one.ys), zip(other.xs, other.ys))
            time = next((time for time, (cell, it) in enumerate(cells) if cell != it), min(len(one.xs), len(other.xs)))
            return f"agent {agent} at time {time}"
    return None
