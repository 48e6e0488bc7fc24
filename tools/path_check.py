"""Holds a plan that was written against the cells that were read, by what the proved program says of the plan: `mapf path`."""
import itertools
from array import array
from typing import Iterator, Optional, Sequence

from mapf.faults import Failed, read_words
from mapf.plans import OF_AN_AGENT
from mapf.program import FAULT, Program
from plan_formats import mapf_plan
from plan_formats.walks import NARROW, Cell, Task, Walk, corner_of, last_time, moved, size_of
from whole_file import draft

# How many numbers of the cells that are due are held at once.
AT_ONCE = 500_000


def due_lines(walks: Sequence[Walk]) -> Iterator[bytes]:
    """The lines of the cells that were read, time by time. An agent that has ended stays."""
    count = last_time(walks) + 1
    width = 2 * len(walks)
    most = max(size_of(walks))
    numerals = [str(number) for number in range(most)]
    block = max(1, AT_ONCE // width)
    lists = [numbers for walk in walks for numbers in (walk.xs, walk.ys)]
    for begin in range(0, count, block):
        size = min(block, count - begin)
        cells = array(NARROW, bytes(2 * width * size))
        for place, numbers in enumerate(lists):
            part = numbers[begin : begin + size]
            cells[place::width] = part + array(NARROW, [numbers[-1]]) * (size - len(part))
        for time in range(size):
            row = map(numerals.__getitem__, cells[time * width : (time + 1) * width])
            yield f"{begin + time} {' '.join(row)}\n".encode()


def first_difference(lines: Iterator[bytes], walks: Sequence[Walk]) -> Optional[str]:
    """Where the lines of `mapf path` differ from the cells."""
    for time, (line, due) in enumerate(itertools.zip_longest(lines, due_lines(walks), fillvalue=b"")):
        if line != due:
            fields = enumerate(itertools.zip_longest(line.split(), due.split()))
            field = next((field for field, (it, other) in fields if it != other), 0)
            return f"agent {max(field - 1, 0) // 2} at time {time}"
    return None


def other_length(plan_file: str, walks: Sequence[Walk]) -> Optional[str]:
    """The first agent whose acts are not one less than its cells: waits at an end are not seen in where agents stand."""
    with open(plan_file, "rb") as lines:
        texts = [line.split()[-1] for line in lines][3:]
    lengths = [0 if acts == b"=" else len(acts) for acts in texts]
    pairs = enumerate(itertools.zip_longest(lengths, (len(walk.xs) - 1 for walk in walks)))
    return next((f"agent {agent} has {acts} acts in place of {due}" for agent, (acts, due) in pairs if acts != due), None)


def said_of_the_path(program: Program, map_file: str, plan_file: str, walks: Sequence[Walk]) -> Optional[str]:
    """Compares each cell and time. Where the program has nothing to say, since a start or a step is bad on the map, the answer is that fault."""
    said = program.ask(["path", "--", map_file, plan_file], lambda lines: first_difference(lines, walks))
    if said.status == FAULT and read_words(said.told).name in OF_AN_AGENT:
        return said.words
    if said.status:
        raise Failed(f"`mapf path` ended with status {said.status}: {said.words or 'nothing'}")
    found = said.answer or other_length(plan_file, walks)
    if found:
        raise Failed(f"the plan differs from what was read: {found}; nothing is written, and this is a fault of the converter")
    return None


def open_map(walks: Sequence[Walk]) -> Iterator[bytes]:
    """The text of a map without walls that has all these cells."""
    width, height = size_of(walks)
    yield f"type octile\nheight {height}\nwidth {width}\nmap\n".encode()
    yield from itertools.repeat(b"." * width + b"\n", height)


def hold_on_open_map(program: Program, plan_file: str, walks: Sequence[Walk]) -> None:
    """Compares a plan with the cells that were read, on a map without walls that is as large as it needs. No map has negative cells: where a
    planner's mistake leads there, the cells are compared once they are moved, and the plan with the one of the moved cells."""
    corner = corner_of(walks)
    if corner == (0, 0):
        hold_where_all_is_open(program, plan_file, walks)
        return
    there = moved(walks)
    with draft(mapf_plan.write(there, 0), None) as copy:
        hold_where_all_is_open(program, str(copy.path), there)
        if agents_of(plan_file, corner) != agents_of(str(copy.path), (0, 0)):
            raise Failed("the plan differs from what was read once it is moved; this is a fault of the converter")


def hold_where_all_is_open(program: Program, plan_file: str, walks: Sequence[Walk]) -> None:
    with draft(open_map(walks), None) as wide:
        fault = said_of_the_path(program, str(wide.path), plan_file, walks)
    if fault:
        raise Failed(f"the plan differs from what was read: `mapf path` says {fault} on an open map; this is a fault of the converter")


def agents_of(plan_file: str, corner: Cell) -> list[tuple[int, int, str]]:
    """The start and the acts of each agent of a plan, counted from a corner."""
    with open(plan_file, encoding="ascii") as lines:
        parts = [line.split() for line in lines][3:]
    return [(int(x) - corner[0], int(y) - corner[1], acts) for _, x, y, acts in parts]


def start_difference(walks: Sequence[Walk], tasks: Sequence[Task], scen: str) -> Optional[tuple[int, str]]:
    """The line in which the first agent's start stands that isn't that of its row, and what is wrong with it."""
    for agent, walk in enumerate(walks):
        if agent >= len(tasks):
            return walk.line_at(0), f"agent {agent} has no row in {scen}, at most {len(tasks)} agents were due"
        if walk.start != tasks[agent].start:
            return walk.line_at(0), other_cell(agent, "starts", walk.start, tasks[agent].start, scen)
    return None


def goal_difference(walks: Sequence[Walk], tasks: Sequence[Task], scen: str) -> Optional[tuple[int, str]]:
    """The line in which the first agent's end stands that isn't the goal of its row, and what is wrong with it."""
    for agent, (walk, task) in enumerate(zip(walks, tasks)):
        if walk.end != task.goal:
            return walk.line_at(len(walk.acts)), other_cell(agent, "ends", walk.end, task.goal, scen)
    return None


def other_cell(agent: int, verb: str, cell: Cell, due: Cell, scen: str) -> str:
    return f"agent {agent} {verb} in column {cell[0]}, row {cell[1]}, column {due[0]}, row {due[1]} was due by row {agent} of {scen}"
