"""A line of `u d l r w` for each agent, as in the MAPF tracker's column `solution_plan`.

`w` is a wait; an agent without acts has an empty line. Starts are left out, so --scen is needed.

Nothing says whether `u` leads to the row above or to the row below. The goals of the scenario
settle it: the way counts that leads more agents to their goals, and of two equal ones the one by
which more agents stay in the rows of the map. If not all come to their goals by it, that is said.
If both ways are equal, the text is refused. Here `d` leads to the north, where the row number
falls:

```console
$ cat examples/planners/corner.tracker
dr
rr
$ python3 tools/convert.py examples/planners/corner.tracker --scen examples/corner.scen --number 7
convert: examples/planners/corner.tracker is read as tracker
mapf-plan 1
number 7
agents 2
agent 0 1 ne
agent 0 0 ee
convert: 2 agents, 4 acts
```

An empty line at the end is an agent without acts, if the scenario has no rows for more agents; else
it is refused, since it may be no line. Going back, `u` leads to the north, and that is said:

```console
$ python3 tools/convert.py examples/corner.plan --to tracker
ur
rr
convert: u is written for north, where the row number falls; starts are left out
```
"""
from itertools import accumulate
from typing import Iterator, Sequence

from plan_formats import Format
from plan_formats.texts import lines_of
from plan_formats.walks import Fault, Gathering, Given, Task, Walk, shown, walked

LETTERS = b"udlrw"
# The acts that the letters are where `u` leads to the row above, as on a screen, and where it leads to the row below.
UP_IS_NORTH, UP_IS_SOUTH = b"nswe-", b"snwe-"
WAYS = ((UP_IS_NORTH, -1, "above"), (UP_IS_SOUTH, 1, "below"))
BACK = str.maketrans(UP_IS_NORTH.decode(), LETTERS.decode())


def settle_blank_end(lines: list[bytes], given: Given) -> None:
    """An empty line is an agent without acts. At the end it may be no line at all, where there are rows for more agents and nobody says
    how many are due."""
    due = given.agents
    if due is not None and not b"".join(lines[due:]):
        del lines[due:]
    if len(lines) > 1 and not lines[-1] and len(lines) < len(given.tasks or ()) and due != len(lines):
        count = len(b"\n".join(lines).rstrip(b"\n").split(b"\n"))
        both = f"the text may have {count} agents and a blank end, or {len(lines)} agents, the last without acts"
        raise Fault(len(lines), f"{both}; no empty line at the end was due, or a scenario of as many rows as there are agents")


def read_lines(data: bytes, given: Given) -> list[bytes]:
    """The letters of each agent. Empty lines behind those of all rows are a blank end."""
    lines, most = [], len(given.tasks or ())
    for number, line in lines_of(data):
        other = line.translate(None, LETTERS)
        if other:
            raise Fault(number, f"{shown(other[:1])} stands in the acts of agent {number - 1}, u, d, l, r or w was due")
        lines.append(line)
    while len(lines) > most and not lines[-1]:
        lines.pop()
    if len(lines) > most:
        raise Fault(most + 1, f"agent {most} has no row in the scenario, at most {most} agents were due")
    settle_blank_end(lines, given)
    return lines


def end_of(line: bytes, task: Task, sign: int) -> tuple[int, int]:
    """Where an agent ends where `u` adds this to its row."""
    return task.start[0] + line.count(b"r") - line.count(b"l"), task.start[1] + sign * (line.count(b"u") - line.count(b"d"))


def stays(line: bytes, task: Task, sign: int, height: int) -> bool:
    """Whether an agent stays in the rows of the map where `u` adds this to its row."""
    step = {ord("u"): sign, ord("d"): -sign}
    rows = list(accumulate((step.get(letter, 0) for letter in line), initial=task.start[1]))
    return 0 <= min(rows) and max(rows) < height


def settled(lines: Sequence[bytes], tasks: Sequence[Task], given: Given) -> bytes:
    """The acts of the letters: the way of `u` that leads more agents to their goals, or that keeps more of them on the map. Where that isn't
    the goals of all agents, it is said."""
    if not any(letter in line for line in lines for letter in (b"u", b"d")):
        return UP_IS_NORTH
    pairs = list(zip(lines, tasks))
    arrived = [sum(end_of(line, task, sign) == task.goal for line, task in pairs) for _, sign, _ in WAYS]
    ranks = arrived if arrived[0] != arrived[1] else [sum(stays(*pair, sign, given.height) for pair in pairs) for _, sign, _ in WAYS]
    if ranks[0] == ranks[1]:
        counts = " and ".join(f"where u leads to the row {name} {count}" for count, (_, _, name) in zip(arrived, WAYS))
        raise Fault(1, f"the goals don't settle which way u leads: {counts} of {len(lines)} agents come to their goals, more one way were due")
    way = WAYS[ranks[1] > ranks[0]]
    missing = next((agent for agent, (line, task) in enumerate(pairs) if end_of(line, task, way[1]) != task.goal), None)
    if missing is not None:
        what = f"u is read as leading to the row {way[2]}: agent {missing} doesn't come to its goal, but {max(arrived)} of {len(lines)} agents do"
        given.found.remarks.append((missing + 1, what))
    elif ranks is not arrived:
        given.found.remarks.append((1, f"u is read as leading to the row {way[2]}: the other way, an agent leaves the map"))
    return way[0]


def read_acts(lines: Sequence[bytes], tasks: Sequence[Task], letters: bytes, given: Given) -> list[Walk]:
    gathering, table = Gathering(given), bytes.maketrans(LETTERS, letters)
    for agent, (line, task) in enumerate(zip(lines, tasks)):
        gathering.add(agent, *walked(agent, agent + 1, task.start, line.translate(table)), agent + 1)
    return gathering.whole(max(len(lines), 1))


def read(data: bytes, given: Given) -> list[Walk]:
    tasks = given.tasks or ()
    lines = read_lines(data, given)
    return read_acts(lines, tasks, settled(lines, tasks, given), given)


def read_back(data: bytes, given: Given) -> list[Walk]:
    tasks = given.tasks or ()
    return read_acts(read_lines(data, given), tasks, UP_IS_NORTH, given)


def write(walks: Sequence[Walk]) -> Iterator[str]:
    return (f"{walk.acts.translate(BACK)}\n" for walk in walks)


def begins(head: bytes) -> bool:
    # An agent without acts has an empty line.
    line = head.lstrip(b"\n").partition(b"\n")[0]
    return bool(line) and not line.translate(None, LETTERS)


FORMAT = Format(
    "tracker",
    begins,
    read,
    write,
    read_back,
    word_on_writing="u is written for north, where the row number falls; starts are left out",
    needs_tasks=True,
)
