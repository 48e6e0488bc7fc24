"""The YAML of libMultiRobotPlanning: `statistics:`, then `schedule:`, `agent0:` and its items.

It is read in the one shape in which that library writes it; `statistics:` may be missing. `cost:`
is the sum of the last times of all agents. A `makespan:` later than the last time is refused.

Some planners of the library, those with safe intervals, leave out the times at which an agent
waits. Such a gap is refused, since other times may be missing too. With --fill-waits the agent
waits in its cell, and takes its step just before the next time that is listed.

Planners in Python (atb033's) write the keys in their order and items that aren't indented: `cost:`,
`schedule:`, and of each cell `t:`, `x:` and `y:`. This shape, and any other that begins so, is read
by the Python package yaml (Debian's python3-yaml); where it isn't installed, that is said. Their
`cost:` counts the cells of each path, so it is by one an agent more than the sum of the times.

```console
$ cat examples/planners/corner.yaml
statistics:
  cost: 4
  makespan: 2
  runtime: 0.0125
schedule:
  agent0:
    - x: 0
      y: 1
      t: 0
    - x: 0
      y: 0
      t: 1
    - x: 1
      y: 0
      t: 2
  agent1:
    - x: 0
      y: 0
      t: 0
    - x: 1
      y: 0
      t: 1
    - x: 2
      y: 0
      t: 2
$ python3 tools/convert.py examples/planners/corner.yaml --number 7
convert: examples/planners/corner.yaml is read as schedule
mapf-plan 1
number 7
agents 2
agent 0 1 ne
agent 0 0 ee
convert: 2 agents, 4 acts
```
"""
import re
from typing import Iterator, Sequence

from plan_formats import Format, yaml_schedule
from plan_formats.texts import DIGITS, line_at, line_from, numbers_of, timed, trimmed
from plan_formats.walks import (
    MOST_ACTS,
    Claim,
    Fault,
    Gathering,
    Given,
    Unsolved,
    Walk,
    claim_of_makespan,
    last_time,
    read_number,
    shown,
)

STATISTIC = re.compile(rb"  (\w+): *([^\n]*)\n")
AGENT = re.compile(rb"  agent(\d+):\n")
# What a line of an item has before its number, and what stands there without digits.
FIELDS = (b"    - x: ", b"      y: ", b"      t: ")
ITEM = b"".join(field + b"\n" for field in FIELDS)
ALL_BUT_NUMBERS = b" -xyt:"
# An item whose column or row may be negative, as a planner's mistake makes it.
SIGNED_ITEM = re.compile(rb"    - x: (-?\d+)\n      y: (-?\d+)\n      t: (\d+)\n")
A_MINUS = b": -"
# What shape a text has is seen in so many bytes.
HEAD = 4096
# What is stated before the paths, by name, each with its line.
Statistics = dict[bytes, tuple[int, bytes]]


def read_statistics(data: bytes) -> tuple[int, Statistics]:
    """Where `schedule:` stands, and what is stated before it."""
    place, found, line = 0, {}, 1
    if data.startswith(b"statistics:\n"):
        place = len(b"statistics:\n")
        statistic = STATISTIC.match(data, place)
        while statistic:
            line += 1
            found[statistic[1]] = line, statistic[2]
            place = statistic.end()
            statistic = STATISTIC.match(data, place)
    return place, found


def no_item(block: bytes, line: int) -> Fault:
    """The first line of an agent's items that isn't the one which was due."""
    lines = block.split(b"\n")
    for number, text in enumerate(lines):
        field = FIELDS[number % 3]
        digits = text[len(field) :]
        if number % 3 < 2 and digits[:1] == b"-":
            digits = digits[1:]
        if not text.startswith(field) or not digits.isdigit():
            due = f"where {'the next agent or an item' if number % 3 == 0 else 'the item'} was due, as {shown(field + b'1')}"
            if number == len(lines) - 1:
                return Fault(line + number - 1, f"the end stands {due}")
            return Fault(line + number, f"{shown(text)} stands {due}")
        if read_number(digits) > MOST_ACTS:
            return Fault(line + number, f"{shown(digits)} is larger than any column, row or time of a plan, at most {MOST_ACTS} was due")
    return Fault(line, "an item is none, a column, a row and a time were due")


def signed_items(block: bytes) -> list[bytes]:
    """The numbers of items some of which are negative; none where anything else stands there."""
    found = list(SIGNED_ITEM.finditer(block))
    return [digits for item in found for digits in item.groups()] if sum(len(item[0]) for item in found) == len(block) else []


def read_items(block: bytes, agent: int, line: int, gathering: Gathering) -> None:
    """Reads the items of an agent, the first of which stands in this line."""
    signs = block.translate(None, DIGITS)
    count = block.count(b"\n") // len(FIELDS)
    if count > MOST_ACTS + 1:
        raise Fault(line + 3 * MOST_ACTS + 3, f"agent {agent} has more than {MOST_ACTS} acts, no more were due")
    if not block:
        raise Fault(line - 1, f"agent {agent} has no path, the cell in which it stands was due")
    digits = []
    if signs == ITEM * count:
        digits = block.translate(None, ALL_BUT_NUMBERS).split(b"\n")[:-1]
    elif A_MINUS in block:
        digits = signed_items(block)
    try:
        numbers = numbers_of(digits)
    except (OverflowError, ValueError):
        numbers = ()
    if not numbers:
        raise no_item(block, line)
    cells = timed(agent, numbers[2::3], numbers[::3], numbers[1::3], gathering.given.fills_waits, lambda place: line + 3 * place, below=2)
    gathering.add(agent, cells.xs, cells.ys, line, cells.line_of)


def read(data: bytes, given: Given) -> list[Walk]:
    is_ended, data = data.endswith(b"\n"), trimmed(data)
    return yaml_schedule.read(data, given, is_ended) if yaml_schedule.begins(data[:HEAD]) else read_plain(data, given)


def read_plain(data: bytes, given: Given) -> list[Walk]:
    place, statistics = read_statistics(data)
    if not data.startswith(b"schedule:\n", place):
        line = line_at(data, min(place, len(data) - 1))
        raise Fault(line, f"{line_from(data, place)} stands where 'schedule:' was due")
    place += len(b"schedule:\n")
    line, gathering = line_at(data, place), Gathering(given)
    if place == len(data):
        raise Unsolved(line - 1, "the schedule is empty: the planner found no plan, one was due")
    while place < len(data):
        head = AGENT.match(data, place)
        if not head:
            raise Fault(line, f"{line_from(data, place)} stands where an agent was due, as '  agent0:'")
        agent = read_number(head[1])
        gathering.expect(agent, line)
        end = data.find(b"\n  agent", head.end() - 1) + 1 or len(data)
        block = data[head.end() : end]
        read_items(block, agent, line + 1, gathering)
        place, line = end, line + 1 + block.count(b"\n")
    walks = gathering.whole(line - 1)
    put_down_claims(statistics, walks, given)
    return walks


def put_down_claims(statistics: Statistics, walks: Sequence[Walk], given: Given) -> None:
    """The cost of this library is the sum of the last times, and its makespan the last of them."""
    line, stated = statistics.get(b"cost", (0, b""))
    if stated:
        given.found.claims.append(Claim(line, "cost:", stated.decode(errors="replace"), sum(len(walk.acts) for walk in walks), is_cost=True))
    line, stated = statistics.get(b"makespan", (0, b""))
    if stated:
        given.found.claims.append(claim_of_makespan(stated, line, "makespan:", walks))


def write(walks: Sequence[Walk]) -> Iterator[str]:
    yield f"statistics:\n  makespan: {last_time(walks)}\nschedule:\n"
    for agent, walk in enumerate(walks):
        items = (f"    - x: {x}\n      y: {y}\n      t: {time}\n" for time, (x, y) in enumerate(zip(walk.xs, walk.ys)))
        yield f"  agent{agent}:\n{''.join(items)}"


def begins(head: bytes) -> bool:
    return head.startswith((b"statistics:", b"schedule:")) or yaml_schedule.begins(head)


FORMAT = Format("schedule", begins, read, write, may_have_gaps=True)
