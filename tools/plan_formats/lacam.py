"""Lines `key=value`, then `solution=` and a line for each time, of LaCAM, PIBT and their kin.

Columns stand before rows. Each time has a cell of each agent. The lines up to `solution=` may all
be missing, as in texts of pypibt and mapf-visualizer. A key comes once.

Refused are an `agents=` or `starts=` that says something else than the cells, a `makespan=` later
than the last time, and `solved=0`: the planner found no plan. Other `goals=`, another `makespan=`
and another `soc=`, the sum of the times from which each agent stays where it ends, are said. Other
keys may say what they like: `sum_of_loss=` is another measure, and isn't compared.

Going back, an agent that ends before the others is written as waiting up to the last time, since
the format has no other way to say it. Those waits cost nothing in a verdict.

```console
$ cat examples/planners/corner.lacam
agents=2
map_file=corner.map
solver=planner
solved=1
makespan=2
starts=(0,1),(0,0),
goals=(1,0),(2,0),
solution=
0:(0,1),(0,0),
1:(0,0),(1,0),
2:(1,0),(2,0),
$ python3 tools/convert.py examples/planners/corner.lacam --number 7
convert: examples/planners/corner.lacam is read as lacam
mapf-plan 1
number 7
agents 2
agent 0 1 ne
agent 0 0 ee
convert: 2 agents, 4 acts
```
"""
import re
from array import array
from typing import Iterator, Optional, Sequence

from plan_formats import Format
from plan_formats.texts import lines_of, pairs, trimmed
from plan_formats.walks import (
    MOST_ACTS,
    MOST_ACTS_IN_ALL,
    MOST_AGENTS,
    NARROW,
    WIDE,
    Cell,
    Claim,
    Fault,
    Gathering,
    Given,
    Unsolved,
    Walk,
    claim_of_makespan,
    extended,
    last_time,
    padded,
    read_number,
    shown,
    sum_of_costs,
)

KEY = re.compile(rb"([A-Za-z_][\w.-]*)=(.*)", re.DOTALL)
TIME = re.compile(rb"(\d+):")
NO_HEAD = re.compile(rb"0: ?\(")
# The keys that tell of the paths, with their lines and their values.
Facts = dict[bytes, tuple[int, bytes]]
Lines = Iterator[tuple[int, bytes]]


def cells_of(text: bytes, line: int) -> array:
    """The cells of a line, a column and a row in turn."""
    xs, ys = pairs(text[:-1] if text.endswith(b",") else text, b",", line, MOST_AGENTS)
    cells = array(WIDE if WIDE in (xs.typecode, ys.typecode) else NARROW, [0]) * (2 * len(xs))
    cells[::2], cells[1::2] = array(cells.typecode, xs), array(cells.typecode, ys)
    return cells


def read_facts(lines: Lines) -> tuple[int, Facts]:
    """The lines up to `solution=`, and the number of that line."""
    facts: Facts = {}
    number = 0
    for number, line in lines:
        fact = KEY.fullmatch(line)
        if not fact:
            raise Fault(number, f"{shown(line)} stands where 'key=value' was due, or 'solution='")
        if fact[1] in facts:
            raise Fault(number, f"the key {shown(fact[1])} comes a second time, each key once was due")
        facts[fact[1]] = number, fact[2]
        if fact[1] == b"solution":
            if fact[2]:
                raise Fault(number, f"{shown(fact[2])} stands behind 'solution=', the end of the line was due")
            break
    refuse_unsolved(facts)
    if b"solution" not in facts:
        raise Fault(number, "the text ends before its paths, 'solution=' was due")
    return number, facts


def refuse_unsolved(facts: Facts) -> None:
    """A run without a plan may have no `solution=`, an empty one, or what its planner came to until its time was over."""
    number, solved = facts.get(b"solved", (0, b"1"))
    if solved == b"0":
        raise Unsolved(number, "'solved=' is '0': the planner found no plan, one was due")


def read_times(lines: Lines, first: int) -> tuple[array, int]:
    """The cells of all times, one time behind the other, and how many agents each time has. The first time has this line."""
    cells, width = array(NARROW), 0
    for number, line in lines:
        time = TIME.match(line)
        if not time:
            raise Fault(number, f"{shown(line)} stands where the cells of a time were due, as '0:(1,2),(1,3),'")
        stated, due = read_number(time[1]), number - first
        if stated != due:
            raise Fault(number, f"the line is of time {stated}, time {due} was due")
        row = cells_of(line[time.end() :], number)
        if len(row) != (width or len(row)):
            raise Fault(number, f"time {due} has {len(row) // 2} cells, {width // 2} were due as at time 0")
        if due > MOST_ACTS or len(cells) // 2 > MOST_ACTS_IN_ALL + MOST_AGENTS:
            raise Fault(number, f"there are more acts than a plan may have, {MOST_ACTS} an agent and {MOST_ACTS_IN_ALL} in all were due")
        width = len(row)
        cells = extended(cells, row)
    return cells, width // 2


def differing(facts: Facts, key: bytes, cells: Sequence[Cell]) -> Optional[tuple[int, str]]:
    """The first of the starts or goals that are stated and differ from the paths, by its line, and how."""
    number, stated = facts.get(key, (0, b""))
    if not stated:
        return None
    found = cells_of(stated, number)
    if len(found) != 2 * len(cells):
        raise Fault(number, f"'{key.decode()}=' has {len(found) // 2} cells, {len(cells)} were due, one for each agent")
    for agent, (x, y) in enumerate(cells):
        if (found[2 * agent], found[2 * agent + 1]) != (x, y):
            is_at = f"({found[2 * agent]},{found[2 * agent + 1]})"
            return number, f"'{key.decode()}=' has {is_at} for agent {agent}, ({x},{y}) was due by its path"
    return None


def hold_facts(facts: Facts, walks: Sequence[Walk], given: Given) -> None:
    """Refuses other starts. A goal that is missed, and another cost, may be the planner's mistake: they are put down."""
    starts = differing(facts, b"starts", [walk.start for walk in walks])
    if starts:
        raise Fault(*starts)
    goals = differing(facts, b"goals", [walk.end for walk in walks])
    if goals:
        given.found.remarks.append(goals)
    number, stated = facts.get(b"soc", (0, b""))
    if stated:
        given.found.claims.append(Claim(number, "soc=", stated.decode(errors="replace"), sum_of_costs(walks), is_cost=True))
    number, stated = facts.get(b"makespan", (0, b""))
    if stated:
        given.found.claims.append(claim_of_makespan(stated, number, "makespan=", walks))


def read(data: bytes, given: Given) -> list[Walk]:
    lines = lines_of(trimmed(data))
    solution, facts = (0, {}) if has_no_head(data) else read_facts(lines)
    cells, count = read_times(lines, solution + 1)
    if not count and b"solved" not in facts:
        raise Unsolved(max(solution, 1), "there are no cells behind 'solution=': the planner found no plan, one was due")
    number, agents = facts.get(b"agents", (0, b""))
    if number and (not agents.isdigit() or read_number(agents) != count):
        raise Fault(number, f"'agents=' says {shown(agents)}, '{count}' was due by the cells of each time")
    gathering = Gathering(given)
    for agent in range(count):
        xs, ys = cells[2 * agent :: 2 * count], cells[2 * agent + 1 :: 2 * count]
        gathering.add(agent, xs, ys, solution + 1, lambda time: solution + 1 + time)
    walks = gathering.whole(max(solution, 1))
    hold_facts(facts, walks, given)
    return walks


def has_no_head(head: bytes) -> bool:
    return NO_HEAD.match(head) is not None


def write(walks: Sequence[Walk]) -> Iterator[str]:
    yield f"agents={len(walks)}\nmakespan={last_time(walks)}\n"
    for key, cells in (("starts", [walk.start for walk in walks]), ("goals", [walk.end for walk in walks])):
        yield f"{key}={''.join(f'({x},{y}),' for x, y in cells)}\n"
    yield "solution=\n"
    lists = [list for walk in padded(walks) for list in (walk.xs, walk.ys)]
    line = ",".join(["(%d,%d)"] * len(walks))
    for time, row in enumerate(zip(*lists)):
        yield f"{time}:{line % row},\n"


FORMAT = Format(
    "lacam",
    lambda head: KEY.match(head.partition(b"\n")[0]) is not None or has_no_head(head),
    read,
    write,
    word_on_writing="an agent that ends before the others is written as waiting up to the last time",
    is_padded=True,
)
