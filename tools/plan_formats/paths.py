"""Lines `Agent 0: (row,col)->(row,col)->`, as CBSH2-RTC, EECBS, PBS and MAPF-LNS2 write them.

Rows stand before columns. The blank behind the colon and the last arrow may be missing, but not the
arrow of the last path alone: it may be cut. Lines come in any order. No cost is stated. An agent
without a path is refused, since nobody knows where it stands; where none has one, the planner found
no plan.

```console
$ cat examples/planners/corner.paths
Agent 0: (1,0)->(0,0)->(0,1)->
Agent 1: (0,0)->(0,1)->(0,2)->
$ python3 tools/convert.py examples/planners/corner.paths --number 7
convert: examples/planners/corner.paths is read as paths
mapf-plan 1
number 7
agents 2
agent 0 1 ne
agent 0 0 ee
convert: 2 agents, 4 acts
```
"""
import re
from typing import Iterator, Sequence

from plan_formats import Format
from plan_formats.texts import line_at, lines_of, pairs, trimmed
from plan_formats.walks import Fault, Gathering, Given, Unsolved, Walk, read_number, shown

AGENT = re.compile(rb"Agent (\d+):")
# Behind the number, printed paths of cell numbers say how long they are.
PRINTED = re.compile(rb"Agent \d+ \(")
ARROW = b"->"


def refuse_a_cut_path(data: bytes) -> None:
    """A last line without its line end, and without the arrow that others end with, may be cut behind any cell."""
    last = data.rfind(b"\n") + 1
    if data[last:].strip() and not data.endswith(ARROW) and ARROW + b"\n" in data:
        raise Fault(line_at(data, last), "the text ends without a line end and without the arrow that other paths end with, they were due: it may be cut")


def read(data: bytes, given: Given) -> list[Walk]:
    refuse_a_cut_path(data)
    gathering, number, without_path = Gathering(given), 0, []
    for number, line in lines_of(trimmed(data)):
        head = AGENT.match(line)
        if not head:
            raise Fault(number, f"{shown(line)} stands where a path was due, as 'Agent 0: (1,2)->(1,3)->'")
        agent = read_number(head[1])
        gathering.expect(agent, number)
        path = line[head.end() + line.startswith(b" ", head.end()) :]
        path = path[: -len(ARROW)] if path.endswith(ARROW) else path
        if not path:
            without_path.append((agent, number))
            continue
        rows, columns = pairs(path, ARROW, number)
        gathering.add(agent, columns, rows, number)
    if without_path and not gathering.walks and data.endswith(b"\n"):
        raise Unsolved(number, "no agent has a path: the planner found no plan, one was due")
    if without_path:
        raise Fault(without_path[0][1], f"agent {without_path[0][0]} has no path, the cell in which it stands was due")
    return gathering.whole(number)


def write(walks: Sequence[Walk]) -> Iterator[str]:
    for agent, walk in enumerate(walks):
        yield f"Agent {agent}: {''.join(f'({y},{x})->' for x, y in zip(walk.xs, walk.ys))}\n"


def begins(head: bytes) -> bool:
    return head.startswith(b"Agent ") and not PRINTED.match(head)


FORMAT = Format("paths", begins, read, write)
