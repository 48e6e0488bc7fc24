r"""Lines `Agent 0 (3 -->3): 5->6->7->` of cell numbers, as CBSH2-RTC, EECBS and PBS print paths.

Behind the number of an agent stands how long its path is; a path of another length is refused. The
number of a cell is its row times the width of the map, and its column more, so --map is needed.
Lines around that don't begin with `Agent` are skipped, and that is said. There is no way back.

```console
$ printf 'Agent 0 (2 -->2): 3->0->1->\nAgent 1 (2 -->2): 0->1->2->\n' >corner.txt
$ python3 tools/convert.py corner.txt --map examples/corner.map --number 7
convert: corner.txt is read as printed
mapf-plan 1
number 7
agents 2
agent 0 1 ne
agent 0 0 ee
convert: 2 agents, 4 acts
```
"""
import re

from plan_formats import Format
from plan_formats.texts import cells_of_numbers, lines_of, trimmed
from plan_formats.walks import MOST_ACTS, Fault, Gathering, Given, Walk, read_number, shown

AGENT = re.compile(rb"Agent (\d+) \([^()>]*-->\s*(\d+)\): ?")
BEGINNING = re.compile(rb"^Agent \d+ \(", re.MULTILINE)
# Each number has its arrow: a number that was cut may be a number still, and even one beside the last.
PATH = re.compile(rb"(\d+->)+")
ARROW = b"->"


def read_path(agent: int, text: bytes, acts: int, line: int, gathering: Gathering) -> None:
    """Takes the path of an agent, which has to be as long as is stated before it."""
    if not PATH.fullmatch(text):
        raise Fault(line, f"{shown(text)} stands where the path of agent {agent} was due, as '5->6->' of cell numbers")
    numbers = text.split(ARROW)[:-1]
    if len(numbers) - 1 != acts or acts > MOST_ACTS:
        raise Fault(line, f"the path of agent {agent} has {len(numbers) - 1} acts, {acts} were due as its line says, and at most {MOST_ACTS}")
    gathering.add(agent, *cells_of_numbers(numbers, gathering.given.width, line), line)


def read(data: bytes, given: Given) -> list[Walk]:
    gathering, skipped, number = Gathering(given), [], 1
    for number, line in lines_of(trimmed(data)):
        head = AGENT.match(line)
        if head:
            agent = read_number(head[1])
            gathering.expect(agent, number)
            read_path(agent, line[head.end() :], read_number(head[2]), number, gathering)
        elif line.startswith(b"Agent") or (line and b"Agent".startswith(line)):
            raise Fault(number, f"{shown(line)} stands where a path was due, as 'Agent 0 (1 -->1): 5->6->'")
        else:
            skipped.append(number)
    if skipped:
        given.found.remarks.append((skipped[0], f"this line tells no path{f', and {len(skipped) - 1} others' if len(skipped) > 1 else ''}: skipped"))
    return gathering.whole(number)


FORMAT = Format(
    "printed",
    lambda head: BEGINNING.search(head) is not None,
    read,
    no_way_back="a plan doesn't say how wide its map is, so there is no way back into printed",
    needs_map=True,
)
