r"""The file paths.txt of RHCR: the number of agents, and a line for each.

A line has items `location,orientation,timestep;`. The number of a location is its row times the
width of the map, and its column more, so --map is needed. Orientations are left out: a turn takes a
step of time, and is a wait, so a verdict says nothing of which way robots look. Gaps in time are
refused, but with --fill-waits. There is no way back.

```console
$ printf '2\n3,3,0;0,3,1;0,0,2;1,0,3;\n0,0,0;1,0,1;2,0,2;\n' >paths.txt
$ python3 tools/convert.py paths.txt --map examples/corner.map --number 7
convert: paths.txt is read as rhcr
convert: turns are read as waits; headings are no part of the plan, nor of a verdict on it
mapf-plan 1
number 7
agents 2
agent 0 1 n-e
agent 0 0 ee
convert: 2 agents, 5 acts
```
"""
import re
from array import array

from plan_formats import Format
from plan_formats.texts import SIGNED, cells_of_numbers, lines_of, timed, trimmed
from plan_formats.walks import MOST_ACTS, Fault, Gathering, Given, Walk, narrowest, read_number, shown

BEGINNING = re.compile(rb"\d+\n\d+,-?\d+,\d+;")
ITEM = re.compile(rb"\d+,-?\d+,\d+;")
SIGNS = b",,;"


def no_item(text: bytes, line: int) -> Fault:
    """The first item that is none, or is cut."""
    place = 0
    item = ITEM.match(text)
    while item:
        place = item.end()
        item = ITEM.match(text, place)
    return Fault(line, f"{shown(text[place:]) if text[place:] else 'the end'} stands where an item was due, as '5,0,1;' of a location, a heading and a time")


def read_agent(agent: int, text: bytes, line: int, gathering: Gathering) -> None:
    signs = text.translate(None, SIGNED)
    count = len(signs) // len(SIGNS)
    if count > MOST_ACTS + 1:
        raise Fault(line, f"agent {agent} has more than {MOST_ACTS} acts, no more were due")
    fields = text[:-1].replace(b";", b",").split(b",")
    try:
        if not count or signs != SIGNS * count or b"-" in b"".join(fields[::3]):
            raise ValueError
        # A heading is no part of a plan, but a number it has to be.
        array("i", map(int, fields[1::3]))
        times = narrowest(map(int, fields[2::3]))
    except (OverflowError, ValueError):
        raise no_item(text, line) from None
    xs, ys = cells_of_numbers(fields[::3], gathering.given.width, line)
    cells = timed(agent, times, xs, ys, gathering.given.fills_waits, lambda time: line)
    gathering.add(agent, cells.xs, cells.ys, line)


def read(data: bytes, given: Given) -> list[Walk]:
    lines = lines_of(trimmed(data))
    number, first = next(lines)
    if not first.isdigit():
        raise Fault(1, f"{shown(first)} stands where the number of agents was due")
    gathering = Gathering(given)
    for number, line in lines:
        gathering.expect(number - 2, number)
        read_agent(number - 2, line, number, gathering)
    if read_number(first) != number - 1:
        raise Fault(1, f"the text says that it has {shown(first)} agents, {number - 1} was due by its lines")
    return gathering.whole(number)


FORMAT = Format(
    "rhcr",
    lambda head: BEGINNING.match(head) is not None,
    read,
    no_way_back="a plan has no headings, so there is no way back into rhcr",
    word_on_reading="turns are read as waits; headings are no part of the plan, nor of a verdict on it",
    needs_map=True,
    may_have_gaps=True,
)
