"""The JSON of the League of Robot Runners: `start` and `actualPaths`.

`start` has a row, a column and a heading (`E`, `S`, `W`, `N`) of each agent: rows stand before
columns. `actualPaths` has a string of actions of each, in the letters of the action model `MAPF_T`:
`F` goes ahead, `R` and `C` turn, `W` waits. A text whose `actionModel` is another one is refused,
and so is one without `actionModel` whose letters are `R` and `W` alone: `R` turns in the one model,
and goes right in another.

A turn takes a step of time, and becomes a wait. So the plan says where the robots are at each time,
and not which way they look; a verdict on it doesn't either. There is no way back.

`teamSize`, where it is there, has to be the number of agents. Other members aren't read, but the
text has to be JSON to its end. No cost of these paths is stated.

```console
$ cat examples/planners/corner.json
{
 "actionModel": "MAPF_T",
 "AllValid": "Yes",
 "teamSize": 2,
 "start": [[1, 0, "E"], [0, 0, "E"]],
 "numTaskFinished": 0,
 "actualPaths": ["C,F,R,F", "F,F"],
 "plannerPaths": ["C,F,R,F", "F,F"],
 "errors": [],
 "events": [[[0, 3, "assigned"]], [[0, 3, "assigned"]]]
}
$ python3 tools/convert.py examples/planners/corner.json --number 7
convert: examples/planners/corner.json is read as lorr
convert: turns are read as waits; headings are no part of the plan, nor of a verdict on it
mapf-plan 1
number 7
agents 2
agent 0 1 -n-e
agent 0 0 ee
convert: 2 agents, 6 acts
```
"""
import json
import re
from itertools import accumulate, repeat
from operator import and_, or_
from typing import Any, Callable, Iterator

from plan_formats import Format
from plan_formats.walks import MOST_ACTS, MOST_ACTS_IN_ALL, MOST_SIDE, Fault, Gathering, Given, Walk, shown, walked

# The action model that is read, and another whose letters are partly the same: there R goes right, and nothing turns.
MODEL, OTHER_MODEL = "MAPF_T", "MAPF"
HEADINGS = "ESWN"
ACTIONS = re.compile("[FRCW]*")
# What an action adds to the number of the heading, of which the last two bits count, and a bit that says that it is no step ahead.
TURNS, STAYS = bytes.maketrans(b"FRCW", b"\0\1\3\0"), bytes.maketrans(b"FRCW", b"\0\4\4\4")
# The acts, by the number of the heading and that bit.
ACTS = bytes.maketrans(bytes(range(8)), b"eswn----")
BLANKS = re.compile(r"[ \t\n\r]*")
Item = tuple[int, Any]


def no_constant(name: str) -> None:
    raise ValueError(f"{name} is no value")


DECODER = json.JSONDecoder(parse_constant=no_constant)


class Document:
    """A JSON text, read value by value."""

    def __init__(self, data: bytes):
        self.text = data.decode()
        self.place = 0
        # Line ends are counted once, from one place to the next.
        self.counted, self.ends = 0, 0

    def line(self, place: int) -> int:
        if place < self.counted:
            self.counted, self.ends = 0, 0
        self.ends += self.text.count("\n", self.counted, place)
        self.counted = place
        return self.ends + 1

    def fault(self, what: str) -> Fault:
        return Fault(self.line(self.place), f"the text is no JSON: {what}")

    def skip_blanks(self) -> str:
        """The next character that is no blank, empty at the end."""
        self.place = BLANKS.match(self.text, self.place).end()
        return self.text[self.place : self.place + 1]

    def take(self, signs: str) -> str:
        """Takes one of these signs."""
        found = self.skip_blanks()
        if not found or found not in signs:
            due = " or ".join(map(repr, signs))
            raise self.fault(f"{shown(found.encode()) if found else 'the end'} stands where {due} was due")
        self.place += 1
        return found

    def value(self) -> Item:
        """Takes a value, and its line."""
        self.skip_blanks()
        line, begin = self.line(self.place), self.place
        try:
            value, self.place = DECODER.raw_decode(self.text, self.place)
        except (ValueError, RecursionError) as error:
            self.place = getattr(error, "pos", begin)
            raise self.fault(f"{getattr(error, 'msg', error)}, a value was due") from None
        return line, value

    def parts(self, opening: str, closing: str, part: Callable[[], Any]) -> Iterator[Any]:
        """The parts of an array or of an object, each taken by a call."""
        self.take(opening)
        if self.skip_blanks() == closing:
            self.place += 1
            return
        while True:
            yield part()
            if self.take(f",{closing}") == closing:
                return

    def items(self) -> list[Item]:
        """The items of an array, each with its line."""
        return list(self.parts("[", "]", self.value))

    def skip(self) -> None:
        """Takes a value, and keeps nothing of it: of an array no more than one item is in memory at once."""
        if self.skip_blanks() == "[":
            for _ in self.parts("[", "]", self.value):
                pass
        else:
            self.value()


def read_members(document: Document) -> dict[str, Any]:
    """The members of the text that tell of paths: two arrays, the number of agents, and what the letters mean."""
    found: dict[str, Any] = {}

    def member() -> None:
        line, key = document.value()
        if not isinstance(key, str):
            raise Fault(line, "the text is no JSON: a key is no string, a string was due")
        document.take(":")
        if key in found:
            raise Fault(line, f"{shown(key.encode(errors='replace'))} comes a second time, each key once was due")
        found[key] = None
        if key in ("start", "actualPaths"):
            found[key] = document.items()
        elif key in ("teamSize", "actionModel"):
            found[key] = document.value()
        else:
            document.skip()

    for _ in document.parts("{", "}", member):
        pass
    if document.skip_blanks():
        raise document.fault("more stands behind the closing brace, the end was due")
    return found


def is_number(value: Any) -> bool:
    return isinstance(value, int) and not isinstance(value, bool)


def read_start(agent: int, item: Item) -> tuple[tuple[int, int], int]:
    """The cell and the number of the heading in which an agent starts."""
    line, start = item
    if not isinstance(start, list) or len(start) != 3 or not is_number(start[0]) or not is_number(start[1]) or start[2] not in list(HEADINGS):
        raise Fault(line, f"the start of agent {agent} is none, a row, a column and a heading were due, as [1,2,\"E\"]")
    row, column, heading = start
    if not -MOST_SIDE <= row < MOST_SIDE or not -MOST_SIDE <= column < MOST_SIDE:
        raise Fault(line, f"agent {agent} starts off any map, a row and a column up to {MOST_SIDE - 1} were due")
    return (column, row), HEADINGS.index(heading)


def read_actions(agent: int, item: Item, heading: int) -> bytes:
    """The acts of an agent: a turn is a wait."""
    line, text = item
    if not isinstance(text, str):
        raise Fault(line, f"the path of agent {agent} is no string, actions were due, as \"F,R,W\"")
    letters = text[::2]
    is_whole = len(text) == max(0, 2 * len(letters) - 1) and text[1::2] == "," * (len(letters) - 1)
    if not is_whole or not ACTIONS.fullmatch(letters):
        bad = next((it for it in text.split(",") if it not in ("F", "R", "C", "W")), text)
        raise Fault(line, f"{shown(bad.encode(errors='replace'))} stands in the path of agent {agent}, F, R, C or W of the model {MODEL} was due, with commas between")
    if len(letters) > MOST_ACTS:
        raise Fault(line, f"agent {agent} has more than {MOST_ACTS} acts, no more were due")
    actions = letters.encode()
    headings = map(and_, accumulate(actions.translate(TURNS), initial=heading), repeat(3))
    return bytes(map(or_, headings, actions.translate(STAYS))).translate(ACTS)


def refuse_another_model(members: dict[str, Any], line: int) -> None:
    """Refuses letters of another action model, and letters that another one has too, with other steps."""
    if "actionModel" in members:
        line, model = members["actionModel"]
        if model != MODEL:
            named = shown(json.dumps(model).encode(errors="replace"))
            raise Fault(line, f"\"actionModel\" is {named}, \"{MODEL}\" was due: the letters of another model are not read")
        return
    letters = set().union(*(set(path) for _, path in members["actualPaths"] if isinstance(path, str)))
    if "R" in letters and letters <= set("RW,"):
        both = f"R turns by {MODEL} and goes right by {OTHER_MODEL}, and all paths are of R and W alone"
        raise Fault(line, f"{both}, an \"actionModel\" was due")


def read(data: bytes, given: Given) -> list[Walk]:
    document = Document(data)
    members = read_members(document)
    last = document.line(len(document.text.rstrip()))
    for key in ("start", "actualPaths"):
        if members.get(key) is None:
            raise Fault(last, f"the text has no \"{key}\", an array of one item for each agent was due")
    refuse_another_model(members, last)
    starts, paths = members["start"], members["actualPaths"]
    if len(starts) != len(paths):
        raise Fault(last, f"there are {len(starts)} starts and {len(paths)} paths, as many were due")
    line, size = members.get("teamSize") or (last, len(starts))
    if size != len(starts):
        raise Fault(line, f"\"teamSize\" is {size!r}, {len(starts)} was due, as there are starts and paths")
    gathering = Gathering(given)
    for agent, (start, path) in enumerate(zip(starts, paths)):
        cell, heading = read_start(agent, start)
        acts = read_actions(agent, path, heading)
        if gathering.acts + len(acts) > MOST_ACTS_IN_ALL:
            raise Fault(path[0], f"there are more than {MOST_ACTS_IN_ALL} acts in all, no more were due")
        gathering.add(agent, *walked(agent, path[0], cell, acts), path[0])
    return gathering.whole(last)


FORMAT = Format(
    "lorr",
    lambda head: head.lstrip(b" \t\r\n").startswith(b"{"),
    read,
    no_way_back="a plan has no headings, so there is no way back into lorr",
    word_on_reading="turns are read as waits; headings are no part of the plan, nor of a verdict on it",
)
