"""A schedule in any shape that YAML has, as planners in Python write it: `cost:`, `schedule:`, an agent by its name, and its items. It is read by
the Python package yaml, where that is installed.
"""
import re
from typing import Any, Sequence

from plan_formats.texts import numbers_of, refuse_a_cut_cell, timed
from plan_formats.walks import MOST_ACTS, Claim, Fault, Gathering, Given, Unsolved, Walk, read_number, shown

AGENT = re.compile(r"agent([0-9]+)")
NUMBER = re.compile(r"-?(0|[1-9][0-9]*)")
# What the writer of this shape begins with: keys in their order, and items that are not indented.
BEGINNING = re.compile(rb"(cost: *\d+\n)?schedule:\n  agent\d+:\n  - |cost: *\d+\nschedule:")
KEYS = ("x", "y", "t")


def begins(head: bytes) -> bool:
    return BEGINNING.match(head) is not None


def line_of(node: Any) -> int:
    return node.start_mark.line + 1


def root_of(data: bytes) -> Any:
    """The text as nodes, each of which knows its line."""
    try:
        import yaml  # only here: no other format needs it
    except ImportError:
        told = "this shape of YAML is read by the Python package yaml (Debian's python3-yaml), which isn't installed, and it was due"
        raise Fault(1, told) from None
    try:
        return yaml.compose(data, Loader=getattr(yaml, "CSafeLoader", yaml.SafeLoader))
    except yaml.YAMLError as error:
        mark = getattr(error, "problem_mark", None)
        raise Fault(min(mark.line + 1, data.count(b"\n")) if mark else 1, f"the text is no YAML: {getattr(error, 'problem', None) or 'bad text'}, YAML was due") from None
    except RecursionError:
        raise Fault(1, "the text is no YAML: too deep, YAML was due") from None


def members_of(node: Any, what: str) -> dict[str, Any]:
    """The members of a mapping, by key."""
    if node.id != "mapping":
        raise Fault(line_of(node), f"{what} is no mapping, keys and values were due")
    found: dict[str, Any] = {}
    for key, value in node.value:
        if key.id != "scalar" or key.value in found:
            raise Fault(line_of(key), f"{what} has a key that is none, or comes a second time, each key once was due")
        found[key.value] = value
    return found


def digits_of(node: Any, name: str) -> bytes:
    """A whole number, as it is written."""
    if node.id != "scalar" or not NUMBER.fullmatch(node.value) or (name == "t" and node.value.startswith("-")):
        raise Fault(line_of(node), f"{name} is no whole number of a cell or a time, one was due")
    if read_number(node.value.lstrip("-").encode()) > MOST_ACTS:
        raise Fault(line_of(node), f"{shown(node.value.encode())} is larger than any column, row or time of a plan, at most {MOST_ACTS} was due")
    return node.value.encode()


def read_agent(agent: int, node: Any, gathering: Gathering) -> None:
    if node.id != "sequence" or not node.value:
        raise Fault(line_of(node), f"agent {agent} has no path, the cell in which it stands was due")
    columns: dict[str, list[bytes]] = {key: [] for key in KEYS}
    for item in node.value:
        fields = members_of(item, f"an item of agent {agent}")
        if sorted(fields) != sorted(KEYS):
            raise Fault(line_of(item), f"an item of agent {agent} has other keys, {', '.join(KEYS)} were due")
        for key in KEYS:
            columns[key].append(digits_of(fields[key], key))
    xs, ys, times = (numbers_of(columns[key]) for key in KEYS)
    cells = timed(agent, times, xs, ys, gathering.given.fills_waits, lambda place: line_of(node.value[place]))
    gathering.add(agent, cells.xs, cells.ys, line_of(node), cells.line_of)


def read(data: bytes, given: Given, is_ended: bool = True) -> list[Walk]:
    """The walks. Where the last line isn't ended, its number may be cut."""
    root = root_of(data)
    if root is None:
        raise Fault(1, "the text is empty, a schedule was due")
    members = members_of(root, "the text")
    schedule = members.get("schedule")
    if schedule is None:
        raise Fault(line_of(root), "the text has no 'schedule', one was due")
    if not schedule.value or schedule.tag.endswith(":null"):
        raise Unsolved(line_of(schedule), "the schedule is empty: the planner found no plan, one was due")
    gathering = Gathering(given)
    for name, node in members_of(schedule, "the schedule").items():
        found = AGENT.fullmatch(name)
        if not found:
            raise Fault(line_of(node), f"{shown(name.encode(errors='replace'))} is no agent, 'agent0' and so on were due")
        agent = read_number(found[1].encode())
        gathering.expect(agent, line_of(node))
        read_agent(agent, node, gathering)
        if not is_ended and len(node.value) == 1 and node.end_mark.index >= len(data.rstrip()):
            refuse_a_cut_cell(agent, line_of(node), given)
    walks = gathering.whole(line_of(schedule))
    put_down_cost(members, walks, given)
    return walks


def put_down_cost(members: dict[str, Any], walks: Sequence[Walk], given: Given) -> None:
    """These planners count the cells of each path, the first one too."""
    stated = members.get("cost")
    if stated is not None and stated.id == "scalar" and stated.value:
        counted = sum(len(walk.xs) for walk in walks)
        given.found.claims.append(Claim(line_of(stated), "cost:", stated.value, counted, is_cost=True))
