"""The text of a plan, `mapf-plan 1`: its one spelling of walks, and the walks that a text spells."""
import re
from typing import Iterator, Optional, Sequence

from mapf.numbers import MOST_NUMBER, drawn_number
from plan_formats.texts import lines_of, refuse_a_cut
from plan_formats.walks import (
    MOST_ACTS,
    MOST_ACTS_IN_ALL,
    MOST_AGENTS,
    MOST_SIDE,
    STEPS,
    Fault,
    Gathering,
    Given,
    Walk,
    read_number,
    shown,
    walked,
)

HEADER = b"mapf-plan 1"
A_NUMBER = rb"(0|[1-9]\d*)"
NUMBER, AGENTS = re.compile(rb"number " + A_NUMBER), re.compile(rb"agents " + A_NUMBER)
AGENT = re.compile(rb"agent " + A_NUMBER + b" " + A_NUMBER + rb" (=|[nesw-]+)")
NO_ACTS = "="


def begins(head: bytes) -> bool:
    return head.startswith(b"mapf-plan ")


def pieces(walks: Sequence[Walk], number: int) -> Iterator[str]:
    """The text of the plan, in pieces."""
    yield f"{HEADER.decode()}\nnumber {number}\nagents {len(walks)}\n"
    for walk in walks:
        x, y = walk.start
        yield f"agent {x} {y} {walk.acts or NO_ACTS}\n"


def write(walks: Sequence[Walk], number: Optional[int] = None) -> Iterator[str]:
    """The text of the plan under this number, or under one that is drawn."""
    return pieces(walks, drawn_number() if number is None else number)


def read_head(data: bytes) -> int:
    """How many agents the plan has, by its first three lines."""
    lines = data.split(b"\n", 3)
    number, agents = (pattern.fullmatch(line) for pattern, line in zip((NUMBER, AGENTS), [*lines[1:3], b"", b""]))
    if lines[0] != HEADER:
        raise Fault(1, f"{shown(lines[0])} stands where '{HEADER.decode()}' was due")
    if not number or read_number(number[1]) > MOST_NUMBER:
        raise Fault(2, f"{shown(lines[1])} stands where 'number N' was due, up to {MOST_NUMBER}")
    if not agents or read_number(agents[1]) > MOST_AGENTS:
        raise Fault(3, f"{shown(lines[2])} stands where 'agents N' was due, up to {MOST_AGENTS}")
    return read_number(agents[1])


def read_agent(agent: int, line: bytes, number: int, gathering: Gathering) -> None:
    found = AGENT.fullmatch(line)
    if not found or any(read_number(digits) > MOST_SIDE for digits in found.groups()[:2]):
        raise Fault(number, f"{shown(line)} stands where 'agent X Y ACTS' was due, of the acts {' '.join(STEPS)}")
    acts = b"" if found[3] == NO_ACTS.encode() else found[3]
    if len(acts) > MOST_ACTS or gathering.acts + len(acts) > MOST_ACTS_IN_ALL:
        raise Fault(number, f"there are more acts than a plan may have, {MOST_ACTS} an agent and {MOST_ACTS_IN_ALL} in all were due")
    start = read_number(found[1]), read_number(found[2])
    gathering.add(agent, *walked(agent, number, start, acts), number)


def read(data: bytes, given: Given) -> list[Walk]:
    """The walks of the plan. What no other format can say is refused: cells behind the greatest map, and a plan without agents."""
    refuse_a_cut(data)
    gathering, agents, number = Gathering(given), MOST_AGENTS, 0
    for number, line in lines_of(data):
        if number == 3:
            agents = read_head(data)
        elif number > 3 + agents:
            raise Fault(number, f"{shown(line)} stands behind the last agent, the end was due")
        elif number > 3:
            read_agent(number - 4, line, number, gathering)
    if number < 3:
        read_head(data)
    if number < 3 + agents:
        raise Fault(number, f"the text ends behind {max(number - 3, 0)} agents, {agents} were due")
    return gathering.whole(number)
