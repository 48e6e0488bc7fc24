"""Which move waits for which, and which turn round together: `mapf deps`."""
import dataclasses
from array import array
from typing import Sequence

from mapf.program import Program
from showing.program import refuse, talk

# Of a move that waits for nobody. A plan has fewer agents.
NOBODY = 65_535


@dataclasses.dataclass(frozen=True)
class Waits:
    """For each move, those of agent 0 first, for which agent it waits, and by how much the moves which that agent must have finished are more
    than those before this one; and each rotation, its step before its agents."""

    agents: array
    more: array
    rotations: list[list[int]]


def no_waits() -> Waits:
    return Waits(array("H"), array("H"), [])


def read_waits(program: Program, files: Sequence[str], acts: Sequence[bytes], plan: str) -> Waits:
    firsts, count = [], 0
    for course in acts:
        firsts.append(count)
        count += len(course) - course.count(b"-")
    waits = Waits(array("H", [NOBODY]) * count, array("H", bytes(2 * count)), [])
    with talk(program, "deps", "--", *files) as call:
        for line in call.lines:
            word, *rest = line.split()
            if word == b"need":
                agent, move, other, finished = map(int, rest)
                place = firsts[agent] + move
                waits.agents[place] = other
                waits.more[place] = (finished - move) % 65536
            elif word == b"rotation":
                waits.rotations.append(list(map(int, rest)))
    if call.status:
        refuse(call, plan)
    return waits
