"""What a plan says: where its agents are, who waits for whom, its beginning, and whether it goes on from another."""
import dataclasses
import re
from typing import NamedTuple, Optional, Sequence

from mapf.faults import Failed, Fault, FaultWords
from mapf.lines import Lines, no_answer
from mapf.program import AnyProgram, File, files, number, option, program_at

Cell = tuple[int, int]
# What a plan may have that can be read, but not be walked on its map.
OF_AN_AGENT = ("BadStart", "BadMove")
# What keeps a valid plan from being one that goes on from another.
DEPARTURES = ("OtherNumber", "OtherCount", "Departs")
HEAD = re.compile(rb"agents ([0-9]+) moves ([0-9]+) needs ([0-9]+) rotations ([0-9]+)\n")
CONTINUES = re.compile(r"continues from ([0-9]+), adds ([0-9]+) moves\n")


class Need(NamedTuple):
    """Move `move` of an agent waits until another one has finished so many moves."""

    agent: int
    move: int
    other: int
    finished: int


@dataclasses.dataclass(frozen=True)
class Rotation:
    """In this step each of the agents moves into the next one's cell, and the last one into the first one's."""

    step: int
    agents: tuple[int, ...]


@dataclasses.dataclass(frozen=True)
class Dependencies:
    """How many agents and moves there are, what these wait for, and the rotations."""

    agents: int
    moves: int
    needs: Sequence[Need]
    rotations: Sequence[Rotation]


class Visit(NamedTuple):
    """An agent comes into a cell at a time, as this cell of its path."""

    agent: int
    place: int
    time: int


@dataclasses.dataclass(frozen=True)
class Continuation:
    """Whether a plan goes on from another: from which time, and how many moves it adds; or why it doesn't."""

    goes_on: bool
    time: Optional[int] = None
    moves: Optional[int] = None
    fault: Optional[FaultWords] = None


def deps(map: File, plan: File, *, program: AnyProgram = None) -> Dependencies:
    """Which move waits for which, by `mapf deps`."""
    answer = program_at(program).answer_bytes("deps", *files(map, plan))
    head = HEAD.match(answer)
    if not head:
        raise no_answer(answer)
    agents, moves, needs, rotations = (int(it) for it in head.groups())
    # The rotations stand last, and are few.
    end = answer.find(b"\nrotation ") + 1 or len(answer)
    found = Dependencies(
        agents,
        moves,
        Lines(answer[head.end() : end], b"need ", Need._make, len(Need._fields)),
        Lines(answer[end:], b"rotation ", lambda it: Rotation(it[0], it[1:])),
    )
    if (len(found.needs), len(found.rotations)) != (needs, rotations):
        raise no_answer(answer)
    return found


def visits(map: File, plan: File, x: int, y: int, *, program: AnyProgram = None) -> Sequence[Visit]:
    """Who comes into a cell and when, by `mapf deps --cell`."""
    words = ["deps", "--cell", number(x), number(y), *files(map, plan)]
    return Lines(program_at(program).answer_bytes(*words), b"visit ", Visit._make, len(Visit._fields))


def path(map: File, plan: File, *, agent: Optional[int] = None, program: AnyProgram = None) -> Sequence[tuple[Cell, ...]]:
    """Where each agent is, or one alone, at each time, by `mapf path`: the cells at time 0, then those at time 1, and so on."""
    return Lines(program_at(program).answer_bytes("path", *option("agent", agent), *files(map, plan)), b"", cells_of)


def cells_of(numbers: tuple[int, ...]) -> tuple[Cell, ...]:
    """The cells that stand behind a time."""
    columns, rows = numbers[1::2], numbers[2::2]
    if len(columns) != len(rows):
        raise ValueError
    return tuple(zip(columns, rows))


def cut(map: File, plan: File, time: int, *, program: AnyProgram = None) -> str:
    """The text of a plan without its acts from a time on, by `mapf cut`."""
    return program_at(program).answer("cut", *files(map, plan, number(time)))


def continues(map: File, old: File, new: File, *, program: AnyProgram = None) -> Continuation:
    """Whether a plan goes on from another, by `mapf continues`. That it doesn't is an answer, and a text that is none a `Fault`."""
    try:
        answer = program_at(program).answer("continues", *files(map, old, new))
    except Fault as fault:
        if fault.name in DEPARTURES:
            return Continuation(False, fault=fault.words)
        raise
    found = CONTINUES.fullmatch(answer)
    if not found:
        raise Failed(f"'{answer[:80].rstrip()}' is no answer of mapf")
    return Continuation(True, int(found[1]), int(found[2]))
