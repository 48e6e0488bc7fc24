"""Where each agent is at each time: by `mapf path`, or, of a plan whose starts or steps are bad on the map, as its text gives it."""
import dataclasses
import pathlib
from array import array
from operator import add, sub
from typing import Iterator, Sequence

from mapf.faults import Failed, read_words
from mapf.plans import OF_AN_AGENT
from mapf.program import FAULT, Program
from refused import Refused
from showing.program import refuse, talk

Cell = tuple[int, int]
STEPS = {"n": (0, -1), "e": (1, 0), "s": (0, 1), "w": (-1, 0), "-": (0, 0)}
# By how much twice the column and the row rise together, as a byte, the act.
ACT_OF = bytes(next((ord(act) for act, (x, y) in STEPS.items() if (2 * x + y) % 256 == byte), 0) for byte in range(256))
NO_ACTS = b"="
# The most times, of all agents together, that are read.
MOST_TIMES = 64_000_000


@dataclasses.dataclass(frozen=True)
class Courses:
    """Each agent's start and acts, without waits at the end; the last time; and where `mapf path` has nothing to say, what it told."""

    starts: list[Cell]
    acts: list[bytes]
    end: int
    told: str = ""

    def cell(self, agent: int, time: int) -> Cell:
        east, west, south, north = (self.acts[agent].count(act, 0, time) for act in (b"e", b"w", b"s", b"n"))
        x, y = self.starts[agent]
        return x + east - west, y + south - north


def by_path(lines: Iterator[bytes], plan: str) -> Courses:
    """The courses of the lines of `mapf path`."""
    starts: list[Cell] = []
    rows: list[bytes] = []
    sums = array("i")
    for time, line in enumerate(lines):
        numbers = array("i", map(int, line.split()))
        xs, ys = numbers[1::2], numbers[2::2]
        before, sums = sums, array("i", map(add, map(add, xs, xs), ys))
        if time == 0:
            starts = list(zip(xs, ys))
            continue
        if time * len(starts) > MOST_TIMES:
            raise Refused(f"{plan}: {len(starts)} agents have more than {MOST_TIMES} times in all, which is more than can be shown")
        rows.append(array("b", map(sub, sums, before)).tobytes().translate(ACT_OF))
    whole = b"".join(rows)
    if b"\0" in whole:
        raise Failed("`mapf path` says of an agent that it goes further than to the next cell")
    return Courses(starts, [whole[agent :: len(starts)].rstrip(b"-") for agent in range(len(starts))], len(rows))


def by_text(plan: bytes, told: str) -> Courses:
    """The courses that the text of a plan gives."""
    agents = [line.split(b" ")[1:] for line in plan.split(b"\n")[3:-1]]
    acts = [b"" if words[2] == NO_ACTS else words[2] for words in agents]
    starts = [(int(words[0]), int(words[1])) for words in agents]
    return Courses(starts, [it.rstrip(b"-") for it in acts], max(map(len, acts), default=0), told)


def read_courses(program: Program, files: Sequence[str], plan: str) -> Courses:
    """The courses of a plan that the program can read."""
    with talk(program, "path", "--", *files) as call:
        courses = by_path(call.lines, plan)
    words = read_words(call.told)
    if call.status == FAULT and words.name in OF_AN_AGENT:
        return by_text(pathlib.Path(files[1]).read_bytes(), str(words))
    if call.status:
        refuse(call, plan)
    return courses
