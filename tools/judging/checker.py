"""What `mapf check` says of a plan: its costs and what they are at least, whether it can be run, and its faults."""
import collections
import dataclasses
import re
from typing import Counter, Iterator, Optional

from judging.table import ACCEPTED, REJECTED
from mapf.program import FAULT, Program, Said
from tabling.tables import Row
from tabling.work import unanswered

# The most faults of a plan that are counted.
MOST_FAULTS = 1_000_000
DECIMALS = 4
ACCEPTANCE = re.compile(rb"accepted agents ([0-9]+) cost ([0-9]+) of ([0-9]+) makespan ([0-9]+) of ([0-9]+)\n")
REJECTION = re.compile(rb"rejected ([^\n]+)\n")
COLLISION = re.compile(rb"rejected (Vertex|Swap) ([0-9]+ [0-9]+) ")
LAST = re.compile(rb"faults ([0-9]+) agents [0-9]+( more)?\n")
YES = "yes"
ROTATION = "Rotation "


@dataclasses.dataclass(frozen=True)
class Verdict:
    """What was said of a job, by the columns of its result."""

    verdict: str
    fault: str = ""
    agents_found: str = ""
    cost: str = ""
    cost_bound: str = ""
    makespan: str = ""
    makespan_bound: str = ""
    # `yes`, or the rotation for which no run of the plan comes to its end.
    runs: str = ""
    # What the text says of its cost.
    claimed: str = ""
    # Of a list of all faults: how many there are, in how many pairs of agents, and whether there are more.
    vertex_faults: str = ""
    swap_faults: str = ""
    colliding_pairs: str = ""
    faults_cut: str = ""
    # Of a proof and of a claimed bound.
    proof_verdict: str = ""
    proof_fault: str = ""
    proved_cost_bound: str = ""
    proved_makespan_bound: str = ""
    bound_verdict: str = ""

    @property
    def ratio(self) -> str:
        """The cost by its bound, where that is above 0."""
        return f"{int(self.cost) / int(self.cost_bound):.{DECIMALS}f}" if self.cost_bound.strip("0") else ""

    @property
    def columns(self) -> Row:
        return {**dataclasses.asdict(self), "ratio": self.ratio}


@dataclasses.dataclass
class Answer:
    """The lines of the checker: the first, the last, and how many there are; how many collisions of each kind these name, and of which agents."""

    first: bytes = b""
    last: bytes = b""
    lines: int = 0
    kinds: Counter[bytes] = dataclasses.field(default_factory=collections.Counter)
    pairs: set[bytes] = dataclasses.field(default_factory=set)


def read_answer(out: Iterator[bytes]) -> Answer:
    """The answer of the checker. Of a list of faults, which may be long, no more is kept than who collides."""
    answer = Answer()
    for line in out:
        answer.first = answer.first or line
        answer.last = line
        answer.lines += 1
        collision = COLLISION.match(line)
        if collision:
            answer.kinds[collision[1]] += 1
            answer.pairs.add(collision[2])
    return answer


def faults_in(answer: Answer) -> Optional[Row]:
    """What a whole list of faults comes to."""
    last = LAST.fullmatch(answer.last)
    if not last or int(last[1]) != answer.lines - 1:
        return None
    vertex, swap = (str(answer.kinds[kind]) for kind in (b"Vertex", b"Swap"))
    return {"vertex_faults": vertex, "swap_faults": swap, "colliding_pairs": str(len(answer.pairs)), "faults_cut": YES if last[2] else ""}


@dataclasses.dataclass(frozen=True)
class Checker:
    """Asks the program, perhaps for all faults, about plans on one map that are due to have something."""

    program: Program
    # The words for what is due of a plan, and the map.
    due: tuple[str, ...]
    map: str
    has_all: bool

    def check(self, plan: str) -> Verdict:
        """What the checker says. A plan that has a rotation alone is accepted, and a second call says what it costs."""
        verdict = self.said(plan, "--no-rotation")
        if not verdict.fault.startswith(ROTATION):
            return dataclasses.replace(verdict, runs=YES) if verdict.verdict == ACCEPTED else verdict
        accepted = self.said(plan)
        return dataclasses.replace(accepted, runs=verdict.fault) if accepted.verdict == ACCEPTED else accepted

    def said(self, plan: str, *options: str) -> Verdict:
        words = ["check", "--bound", *options, *([f"--all={MOST_FAULTS}"] if self.has_all else []), *self.due, "--", self.map, plan]
        said = self.program.ask(words, read_answer)
        return self.accepted(said) or self.rejected(said) or Verdict(**unanswered("check", said))

    def accepted(self, said: Said[Answer]) -> Optional[Verdict]:
        counts = ACCEPTANCE.fullmatch(said.answer.first)
        if said.status or said.answer.lines != 1 or not counts:
            return None
        agents, cost, cost_bound, makespan, makespan_bound = (count.decode() for count in counts.groups())
        none = {"vertex_faults": "0", "swap_faults": "0", "colliding_pairs": "0"} if self.has_all else {}
        return Verdict(ACCEPTED, "", agents, cost, cost_bound, makespan, makespan_bound, **none)

    def rejected(self, said: Said[Answer]) -> Optional[Verdict]:
        rejection = REJECTION.fullmatch(said.answer.first)
        counts = faults_in(said.answer) if self.has_all else {} if said.answer.lines == 1 else None
        if said.status != FAULT or not rejection or counts is None:
            return None
        return Verdict(REJECTED, rejection[1].decode(errors="replace"), **counts)
