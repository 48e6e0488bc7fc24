"""What `mapf rows` says of a scenario: how many rows agree, and the first that doesn't."""
import dataclasses
import pathlib
import re
from typing import Iterator

from certifying.jobs import ScenarioJob
from certifying.table import AGREE, DIFFER, TABLE
from mapf.program import DONE, FAULT
from tabling.tables import Row
from tabling.work import Work, unanswered

GOOD = re.compile(rb"[0-9]+ (least [0-9]+|shortest .* agrees)\n")
LAST = re.compile(rb"rows [0-9]+ (agree [0-9]+ differ|sum [0-9]+ greatest) [0-9]+ unreachable [0-9]+ size [0-9]+\n")


@dataclasses.dataclass
class Answer:
    """How many lines there are, the first of a row that doesn't agree, and the last of all, which is of no row."""

    lines: int = 0
    bad: bytes = b""
    last: bytes = b""


def read_answer(out: Iterator[bytes]) -> Answer:
    answer = Answer()
    for line in out:
        if answer.last and not answer.bad and not GOOD.fullmatch(answer.last):
            answer.bad = answer.last
        answer.lines += 1
        answer.last = line
    return answer


def counts_in(answer: Answer) -> Row:
    """The counts of the last line, by their names; none where not all lines are there."""
    if not LAST.fullmatch(answer.last):
        return {}
    words = answer.last.decode().split()
    counts = dict(zip(words[::2], words[1::2]))
    return counts if counts.get("rows") == str(answer.lines - 1) else {}


@dataclasses.dataclass(frozen=True)
class Certifying(Work):
    """What rows.py does with a scenario."""

    is_straight: bool

    tool = pathlib.Path(__file__).resolve().parent.parent / "rows.py"
    table = TABLE
    readers = ("canonical.py", "mapf/*.py", "certifying/jobs.py", "certifying/verdicts.py")

    @property
    def options(self) -> list[str]:
        return ["--straight"] if self.is_straight else []

    def found(self, job: ScenarioJob) -> Row:
        if job.verdict:
            return {"verdict": job.verdict, "fault": job.fault}
        said = self.program.ask(["rows", *self.options, "--", job.file(job.map), job.file(job.scenario)], read_answer)
        counts, bad = counts_in(said.answer), said.answer.bad.decode(errors="replace").rstrip("\n")
        if not counts or said.status != (FAULT if bad else DONE):
            return unanswered("rows", said)
        return {"verdict": DIFFER if bad else AGREE, "fault": bad, **counts}
