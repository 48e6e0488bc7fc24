"""What is done with a job: a tool's own kind of work finds out what there is to say of it."""
import abc
import dataclasses
import functools
import pathlib
import time
from typing import ClassVar

from mapf.faults import Failed
from mapf.program import FAULT, Program, Said
from tabling.jobs import Job
from tabling.marks import Marker, judge_of
from tabling.tables import FAILED, UNREADABLE, Row, Table


@dataclasses.dataclass(frozen=True)
class Work(abc.ABC):
    """What holds of every job."""

    program: Program
    # How long one job may take.
    seconds: float

    # The tool, as another process starts it, its table, and its files that have a say in what it finds.
    tool: ClassVar[pathlib.Path]
    table: ClassVar[Table]
    readers: ClassVar[tuple[str, ...]]

    @property
    @abc.abstractmethod
    def options(self) -> list[str]:
        """What was asked beside the jobs, as words of a command line."""

    @abc.abstractmethod
    def found(self, job: Job) -> Row:
        """What there is to say of a job, by columns."""

    @functools.cached_property
    def judge(self) -> str:
        """Who judges, as results say it."""
        return judge_of(self.program, self.readers, self.options)

    def result(self, job: Job) -> Row:
        """The result of a job, with how long it took. The sums of its files are made before they are read: whatever changes later is seen."""
        begun = time.monotonic()
        marks = Marker(self.table, self.judge).of(job)
        try:
            found = self.found(job)
        except Failed as fault:
            found = failure(str(fault))
        except MemoryError:
            found = failure(f"{job.columns[self.table.names[-1]]}: there is no memory for it")
        return self.table.row(job, found, time.monotonic() - begun, marks)

    def failed(self, job: Job, why: str, seconds: float) -> Row:
        """The result of a job that nobody has worked on to its end."""
        return self.table.row(job, failure(why), seconds, Marker(self.table, self.judge).of(job))


def failure(why: str) -> Row:
    return {"verdict": FAILED, "fault": why}


def unanswered(command: str, said: Said) -> Row:
    """What there is to say where a call of the program gave no answer."""
    if said.status == FAULT and said.words:
        return {"verdict": UNREADABLE, "fault": said.words}
    if said.status < 0:
        return failure(f"`mapf {command}` ended by signal {-said.status}")
    return failure(said.words or f"`mapf {command}` ended with status {said.status}")
