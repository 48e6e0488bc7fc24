"""Tables of results: what stands in a line, and what a line can say."""
import dataclasses
from typing import Callable, Mapping, Sequence

from tabling.jobs import Job

Row = dict[str, str]
# What each tool may say of a job: a text has a fault; a file, a process or a tool failed, or the time was over.
UNREADABLE, FAILED = "unreadable", "failed"
# In place of the verdict of a result that fits no more, until its job is done anew.
STALE = "stale"
SAID = ("verdict", "fault")
JUDGE = "judge"


@dataclasses.dataclass(frozen=True)
class Comparison:
    """What results say of planners beside one another: what of them, a heading, and a line for each."""

    about: str
    heading: tuple[str, ...]
    lines: tuple[tuple[str, ...], ...]

    @property
    def texts(self) -> list[str]:
        """A text for each line. What is empty is left out."""
        cells = (", ".join(f"{name} {cell}" for name, cell in zip(self.heading[1:], line[1:]) if cell) for line in self.lines)
        return [f"{self.heading[0]} {line[0]}, {self.about}: {text}" for line, text in zip(self.lines, cells)]


@dataclasses.dataclass(frozen=True)
class Table:
    """The results of a tool."""

    # The columns that a result has of its job, and which of them name files.
    given: tuple[str, ...]
    files: tuple[str, ...]
    # Lines that have the same here are about one thing, whatever else lists say of it.
    names: tuple[str, ...]
    # What is found beside a verdict and why, and which columns have numbers.
    found: tuple[str, ...]
    numbers: tuple[str, ...]
    verdicts: tuple[str, ...]
    # What results come to together.
    total: Callable[[Sequence[Row]], str]
    # How those compare who are named by a column of the jobs.
    comparisons: Callable[[Sequence[Row]], Sequence[Comparison]] = lambda _: ()
    # The columns of former tables, and what these don't say.
    older: Mapping[tuple[str, ...], str] = dataclasses.field(default_factory=dict)

    @property
    def sums(self) -> tuple[str, ...]:
        return tuple(f"{name}_sha256" for name in self.files)

    @property
    def marks(self) -> tuple[str, ...]:
        """The columns that say what a result is of, and by whom."""
        return (*self.sums, JUDGE)

    @property
    def own(self) -> tuple[str, ...]:
        """The columns that no list has."""
        return (*SAID, *self.found, "seconds", *self.marks)

    @property
    def columns(self) -> tuple[str, ...]:
        """The columns of each result, before those that its job has beside."""
        return (*self.given, *self.own)

    def row(self, job: Job, found: Row, seconds: float, marks: Row) -> Row:
        """A job's result."""
        columns = {**job.columns, **found, "seconds": f"{seconds:.3f}", **marks}
        return {name: columns.get(name, "") for name in (*self.columns, *(name for name, _ in job.more))}
