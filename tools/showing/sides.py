"""A plan that is shown, and all that the program says of it."""
import dataclasses
import pathlib
from typing import Optional, Sequence

from mapf.program import Program
from showing.courses import Courses, read_courses
from showing.runs import Run
from showing.verdicts import Fault, Ground, Scenario, Verdict, faults_of, is_of_the_scenario, read_verdict
from showing.waits import Waits, no_waits, read_waits


@dataclasses.dataclass(frozen=True)
class Side:
    """A plan by its name, the copies of its map and of itself, the format that it was converted from, and its run. A plan may be valid, and not
    solve the scenario."""

    name: str
    files: Sequence[str]
    source: str
    courses: Courses
    verdict: Verdict
    faults: Sequence[Fault]
    waits: Waits
    is_valid: bool
    run: Optional[Run] = None

    @property
    def end(self) -> int:
        """The last time that is shown; of a run, how many events it has."""
        return len(self.run.events) if self.run else self.courses.end


def read_side(program: Program, files: Sequence[str], plan: str, source: str, ground: Ground, scenario: Optional[Scenario]) -> Side:
    """What the program says of a plan, whose file is a copy: `plan` is what it was called."""
    verdict = read_verdict(program, files, plan, scenario)
    courses = read_courses(program, files, plan)
    is_valid = bool(verdict["accepted"]) or is_of_the_scenario(verdict)
    waits = read_waits(program, files, courses.acts, plan) if is_valid else no_waits()
    faults = faults_of(verdict, courses, ground, scenario)
    return Side(pathlib.Path(plan).name, files, source, courses, verdict, faults, waits, is_valid)
