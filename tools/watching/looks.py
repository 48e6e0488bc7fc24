"""Looks at a fleet, one after another: what its tapes say now, and since when they say so."""
import contextlib
import dataclasses
import os
from typing import Mapping, Optional, Union

from mapf.faults import Failed, Fault, FaultWords
from mapf.fleets import ARRIVED, MOVING, NOT_ONE_RUN, READY, AgentStatus, Status, status
from mapf.plans import deps
from mapf.program import Program
from watching.boxes import Report, read_report
from watching.times import Lasting, Moment, changed, now

HOLE = "%"
# Faults that the program tells of a file that it can't open, and of a tape that isn't there.
OPEN_FAILED, NO_TAPE = "OpenFailed", "NoTape"
# No line with a number is as long.
MOST_LINE = 64


@dataclasses.dataclass(frozen=True)
class Files:
    """The map, the plan, and the names of tapes and black boxes, with `%` for an agent's number."""

    map: str
    plan: str
    tapes: str
    boxes: Optional[str] = None


@dataclasses.dataclass(frozen=True)
class Robot:
    """An agent since when it is as it is; and its last report, where boxes are read, since when
    there was no other."""

    tape: Lasting[AgentStatus]
    report: Optional[Lasting[Optional[Report]]] = None


@dataclasses.dataclass(frozen=True)
class Look:
    """A fleet at a moment. Where it couldn't be asked then, `trouble` says why, and all is as it
    was when it was asked last."""

    at: Moment
    asked: Moment
    status: Status
    robots: tuple[Robot, ...]
    # When a robot has moved last, as far as it is known.
    progress: Moment
    # The agents of each rotation that blocks.
    turning: Mapping[int, tuple[int, ...]]
    # Whose tape has fewer records than it had, each with both numbers.
    older: Mapping[int, tuple[int, int]]
    # Since when each root has neither moved nor waited for anybody, as far as it is known.
    standing: Mapping[int, Moment]
    # Whose tape was there, and isn't any more.
    gone: frozenset[int]
    # Why the tapes aren't of one run, as far as that is sure.
    faults: tuple[FaultWords, ...]
    trouble: str = ""

    @property
    def has_arrived(self) -> bool:
        return self.status.count(ARRIVED) == len(self.status.agents)

    def since(self, agent: int) -> Moment:
        return self.robots[agent].tape.since


def named(pattern: str, agent: int) -> str:
    return pattern.replace(HOLE, str(agent))


def changed_at(path: str) -> Optional[float]:
    """When a file was changed last, where it is there."""
    with contextlib.suppress(OSError):
        return os.stat(path).st_mtime
    return None


def records(agent: AgentStatus) -> int:
    """How many records a tape has; none where it can't be taken."""
    return 2 * agent.state.done + (agent.keeping == MOVING) if agent.state else 0


def number_line(plan: str) -> Optional[bytes]:
    """The line of a plan that has its number, where it can be read."""
    with contextlib.suppress(OSError), open(plan, "rb") as text:
        text.readline()
        return text.readline(MOST_LINE)
    return None


class Looks:
    """Looks at one fleet, and remembers the one before."""

    def __init__(self, files: Files, program: Program, has_more: bool) -> None:
        self.files, self.program, self.has_more = files, program, has_more
        self.last: Optional[Look] = None
        self.count = 0
        # The most records that each tape of the plan was seen to have, and who had fewer lately.
        self.number: Optional[bytes] = None
        self.most: dict[int, int] = {}
        self.fewer: dict[int, tuple[int, int]] = {}
        # Whose tape wasn't there at the look before.
        self.missing: frozenset[int] = frozenset()
        # Who moved too early by the look before.
        self.early: list[FaultWords] = []

    def take(self) -> Look:
        """A look. Only the first one raises what is wrong with the map, the plan or the program:
        later a plan may just be replaced."""
        at, self.count = now(), self.count + 1
        self.heed_number(number_line(self.files.plan))
        try:
            found = status(self.files.map, self.files.plan, self.files.tapes, program=self.program)
            turning = self.turning(found)
        except (Fault, Failed) as fault:
            trouble = self.closed_file(fault) or fault.line
            if not self.last:
                raise Failed(trouble) if trouble != fault.line else fault
            self.last = dataclasses.replace(self.last, at=at, trouble=trouble)
            return self.last
        robots = tuple(self.robot(agent, it, at) for agent, it in enumerate(found.agents))
        older, gone = self.older(found), self.gone(found)
        standing = self.standing(found, robots, at)
        progress = self.progress(robots, at)
        faults = self.faults(found)
        self.last = Look(at, at, found, robots, progress, turning, older, standing, gone, faults)
        return self.last

    def closed_file(self, fault: Union[Fault, Failed]) -> str:
        """Which of the two files can't be opened, and why: the program doesn't say it."""
        if fault.name == OPEN_FAILED:
            for file in (self.files.map, self.files.plan):
                try:
                    open(file, "rb").close()
                except OSError as error:
                    return f"{file}: {error.strerror}"
        return ""

    def heed_number(self, number: Optional[bytes]) -> None:
        """A plan with another number is another run, whose tapes begin anew."""
        if number not in (None, self.number):
            self.number, self.most, self.fewer = number, {}, {}
            self.missing, self.early = frozenset(), []

    def robot(self, agent: int, found: AgentStatus, at: Moment) -> Robot:
        before = self.last.robots[agent] if self.last and agent < len(self.last.robots) else None
        return Robot(self.tape(before, agent, found, at), self.report(before, agent, at))

    def tape(
        self, before: Optional[Robot], agent: int, found: AgentStatus, at: Moment
    ) -> Lasting[AgentStatus]:
        """For whom an agent waits may change while its tape stays: that lasts from before."""
        if before and is_as_before(before.tape.value, found):
            return Lasting(found, before.tape.since)
        said = changed_at(named(self.files.tapes, agent))
        return Lasting(found, changed(at, said, self.earliest(before)))

    def report(
        self, before: Optional[Robot], agent: int, at: Moment
    ) -> Optional[Lasting[Optional[Report]]]:
        if not self.files.boxes:
            return None
        found = read_report(named(self.files.boxes, agent))
        if before and before.report and before.report.value == found:
            return before.report
        return Lasting(found, changed(at, found.wall if found else None, self.earliest(before)))

    def earliest(self, before: Optional[Robot]) -> Optional[Moment]:
        """When a robot was as it was before for sure."""
        return self.last.asked if self.last and before else None

    def progress(self, robots: tuple[Robot, ...], at: Moment) -> Moment:
        """When a tape got more records than it was ever seen to have; at first, when one was
        changed last."""
        moments = [self.last.progress] if self.last else []
        for agent, robot in enumerate(robots):
            count = records(robot.tape.value)
            if robot.tape.value.state and count > self.most.get(agent, -1):
                self.most[agent] = count
                moments.append(robot.tape.since)
        return max(moments, key=lambda it: it.clock, default=at)

    def standing(
        self, found: Status, robots: tuple[Robot, ...], at: Moment
    ) -> Mapping[int, Moment]:
        """Since when the roots stand. One that may go may have waited until just now."""
        before = self.last.standing if self.last else {}
        moments = {}
        for root in found.roots:
            tape = robots[root].tape
            is_free = tape.value.keeping == READY
            earliest = before.get(root, at) if is_free else tape.since
            moments[root] = max(earliest, tape.since, key=lambda it: it.clock)
        return moments

    def gone(self, found: Status) -> frozenset[int]:
        """Whose tape was there, and wasn't at two looks: one that is copied may be replaced."""
        before, agents = self.missing, enumerate(found.agents)
        self.missing = frozenset(
            agent for agent, it in agents if str(it.fault) == NO_TAPE and agent in self.most
        )
        return before & self.missing

    def faults(self, found: Status) -> tuple[FaultWords, ...]:
        """Why the tapes aren't of one run. They are read one after another while agents go on: that
        one moves too early is sure where the one for which it had to wait lacks the moves at the
        next look too, if there is one."""
        before, self.early = self.early, [it for it in found.faults if is_early(it)]
        sure = [it for it in found.faults if not is_early(it)]
        late = [it for it in before if lacks_moves(found, *it.numbers[1:])]
        return (*sure, *(late if self.has_more else self.early))

    def turning(self, found: Status) -> Mapping[int, tuple[int, ...]]:
        """The agents of the rotations that block, which the plan is asked for once."""
        if not found.rotations:
            return {}
        if self.last and self.last.status.rotations.keys() == found.rotations.keys():
            return self.last.turning
        rotations = deps(self.files.map, self.files.plan, program=self.program).rotations
        if len(rotations) <= max(found.rotations):
            raise Failed(f"{self.files.plan} is being replaced")
        return {it: rotations[it].agents for it in found.rotations}

    def older(self, found: Status) -> Mapping[int, tuple[int, int]]:
        """Whose tape has fewer records than it had, at two looks: one that is copied may be cut off
        at one of them."""
        before = self.fewer
        counts = {agent: records(it) for agent, it in enumerate(found.agents) if it.state}
        most = {agent: self.most.get(agent, 0) for agent in counts}
        self.fewer = {it: (most[it], counts[it]) for it in counts if counts[it] < most[it]}
        return {agent: it for agent, it in self.fewer.items() if agent in before}


def is_early(fault: FaultWords) -> bool:
    """Whether it says that an agent has begun a move before another one has finished enough."""
    return fault.name == NOT_ONE_RUN and len(fault.numbers) > 1


def lacks_moves(found: Status, agent: int, until: int) -> bool:
    """Whether an agent has finished fewer moves than so many, as far as its tape can be taken."""
    state = found.agents[agent].state if agent < len(found.agents) else None
    return state is not None and state.done < until


def is_as_before(one: AgentStatus, other: AgentStatus) -> bool:
    """Whether a tape has the same records, or the same fault."""
    return (one.fault, records(one)) == (other.fault, records(other))
