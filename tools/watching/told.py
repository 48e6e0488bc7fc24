"""What is told of a look: lines in the order in which an operator wants them, alarms first."""
import dataclasses
from typing import Iterator, Optional, Sequence

from mapf.faults import FaultWords
from mapf.fleets import ARRIVED, MOVING, PLANS_PART, READY, UNKNOWN, WAITS
from mapf.replies import Between
from watching.looks import Look, Robot
from watching.times import Moment, shown_seconds, shown_since, shown_time

# So many are told of a kind, the greatest first.
MOST = 10
ALARM = "ALARM: "


@dataclasses.dataclass(frozen=True)
class Limits:
    """After how many seconds it is an alarm that nothing moves, and that a robot is silent."""

    alarm: float
    silent: float


@dataclasses.dataclass(frozen=True)
class Line:
    """What is told, since when, how that is shown, which makes it no other line, and of whom."""

    what: str
    moment: Optional[Moment] = None
    shown: str = dataclasses.field(default="", compare=False)
    agent: Optional[int] = None

    @property
    def is_alarm(self) -> bool:
        return self.what.startswith(ALARM)

    def __str__(self) -> str:
        return f"{self.what} {self.shown}".rstrip()


def since(what: str, moment: Moment, at: Moment, agent: Optional[int] = None) -> Line:
    """What lasts since a moment."""
    return Line(what, moment, shown_since(moment, at), agent)


def lines_of(look: Look, limits: Limits) -> list[Line]:
    """All that is told of a look."""
    lines = [*alarms_of(look, limits), summary(look)]
    lines += few([rotation_line(look, it) for it in by_count(look.status.rotations)], "rotations")
    lines += few([root_line(look, it) for it in by_count(look.status.roots)], "roots")
    lines += few(list(unknown_lines(look)), "unknown agents")
    return lines + few(list(silent_lines(look, limits)), "silent robots")


def few(lines: Sequence[Line], what: str) -> list[Line]:
    """The first lines, and how many more there are."""
    more = len(lines) - MOST
    return [*lines[:MOST], Line(f"and {more} more {what}")] if more > 0 else list(lines)


def by_count(counts: dict[int, int]) -> list[int]:
    """Those that keep most first."""
    return sorted(counts, key=lambda it: (-counts[it], it))


def alarms_of(look: Look, limits: Limits) -> list[Line]:
    """What is an alarm: a rotation that blocks, tapes that aren't of one run, and one that is older
    or has disappeared, at once; that nothing moves, that a root stands or that tapes can't be read,
    after a time."""
    lines = []
    if look.trouble and look.at.clock - look.asked.clock >= limits.alarm:
        lines.append(since(f"{ALARM}the tapes can't be read, {look.trouble},", look.asked, look.at))
    for it in sorted(look.turning):
        agents = " ".join(map(str, look.turning[it]))
        lines.append(
            Line(f"{ALARM}rotation {it} blocks: agents {agents} wait for one another for ever")
        )
    lines += few([Line(f"{ALARM}{words_of(it)}") for it in look.faults], "faults of all tapes")
    for agent, (had, has) in look.older.items():
        told = f"{ALARM}tape {agent} is an older one: it had {had} records, and has {has},"
        lines.append(since(told, look.since(agent), look.at, agent))
    for agent in sorted(look.gone):
        told = f"{ALARM}tape {agent} has disappeared,"
        lines.append(since(told, look.since(agent), look.at, agent))
    if not look.has_arrived and look.at.clock - look.progress.clock >= limits.alarm:
        lines.append(since(f"{ALARM}nothing has moved", look.progress, look.at))
    return lines + few(list(standing_lines(look, limits)), "roots that haven't moved")


def words_of(fault: FaultWords) -> str:
    """Why tapes aren't of one run, in words."""
    if fault.name == PLANS_PART:
        return "the plans of agents {} and {} part at time {}".format(*fault.numbers)
    if len(fault.numbers) == 1:
        return f"an agent has begun its move in rotation {fault.numbers[0]}, which no run does"
    agent, other, until = fault.numbers
    return f"agent {agent} has begun a move that waits until agent {other} has done {until}"


def standing_lines(look: Look, limits: Limits) -> Iterator[Line]:
    """The roots that have stood for long, those that keep most first."""
    for root in by_count(look.status.roots):
        if look.at.clock - look.standing[root].clock >= limits.alarm:
            told = f"{ALARM}root {root} hasn't moved: {place_of(look, root)},"
            yield since(told, look.standing[root], look.at, root)


def summary(look: Look) -> Line:
    count = len(look.status.agents)
    agents = f"{count} agent{'' if count == 1 else 's'}"
    trouble = f"; now {look.trouble}" if look.trouble else ""
    if look.has_arrived:
        return Line(f"{agents}: all arrived{trouble}")
    kinds = (ARRIVED, MOVING, READY, WAITS, UNKNOWN)
    words = ("arrived", "moving", "ready", "waiting", "unknown")
    counts = ", ".join(f"{look.status.count(kind)} {word}" for kind, word in zip(kinds, words))
    ago = shown_seconds(look.at.clock - look.progress.clock)
    shown = f"at {shown_time(look.progress, look.at)} ({ago} ago)"
    return Line(f"{agents}: {counts}{trouble}; changed last", look.progress, shown)


def place_of(look: Look, agent: int) -> str:
    """Where an agent is and what it does, in words."""
    it = look.status.agents[agent]
    if not it.state:
        return f"tape {it.fault}"
    done = f"done {it.state.done} of {it.moves}"
    if isinstance(it.state, Between):
        return f"moving {it.state.x} {it.state.y} to {it.state.to_x} {it.state.to_y}, {done}"
    return f"{it.keeping} at {it.state.x} {it.state.y}, {done}"


def root_line(look: Look, root: int) -> Line:
    what = f"root {root} keeps {look.status.roots[root]}: {place_of(look, root)},"
    return since(what, look.since(root), look.at, root)


def rotation_line(look: Look, number: int) -> Line:
    """A rotation stands since the last of its agents came."""
    last = max((look.since(it) for it in look.turning[number]), key=lambda it: it.clock)
    return since(f"rotation {number} keeps {look.status.rotations[number]},", last, look.at)


def unknown_lines(look: Look) -> Iterator[Line]:
    for agent, it in enumerate(look.status.agents):
        if it.keeping == UNKNOWN:
            yield since(f"unknown {agent}: {it.fault},", look.since(agent), look.at, agent)


def silence_of(robot: Robot, at: Moment) -> float:
    """For how many seconds a robot hasn't reported."""
    return at.clock - robot.report.since.clock if robot.report else 0.0


def silent_robots(look: Look, limits: Limits) -> list[int]:
    """Who hasn't reported for long, or has no box, the longest first."""
    found = [agent for agent, robot in enumerate(look.robots) if is_silent(robot, look.at, limits)]
    return sorted(found, key=lambda it: -silence_of(look.robots[it], look.at))


def is_silent(robot: Robot, at: Moment, limits: Limits) -> bool:
    has_no_box = robot.report is not None and robot.report.value is None
    return has_no_box or silence_of(robot, at) >= limits.silent


def silent_lines(look: Look, limits: Limits) -> Iterator[Line]:
    for agent in silent_robots(look, limits):
        report = look.robots[agent].report
        assert report
        if report.value is None:
            yield since(f"silent {agent}: it has no box,", report.since, look.at, agent)
        else:
            ended = report.value.ended
            how = "" if ended is None else f" its agent ended with {ended},"
            yield since(f"silent {agent}:{how} no report", report.since, look.at, agent)
