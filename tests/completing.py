"""Judges how a run is said to end: the events that are said to complete it are run behind those that were given.

Which events complete a run is free, so an answer is compared with no other: none of its events may be refused, and behind them each agent
has to stand where its plan ends."""
import pathlib
import re
from typing import Optional, Sequence

from harness import Ended, Harness, cut

COUNTS = re.compile(r"agents \d+ moves \d+ needs (\d+) rotations (\d+)\n")


def ends_of(plan: str) -> list[str]:
    """What each agent of a plan answers to a restart where its path ends."""
    ends = []
    for line in plan.splitlines()[3:]:
        _, x, y, acts = line.split(" ")
        north, east, south, west = (acts.count(act) for act in "nesw")
        ends.append(f"at {int(x) + east - west} {int(y) + south - north} done {north + east + south + west}")
    return ends


def needs_and_rotations(answer: str) -> tuple[int, int]:
    """How many moves of a plan have a need, and how many rotations it has, by the answer of `mapf deps`."""
    found = COUNTS.match(answer)
    if not found:
        raise ValueError(f"no answer of deps: {cut(answer)!r}")
    return int(found.group(1)), int(found.group(2))


def told(answer: str, given: int) -> tuple[str, Optional[list[str]]]:
    """The replies to so many events, and the events that are said behind them to complete the run; `None` where that is not said, or in
    other words."""
    lines = answer.splitlines(keepends=True)
    replies, rest = "".join(lines[:given]), lines[given:]
    is_whole = len(lines) > given and answer.endswith("\n") and rest[0] == f"complete {len(rest) - 1}\n"
    return replies, rest[1:] if is_whole else None


def asked_again(events: str, completing: Sequence[str], agents: int) -> str:
    """A text of events, behind it those that are said to complete the run, and then a restart of each agent, which says where it is."""
    return "".join([events, *completing, *(f"restart {agent}\n" for agent in range(agents))])


def fault_in(replies: str, completing: Sequence[str], ends: Sequence[str], again: str) -> str:
    """What is wrong with events that are said to complete a run, by the replies to the text of `asked_again`; empty where nothing is. The
    same events are to have the same replies."""
    lines = again.splitlines()
    given = replies.count("\n")
    if not again.startswith(replies) or len(lines) != given + len(completing) + len(ends):
        return f"other replies, or another number of them, when the events were run again: {cut(again)!r}"
    for event, reply in zip(completing, lines[given:]):
        if reply.startswith("refused"):
            return f"the event {event!r} was answered by {reply!r}"
    for agent, (due, at) in enumerate(zip(ends, lines[given + len(completing) :])):
        if at != due:
            return f"agent {agent} was {at!r} behind the events, and {due!r} is the end of its path"
    return ""


def judged(harness: Harness, folder: pathlib.Path, events: str, ends: Sequence[str], is_blocked: bool) -> tuple[list[str], str]:
    """Asks how the run of the plan P on the map M of a folder ends behind these events, and judges the answer. The events that complete
    the run, and what is wrong; empty where nothing is."""
    (folder / "E").write_text(events)
    ended = harness.mapf(["run", "M", "P", "E", "--complete"], folder=folder)
    if is_blocked:
        due = Ended(1, harness.mapf(["run", "M", "P", "E"], folder=folder).out + b"blocked 0\n", b"")
        return [], "" if ended == due else f"{summary(ended)}, and due was {summary(due)}"
    given = events.count("\n") - 1
    replies, completing = told(ended.out.decode(), given)
    if completing is None or (ended.status, ended.err) != (0, b""):
        return [], f"{summary(ended)}, and due was status 0, and behind {given} replies `complete N` and N events"
    (folder / "E").write_text(asked_again(events, completing, len(ends)))
    again = harness.mapf(["run", "M", "P", "E"], folder=folder)
    if (again.status, again.err) != (0, b""):
        return completing, f"the events are not run again: {summary(again)}"
    return completing, fault_in(replies, completing, ends, again.out.decode())


def summary(ended: Ended) -> str:
    return f"status {ended.status}, output {cut(ended.out)!r}, error output {cut(ended.err)!r}"
