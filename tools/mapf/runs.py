"""Runs of a plan: what is replied to each event, and how a run can end."""
import dataclasses
from typing import Optional, Sequence

from mapf.faults import Failed
from mapf.program import AnyProgram, File, files, flag, program_at
from mapf.replies import Reply, read_reply

COMPLETE, BLOCKED = "complete ", "blocked "


@dataclasses.dataclass(frozen=True)
class Ending:
    """The replies of a run, and how it can end: by these events, none of which is refused; or never, for this rotation of `deps`."""

    replies: tuple[Reply, ...]
    events: tuple[str, ...] = ()
    rotation: Optional[int] = None

    @property
    def can_be_driven(self) -> bool:
        return self.rotation is None


def lines_of(map: File, plan: File, events: File, has_ending: bool, program: AnyProgram) -> Sequence[str]:
    return program_at(program).answer("run", *flag("complete", has_ending), *files(map, plan, events)).split("\n")[:-1]


def run(map: File, plan: File, events: File, *, program: AnyProgram = None) -> list[Reply]:
    """What `mapf run` replies to each event of a text. A refusal is a reply, and a text that is none a `Fault`, whose `answer` has the lines of the
    replies before it."""
    return replies_of(lines_of(map, plan, events, False, program))


def complete(map: File, plan: File, events: File, *, program: AnyProgram = None) -> Ending:
    """How `mapf run --complete` says that a run can end."""
    lines = lines_of(map, plan, events, True, program)
    # No reply begins so, and no event.
    place = next((place for place, line in enumerate(lines) if line.startswith((COMPLETE, BLOCKED))), None)
    if place is None:
        raise Failed("`mapf run` doesn't say how the run ends")
    replies = tuple(replies_of(lines[:place]))
    if lines[place].startswith(BLOCKED):
        return Ending(replies, rotation=int(lines[place].removeprefix(BLOCKED)))
    return Ending(replies, tuple(lines[place + 1 :]))


def replies_of(lines: Sequence[str]) -> list[Reply]:
    return [read_reply(line) for line in lines]
