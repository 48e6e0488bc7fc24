"""What robots report, written as the events of a run and the replies that were seen.

A robot reports each answer of its agent before it asks again. So when it is killed, at most one record is stored of which nobody was told,
and the first line of the agent that is started next shows it: the event is written then, before that of the restart. Nobody can have heard of it
meanwhile, since a robot sends nothing that it hasn't reported.
"""
import dataclasses
from typing import IO, Optional, Sequence

from agent import STORE_FAILED
from drive import Cell

# So many bytes has a record; a write that failed has stored all of them or none, as far as anybody can tell.
WHOLE, NONE = 10, 0


class Untrue(Exception):
    """What was reported can't be what agents of this plan do."""


@dataclasses.dataclass
class Known:
    """What is known of an agent by its reports."""

    cell: Cell
    to: Optional[Cell] = None
    done: int = 0
    is_open: bool = False
    is_at_end: bool = False
    # The event whose write has failed, if it hasn't been started again since.
    failed: str = ""


def cell_of(words: Sequence[str]) -> Cell:
    return int(words[0]), int(words[1])


# Refusals that hang on where a plan ends: another plan may not give them.
RIM = ("refused AtEnd", "refused Waits ", "refused TooMany")


class Journal:
    def __init__(self, starts: Sequence[Cell], version: int, events: IO[str], replies: IO[str], has_many_plans: bool = False):
        self.agents = [Known(start) for start in starts]
        self.events, self.replies, self.has_many_plans = events, replies, has_many_plans
        # The last message with these digits, counted as messages of a run are.
        self.message: dict[str, int] = {}
        self.said = self.heard = self.restarts = self.unreported = 0
        events.write(f"mapf-events {version}\n")

    def put(self, event: str, reply: str) -> None:
        self.events.write(f"{event}\n")
        self.replies.write(f"{reply}\n")

    def opened(self, robot: int, line: str) -> None:
        """An agent was started, and its first line says what is stored."""
        known, words = self.agents[robot], line.split()
        is_between = words[0] == "between"
        cell, done = cell_of(words[1:3]), int(words[-1])
        to = cell_of(words[3:5]) if is_between else None
        if not known.is_open:
            known.is_open = True
            if (cell, to, done) != (known.cell, None, 0):
                raise Untrue(f"the tape of robot {robot} isn't a new one: {line}")
            return
        self._catch_up(robot, known, cell, to, done)
        self.put(f"restart {robot}", line)
        self.restarts += 1

    def _catch_up(self, robot: int, known: Known, cell: Cell, to: Optional[Cell], done: int) -> None:
        """Writes the event of a record that was stored and not reported, and of a write that failed."""
        is_same = (cell, to, done) == (known.cell, known.to, known.done)
        is_next = (cell, done) == ((known.cell, known.done) if to else (known.to, known.done + 1)) and (known.to is None) == (to is not None)
        if not is_same and not is_next:
            raise Untrue(f"robot {robot} was at {known.cell}, to {known.to}, done {known.done}, and starts again at {cell}, to {to}, done {done}")
        missing = "start" if to else "finish"
        if known.failed:
            self.put(f"tear {robot} {NONE if is_same else WHOLE}", "armed")
            self.put(f"{known.failed} {robot}", STORE_FAILED)
        elif is_next:
            self.unreported += 1
            self.put(f"{missing} {robot}", "moving {} {}".format(*to) if to else "arrived {} {}".format(*cell))
        known.cell, known.to, known.done, known.failed = cell, to, done, ""

    def started(self, robot: int, answer: str) -> None:
        known = self.agents[robot]
        if answer == STORE_FAILED:
            known.failed = "start"
            return
        if self.has_many_plans and answer.startswith(RIM):
            return
        self.put(f"start {robot}", answer)
        if answer.startswith("moving "):
            known.to = cell_of(answer.split()[1:])
        elif answer == "refused AtEnd":
            known.is_at_end = True

    def finished(self, robot: int, answer: str) -> None:
        known = self.agents[robot]
        if answer == STORE_FAILED:
            known.failed = "finish"
            return
        self.put(f"finish {robot}", answer)
        if answer.startswith("arrived "):
            known.cell, known.to, known.done = cell_of(answer.split()[1:]), None, known.done + 1

    def spoke(self, robot: int, answer: str) -> None:
        _, _, digits = answer.partition("said ")
        if digits:
            self.put(f"say {robot}", f"said {self.said} {digits}")
            self.message[digits] = self.said
            self.said += 1

    def heard_of(self, robot: int, digits: str, answer: str) -> None:
        if digits not in self.message:
            raise Untrue(f"robot {robot} has heard {digits[:80]}, which none of the fleet has said")
        self.put(f"deliver {robot} {self.message[digits]}", answer)
        self.heard += 1

    def cells_of(self, robot: int) -> set[Cell]:
        """The cells that an agent holds by what is known."""
        known = self.agents[robot]
        return {known.cell, known.to or known.cell}

    def may_enter(self, robot: int, cell: Cell) -> bool:
        """Whether the agent has said that its robot is to go into this cell."""
        return self.agents[robot].to == cell
