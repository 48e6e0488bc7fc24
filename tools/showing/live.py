"""A fleet as it is now, as a page shows it."""
import dataclasses
from typing import Optional


@dataclasses.dataclass(frozen=True)
class Standing:
    """Where an agent is, and where it goes while it moves; how many moves it has finished; for whom
    it waits, until that one has finished so many; since when; and what is wrong with its tape:
    then it is shown where it was last."""

    x: int
    y: int
    to_x: int
    to_y: int
    done: int
    keeping: str
    since: str
    waits_for: Optional[int] = None
    until: Optional[int] = None
    fault: str = ""


@dataclasses.dataclass(frozen=True)
class Told:
    """A line, whether it is an alarm, and the agent that it is about."""

    text: str
    is_alarm: bool
    agent: Optional[int] = None


@dataclasses.dataclass(frozen=True)
class Live:
    """How the fleet is in a line; the time of day; when the page was written, and after how many
    seconds it will be again, 0 where never; all agents; what is told; the rotations that block."""

    words: str
    clock: str
    written: float
    every: float
    agents: tuple[Standing, ...]
    told: tuple[Told, ...]
    blocking: tuple[int, ...]
