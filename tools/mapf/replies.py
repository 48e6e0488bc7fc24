"""What is answered to an event of a run, or to a line of an agent's dialogue."""
import dataclasses
from typing import Callable, Optional, Union

from mapf.faults import Failed, FaultWords, read_words


@dataclasses.dataclass(frozen=True)
class Moving:
    """The agent has begun to move to this cell."""

    x: int
    y: int


@dataclasses.dataclass(frozen=True)
class Arrived:
    """It has come to this cell."""

    x: int
    y: int


@dataclasses.dataclass(frozen=True)
class Said:
    """It says this message, which in a run has a number."""

    data: bytes
    message: Optional[int] = None


@dataclasses.dataclass(frozen=True)
class Heard:
    """Of the sender of a message it is known now that so many moves are finished."""

    agent: int
    moves: int


@dataclasses.dataclass(frozen=True)
class May:
    """So many of the agent's next moves need nobody any more."""

    moves: int


@dataclasses.dataclass(frozen=True)
class At:
    """The agent stands in this cell, and has finished so many moves."""

    x: int
    y: int
    done: int


@dataclasses.dataclass(frozen=True)
class Between:
    """It is moving from the one cell to the other, and has finished so many moves."""

    x: int
    y: int
    to_x: int
    to_y: int
    done: int


@dataclasses.dataclass(frozen=True)
class Armed:
    """Its next write will be torn."""


@dataclasses.dataclass(frozen=True)
class Refused:
    """Nothing has changed, and why."""

    words: FaultWords


State = Union[At, Between]
Reply = Union[Moving, Arrived, Said, Heard, May, At, Between, Armed, Refused]


def said(*words: str) -> Said:
    return Said(bytes.fromhex(words[-1]), int(words[0]) if len(words) > 1 else None)


def between(x: str, y: str, to_x: str, to_y: str, _: str, done: str) -> Between:
    return Between(int(x), int(y), int(to_x), int(to_y), int(done))


# Of each line, by its first word, what the others make.
READERS: dict[str, Callable[..., Reply]] = {
    "moving": lambda x, y: Moving(int(x), int(y)),
    "arrived": lambda x, y: Arrived(int(x), int(y)),
    "said": said,
    "heard": lambda agent, moves: Heard(int(agent), int(moves)),
    "may": lambda moves: May(int(moves)),
    "at": lambda x, y, _, done: At(int(x), int(y), int(done)),
    "between": between,
    "armed": Armed,
    "refused": lambda *words: Refused(read_words(" ".join(words))),
}


def read_reply(line: str) -> Reply:
    """The reply that a line is."""
    first, *rest = line.split(" ")
    try:
        return READERS[first](*rest)
    except (KeyError, TypeError, ValueError):
        raise Failed(f"'{line[:80]}' is no reply of mapf") from None


def read_state(line: str) -> State:
    """The state of an agent that a line is."""
    state = read_reply(line)
    if not isinstance(state, (At, Between)):
        raise Failed(f"'{line[:80]}' is no state of an agent")
    return state
