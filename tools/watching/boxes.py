"""When a robot has reported last, by its black box: each line of it says when it was written."""
import dataclasses
import json
import os
from typing import Optional, Sequence

# How much is read of its end: mostly a line is short, and none is longer than a message of the
# greatest fleet, in digits.
TAILS = (1 << 12, 1 << 18)


@dataclasses.dataclass(frozen=True)
class Report:
    """How long a box is, when its last whole line was written, by the robot's clock, and how the
    robot's agent ended, where that line says so."""

    size: int
    wall: Optional[float] = None
    ended: Optional[int] = None


def read_report(path: str) -> Optional[Report]:
    """What a box says at its end. None where there is none that can be read."""
    try:
        with open(path, "rb") as file:
            size = file.seek(0, os.SEEK_END)
            for tail in TAILS:
                file.seek(max(0, size - tail))
                found = last_of(size, file.read(tail).split(b"\n")[:-1])
                if found:
                    return found
    except OSError:
        return None
    return Report(size)


def last_of(size: int, lines: Sequence[bytes]) -> Optional[Report]:
    """What the last of these lines says that is one of a box."""
    return next(filter(None, (read_line(size, line) for line in reversed(lines))), None)


def read_line(size: int, line: bytes) -> Optional[Report]:
    """None where it is no line of a box."""
    try:
        fields = json.loads(line)
        ended = fields.get("ended")
        return Report(size, float(fields["wall"]), ended if isinstance(ended, int) else None)
    except (ValueError, TypeError, KeyError, AttributeError, RecursionError, OverflowError):
        return None
