"""Moments, how long something has lasted, and both in words."""
import dataclasses
import time
from typing import Generic, Optional, TypeVar

Value = TypeVar("Value")
MINUTE, HOUR, DAY = 60, 3600, 86400


@dataclasses.dataclass(frozen=True)
class Moment:
    """By the clock on the wall, which may be set, and by the machine's own, which is not."""

    wall: float
    clock: float

    def before(self, wall: Optional[float]) -> "Moment":
        """The moment of a time on the wall, or this one where there is none, or one yet to come."""
        ago = 0.0 if wall is None else max(0.0, self.wall - wall)
        return Moment(self.wall - ago, self.clock - ago)


def now() -> Moment:
    return Moment(time.time(), time.monotonic())


@dataclasses.dataclass(frozen=True)
class Lasting(Generic[Value]):
    """Something that is as it is since a moment."""

    value: Value
    since: Moment


def changed(at: Moment, said: Optional[float], earliest: Optional[Moment]) -> Moment:
    """When something changed that is seen at a moment, and was seen otherwise at the earliest: at
    the time on the wall that is said, as far as that can be."""
    moment = at.before(said)
    return earliest if earliest and moment.clock < earliest.clock else moment


def shown_time(at: Moment, today: Moment) -> str:
    """A time of day, with its day where that is another one."""
    there, here = time.localtime(at.wall), time.localtime(today.wall)
    is_today = there[:3] == here[:3]
    return time.strftime("%H:%M:%S" if is_today else "%Y-%m-%d %H:%M:%S", there)


def shown_seconds(seconds: float) -> str:
    whole = int(seconds)
    if whole < MINUTE:
        return f"{whole} s"
    if whole < HOUR:
        return f"{whole // MINUTE} min {whole % MINUTE} s"
    if whole < DAY:
        return f"{whole // HOUR} h {whole % HOUR // MINUTE} min"
    return f"{whole // DAY} d {whole % DAY // HOUR} h"


def shown_since(at: Moment, today: Moment) -> str:
    return f"since {shown_time(at, today)} ({shown_seconds(today.clock - at.clock)})"
