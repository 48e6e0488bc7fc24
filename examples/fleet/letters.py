"""Messages as they come from a link."""
import collections
import dataclasses
import sys
from typing import Counter, Protocol

# So many messages that were dropped for one reason are told of first; then ten times as many, and so on.
TOLD_FIRST = 10


@dataclasses.dataclass(frozen=True)
class Letter:
    """A message, and why its robot has to drop it, if it has."""

    message: bytes
    fault: str = ""


class Link(Protocol):
    """What carries the messages of robots."""

    def fileno(self) -> int:
        """Is readable where messages wait."""

    def send(self, message: bytes) -> None: ...

    def received(self) -> list[Letter]: ...

    def close(self) -> None: ...


class Dropped:
    """Counts the messages that were dropped, by the reason, and tells of many. It may mean that two plans are driven on one network."""

    def __init__(self, robot: int):
        self.robot = robot
        self.counts: Counter[str] = collections.Counter()
        self.next = collections.defaultdict(lambda: TOLD_FIRST)

    def take(self, why: str) -> None:
        kind = " ".join(why.split()[:2])
        self.counts[kind] += 1
        if self.counts[kind] == self.next[kind]:
            self.next[kind] *= 10
            print(f"robot {self.robot}: {self.counts[kind]} messages were dropped: {kind}", file=sys.stderr, flush=True)


def sender_of(message: bytes) -> int:
    """The agent that a message names as its sender, which stands in one place in both versions, and in what is signed. Fewer bytes are none of
    these anyway."""
    return int.from_bytes(message[2:4], "big")
