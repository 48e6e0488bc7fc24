"""What is done to a fleet at random, by its seed: processes are killed, cables cut for a while, and the broker stopped and started again."""
import collections
import heapq
import itertools
import random
import time
from typing import Callable, Counter, Mapping, Protocol, Sequence

# Seconds for which a cable is cut or the broker is gone, and after which a robot that was killed is started again.
LEAST, MOST = 1.0, 4.0


class Hands(Protocol):
    """What may be done to a fleet."""

    def kill(self, robot: int, what: str) -> bool: ...
    def cut(self, name: str) -> None: ...
    def mend(self, name: str) -> None: ...
    def stop_broker(self) -> None: ...
    def start_broker(self) -> None: ...


class Harm:
    """Each kind comes on average so often a second, and has chances of its own."""

    def __init__(self, rates: Mapping[str, float], robots: int, cables: Sequence[str], seed: int, hands: Hands):
        self.rates, self.robots, self.cables, self.hands = rates, robots, cables, hands
        self.rng = {kind: random.Random(f"{kind} {seed}") for kind in rates}
        self.counts: Counter[str] = collections.Counter()
        self.order = itertools.count()
        self.due: list[tuple[float, int, Callable[[], None]]] = []
        self.away: set[str] = set()
        for kind in rates:
            self._plan_next(kind, time.monotonic())

    def _at(self, when: float, what: Callable[[], None]) -> None:
        heapq.heappush(self.due, (when, next(self.order), what))

    def _plan_next(self, kind: str, now: float) -> None:
        if self.rates[kind] > 0:
            when = now + self.rng[kind].expovariate(self.rates[kind])
            self._at(when, lambda: self._strike(kind, when))

    def _strike(self, kind: str, now: float) -> None:
        rng = self.rng[kind]
        if kind == "kills":
            what = rng.choice(["robot", "agent", "both"])
            if self.hands.kill(rng.randrange(self.robots), what):
                self.counts[f"{what}_kills"] += 1
        elif kind == "cuts":
            name, until = rng.choice(self.cables), now + rng.uniform(LEAST, MOST)
            if name not in self.away:
                self._take_away(kind, name, until, lambda: self.hands.cut(name), lambda: self.hands.mend(name))
        else:
            until = now + rng.uniform(LEAST, MOST)
            if kind not in self.away:
                self._take_away(kind, kind, until, self.hands.stop_broker, self.hands.start_broker)
        self._plan_next(kind, now)

    def _take_away(self, kind: str, name: str, until: float, take: Callable[[], None], give: Callable[[], None]) -> None:
        def give_back() -> None:
            self.away.discard(name)
            give()

        self.away.add(name)
        self.counts[kind] += 1
        take()
        self._at(until, give_back)

    def do_what_is_due(self) -> None:
        while self.due and self.due[0][0] <= time.monotonic():
            heapq.heappop(self.due)[2]()

    def undo(self) -> None:
        """Gives back what is away."""
        if "stops" in self.away:
            self.hands.start_broker()
        for name in self.away - {"stops"}:
            self.hands.mend(name)
        self.away.clear()
        self.due.clear()
