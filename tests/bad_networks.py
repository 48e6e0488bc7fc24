"""A simulated network that loses, repeats, delays, reorders and damages what robots say.

It also brings messages of earlier runs again, as a broker does that kept them.
"""
import collections
import dataclasses
import random
from typing import Iterator, Sequence

# How often a datagram is lost, how many copies of it come, and how often one is damaged.
LOSS, COPIES, DAMAGE = 0.3, (1, 1, 1, 2, 3), 0.1
# After how many moments a datagram comes at the latest.
LONGEST = 12
# How often in a moment a robot gets a message that the broker kept, of this run or an earlier one.
KEPT, OLD = 0.1, 0.05
# How many messages of earlier runs are kept.
MOST_OLD = 200
MAGIC, VERSIONS = 0x46, (1, 2)


@dataclasses.dataclass(frozen=True)
class Datagram:
    """What comes to a robot, and why the agent must refuse it, if it must."""

    digits: str
    fault: str = ""
    is_damaged: bool = False


def other_than(rng: random.Random, values: Sequence[int], limit: int) -> int:
    """A number below a limit that is none of these."""
    return rng.choice([it for it in range(limit) if it not in values])


def damaged(rng: random.Random, digits: str) -> Datagram:
    """A message whose magic byte, version, plan number or length is wrong."""
    message, kind = bytearray.fromhex(digits), rng.randrange(5)
    fault = ("BadMagic", "BadVersion", "BadLength", "WrongPlan", "BadLength")[kind]
    if kind == 0:
        message[0] = other_than(rng, [MAGIC], 256)
    elif kind == 1:
        message[1] = other_than(rng, VERSIONS, 256)
    elif kind == 2:
        message[1] = VERSIONS[1] if message[1] == VERSIONS[0] else VERSIONS[0]
    elif kind == 3:
        place = rng.randrange(4, 8)
        message[place] = other_than(rng, [message[place]], 256)
    elif rng.random() < 0.5:
        del message[rng.randrange(len(message)) :]
    else:
        message += bytes(rng.randrange(256) for _ in range(rng.randint(1, 12)))
    return Datagram(message.hex(), fault, True)


def earlier_run(number: int, moves: Sequence[int]) -> list[str]:
    """What agents say at the end of a run with this number, all of whom have made their moves."""
    done = [(agent, count) for agent, count in enumerate(moves) if count]
    entries = "".join(f"{agent:04x}{count:08x}" for agent, count in done)
    said = [f"4601{agent:04x}{number:08x}{count:08x}" for agent, count in done]
    told = [f"4602{agent:04x}{number:08x}{len(done):04x}{entries}" for agent, _ in done]
    return [*said, *told]


class Network:
    """What is on its way to each agent of a run."""

    def __init__(self, rng: random.Random):
        self.rng, self.now = rng, 0
        self.coming: dict[int, list[tuple[int, Datagram]]] = collections.defaultdict(list)
        # The last message of each agent of this run, and messages of earlier runs.
        self.kept: dict[int, str] = {}
        self.said: list[str] = []
        self.old: list[str] = []

    def send(self, sender: int, digits: str, receivers: Sequence[int]) -> None:
        """Takes what an agent said to all others."""
        self.kept[sender] = digits
        self.said.append(digits)
        for receiver in receivers:
            if receiver != sender and self.rng.random() >= LOSS:
                for _ in range(self.rng.choice(COPIES)):
                    self._put(receiver, digits)

    def _put(self, receiver: int, digits: str) -> None:
        is_damaged = self.rng.random() < DAMAGE
        datagram = damaged(self.rng, digits) if is_damaged else Datagram(digits)
        self.coming[receiver].append((self.now + self.rng.randint(0, LONGEST), datagram))

    def due(self, receiver: int) -> Iterator[Datagram]:
        """What comes to an agent in this moment, in any order."""
        own = self.coming[receiver]
        ready = [it for it in own if it[0] <= self.now]
        self.coming[receiver] = [it for it in own if it[0] > self.now]
        self.rng.shuffle(ready)
        yield from (datagram for _, datagram in ready)
        kept = [digits for sender, digits in self.kept.items() if sender != receiver]
        if kept and self.rng.random() < KEPT:
            yield Datagram(self.rng.choice(kept))
        if self.old and self.rng.random() < OLD:
            yield Datagram(self.rng.choice(self.old), "WrongPlan")

    def begin_run(self) -> None:
        """Another run begins: all messages until now are of earlier ones. Some still come."""
        late = [it.digits for own in self.coming.values() for _, it in own if not it.fault]
        self.old += self.rng.sample(self.said, min(len(self.said), MOST_OLD))
        self.old += late
        self.said, self.kept = [], {}
        self.coming.clear()
