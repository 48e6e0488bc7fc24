"""What is signed, made by hand by the table of OPERATING, with HMAC as two calls of SHA-256; and wrong ones of each kind, each with why it is dropped."""
import dataclasses
import hashlib
import random
from typing import Callable, Iterator, Sequence

KEY_LENGTH, BLOCK, HEAD, TAG = 32, 64, 16, 32


def tag_of(key: bytes, text: bytes) -> bytes:
    inner, outer = (bytes(byte ^ mask for byte in key.ljust(BLOCK, b"\0")) for mask in (0x36, 0x5C))
    return hashlib.sha256(outer + hashlib.sha256(inner + text).digest()).digest()


@dataclasses.dataclass(frozen=True)
class Envelope:
    sender: int
    run: int
    count: int
    message: bytes

    def text(self) -> bytes:
        return b"\x53\x01" + self.sender.to_bytes(2, "big") + self.run.to_bytes(4, "big") + self.count.to_bytes(8, "big") + self.message

    def signed(self, key: bytes) -> bytes:
        return self.text() + tag_of(key, self.text())

    def but(self, **other: object) -> "Envelope":
        return dataclasses.replace(self, **other)


def opened(datagram: bytes) -> Envelope:
    """The parts of one that is right."""
    numbers = (int.from_bytes(datagram[at:end], "big") for at, end in ((2, 4), (4, 8), (8, 16)))
    return Envelope(*numbers, datagram[HEAD:-TAG])


def message_of(rng: random.Random, sender: int, run: int, moves: Sequence[int]) -> bytes:
    """A right message of either version, in which nobody has finished more moves than it has."""
    done = [rng.randrange(most + 1) for most in moves]
    if rng.randrange(2):
        return bytes.fromhex(f"4601{sender:04x}{run:08x}{done[sender]:08x}")
    entries = "".join(f"{agent:04x}{count:08x}" for agent, count in enumerate(done) if count)
    return bytes.fromhex(f"4602{sender:04x}{run:08x}{len(entries) // 12:04x}{entries}")


@dataclasses.dataclass(frozen=True)
class Fleet:
    """Whose keys a robot has, and which agents of the plan speak to it."""

    keys: dict[int, bytes]
    run: int
    moves: Sequence[int]
    senders: Sequence[int]


# A wrong datagram, and why it is dropped.
Wrong = tuple[bytes, str]


class Forger:
    """Makes right ones whose counts rise, and of each a wrong one, which would be heard if it were as it was."""

    def __init__(self, fleet: Fleet, seed: int):
        self.fleet, self.rng, self.count = fleet, random.Random(f"forger {seed}"), 0
        # The right ones that were sent, and the last count of each sender.
        self.sent: list[bytes] = []
        self.last: dict[int, int] = {}

    def right(self) -> Envelope:
        sender = self.rng.choice(self.fleet.senders)
        self.count += self.rng.choice((1, 1, 1, 1000, 1 << 40))
        return Envelope(sender, self.fleet.run, self.count, message_of(self.rng, sender, self.fleet.run, self.fleet.moves))

    def signed(self, envelope: Envelope) -> bytes:
        return envelope.signed(self.fleet.keys[envelope.sender])

    def other(self, sender: int) -> int:
        return self.rng.choice([it for it in self.fleet.keys if it != sender])

    def stranger(self) -> int:
        return self.rng.choice([it for it in (len(self.fleet.keys), 4660, 65_535) if it not in self.fleet.keys])

    def forged(self, right: Envelope) -> Wrong:
        text = right.text()
        own = self.rng.randbytes(KEY_LENGTH)
        tags = (self.rng.randbytes(TAG), bytes(TAG), tag_of(own, text), tag_of(b"", text), hashlib.sha256(text).digest(), tag_of(own, right.message))
        return text + self.rng.choice(tags), "BadTag"

    def replayed(self, right: Envelope) -> Wrong:
        """One that was heard, or one of before that never came."""
        if right.sender not in self.last:
            return b"", "NotSigned"
        late = right.but(count=self.rng.randrange(self.last[right.sender] + 1))
        return self.rng.choice((self.rng.choice(self.sent), self.signed(late))), "NotNewer"

    def cut(self, right: Envelope) -> Wrong:
        whole = self.signed(right)
        if self.rng.randrange(4) == 0:
            at = self.rng.randrange(HEAD, len(whole))
            return whole[:at] + whole[at + 1 :], "BadTag"
        length = self.rng.randrange(len(whole))
        return whole[:length], "NotSigned" if length < HEAD + TAG else "BadTag"

    def readdressed(self, right: Envelope) -> Wrong:
        tag, keys = self.signed(right)[-TAG:], self.fleet.keys
        other, stranger, run = self.other(right.sender), self.stranger(), (right.run + self.rng.randrange(1, 1 << 32)) % (1 << 32)
        return self.rng.choice(
            (
                (right.but(sender=other).text() + tag, "BadTag"),
                (right.but(sender=stranger).text() + tag, "UnknownSender"),
                (right.but(sender=stranger).signed(keys[right.sender]), "UnknownSender"),
                (right.but(run=run).text() + tag, "OtherRun"),
                (right.but(run=run).signed(keys[right.sender]), "OtherRun"),
                (right.but(count=right.count + 1).text() + tag, "BadTag"),
                (right.signed(keys[other]), "BadTag"),
                (right.but(sender=other).signed(keys[other]), "NotItsSender"),
                (right.but(message=right.message[:2] + other.to_bytes(2, "big") + right.message[4:]).signed(keys[right.sender]), "NotItsSender"),
            )
        )

    def flipped(self, right: Envelope) -> Wrong:
        whole = bytearray(self.signed(right))
        at = self.rng.randrange(len(whole))
        whole[at] ^= 1 << self.rng.randrange(8)
        is_known = int.from_bytes(whole[2:4], "big") in self.fleet.keys
        reasons = ("NotSigned",) * 2 + ("BadTag" if is_known else "UnknownSender",) * 2 + ("OtherRun",) * 4
        return bytes(whole), reasons[at] if at < len(reasons) else "BadTag"

    def unsigned(self, right: Envelope) -> Wrong:
        junk = bytes([self.rng.choice([it for it in range(256) if it != 0x53])]) + self.rng.randbytes(self.rng.randrange(80))
        plain = (right.message, right.message + bytes(60), b"\x53\x02" + self.signed(right)[2:], b"\x46" + self.signed(right)[1:], junk, b"")
        return self.rng.choice(plain), "NotSigned"

    def kinds(self) -> dict[str, Callable[[Envelope], Wrong]]:
        return {
            "forged": self.forged,
            "replayed": self.replayed,
            "cut": self.cut,
            "of another": self.readdressed,
            "with a bit flipped": self.flipped,
            "unsigned": self.unsigned,
        }

    def turns(self, each: int, every: int) -> Iterator[tuple[bytes, str]]:
        """So many wrong ones of each kind, one kind after another, and after a few of them the right one of which the last was made, with no reason."""
        for turn in range(each):
            for place, make in enumerate(self.kinds().values()):
                right = self.right()
                yield make(right)
                if (turn + place) % every == 0:
                    self.last[right.sender] = right.count
                    self.sent.append(self.signed(right))
                    yield self.sent[-1], ""
