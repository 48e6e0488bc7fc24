"""Messages that are signed. Who has the keys of a fleet knows of each who says it, in which run, and that it is newer than what that one said before.

What is sent is the message with a head before it, and behind it the tag of both, HMAC-SHA-256 by the sender's key: the table in docs/OPERATING.md.
"""
import hmac
import struct
from typing import Mapping

from count_file import Count
from letters import Letter, Link, sender_of

# The first byte is none of a message, which begins with 46; the second is the version. Behind these the sender, the number of the run, the count.
MAGIC = b"\x53\x01"
HEAD = struct.Struct(">2sHIQ")
TAG = 32
# Why a message is dropped: each is the first of these that stands.
NOT_SIGNED, OTHER_RUN, UNKNOWN_SENDER = "NotSigned", "OtherRun", "UnknownSender"
BAD_TAG, NOT_ITS_SENDER, NOT_NEWER = "BadTag", "NotItsSender", "NotNewer"


def tag_of(key: bytes, text: bytes) -> bytes:
    return hmac.digest(key, text, "sha256")


class Signer:
    """Signs what one robot says in one run."""

    def __init__(self, key: bytes, sender: int, run: int, count: Count):
        self.key, self.sender, self.run, self.count = key, sender, run, count

    def signed(self, message: bytes) -> bytes:
        text = HEAD.pack(MAGIC, self.sender, self.run, self.count.take()) + message
        return text + tag_of(self.key, text)


class Verifier:
    """Takes what robots of a run have signed. What it drops changes nothing."""

    def __init__(self, keys: Mapping[int, bytes], run: int):
        self.keys, self.run = keys, run
        # The last number of each sender that this process has taken.
        self.last: dict[int, int] = {}

    def opened(self, letter: Letter) -> Letter:
        """The message in what was signed, or why it is dropped."""
        if letter.fault:
            return letter
        text, tag = letter.message[:-TAG], letter.message[-TAG:]
        if len(text) < HEAD.size or not text.startswith(MAGIC):
            return Letter(letter.message, NOT_SIGNED)
        _, sender, run, number = HEAD.unpack_from(text)
        message = text[HEAD.size :]
        if run != self.run:
            return Letter(message, OTHER_RUN)
        if sender not in self.keys:
            return Letter(message, UNKNOWN_SENDER)
        # Nothing that the text says is believed before.
        if not hmac.compare_digest(tag_of(self.keys[sender], text), tag):
            return Letter(message, BAD_TAG)
        if sender_of(message) != sender:
            return Letter(message, NOT_ITS_SENDER)
        if number <= self.last.get(sender, -1):
            return Letter(message, NOT_NEWER)
        self.last[sender] = number
        return Letter(message)


class SignedLink:
    """A link on which all that is said is signed, and nothing else is heard."""

    def __init__(self, link: Link, signer: Signer, verifier: Verifier):
        self.link, self.signer, self.verifier = link, signer, verifier

    def fileno(self) -> int:
        """Is readable where messages wait."""
        return self.link.fileno()

    def send(self, message: bytes) -> None:
        self.link.send(self.signer.signed(message))

    def received(self) -> list[Letter]:
        return [self.verifier.opened(letter) for letter in self.link.received()]

    def close(self) -> None:
        self.link.close()
