"""What both sides of VDA 5050, version 2.0, have in common: topics, heads of messages, and how messages are written and read."""
import collections
import datetime
import json
from typing import Any, Counter, NamedTuple, Optional

VERSION = "2.0.0"
ORDER, INSTANT_ACTIONS, STATE = "order", "instantActions", "state"
CONNECTION, VISUALIZATION, FACTSHEET = "connection", "visualization", "factsheet"
ONLINE, OFFLINE, BROKEN = "ONLINE", "OFFLINE", "CONNECTIONBROKEN"
# How an action has ended, or hasn't yet.
RUNNING, FINISHED, FAILED = "RUNNING", "FINISHED", "FAILED"
# The kinds of instant actions.
CANCEL_ORDER, START_PAUSE, STOP_PAUSE = "cancelOrder", "startPause", "stopPause"
STATE_REQUEST, FACTSHEET_REQUEST = "stateRequest", "factsheetRequest"
# An object of JSON.
Message = dict[str, Any]


class Identity(NamedTuple):
    """A vehicle's name."""

    manufacturer: str
    serial: str

    def topic(self, kind: str) -> str:
        return f"uagv/v2/{self.manufacturer}/{self.serial}/{kind}"


def kind_of(topic: str) -> tuple[Optional[Identity], str]:
    """Of which vehicle a topic is, and which kind of message; none where it is no topic of the standard."""
    words = topic.split("/")
    if len(words) != 5 or words[:2] != ["uagv", "v2"]:
        return None, topic
    return Identity(words[2], words[3]), words[4]


class Heads:
    """Heads messages to or from a vehicle, and counts them by their kind."""

    def __init__(self, identity: Identity):
        self.identity = identity
        self.counts: Counter[str] = collections.Counter()

    def headed(self, kind: str, content: Message) -> Message:
        number, self.counts[kind] = self.counts[kind], self.counts[kind] + 1
        head = {"headerId": number, "timestamp": timestamp(), "version": VERSION}
        return {**head, "manufacturer": self.identity.manufacturer, "serialNumber": self.identity.serial, **content}


def timestamp() -> str:
    """The time now, by UTC."""
    return datetime.datetime.now(datetime.timezone.utc).isoformat(timespec="milliseconds").replace("+00:00", "Z")


def written(message: Message) -> bytes:
    return json.dumps(message, separators=(",", ":")).encode()


def refuse(word: str) -> None:
    """Python would read words for numbers that are none."""
    raise ValueError(word)


def read(payload: bytes) -> Optional[Message]:
    """A message, or none where the bytes are no object."""
    try:
        message = json.loads(payload, parse_constant=refuse)
    except (ValueError, RecursionError):
        return None
    return message if isinstance(message, dict) else None
