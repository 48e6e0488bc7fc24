"""A run: its events, what `mapf run` replies to each, and how the run can end from there."""
import dataclasses
import pathlib
from typing import Sequence

from mapf.program import Program
from refused import Refused
from showing.program import refuse, talk

MOST_EVENTS = 1_000_000
# A longer reply is shortened: a message may tell of ten thousand agents.
MOST_REPLY = 240
KEPT = 120
ENDS, FINISH = (b"complete ", b"blocked "), b"finish "


@dataclasses.dataclass(frozen=True)
class Run:
    """The events and the replies, a line each, the line that says how the run can end, and how many moves are left then."""

    version: str
    events: list[bytes]
    replies: list[bytes]
    ending: str
    left: int


def shortened(line: bytes) -> bytes:
    reply = line.rstrip(b"\n")
    if len(reply) <= MOST_REPLY:
        return reply
    digits = len(reply) - reply.rfind(b" ") - 1
    return reply[:KEPT] + b".. (%d digits)" % digits


def read_run(program: Program, files: Sequence[str], events_name: str) -> Run:
    """The run of an accepted plan."""
    file = files[2]
    try:
        events = pathlib.Path(file).read_bytes().split(b"\n")[:-1]
    except OSError:
        events = []
    if len(events) - 1 > MOST_EVENTS:
        raise Refused(f"{events_name}: there are {len(events) - 1} events, and at most {MOST_EVENTS} can be shown")
    with talk(program, "run", "--complete", "--", *files) as call:
        # A line behind the replies is read before the lines of how the run ends, which may be many.
        replies = [shortened(line) for _, line in zip(events[1:], call.lines)]
        ending = next(call.lines, b"")
        # None of these events is refused, so each of them finishes a move.
        left = sum(line.startswith(FINISH) for line in call.lines)
    if call.told or not ending.startswith(ENDS):
        refuse(call, events_name)
    return Run(events[0].decode(), events[1:], replies, ending.decode().rstrip("\n"), left)
