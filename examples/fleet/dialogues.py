"""What black boxes have, read: the processes of an agent, and the dialogue with each. black_box.py says how a box is written."""
import dataclasses
import json
import sys
from typing import Any, Iterator, NamedTuple, Optional, Sequence

from black_box import FOLLOWS, LONGEST_HEAD, LOST, before

# What the first line of a process answers.
OPENED = ""
# In the year 5138.
LATEST = 1e11
WORDS = {"started": dict, "asked": str, "answered": str, "ended": int, FOLLOWS: int, LOST: int}


class BadBox(Exception):
    """A box has a fault, or boxes don't go together."""


class Moment(NamedTuple):
    """By the machine's own clock, and by that on the wall."""

    clock: float
    wall: float


@dataclasses.dataclass
class Turn:
    """A line that an agent was asked, and its answer, unless that never came."""

    agent: int
    asked: str
    # When the answer came, or else when the line was asked.
    at: Moment
    # The line of the box that says so, counted through all its files.
    line: int
    answer: Optional[str] = None
    # The answer that the rules give, where they give one.
    due: Optional[str] = None
    # The message that it said all the same where the answer never came, as others heard.
    unanswered: str = ""


@dataclasses.dataclass
class Process:
    number: int
    # What was said of its start: the machine's boot, and digests of the files.
    about: dict[str, object]
    turns: list[Turn]
    # How it ended, and when, if its robot has lived to say so.
    status: Optional[int] = None
    over: Optional[Moment] = None
    # Whether its plan is one before the last.
    is_earlier: bool = False

    @property
    def first(self) -> Optional[str]:
        """Its first line, none where it ended before."""
        return self.turns[0].answer


@dataclasses.dataclass
class Box:
    path: str
    agent: int
    processes: list[Process]
    # Each of its files, behind so many lines of those before.
    files: list[tuple[int, str]] = dataclasses.field(default_factory=list)

    @property
    def opened(self) -> list[Process]:
        """The processes that have opened the tape."""
        return [it for it in self.processes if it.first is not None]

    def place(self, line: int) -> str:
        """Where a line stands."""
        behind, path = next(it for it in reversed(self.files) if it[0] < line)
        return f"line {line - behind} of {path}"

    @property
    def calls(self) -> Iterator[Turn]:
        """All that the agent was asked."""
        for process in self.processes:
            yield from process.turns[1:]


@dataclasses.dataclass(frozen=True)
class Line:
    """A line of a box: what happened, and when."""

    number: int
    at: Moment
    agent: int
    process: int
    word: str
    value: Any


def line_of(number: int, text: bytes) -> Optional[Line]:
    """None where it is no line of a box."""
    try:
        fields = json.loads(text)
        at = Moment(float(fields["clock"]), float(fields["wall"]))
        word = next(it for it in WORDS if it in fields)
        agent, process, value = fields["agent"], fields["process"], fields[word]
    except (ValueError, TypeError, KeyError, StopIteration, OverflowError, RecursionError):
        return None
    is_whole = text.endswith(b"\n") and "\n" not in str(value) and all(0 <= it < LATEST for it in at)
    is_right = is_whole and type(agent) is int and agent >= 0 and type(process) is int and isinstance(value, WORDS[word])
    return Line(number, at, agent, process, word, value) if is_right else None


class Reader:
    """Puts the lines of a box together."""

    def __init__(self, path: str):
        self.path = path
        self.box: Optional[Box] = None
        # The line that is none, if the last one is.
        self.torn = 0
        self.files: list[tuple[int, str]] = []

    def fault(self, line: int, what: str) -> BadBox:
        behind, path = next(it for it in reversed(self.files) if it[0] < line)
        return BadBox(f"{path}: line {line - behind} {what}")

    def take(self, number: int, text: bytes) -> None:
        line = line_of(number, text)
        if line and line.word == LOST:
            raise self.fault(number, f"says that {line.value} lines before it couldn't be written")
        if line and line.word == FOLLOWS:
            return
        if self.torn and (line is None or line.word != "started"):
            raise self.fault(self.torn, "is no line of a box")
        # Who wrote it was killed, before anything was done with what it says: then nothing follows, or another start.
        self.torn = number if line is None else 0
        if line:
            self.add(line)

    def add(self, line: Line) -> None:
        self.box = self.box or Box(self.path, line.agent, [], self.files)
        if line.agent != self.box.agent:
            raise self.fault(line.number, f"is of agent {line.agent}, and those before of agent {self.box.agent}")
        if line.word == "started":
            self.box.processes.append(Process(line.process, line.value, [Turn(line.agent, OPENED, line.at, line.number)]))
            return
        process = self.box.processes[-1] if self.box.processes else None
        if not process or process.number != line.process or process.over:
            raise self.fault(line.number, f"is of a process that wasn't started: {line.process}")
        self.go_on(process, line)

    def go_on(self, process: Process, line: Line) -> None:
        last = process.turns[-1]
        if line.word == "ended":
            process.status, process.over = line.value, line.at
        elif line.word == "asked":
            if last.answer is None:
                raise self.fault(line.number, "asks before the line before it was answered")
            process.turns.append(Turn(line.agent, sys.intern(line.value), line.at, line.number))
        else:
            if last.answer is not None:
                raise self.fault(line.number, "answers what nobody asked")
            last.answer, last.at, last.line = sys.intern(line.value), line.at, line.number


def files_of(path: str) -> list[str]:
    """The files of a box in order, by the first line of the last one."""
    with open(path, "rb") as file:
        count = before(file.read(LONGEST_HEAD))
    return [*(f"{path}.{number}" for number in range(1, count + 1)), path]


def read_box(path: str) -> Optional[Box]:
    """None of a robot that was killed before it started an agent."""
    reader, number = Reader(path), 0
    try:
        for file in files_of(path):
            reader.files.append((number, file))
            with open(file, "rb") as lines:
                for number, text in enumerate(lines, number + 1):
                    reader.take(number, text)
    except OSError as fault:
        raise BadBox(f"{fault.filename}: {fault.strerror}") from None
    if reader.torn and not reader.box:
        raise BadBox(f"{path}: there is no line of a box")
    return reader.box


def read_boxes(paths: Sequence[str]) -> list[Box]:
    """One for each agent, in order."""
    boxes: dict[int, Box] = {}
    for box in filter(None, map(read_box, paths)):
        other = boxes.setdefault(box.agent, box)
        if other is not box:
            raise BadBox(f"{box.path}: it is a box of agent {box.agent}, as {other.path} is")
    return [boxes[agent] for agent in sorted(boxes)]
