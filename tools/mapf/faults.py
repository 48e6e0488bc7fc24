"""What is wrong with a text or a plan, and what fails."""
import dataclasses
import re

# What stands before the words of a fault on standard error; and these, a name and numbers, as `BadTerrain 5 2`.
BEFORE_WORDS = "mapf: "
WORDS = re.compile(r"(\w+)((?: [0-9]+)*)")


@dataclasses.dataclass(frozen=True)
class FaultWords:
    """The words of a fault: its name and its numbers."""

    name: str
    numbers: tuple[int, ...] = ()

    def __str__(self) -> str:
        return " ".join([self.name, *map(str, self.numbers)])


def read_words(line: str) -> FaultWords:
    """The words that a line has. What has another form is a name alone."""
    text = line.removeprefix(BEFORE_WORDS)
    found = WORDS.fullmatch(text)
    return FaultWords(found[1], tuple(map(int, found[2].split()))) if found else FaultWords(text)


class Fault(Exception):
    """A text or a plan has a fault: the line as it was told, its name and its numbers, the status, and what was answered before it."""

    def __init__(self, line: str, status: int = 1, answer: str = "") -> None:
        super().__init__(line)
        self.line, self.words, self.status, self.answer = line, read_words(line), status, answer

    @property
    def name(self) -> str:
        return self.words.name

    @property
    def numbers(self) -> tuple[int, ...]:
        return self.words.numbers


class Failed(Exception):
    """A file, a device, memory or the program itself failed: the line as it was told, or what happened, and the status, where there is one. Of
    `OpenFailed` the file is named, where it still can't be opened, and why."""

    def __init__(self, line: str, status: int = 3, file: str = "", why: str = "") -> None:
        super().__init__(f"{line} {file}: {why}" if file else line)
        self.line, self.words, self.status, self.file = line, read_words(line), status, file

    @property
    def name(self) -> str:
        return self.words.name


class StoreFailed(Failed):
    """An agent couldn't store its record, and has ended. Started again, it says whether the record is there."""


class StaleTape(Failed):
    """An agent's tape is an older one: agent `agent` says that it has finished `moves` moves. It has ended, and no start mends that."""

    def __init__(self, line: str, agent: int, moves: int) -> None:
        super().__init__(line)
        self.agent, self.moves = agent, moves
