"""What is said of the rows of a scenario: whether the lengths that it lists are right, or how many straight steps a row needs at least."""
import dataclasses
import re
from typing import Iterator, Optional

from mapf.faults import Failed
from mapf.program import AnyProgram, File, files, flag, option, program_at
from mapf.program import number as as_word

# What is said of a row.
AGREES, DIFFERS, LEAST, UNREACHABLE, SIZE_DIFFERS = "agrees", "differs", "least", "unreachable", "SizeDiffers"
SHORTEST = re.compile(rf"shortest ([0-9]+) ([0-9]+) listed (\S+) ({AGREES}|{DIFFERS})")
STEPS = re.compile(rf"({LEAST}) ([0-9]+)")


@dataclasses.dataclass(frozen=True)
class Row:
    """The verdict on a row: `agrees` or `differs`, with the shortest length, so many straight steps and so many diagonal ones, beside the listed one;
    `least`, with the straight steps alone; `unreachable`; or `SizeDiffers`, where the row is for a map of another size."""

    verdict: str
    straight: Optional[int] = None
    diagonal: Optional[int] = None
    listed: Optional[str] = None


@dataclasses.dataclass(frozen=True)
class Rows:
    """The verdicts on rows by their numbers, and the counts behind them: `agree`, or `sum` and `greatest`, and so on, by their names."""

    rows: dict[int, Row]
    counts: dict[str, int]


def read_row(line: str) -> Row:
    """The verdict that a line has, without the number of the row."""
    found = SHORTEST.fullmatch(line)
    if found:
        return Row(found[4], int(found[1]), int(found[2]), found[3])
    found = STEPS.fullmatch(line)
    if found:
        return Row(found[1], int(found[2]))
    if line not in (UNREACHABLE, SIZE_DIFFERS):
        raise Failed(f"'{line[:80]}' is no answer of mapf")
    return Row(line)


def row(map: File, scen: File, number: int, *, program: AnyProgram = None) -> Row:
    """The verdict of `mapf row` on the length that a row lists."""
    return read_row(program_at(program).answer("row", *files(map, scen, as_word(number))).rstrip("\n"))


def rows(map: File, scen: File, *, first: int = 0, end: Optional[int] = None, straight: bool = False, program: AnyProgram = None) -> Rows:
    """The verdicts of `mapf rows` on the rows from `first` up to before `end`; with `straight` the least numbers of straight steps."""
    words = [*option("from", first), *option("to", end), *flag("straight", straight)]
    *lines, last = program_at(program).answer("rows", *words, *files(map, scen)).split("\n")[:-1] or [""]
    counts = last.split(" ")
    if counts[0] != "rows" or len(counts) % 2 or not all(it.isdigit() for it in counts[1::2]):
        raise Failed(f"'{last[:80]}' is no answer of mapf")
    return Rows(dict(numbered(lines)), {name: int(count) for name, count in zip(counts[::2], counts[1::2])})


def numbered(lines: list[str]) -> Iterator[tuple[int, Row]]:
    """The verdict of each line behind the number of its row."""
    for line in lines:
        number, _, verdict = line.partition(" ")
        yield int(number), read_row(verdict)
