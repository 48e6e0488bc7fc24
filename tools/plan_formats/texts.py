"""What readers of all formats share: the bytes of a text, its lines, and pairs of numbers in it, each read by calls that take many at once."""
import bisect
import codecs
import dataclasses
import re
from array import array
from itertools import repeat
from typing import Callable, Iterator

from plan_formats.walks import MOST_ACTS, MOST_SIDE, NARROW, Fault, Given, Numbers, narrowest, read_number, shown

DIGITS = b"0123456789"
# Bytes that stand in no text: all below the space but tabs and line ends, and DEL.
CONTROLS = bytes(set(range(32)) - set(b"\t\n\r")) + b"\x7f"
A_CONTROL = re.compile(b"[" + re.escape(CONTROLS) + b"]")
# What a cell's numbers are made of: a negative one is no cell of a map, and may be a planner's mistake.
SIGNED = DIGITS + b"-"
A_PAIR = re.compile(rb"\((-?\d+),(-?\d+)\)")


def line_at(data: bytes, place: int) -> int:
    """The line in which a place of the text stands, from 1."""
    return data.count(b"\n", 0, place) + 1


def text_of(data: bytes) -> bytes:
    """The text with line feeds alone at its line ends, and without a byte order mark. Refuses what is no text, and none."""
    data = data[len(codecs.BOM_UTF8) :] if data.startswith(codecs.BOM_UTF8) else data
    if not data:
        raise Fault(1, "the file is empty, the paths of agents were due")
    if not data.isascii():
        try:
            data.decode()
        except UnicodeDecodeError as error:
            raise Fault(line_at(data, error.start), f"the byte {data[error.start]:#04x} is no text, UTF-8 was due") from None
    if len(data.translate(None, CONTROLS)) != len(data):
        place = A_CONTROL.search(data).start()
        raise Fault(line_at(data, place), f"the byte {data[place]:#04x} is no text, letters, digits and signs were due")
    return data.replace(b"\r\n", b"\n") if b"\r" in data else data


def refuse_a_cut(data: bytes) -> None:
    """A last line that isn't ended may be the beginning of a longer one."""
    if not data.endswith(b"\n"):
        last = data[data.rfind(b"\n") + 1 :]
        raise Fault(line_at(data, len(data)), f"the text ends inside a line, {shown(last[-40:])}, a line end was due")


def refuse_a_cut_cell(agent: int, line: int, given: Given) -> None:
    """A number that was cut is a number still. In a path it is no step any more, but the one cell of an agent may be anywhere."""
    if given.tasks is None:
        raise Fault(line, f"the text ends without a line end in the one cell of agent {agent}, a line end or a scenario was due: it may be cut")


def line_from(data: bytes, place: int) -> str:
    """What stands from a place of the text to the end of the line, as it stands in the line of a refusal."""
    return shown(data[place:].partition(b"\n")[0]) if place < len(data) else "the end"


def trimmed(data: bytes) -> bytes:
    """The text with one line end behind its last line that has anything in it, whatever stood there."""
    last = len(data)
    # Byte by byte, since a text may be large, and a copy of it too.
    while last and data[last - 1] in b" \t\n":
        last -= 1
    end = data.find(b"\n", last)
    return data + b"\n" if end < 0 else data[: end + 1]


def lines_of(data: bytes) -> Iterator[tuple[int, bytes]]:
    """Each line of a text, with its number."""
    place, number = 0, 1
    while place < len(data):
        end = data.find(b"\n", place)
        end = len(data) if end < 0 else end
        yield number, data[place:end]
        place, number = end + 1, number + 1


def numbers_of(digits: list[bytes]) -> Numbers:
    """Numbers of digits, perhaps behind a minus. A ValueError or an OverflowError says that one is none, is too large or too far below 0."""
    try:
        return array(NARROW, map(int, digits))
    except OverflowError:
        return narrowest(map(int, digits))


def cells_of_numbers(numbers: list[bytes], width: int, line: int) -> tuple[Numbers, Numbers]:
    """The columns and the rows of cells that are numbered row by row of a map of this width."""
    places = [read_number(digits) for digits in numbers]
    if max(places) >= width * MOST_SIDE:
        raise Fault(line, f"the cell {max(places)} lies behind the greatest map, a number below {width * MOST_SIDE} was due")
    return array(NARROW, (place % width for place in places)), array(NARROW, (place // width for place in places))


def pairs(text: bytes, between: bytes, line: int, most: int = MOST_ACTS + 1) -> tuple[Numbers, Numbers]:
    """The numbers of a text `(a,b)` or of more of them, divided by what stands between them: the first of each, and the second."""
    text = text.replace(b", ", b",")
    joined = text[1:-1].replace(b")" + between + b"(", b";")
    signs = joined.translate(None, SIGNED)
    count = len(signs) // 2 + 1
    if count > most:
        raise Fault(line, f"there are more than {most} cells in one line, no more were due")
    digits = joined.replace(b";", b",").split(b",")
    is_whole = text[:1] == b"(" and text[-1:] == b")" and b";" not in text
    if not is_whole or signs != b",;" * (count - 1) + b"," or b"" in digits:
        raise no_pair(text, between, line)
    try:
        numbers = numbers_of(digits)
    except (OverflowError, ValueError):
        raise no_pair(text, between, line) from None
    return numbers[::2], numbers[1::2]


def no_pair(text: bytes, between: bytes, line: int) -> Fault:
    """What is wrong with the first pair that is none, or is too large."""
    place = 0
    while True:
        pair = A_PAIR.match(text, place)
        if not pair:
            return Fault(line, f"{shown(text[place:])} stands where a cell was due, as '(1,2)' of two numbers")
        if any(read_number(digits.lstrip(b"-")) > MOST_SIDE for digits in pair.groups()):
            return Fault(line, f"the cell {shown(pair[0])} is larger than any map, numbers below {MOST_SIDE} were due")
        place = pair.end()
        if not text.startswith(between, place):
            return Fault(line, f"{shown(text[place:])} stands behind a cell, {shown(between)} and the next was due, or the end of the line")
        place += len(between)


def times_fault(agent: int, times: Numbers) -> tuple[int, str]:
    """The first of an agent's times that isn't one more than the one before, by its place, and what is wrong with it."""
    place = next(place for place, time in enumerate(times) if time != place)
    time = times[place]
    if place == 0:
        return place, f"the path of agent {agent} begins at time {time}, time 0 was due"
    if time == times[place - 1]:
        return place, f"agent {agent} has two cells at time {time}, time {place} was due"
    return place, f"agent {agent} has time {time} behind time {place - 1}, time {place} was due"


@dataclasses.dataclass(frozen=True)
class Cells:
    """An agent's cells by time, and in which line each stands."""

    xs: Numbers
    ys: Numbers
    line_of: Callable[[int], int]


def timed(agent: int, times: Numbers, xs: Numbers, ys: Numbers, fills_waits: bool, line_of: Callable[[int], int], below: int = 0) -> Cells:
    """The cells that stand at these times. Where the text leaves times out, the agent waits, if that is asked for. A time stands so many
    lines below the first one of its cell."""
    if times.tolist() == list(range(len(times))):
        return Cells(xs, ys, line_of)
    rises = times[0] == 0 and all(map(int.__lt__, times, times[1:]))
    if not fills_waits or not rises:
        place, what = times_fault(agent, times)
        raise Fault(line_of(place) + below, f"{what}, or --fill-waits" if rises else what)
    counts = [later - time for time, later in zip(times, times[1:])] + [1]
    filled = [array(numbers.typecode, (it for number, count in zip(numbers, counts) for it in repeat(number, count))) for numbers in (xs, ys)]
    return Cells(*filled, lambda time: line_of(bisect.bisect_right(times, time) - 1))
