"""Maps of the League of Robot Runners, which have cells for emitters and for stations, as maps of MovingAI, which have none."""
import re
from typing import Iterator

from plan_formats.texts import trimmed
from plan_formats.walks import MOST_CELLS, MOST_SIDE, Fault, read_number, shown

HEADER = (re.compile(rb"type +octile"), re.compile(rb"height +(\d+)"), re.compile(rb"width +(\d+)"), re.compile(rb"map"))
DUE = ("type octile", "height 8", "width 8", "map")
FREE, BLOCKED = b".", b"@OT"
# What an emitter and a station are written as: both are cells that robots may stand in.
LEAGUE = b"ES"
# Free or water in maps of MovingAI, and blocked in those of the League.
DIFFERENT = b"GW"
TERRAIN = FREE + BLOCKED + LEAGUE


def begins(head: bytes) -> bool:
    return head.lstrip(b" \t\r\n").startswith(b"type ")


def read_header(lines: list[bytes]) -> tuple[int, int]:
    """The height and the width."""
    numbers = []
    for number, (pattern, due) in enumerate(zip(HEADER, DUE)):
        line = lines[number].strip() if number < len(lines) else b""
        found = pattern.fullmatch(line)
        if not found:
            raise Fault(number + 1, f"{shown(line)} stands where '{due}' was due")
        numbers += [read_number(digits) for digits in found.groups()]
    height, width = numbers
    if not 0 < width <= MOST_SIDE or not 0 < height <= MOST_SIDE or width * height > MOST_CELLS:
        raise Fault(3, f"{height} rows of {width} cells were stated, from 1 to {MOST_SIDE} of each were due, and at most {MOST_CELLS} cells")
    return height, width


def refuse_row(row: bytes, width: int, line: int) -> None:
    if len(row) != width:
        raise Fault(line, f"the row has {len(row)} cells, {width} were due")
    for column, byte in enumerate(row):
        sign = bytes([byte])
        if sign in DIFFERENT:
            both = "is no wall in maps of MovingAI, and a wall in those of the League of Robot Runners"
            raise Fault(line, f"{shown(sign)} in column {column} {both}: another terrain was due")
        if sign not in TERRAIN:
            raise Fault(line, f"{shown(sign)} in column {column} is no terrain, one of {' '.join(TERRAIN.decode())} was due")


def read(text: bytes) -> tuple[list[bytes], dict[str, int]]:
    """The rows as MovingAI has them, and how many emitters and stations became free cells."""
    lines = trimmed(text).split(b"\n")[:-1]
    height, width = read_header(lines)
    rows = lines[len(HEADER) :]
    for line, row in enumerate(rows[:height], len(HEADER) + 1):
        if len(row) != width or row.translate(None, TERRAIN):
            refuse_row(row, width, line)
    if len(rows) != height:
        raise Fault(len(HEADER) + min(len(rows), height), f"the map has {len(rows)} rows, {height} were due")
    counts = {chr(sign): sum(row.count(sign) for row in rows) for sign in LEAGUE}
    return [row.translate(bytes.maketrans(LEAGUE, FREE * len(LEAGUE))) for row in rows], counts


def write(rows: list[bytes]) -> Iterator[bytes]:
    """The one canonical text of a map."""
    yield f"type octile\nheight {len(rows)}\nwidth {len(rows[0])}\nmap\n".encode()
    yield from (row + b"\n" for row in rows)
