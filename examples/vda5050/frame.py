"""Cells as metres: the few keys of a `map.yaml` as ROS has it, `resolution` and `origin: [x, y, yaw]`.

The origin is the outer corner of the cell at the left and below, which of a map is in column 0 of the last row; rows go from the top, and y goes up.
"""
import dataclasses
import math
from typing import NamedTuple, Optional

import beside  # noqa: F401
from drive import Cell

# How far from a cell's middle a vehicle may stand, as a part of the cell's side, for it to count as wholly in the cell.
DEVIATION = 0.1


class BadFrame(Exception):
    """The file says no frame."""


class Point(NamedTuple):
    """In metres."""

    x: float
    y: float


@dataclasses.dataclass(frozen=True)
class Frame:
    # The side of a cell.
    resolution: float
    origin: Point
    yaw: float
    # How many rows the map has.
    height: int

    @property
    def deviation(self) -> float:
        """How far from a cell's middle a vehicle counts as wholly in it."""
        return self.resolution * DEVIATION

    def middle(self, cell: Cell) -> Point:
        along, up = (cell[0] + 0.5) * self.resolution, (self.height - cell[1] - 0.5) * self.resolution
        cos, sin = math.cos(self.yaw), math.sin(self.yaw)
        return Point(self.origin.x + along * cos - up * sin, self.origin.y + along * sin + up * cos)

    def place(self, point: Point) -> tuple[float, float]:
        """Column and row, whole at a cell's middle."""
        x, y, cos, sin = point.x - self.origin.x, point.y - self.origin.y, math.cos(self.yaw), math.sin(self.yaw)
        return (x * cos + y * sin) / self.resolution - 0.5, self.height - 0.5 - (y * cos - x * sin) / self.resolution

    def cells(self, point: Point) -> set[Cell]:
        """The cells in which a vehicle is that has its middle there: one where it stands in it, two on the way between them."""
        columns, rows = (near(it) for it in self.place(point))
        return {(column, row) for column in columns for row in rows}


def near(value: float) -> list[int]:
    """The whole number that is so near that it counts, or the two on both sides."""
    whole = round(value)
    # Rounding has its own deviation.
    return [whole] if abs(value - whole) <= DEVIATION * 1.001 else [math.floor(value), math.floor(value) + 1]


def height_of(map_file: str) -> int:
    """The height of a map. Whether the text is a map is for the program to say."""
    with open(map_file, encoding="ascii", errors="replace") as file:
        words = [file.readline(), file.readline()][1].split()
    if len(words) != 2 or not words[1].isdigit():
        raise BadFrame(f"{map_file}: line 2 says no height")
    return int(words[1])


def numbers(words: str) -> Optional[list[float]]:
    try:
        found = [float(word) for word in words.split(",")]
    except ValueError:
        return None
    return found if all(map(math.isfinite, found)) else None


def read_frame(path: Optional[str], map_file: str) -> Frame:
    """The frame that a file says; without one cells have sides of a metre, and the origin is at 0."""
    lines = ["resolution: 1", "origin: [0, 0, 0]"]
    if path:
        with open(path, encoding="utf-8", errors="replace") as file:
            lines = file.read().splitlines()
    values = {name.strip(): value.strip() for name, _, value in (line.partition("#")[0].partition(":") for line in lines)}
    sides, origin = numbers(values.get("resolution", "")), values.get("origin", "")
    pose = numbers(origin[1:-1]) if origin[:1] == "[" and origin[-1:] == "]" else None
    if not sides or sides[0] <= 0:
        raise BadFrame(f"{path}: `resolution: METRES` is wanted")
    if not pose or len(pose) != 3:
        raise BadFrame(f"{path}: `origin: [X, Y, YAW]` is wanted, on one line")
    return Frame(sides[0], Point(pose[0], pose[1]), pose[2], height_of(map_file))
