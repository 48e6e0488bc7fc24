"""Where a simulated vehicle really is. It stands in a file, since a vehicle whose program is killed stays where it is."""
import json
import math
import os
import pathlib
import socket
from typing import Optional, Sequence

from assignment import Assignment

# A line of the file of the place is so long, so that each is written over the one before in one call.
WIDTH = 80


class Body:
    """What a vehicle can't forget. The floor is told of each step before it is made, and the step is written down before anybody else hears of it."""

    def __init__(self, path: pathlib.Path, start: Sequence[float], name: str, floor: Optional[str]):
        self.path, self.name, self.floor = path, name, floor
        self.socket = socket.socket(socket.AF_UNIX, socket.SOCK_DGRAM)
        self.x, self.y, self.theta = start
        self.file = os.open(path, os.O_RDWR | os.O_CREAT, 0o666)
        words = os.pread(self.file, WIDTH, 0).split()
        if len(words) == 3:
            self.x, self.y, self.theta = map(float, words)
        self._say()
        self._write()

    def _say(self) -> None:
        if self.floor:
            self.socket.sendto(f"{self.name} {self.x!r} {self.y!r}".encode("ascii"), self.floor)

    def _write(self) -> None:
        os.pwrite(self.file, f"{self.x!r} {self.y!r} {self.theta!r}".ljust(WIDTH - 1).encode("ascii") + b"\n", 0)

    def distance(self, x: float, y: float) -> float:
        return math.hypot(x - self.x, y - self.y)

    def step(self, x: float, y: float, way: float) -> None:
        """Goes so far towards a point, and no further than to it."""
        left = self.distance(x, y)
        self.theta = math.atan2(y - self.y, x - self.x)
        part = min(1.0, way / left)
        self.x, self.y = (x, y) if part == 1.0 else (self.x + (x - self.x) * part, self.y + (y - self.y) * part)
        self._say()
        self._write()


class Memory:
    """The file of the order of a vehicle that doesn't forget it when its program ends. It is written whole, or not at all."""

    def __init__(self, path: pathlib.Path, forgets: bool):
        self.path = path
        if forgets:
            path.unlink(missing_ok=True)

    def recall(self) -> Assignment:
        return Assignment(**json.loads(self.path.read_text(encoding="ascii"))) if self.path.exists() else Assignment()

    def keep(self, assignment: Assignment) -> None:
        draft = self.path.with_name(f"{self.path.name}.new")
        draft.write_text(json.dumps(vars(assignment)), encoding="ascii")
        os.replace(draft, self.path)
