"""Watches where vehicles really are: no two may ever be in one cell, and each has to walk its agent's path.

Each says here where it will be before it is there. What all say comes in one queue: so what one said before it told anybody that it has left a cell
stands before what another says that has heard of it.
"""
import os
import pathlib
import socket
from typing import Sequence

import beside  # noqa: F401
from drive import Cell
from frame import Frame, Point

# The longest report, and how many are taken in one go.
LONGEST, AT_ONCE = 200, 500
# So far on its path a vehicle is looked for.
FURTHEST = 8


class Met(Exception):
    """Two vehicles are in one cell, or one is where it may not be."""


class Judge:
    def __init__(self, path: pathlib.Path, names: Sequence[str], paths: Sequence[list[Cell]], frame: Frame):
        self.names, self.paths, self.frame = list(names), paths, frame
        # How far each is on its path, and where it is by what it said last.
        self.reached = [0] * len(paths)
        self.cells: list[set[Cell]] = [{path[0]} for path in paths]
        self.holder = {path[0]: agent for agent, path in enumerate(paths)}
        self.reports = 0
        self.queue = socket.socket(socket.AF_UNIX, socket.SOCK_DGRAM)
        self.queue.bind(os.fspath(path))
        self.queue.setblocking(False)

    def fileno(self) -> int:
        return self.queue.fileno()

    def look(self) -> None:
        """Takes the reports that are there."""
        for _ in range(AT_ONCE):
            try:
                words = self.queue.recv(LONGEST).decode("ascii").split()
            except BlockingIOError:
                return
            self.reports += 1
            self._move(self.names.index(words[0]), Point(float(words[1]), float(words[2])))

    def _move(self, agent: int, point: Point) -> None:
        cells = self.frame.cells(point)
        path, at = self.paths[agent], self.reached[agent]
        for left in self.cells[agent] - cells:
            del self.holder[left]
        for cell in cells:
            other = self.holder.setdefault(cell, agent)
            if other != agent:
                raise Met(f"the vehicles {other} and {agent} are both in the cell {cell[0]} {cell[1]}")
        self.cells[agent] = cells
        # One that has forgotten its order may leave out a way by which it would only have come back.
        later = (it for it in range(at, min(at + FURTHEST, len(path))) if path[it] == path[at] and cells <= set(path[it : it + 2]))
        place = next(later, None)
        if place is not None:
            self.reached[agent] = place + (cells == set(path[place + 1 : place + 2]))
        # One that is killed behind its report makes the step again.
        elif not cells <= set(path[max(at - 1, 0) : at]) | {path[at]}:
            raise Met(f"vehicle {agent} is in {sorted(cells)}, and its path goes on from {path[at]}")

    @property
    def have_arrived(self) -> bool:
        return all(at == len(path) - 1 for at, path in zip(self.reached, self.paths))

    def drop(self) -> None:
        """Drops what is still said, for which those who say it wait, when all is over."""
        while True:
            try:
                self.queue.recv(LONGEST)
            except BlockingIOError:
                return

    def end(self) -> None:
        self.queue.close()
