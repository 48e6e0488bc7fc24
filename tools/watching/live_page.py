"""The page of a fleet: what tools/show.py draws of its plan, with its agents where they are now."""
import os
import pathlib
import tempfile
from typing import Optional

from mapf.faults import Failed
from mapf.fleets import UNKNOWN
from mapf.program import Program
from mapf.replies import Between
from refused import Refused
from showing.live import Live, Standing, Told
from showing.page import Shown, page
from showing.program import copied
from showing.sides import read_side
from showing.verdicts import read_ground
from watching.looks import Files, Look
from watching.told import Limits, lines_of, summary
from watching.times import shown_since, shown_time
from whole_file import draft

Cell = tuple[int, int]
# By the device, the number and the time of a file it is known whether it is another one.
Mark = tuple[int, int, int, int]


def mark_of(path: str) -> Mark:
    found = os.stat(path)
    return found.st_dev, found.st_ino, found.st_size, found.st_mtime_ns


class Page:
    """The page in its file, written anew at each look: of the plan that is there then."""

    def __init__(self, target: pathlib.Path, files: Files, program: Program, every: float) -> None:
        self.target, self.files, self.program, self.every = target, files, program, every
        self.shown: Optional[Shown] = None
        self.marks: tuple[Mark, ...] = ()
        # Where each agent was seen last.
        self.cells: dict[int, Cell] = {}

    def write(self, look: Look, limits: Limits, is_last: bool) -> None:
        """Where the files can't be read now, as while they are replaced, it stays as it is."""
        if look.trouble:
            return
        shown = self.plan()
        if len(shown.side.courses.starts) != len(look.robots):
            return
        live = self.live(look, limits, shown, 0.0 if is_last else self.every)
        whole = Shown(shown.names, shown.ground, shown.side, live=live)
        with draft(page(whole), self.target) as made:
            made.put()

    def plan(self) -> Shown:
        """What is shown of the map and the plan, which is asked again where they are others."""
        marks = tuple(mark_of(it) for it in (self.files.map, self.files.plan))
        if self.shown and marks == self.marks:
            return self.shown
        try:
            self.shown, self.marks = self.read(), marks
        except (Refused, Failed):
            if not self.shown:
                raise
        return self.shown

    def read(self) -> Shown:
        with tempfile.TemporaryDirectory(prefix="mapf-watch-") as name:
            folder = pathlib.Path(name)
            ground, text = read_ground(self.program, self.files.map, self.files.map)
            (folder / "map").write_bytes(text)
            copies = [str(folder / "map"), copied(self.files.plan, folder, "plan")]
            side = read_side(self.program, copies, self.files.plan, "", ground, None)
        names = {it: pathlib.Path(getattr(self.files, it)).name for it in ("map", "plan")}
        return Shown(names, ground, side)

    def live(self, look: Look, limits: Limits, shown: Shown, every: float) -> Live:
        lines = lines_of(look, limits)
        words = str(lines[0] if lines[0].is_alarm else summary(look))
        agents = tuple(self.standing(look, agent, shown) for agent in range(len(look.robots)))
        told = tuple(Told(str(it), it.is_alarm, it.agent) for it in lines)
        blocking = tuple(sorted(look.turning))
        return Live(
            words, shown_time(look.at, look.at), look.at.wall, every, agents, told, blocking
        )

    def standing(self, look: Look, agent: int, shown: Shown) -> Standing:
        it = look.status.agents[agent]
        since = shown_since(look.since(agent), look.at)
        if not it.state:
            x, y = self.cells.get(agent) or shown.side.courses.starts[agent]
            return Standing(x, y, x, y, 0, UNKNOWN, since, fault=str(it.fault))
        here = self.cells[agent] = it.state.x, it.state.y
        there = (it.state.to_x, it.state.to_y) if isinstance(it.state, Between) else here
        return Standing(*here, *there, it.state.done, it.keeping, since, it.waits_for, it.until)
