#!/usr/bin/env python3
"""Watches a fleet from outside, and is the floor on which its drives are simulated.

Usage: watcher.py MAP PLAN SOCKET --log EVENTS --replies REPLIES [--tell] [--moves MEAN] [--slips RATE] [--seed N]

Each drive says here, directly and in order, which cell it enters before it moves, and which it has left after it arrived: no two may ever be in one
cell. What robots report comes in one queue too, and becomes the events of the run (`mapf-events 1`, with --tell 2) and the replies that were seen: so
`mapf run` has to answer the events by just these replies. When all agents are at their ends, it says so in a line, and goes on until its input ends.
With --orders plans follow one another: PLAN is the first, and what hangs on the end of one is no part of the log.

Status 0: all have arrived. 1: two robots were in one cell, a drive moved without leave, or a report can't be true. 3: a file failed, or not all have
arrived.
"""
import argparse
import os
import random
import selectors
import socket
import subprocess
import sys
import time
from typing import Iterator, Sequence

sys.dont_write_bytecode = True
from drive import Cell, Drive  # noqa: E402
from journal import Journal, Untrue  # noqa: E402
from leaving import heed_signals  # noqa: E402
from program import usual_program  # noqa: E402

MET, FAILED = 1, 3
LONGEST = 1 << 18
# The mean of a drive's moves, beside that of all.
QUICK, SLOW = 0.7, 1.5


class Failed(Exception):
    """A file or a program has failed."""


def read_words(words: Sequence[str]) -> argparse.Namespace:
    parser = argparse.ArgumentParser(prog="watcher.py", description=__doc__, formatter_class=argparse.RawDescriptionHelpFormatter)
    parser.add_argument("map", metavar="MAP")
    parser.add_argument("plan", metavar="PLAN")
    parser.add_argument("socket", metavar="SOCKET", help="where robots report; SOCKET.N is that of robot N")
    parser.add_argument("--log", required=True, metavar="EVENTS", help="the file of the run's events")
    parser.add_argument("--replies", required=True, metavar="REPLIES", help="the file of the replies that were seen")
    parser.add_argument("--tell", action="store_true", help="the robots say messages of version 2")
    parser.add_argument("--moves", type=float, default=0.05, metavar="S", help="how long a move takes, in the mean (%(default)g seconds)")
    parser.add_argument("--slips", type=float, default=0.05, metavar="RATE", help="how many moves slip (%(default)g)")
    parser.add_argument("--seed", type=int, default=1)
    parser.add_argument("--orders", action="store_true", help="the robots get plans that go on from PLAN")
    parser.add_argument("--program", default=usual_program(), metavar="PATH", help="the program mapf (%(default)s)")
    return parser.parse_args(words)


def ends_of(program: str, map_file: str, plan: str) -> tuple[list[Cell], list[Cell]]:
    """Where each agent starts and where it ends, as `mapf path` says."""
    ended = subprocess.run([program, "path", map_file, plan], stdin=subprocess.DEVNULL, stdout=subprocess.PIPE, check=False)
    lines = ended.stdout.decode("ascii").splitlines()
    if ended.returncode or not lines:
        raise Failed(f"{plan}: `mapf path` says nothing of it (status {ended.returncode})")
    starts, ends = (list(map(int, line.split()[1:])) for line in (lines[0], lines[-1]))
    return list(zip(starts[::2], starts[1::2])), list(zip(ends[::2], ends[1::2]))


class Floor:
    """Which robot is in which cell."""

    def __init__(self) -> None:
        self.holder: dict[Cell, int] = {}

    def entering(self, robot: int, cell: Cell) -> None:
        other = self.holder.setdefault(cell, robot)
        if other != robot:
            raise Untrue(f"the robots {other} and {robot} are both in the cell {cell[0]} {cell[1]}")

    def has_left(self, robot: int, cell: Cell) -> None:
        del self.holder[cell]


class Watcher:
    def __init__(self, given: argparse.Namespace, journal: Journal, goals: Sequence[Cell], queue: socket.socket):
        self.given, self.journal, self.goals, self.queue = given, journal, goals, queue
        rng, floor = random.Random(f"drives {given.seed}"), Floor()
        starts = [known.cell for known in journal.agents]
        self.drives = [
            Drive(robot, cell, given.moves * rng.uniform(QUICK, SLOW), given.slips, random.Random(f"{robot} {given.seed}"), floor)
            for robot, cell in enumerate(starts)
        ]
        self.dropped = 0
        self.begun = self.arrived_after = 0.0

    def take(self, report: bytes) -> None:
        try:
            number, kind, *rest = report.decode("ascii").split(" ", 2)
            self.heed(int(number), kind, rest[0] if rest else "")
        except (ValueError, IndexError, TypeError):
            raise Untrue(f"{report[:80]!r} is no report") from None

    def heed(self, robot: int, kind: str, what: str) -> None:
        """A report of a robot, or a word to its drive."""
        if kind == "hear":
            self.journal.heard_of(robot, *what.split(" ", 1))
        elif kind in ("say", "tell"):
            self.journal.spoke(robot, what)
        elif kind == "dropped":
            self.dropped += 1
        elif kind == "start":
            self.journal.started(robot, what)
        elif kind == "finish":
            self.journal.finished(robot, what)
            self.hold_drive(robot, what)
        elif kind == "opened":
            self.begun = self.begun or time.monotonic()
            self.journal.opened(robot, what)
            self.hold_drive(robot, what)
        elif kind == "where":
            self.answer(robot)
        elif kind == "go":
            self.go(robot, what.split())
        else:
            raise ValueError(kind)

    def hold_drive(self, robot: int, said: str) -> None:
        """A robot that gives up a cell has left it."""
        drive = self.drives[robot]
        if not {drive.cell, drive.to or drive.cell} <= self.journal.cells_of(robot):
            raise Untrue(f"robot {robot} says '{said}', and its drive {drive.where()}")

    def go(self, robot: int, words: Sequence[str]) -> None:
        cell, drive = (int(words[0]), int(words[1])), self.drives[robot]
        if cell != drive.cell and not self.journal.may_enter(robot, cell):
            raise Untrue(f"robot {robot} sets out for the cell {cell[0]} {cell[1]} without leave")
        drive.go(cell, time.monotonic())
        if drive.due is None:
            self.answer(robot)

    def answer(self, robot: int) -> None:
        """Says where a drive is. A robot that isn't there just now asks when it is again."""
        try:
            self.queue.sendto(self.drives[robot].where().encode("ascii"), socket.MSG_DONTWAIT, f"{self.given.socket}.{robot}")
        except OSError:
            pass

    def let_drives_come(self) -> float:
        """Lets all drives come on whose time it is, and answers how long the next one needs."""
        now, least = time.monotonic(), 1.0
        for drive in self.drives:
            if drive.due is not None and drive.due <= now:
                drive.come_on()
                self.answer(drive.robot)
            if drive.due is not None:
                least = min(least, drive.due - now)
        return max(least, 0.0)

    def look_for_the_end(self) -> None:
        """Says once that all are at their ends."""
        if self.given.orders or self.arrived_after or not all(known.is_at_end for known in self.journal.agents):
            return
        astray = [drive for drive, goal in zip(self.drives, self.goals) if drive.cell != goal or drive.to is not None]
        if astray:
            raise Untrue(f"robot {astray[0].robot} is said to be at its end, and its drive {astray[0].where()}")
        self.arrived_after = time.monotonic() - self.begun
        print(f"arrived {len(self.drives)} seconds {self.arrived_after:.2f}", flush=True)

    def watch(self) -> None:
        with selectors.DefaultSelector() as selector:
            selector.register(self.queue, selectors.EVENT_READ)
            selector.register(0, selectors.EVENT_READ)
            is_asked_to_end = False
            while not is_asked_to_end:
                wait = self.let_drives_come()
                is_asked_to_end = any(key.fd == 0 for key, _ in selector.select(wait))
                for report in self.reports():
                    self.take(report)
                self.look_for_the_end()

    def reports(self) -> Iterator[bytes]:
        """Those that stand in the queue, but no more than a few, since drives come on meanwhile."""
        for _ in range(50):
            try:
                yield self.queue.recv(LONGEST, socket.MSG_DONTWAIT)
            except BlockingIOError:
                return

    def summary(self) -> str:
        journal = self.journal
        counts = {"said": journal.said, "heard": journal.heard, "dropped": self.dropped, "restarts": journal.restarts}
        counts.update(unreported=journal.unreported, slips=sum(drive.slipped for drive in self.drives))
        return " ".join(f"{name} {count}" for name, count in counts.items())


def watch(given: argparse.Namespace) -> int:
    starts, goals = ends_of(given.program, given.map, given.plan)
    with open(given.log, "w", encoding="ascii") as events, open(given.replies, "w", encoding="ascii") as replies:
        with socket.socket(socket.AF_UNIX, socket.SOCK_DGRAM) as queue:
            queue.bind(given.socket)
            try:
                journal = Journal(starts, 2 if given.tell else 1, events, replies, given.orders)
                watcher = Watcher(given, journal, goals, queue)
                print("ready", flush=True)
                watcher.watch()
            finally:
                os.unlink(given.socket)
        print(watcher.summary(), flush=True)
    return 0 if watcher.arrived_after or given.orders else FAILED


def main(words: Sequence[str]) -> int:
    given = read_words(words)
    try:
        return watch(given)
    except Untrue as fault:
        print(f"watcher: {fault}", file=sys.stderr)
        return MET
    except Failed as fault:
        print(f"watcher: {fault}", file=sys.stderr)
    except OSError as fault:
        print(f"watcher: {fault.filename or given.socket}: {fault.strerror or fault}", file=sys.stderr)
    return FAILED


if __name__ == "__main__":
    heed_signals()
    sys.exit(main(sys.argv[1:]))
