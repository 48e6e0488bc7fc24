"""A simulated drive, and a robot's hold on it.

The drive lives where the watcher does and not in the robot's process: as real hardware it outlives a robot that is killed, and it is seen directly.
"""
import contextlib
import errno
import os
import random
import re
import select
import socket
import time
from typing import Iterator, Optional, Protocol

from alarms import Alarm

Cell = tuple[int, int]
# How long a move takes beside the drive's mean.
FASTEST, SLOWEST = 0.7, 1.3
# Seconds within which a drive says where it is, and after which it is asked or told again.
PATIENCE, AGAIN = 30, 0.5
# What a drive says: in which cell it stands, or between which two it is.
SAID = re.compile(r"stands( \d{1,5}){2}|(goes|slipped)( \d{1,5}){4}", re.ASCII)
# So much of what isn't understood is told.
SHOWN = 40


class NoDrive(Exception):
    """The drive, or the watcher with which it is, is gone."""


class Floor(Protocol):
    """Is told by each drive which cell it enters before it moves, and which it has left after it has arrived."""

    def entering(self, robot: int, cell: Cell) -> None: ...
    def has_left(self, robot: int, cell: Cell) -> None: ...


class Drive:
    """Where a robot really is: in a cell, or in two while it moves. Now and then it slips, and stands between them until it is told to go again."""

    def __init__(self, robot: int, cell: Cell, mean: float, slips: float, rng: random.Random, floor: Floor):
        self.robot, self.cell, self.mean, self.slips, self.rng, self.floor = robot, cell, mean, slips, rng, floor
        self.to: Optional[Cell] = None
        self.due: Optional[float] = None
        self.will_slip = False
        self.slipped = 0
        floor.entering(robot, cell)

    def where(self) -> str:
        if self.to is None:
            return f"stands {self.cell[0]} {self.cell[1]}"
        kind = "slipped" if self.due is None else "goes"
        return f"{kind} {self.cell[0]} {self.cell[1]} {self.to[0]} {self.to[1]}"

    def go(self, cell: Cell, now: float) -> None:
        """Sets out for a cell, or goes on to it. Where it is there or on its way already, nothing changes."""
        if cell == self.cell or self.due is not None:
            return
        if self.to is None:
            self.floor.entering(self.robot, cell)
            self.to = cell
        self.will_slip = self.rng.random() < self.slips
        self.due = now + self.mean * self.rng.uniform(FASTEST, SLOWEST) * (0.5 if self.will_slip else 1)

    def come_on(self) -> None:
        """What is due has come: it has arrived, or it has slipped."""
        self.due = None
        if self.will_slip:
            self.slipped += 1
            return
        left, self.cell, self.to = self.cell, self.to or self.cell, None
        self.floor.has_left(self.robot, left)


@contextlib.contextmanager
def naming(path: str) -> Iterator[None]:
    """A fault of a socket names no file by itself."""
    try:
        yield
    except OSError as fault:
        raise OSError(fault.errno, fault.strerror or str(fault), path) from None


class Wire:
    """A robot's end: it tells the watcher what its agent answered, and the drive where to go. All that robots tell comes in one queue, so
    what one says before it sends a message stands before what another says that has heard it."""

    def __init__(self, path: str, robot: int, alarm: Alarm):
        self.path, self.robot, self.own, self.alarm = path, robot, f"{path}.{robot}", alarm
        self.socket = socket.socket(socket.AF_UNIX, socket.SOCK_DGRAM)
        with naming(self.own):
            with contextlib.suppress(FileNotFoundError):
                os.unlink(self.own)
            self.socket.bind(self.own)

    def fileno(self) -> int:
        return self.socket.fileno()

    def tell(self, text: str) -> None:
        """Comes back once it stands in the queue; nothing is lost."""
        with naming(self.path):
            try:
                self.socket.sendto(f"{self.robot} {text}".encode("ascii"), self.path)
            except OSError as fault:
                if fault.errno in (errno.ENOENT, errno.ECONNREFUSED, errno.ECONNRESET):
                    raise NoDrive(f"no drive is at {self.path}") from None
                raise

    def told(self) -> Iterator[list[str]]:
        """What the drive has said meanwhile. What isn't understood is no answer."""
        while True:
            try:
                said = self.socket.recv(4096, socket.MSG_DONTWAIT)
            except BlockingIOError:
                return
            words = said.decode("ascii", "replace").split()
            if SAID.fullmatch(" ".join(words)):
                yield words
            else:
                self.alarm(f"the drive at {self.path} says {said[:SHOWN]!r}, which isn't understood")

    def where(self) -> list[str]:
        """Asks the drive where it is, until that is understood. What it said before is older than its answer."""
        for _ in self.told():
            pass
        self.tell("where")
        last = time.monotonic() + PATIENCE
        while (left := last - time.monotonic()) > 0 and select.select([self.socket], [], [], left)[0]:
            for words in self.told():
                return words
            time.sleep(AGAIN)
            self.tell("where")
        raise NoDrive(f"the drive at {self.path} doesn't say where it is: is it one that may write to {self.own}?")
