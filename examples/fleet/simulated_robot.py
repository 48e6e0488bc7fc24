"""A robot of a simulated fleet, moment by moment: its process `mapf agent`, which may be killed, its drive, and what it holds as seen from outside."""
import contextlib
import pathlib
import random
import subprocess
import sys
import time
from typing import IO, Optional, Sequence, cast

from black_box import Note
from carried_off import CarriedOff, Unanswered
from planning import Cell

LONGEST_DRIVE = 4
# How many processes end before they are told that their robots have arrived.
UNTOLD = 0.3
# The status of a process that failed, and may be started again, and the seconds until then.
FAILED = 3
PAUSE = 0.5
# The place of the plan among the words that start a robot's process.
PLAN = 3


class Killed(Unanswered):
    """The process has ended before its answer was read, and was started again."""


class Unfit(Exception):
    """The fleet can't be driven."""


def cell_of(words: Sequence[str]) -> Cell:
    return int(words[0]), int(words[1])


class Process:
    """A process `mapf agent`. What it is asked and what it answers is noted."""

    def __init__(self, words: Sequence[str], note: Note):
        self.note = note
        self.process = subprocess.Popen(words, stdin=subprocess.PIPE, stdout=subprocess.PIPE, text=True)
        self.questions, self.answers = cast(IO[str], self.process.stdin), cast(IO[str], self.process.stdout)
        note("started", self.process.pid)

    def read(self) -> list[str]:
        """The words of the next answer, none where the process has ended."""
        line = self.answers.readline()
        if not line.endswith("\n"):
            return []
        self.note("answered", line[:-1])
        return line.split()

    def write(self, line: str) -> None:
        self.note("asked", line)
        with contextlib.suppress(BrokenPipeError):
            self.questions.write(f"{line}\n")
            self.questions.flush()

    def kill(self) -> None:
        self.process.kill()
        self.end()

    def end(self) -> int:
        """Waits until the process has ended, and answers its status."""
        self.process.communicate()
        self.note("ended", self.process.returncode)
        return self.process.returncode


class Robot:
    """A robot, which drives to its goal where it has one."""

    def __init__(self, words: list[str], goal: Optional[Cell], kills: float, rng: random.Random, note: Note):
        self.words, self.goal, self.kills, self.rng, self.note = words, goal, kills, rng, note
        self.held: tuple[Cell, ...] = ()
        self.done = self.drives = self.deaths = 0
        self.process = self._started("new")

    def _started(self, tape: str) -> Process:
        """A process on the robot's tape. Its first line says where the robot is by what was stored. One that fails is started again a little later."""
        words = [*self.words, "--tape", tape]
        while True:
            process = Process(words, self.note)
            answer = process.read()
            if answer:
                self._stand(answer)
                return process
            self._wait_out(process)

    def _wait_out(self, process: Process) -> None:
        """Whatever failed, a process that says so may be started again."""
        status, words = process.end(), " ".join(self.words)
        if status != FAILED:
            raise Unfit(f"{words}: ended with status {status}")
        print(f"{words}: failed, and is started again", file=sys.stderr, flush=True)
        time.sleep(PAUSE)

    def _stand(self, answer: Sequence[str]) -> None:
        """Takes over what an `at` or a `between` line says. Between two cells the drive goes on."""
        if answer[0] == "at":
            self.held, self.done = (cell_of(answer[1:3]),), int(answer[4])
        else:
            self.held, self.done = (cell_of(answer[1:3]), cell_of(answer[3:5])), int(answer[6])
            self.drives = self.rng.randint(1, LONGEST_DRIVE)

    def _begin_again(self) -> None:
        self.process = self._started("kept")

    def be_carried_off(self) -> CarriedOff:
        """The robot is lifted off, wherever it is just now, and its process is gone. Answers what is there in its place."""
        self.process.kill()
        return CarriedOff(self.held)

    def come_to_stand(self) -> None:
        """Drives on to the end of the move that it has begun, and ends its process, at times before that is told that the robot has arrived."""
        while len(self.held) == 2:
            if self.drives <= 1 and self.rng.random() < UNTOLD:
                self.held = self.held[1:]
            else:
                with contextlib.suppress(Killed):
                    self.go_on()
        self.process.end()

    def take(self, plan: pathlib.Path) -> None:
        """Goes on by another plan. What it has heard it hears again."""
        self.words[PLAN] = str(plan)
        self.process.end()
        self._begin_again()

    def ask(self, line: str) -> list[str]:
        """The words of the answer to a line. At times the process is killed instead, and started again."""
        self.process.write(line)
        if self.rng.random() < self.kills:
            time.sleep(self.rng.random() / 500)
            self.process.kill()
            self.deaths += 1
            self._begin_again()
            raise Killed
        answer = self.process.read()
        if answer in ([], ["refused", "StoreFailed"]):
            self._wait_out(self.process)
            self._begin_again()
            raise Killed
        return answer

    def go_on(self) -> bool:
        """One moment of the robot's life: it drives, says that it has arrived, or asks whether it may go on. Answers whether it is at its end."""
        if self.drives > 1:
            self.drives -= 1
        elif len(self.held) == 2:
            answer = self.ask("finish")
            self.held, self.done, self.drives = (cell_of(answer[1:]),), self.done + 1, 0
        else:
            answer = self.ask("start")
            if answer == ["refused", "AtEnd"]:
                return True
            if answer[0] == "moving":
                self.held = (self.held[0], cell_of(answer[1:]))
                self.drives = self.rng.randint(1, LONGEST_DRIVE)
        return False

    def is_home(self) -> bool:
        """Whether the tape, opened once more, says that the robot stands where its course ends."""
        self.process.end()
        self._begin_again()
        self.process.end()
        return self.held == (self.goal,)
