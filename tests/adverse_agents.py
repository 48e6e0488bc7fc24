"""A process `mapf agent` that may be killed at any moment. Its black box has simulated times."""
import json
import os
import select
import signal
import subprocess
import sys
from typing import Callable, Optional, Sequence

from floors import Unsafe
from harness import LONGEST, ROOT

# Behind the folder of the tests, which has files of the same names.
sys.path.append(str(ROOT / "examples" / "fleet"))
from black_box import BlackBox  # noqa: E402

# How far the clock goes with each line of a box, in seconds.
TICK = 0.001
# When an agent is killed in a call: before it reads the line, behind its answer, or whenever.
BEFORE, BEHIND, WHENEVER = "before", "behind", "whenever"
# How an agent ends: by SIGKILL, of which its robot may be unable to tell.
KILLED = -signal.SIGKILL


class Clock:
    """The simulated time of a fleet, in seconds."""

    def __init__(self) -> None:
        self.now = 0.0

    def tick(self) -> float:
        self.now = round(self.now + TICK, 6)
        return self.now


def refuse(what: str) -> None:
    """Ends the test where a box can't be written."""
    raise ValueError(what)


class Box(BlackBox):
    """The box of an agent. Its times are those of a simulated clock."""

    def __init__(self, path: str, agent: int, clock: Clock):
        super().__init__(path, agent, [], 0, refuse)
        self.ticking = clock

    def _line(self, what: str, value: object) -> bytes:
        now = self.ticking.tick()
        fields = json.loads(super()._line(what, value))
        return f"{json.dumps({**fields, 'wall': now, 'clock': now})}\n".encode("ascii")

    def close(self) -> None:
        if self.file is not None:
            os.close(self.file)
            self.file = None


class Agent:
    """The process. Its box keeps what it is asked and what it answers."""

    def __init__(self, words: Sequence[str], note: Callable[[str, object], None]):
        self.words, self.note = words, note
        pipes = {"stdin": subprocess.PIPE, "stdout": subprocess.PIPE, "stderr": subprocess.PIPE}
        self.process = subprocess.Popen(words, **pipes)
        note("started", self.process.pid)

    def _await(self) -> None:
        """Waits until an answer can be read, or the process has ended."""
        if not select.select([self.process.stdout], [], [], LONGEST)[0]:
            raise Unsafe(f"{self.words} doesn't answer for {LONGEST} seconds")

    def line(self) -> str:
        """The next answer, first the one that answers nothing."""
        self._await()
        line = self.process.stdout.readline()
        if not line.endswith(b"\n"):
            raise Unsafe(f"{self.words} ends: {self.process.stderr.read()!r}")
        text = line[:-1].decode("ascii")
        self.note("answered", text)
        return text

    def _write(self, line: str) -> None:
        self.note("asked", line)
        try:
            self.process.stdin.write(f"{line}\n".encode("ascii"))
            self.process.stdin.flush()
        except OSError as fault:
            raise Unsafe(f"{self.words} isn't there any more: {fault.strerror}") from None

    def ask(self, line: str) -> str:
        self._write(line)
        return self.line()

    def be_killed(self, is_told: bool, line: Optional[str] = None, when: str = WHENEVER) -> None:
        """Is killed, perhaps in a call whose answer nobody reads. The box may keep how it ended."""
        if line is not None:
            if when == BEFORE:
                # It reads nothing more.
                self.process.send_signal(signal.SIGSTOP)
            self._write(line)
            if when == BEHIND:
                self._await()
        self.process.kill()
        self._close()
        if is_told:
            self.note("ended", KILLED)

    def end(self) -> None:
        """Ends by the end of its input, between two answers."""
        self.process.stdin.close()
        status = self.process.wait(LONGEST)
        self._close()
        self.note("ended", status)
        if status:
            raise Unsafe(f"{self.words} ends with status {status}")

    def _close(self) -> None:
        self.process.wait(LONGEST)
        for pipe in (self.process.stdin, self.process.stdout, self.process.stderr):
            pipe.close()
