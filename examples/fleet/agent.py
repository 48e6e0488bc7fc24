"""A robot's agent: the process `mapf agent` on the robot's tape."""
import fcntl
import os
import subprocess
import sys
import time
from typing import IO, Callable, Optional, Sequence

from black_box import Note, nowhere

STORE_FAILED = "refused StoreFailed"
STALE_TAPE = "refused StaleTape"
# Seconds after which a lock that is held is asked for again.
LOOK = 0.05


class Ended(Exception):
    """The process has ended, by whatever, and may be started again."""


class Unstored(Ended):
    """A record couldn't be stored, as on a full disk."""

    def __init__(self) -> None:
        super().__init__(STORE_FAILED)


class Unfit(Exception):
    """The process doesn't start. The status is its own, and what it told says why."""

    def __init__(self, status: int, told: str):
        super().__init__(f"its agent doesn't start (status {status})")
        self.status, self.told = status, told

    @property
    def fault(self) -> str:
        return self.told.partition("\n")[0] or str(self)


class Stale(Exception):
    """Somebody says that the robot has finished more moves than its tape has, which is an older one: no start mends that."""

    def __init__(self, answer: str):
        super().__init__(f"its tape is an older one ({answer})")


class Lock:
    """Held as long as a robot or its agent lives, since the agent inherits it: no two agents are ever on one tape."""

    def __init__(self, path: str, waits: str, lives: Callable[[], None]):
        self.file: IO[str] = open(path, "w", encoding="ascii")
        if not self._is_taken():
            print(waits, file=sys.stderr, flush=True)
            while not self._is_taken():
                lives()
                time.sleep(LOOK)

    def _is_taken(self) -> bool:
        try:
            fcntl.flock(self.file, fcntl.LOCK_EX | fcntl.LOCK_NB)
        except BlockingIOError:
            return False
        return True

    def fileno(self) -> int:
        return self.file.fileno()


class Agent:
    """The process, which answers each line by one. What it is asked, and what it answers, is noted first."""

    def __init__(self, words: Sequence[str], files: Sequence[int], note: Note = nowhere):
        """The files are those that it inherits: its lock, and what its words name."""
        self.note = note
        # What it tells when nobody reads its answers any more is of no use to anybody.
        self.told = os.memfd_create("told")
        # It ignores the signal of a file that grows past its limit, as Python does: it is to answer that its record wasn't stored.
        how = {"stdin": subprocess.PIPE, "stdout": subprocess.PIPE, "stderr": self.told, "pass_fds": files, "restore_signals": False}
        self.process = subprocess.Popen(words, **how)
        try:
            note("started", self.process.pid)
            self.first = self._line()
        except Ended:
            with open(os.dup(self.told), encoding="utf-8", errors="replace") as told:
                status = self.end()
                told.seek(0)
                if status > 0:
                    raise Unfit(status, told.read()) from None
            raise

    def _line(self) -> str:
        line = self.process.stdout.readline() if self.process.stdout else b""
        if not line.endswith(b"\n"):
            raise Ended
        text = line[:-1].decode("ascii")
        self.note("answered", text)
        return text

    def fileno(self) -> int:
        """Is readable, while nothing is asked, where the process has ended."""
        return self.process.stdout.fileno() if self.process.stdout else -1

    def ask(self, line: str) -> str:
        """The answer to a line."""
        self.note("asked", line)
        try:
            self.process.stdin.write(f"{line}\n".encode("ascii"))
            self.process.stdin.flush()
        except OSError:
            raise Ended from None
        return self._line()

    def end(self, seconds: Optional[float] = None) -> int:
        """Waits until the process has ended, which it does at the end of its input."""
        try:
            self.process.stdin.close()
        except OSError:
            pass
        self.process.stdout.close()
        status = self.process.wait(seconds)
        os.close(self.told)
        self.note("ended", status)
        return status
