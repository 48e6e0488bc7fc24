"""What a robot's agents were asked and answered, written line by line as it happens: what is left of an accident.

A box is a file of one agent of a plan. Each line is an object of JSON: `wall` are the seconds since 1970, `clock` those of the machine's
monotonic clock, `agent` is its number, `process` that of the process, and one of these says what happened:

- `started`: the process was; the value is an object with the `boot` of the machine, whose clock it is, and the SHA-256 of `map` and `plan`.
- `asked`: this line was asked; it is written before the process is given it.
- `answered`: this line came, first the one that answers nothing; it is written before anything is done with it.
- `ended`: the process ended with this status, or by the signal with this number below 0. It isn't there where the robot was killed too.

So whatever is killed, and whenever, of each process at most the last call is without its answer. Nothing is synced: a power cut may take
the last lines. Where a line can't be written the agent goes on, and the box lacks it; as soon as it can be written again it says so:

- `lost`: so many lines before this one couldn't be written.

A box that would get too long goes on in another file: what was written is FILE.1 then, later FILE.2 and so on, and FILE has what came last.

- `follows`: the first line of a file that goes on behind so many others.
"""
import hashlib
import json
import os
import time
from typing import Callable, Mapping, Optional, Sequence

from alarms import Alarm, Alarms

# Is told each thing that happens, by its word and its value.
Note = Callable[[str, object], None]
BOOT = "/proc/sys/kernel/random/boot_id"
FOLLOWS, LOST = "follows", "lost"
# No first line that says behind how many others it comes is as long.
LONGEST_HEAD = 400
# Seconds after which a box that couldn't be written is tried again.
AGAIN = 1.0


def nowhere(_: str, __: object) -> None:
    """Where no box is wanted."""


def digest(path: str) -> str:
    with open(path, "rb") as file:
        return hashlib.sha256(file.read()).hexdigest()


def boot() -> str:
    try:
        with open(BOOT, encoding="ascii") as file:
            return file.read().strip()
    except OSError:
        return ""


class BlackBox:
    """The box of a robot, which goes on behind what the robot before it has left."""

    def __init__(self, path: str, agent: int, files: Sequence[str], most: int, alarm: Alarm):
        self.path, self.agent, self.files, self.most, self.alarm = path, agent, files, most, alarm
        self.process = 0
        self.file: Optional[int] = None
        # How long the file is, behind how many others it comes, how many lines it lacks, and when it is tried again where it couldn't be written.
        self.size = self.behind = self.lost = 0
        self.tries_at = 0.0

    def note(self, what: str, value: object) -> None:
        """Of a start the value is the process. Whatever becomes of the box, the robot goes on."""
        if what == "started":
            self.process = int(str(value))
        try:
            if time.monotonic() < self.tries_at:
                self.lost += 1
                return
            if self.file is None:
                self._open()
            self._put(what, self._about() if what == "started" else value)
        except OSError as fault:
            self._give_up(fault)

    def _about(self) -> Mapping[str, str]:
        """Another plan may have come into the place of the one before."""
        return {"boot": boot(), "map": digest(self.files[0]), "plan": digest(self.files[1])}

    def _line(self, what: str, value: object) -> bytes:
        times = {"wall": round(time.time(), 6), "clock": round(time.monotonic(), 6)}
        return f"{json.dumps({**times, 'agent': self.agent, 'process': self.process, what: value})}\n".encode("ascii")

    def _put(self, what: str, value: object) -> None:
        line = self._line(what, value)
        if self.most and self.size + len(line) > self.most:
            self._go_on_elsewhere()
        self._write(line)

    def _open(self) -> None:
        """Opens the file, and says what it lacks."""
        self.file = os.open(self.path, os.O_RDWR | os.O_APPEND | os.O_CREAT, 0o666)
        self.size = os.fstat(self.file).st_size
        self.behind = before(os.pread(self.file, LONGEST_HEAD, 0)) if self.size else greatest(self.path)
        if self.size and os.pread(self.file, 1, self.size - 1) != b"\n":
            # Who wrote there was killed in the middle of a line, or the disk was full then.
            self._write(b"\n")
        if not self.size and self.behind:
            self._write(self._line(FOLLOWS, self.behind))
        if self.lost:
            self._put(LOST, self.lost)
            self.lost = 0

    def _go_on_elsewhere(self) -> None:
        """Begins another file, where this one has more than what each begins with."""
        assert self.file is not None
        head = self._line(FOLLOWS, self.behind + 1)
        if self.size <= len(head):
            return
        os.close(self.file)
        self.file = None
        os.rename(self.path, f"{self.path}.{self.behind + 1}")
        self.behind += 1
        self.file, self.size = os.open(self.path, os.O_RDWR | os.O_APPEND | os.O_CREAT | os.O_EXCL, 0o666), 0
        self._write(head)

    def _write(self, line: bytes) -> None:
        assert self.file is not None
        while line:
            written = os.write(self.file, line)
            line, self.size = line[written:], self.size + written

    def _give_up(self, fault: OSError) -> None:
        """Until it is tried again, all that happens is lost."""
        self.alarm(f"{self.path} can't be written, and lacks what happens meanwhile: {fault.strerror}")
        self.lost, self.tries_at = self.lost + 1, time.monotonic() + AGAIN
        if self.file is not None:
            os.close(self.file)
            self.file = None


def before(head: bytes) -> int:
    """Behind how many others a file comes, by its first line."""
    try:
        found = json.loads(head.partition(b"\n")[0]).get(FOLLOWS, 0)
    except (ValueError, AttributeError, RecursionError):
        return 0
    return found if isinstance(found, int) else 0


def greatest(path: str) -> int:
    """The last number that a file behind this name has, if there is any: whoever began another file was killed then."""
    folder, name = os.path.split(path)
    numbers = (it.rpartition(".")[2] for it in os.listdir(folder or ".") if it.rpartition(".")[0] == name)
    return max((int(it) for it in numbers if it.isascii() and it.isdigit()), default=0)


def note_of(box: str, agent: int, files: Sequence[str], most: int = 0, alarm: Optional[Alarm] = None) -> Note:
    """Where what happens to an agent is written, if it is: in files of so many bytes at most, or in one."""
    return BlackBox(box, agent, files, most, alarm or Alarms(f"robot {agent}").tell).note if box else nowhere
