"""How many minutes of a processor the gate takes for each crate: its proof, its tests, its wrong bodies.

While `rt ci` runs, this looks at its provers twice a second. At the end it writes a line for each crate into the gate's log, and
`bench/gate.py` makes the table of docs/PERFORMANCE.md of that log."""
import collections
import os
import pathlib
import threading
import time
from typing import Iterator, Optional

TICKS = os.sysconf("SC_CLK_TCK")
PROC = pathlib.Path("/proc")
# How long it is until the provers are looked at again, in seconds.
PAUSE = 0.5
KINDS = ("proof", "tests", "wrong bodies")
# The folder in which a wrong body is tried begins so.
OF_EDIT = "rt-edit-"


def seconds_of(process: int) -> float:
    """The seconds that a process took itself."""
    stat = (PROC / str(process) / "stat").read_text(encoding="utf-8", errors="replace")
    fields = stat[stat.rindex(")") + 2 :].split()
    return sum(map(int, fields[11:13])) / TICKS


def children_of(process: int) -> list[int]:
    """The processes that the threads of a process started."""
    tasks = (PROC / str(process) / "task").iterdir()
    return [int(word) for task in tasks for word in (task / "children").read_text(encoding="ascii").split()]


def work_of(words: list[str], folder: str) -> Optional[tuple[str, str]]:
    """The crate that a prover works on, and which of KINDS it does there; None where the process is no prover."""
    if not words or pathlib.Path(words[0]).name != "rattle" or "--crate-name" not in words:
        return None
    crate = words[words.index("--crate-name") + 1]
    if OF_EDIT in folder:
        return crate, KINDS[2]
    return crate, KINDS["--test" in words]


def work_by(process: int) -> Optional[tuple[tuple[str, str], str]]:
    """What a process works on, and its folder, if it is a prover."""
    try:
        words = (PROC / str(process) / "cmdline").read_bytes().decode(errors="replace").split("\0")
        folder = os.readlink(PROC / str(process) / "cwd")
    except OSError:
        return None
    work = work_of(words, folder)
    return (work, folder) if work else None


class GateClock:
    """Counts what the provers below a process take, and the processes that they start, until it is stopped."""

    def __init__(self, root: int) -> None:
        self.root = root
        # By the number of a process and the folder of its prover: numbers are used again, and each wrong body has a folder of its own.
        self.seconds: dict[tuple[int, str], tuple[tuple[str, str], float]] = {}
        self.began = time.monotonic()
        self.ends = threading.Event()
        self.thread = threading.Thread(target=self.watch, daemon=True)
        self.thread.start()

    def watch(self) -> None:
        while not self.ends.wait(PAUSE):
            self.look()

    def look(self) -> None:
        """Notes what each process has taken so far that a prover is or has started."""
        self.note(self.root, None)

    def note(self, process: int, prover: Optional[tuple[tuple[str, str], str]]) -> None:
        """Notes what a process and those below it have taken, for the nearest prover."""
        nearest = work_by(process) or prover
        try:
            if nearest:
                work, folder = nearest
                self.seconds[process, f"{work} {folder}"] = work, seconds_of(process)
            below = children_of(process)
        except (OSError, ValueError, IndexError):
            return
        for child in below:
            self.note(child, nearest)

    def stop(self) -> Iterator[str]:
        """The lines for the log: each crate with its minutes, and then all together."""
        self.ends.set()
        self.thread.join()
        minutes: dict[str, dict[str, float]] = collections.defaultdict(lambda: dict.fromkeys(KINDS, 0.0))
        for (crate, kind), seconds in self.seconds.values():
            minutes[crate][kind] += seconds / 60
        for crate, of_crate in sorted(minutes.items()):
            yield line_of(crate, of_crate)
        yield line_of("all crates", {kind: sum(of_crate[kind] for of_crate in minutes.values()) for kind in KINDS})
        took = (time.monotonic() - self.began) / 60
        yield f"gate: {took:.1f} minutes on {len(os.sched_getaffinity(0))} processors"


def line_of(crate: str, minutes: dict[str, float]) -> str:
    return f"gate: {crate}: " + ", ".join(f"{kind} {minutes[kind]:.1f}" for kind in KINDS)
