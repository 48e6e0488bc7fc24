"""Programs that run in turn: how long each takes, and how much memory it holds."""
import dataclasses
import pathlib
import statistics
import subprocess
import sys
import time
from typing import Optional, Sequence

from tables import Measure

# For how many seconds each text is run at least.
LEAST_SECONDS = 10
# After so many no more runs are made to look at memory.
ENOUGH_SECONDS = 2


def run_once(command: Sequence[str], output: pathlib.Path, statuses: Sequence[int]) -> float:
    """The seconds of one run, whose text goes to a file."""
    with open(output, "wb") as out:
        start = time.perf_counter()
        ended = subprocess.run(command, stdout=out, stderr=subprocess.DEVNULL)
        seconds = time.perf_counter() - start
    if ended.returncode not in statuses:
        sys.exit(f"{' '.join(command)} ended with status {ended.returncode}")
    return seconds


def peak_memory(command: Sequence[str], size: int) -> int:
    """The most kilobytes of memory up to the middle of the text that it writes: all that was read
    is held then."""
    quiet = {"stdout": subprocess.PIPE, "stderr": subprocess.DEVNULL}
    child = subprocess.Popen(command, **quiet)
    child.stdout.read(size // 2)
    status = pathlib.Path(f"/proc/{child.pid}/status").read_text()
    child.stdout.read()
    child.wait()
    return most_held(status)


def most_held(status: str) -> int:
    """The most kilobytes that a process has held, by what the system says of it."""
    lines = [line for line in status.splitlines() if line.startswith("VmHWM")]
    # Of one that has ended nothing is known any more.
    return int(lines[0].split()[1]) if lines else 0


def whole_peak_memory(command: Sequence[str]) -> int:
    """The most kilobytes of memory in five runs, as it was last seen before each end: one look may
    come too early for a short run. Of long ones there are fewer."""
    most, begun = 0, time.perf_counter()
    for _ in range(5):
        if time.perf_counter() - begun > ENOUGH_SECONDS:
            break
        quiet = {"stdout": subprocess.DEVNULL, "stderr": subprocess.DEVNULL}
        child = subprocess.Popen(command, **quiet)
        while child.poll() is None:
            most = max(most, most_held(pathlib.Path(f"/proc/{child.pid}/status").read_text()))
    return most


@dataclasses.dataclass
class Bench:
    """The programs, a folder for texts, how many rounds are run at least and for how many seconds
    each text, and what was measured for the page."""

    programs: list[str]
    folder: pathlib.Path
    rounds: int
    seconds: float
    measures: list[Measure] = dataclasses.field(default_factory=list)

    def files(self, name: str, *kinds: str) -> list[pathlib.Path]:
        """A file of each kind for a text."""
        return [self.folder / f"{name}.{kind}" for kind in kinds]

    def commands(self, words: Sequence[str]) -> list[list[str]]:
        return [[program, *words] for program in self.programs]

    def measure(
        self, commands: Sequence[Sequence[str]], statuses: Sequence[int] = (0,)
    ) -> tuple[tuple[float, float, float], list[bytes]]:
        """The best time of each command in seconds with the median of the rounds' ratios, and the
        text that each wrote. A machine may be slow for seconds at a time: the two runs of a round
        share that, and short texts get more rounds, until some seconds are over."""
        outputs = [self.folder / f"out{it}" for it in range(len(commands))]
        taken = self.rounds_of(commands, outputs, statuses)
        best = [min(times) for times in zip(*taken)]
        ratio = statistics.median(ours / theirs for ours, theirs in taken)
        return (best[0], best[1], ratio), [output.read_bytes() for output in outputs]

    def rounds_of(
        self,
        commands: Sequence[Sequence[str]],
        outputs: Sequence[pathlib.Path],
        statuses: Sequence[int],
    ) -> list[list[float]]:
        """The seconds of each command in each round."""
        taken: list[list[float]] = []
        begun = time.perf_counter()
        while len(taken) < self.rounds or time.perf_counter() - begun < self.seconds:
            both = zip(commands, outputs)
            taken.append([run_once(command, output, statuses) for command, output in both])
        return taken

    def measure_alone(self, name: str, words: Sequence[str], status: int) -> None:
        """Measures our program, which alone has the command, for a row of the page."""
        command = [self.programs[0], *words]
        taken = self.rounds_of([command], [self.folder / "out0"], (status,))
        ms = 1000 * min(it[0] for it in taken)
        mb = whole_peak_memory(command) / 1024
        print(f"{name:28} {ms:8.2f} {'':15} {mb:8.1f}", flush=True)
        self.measures.append(Measure("alone", name, (ms,), None, (mb,)))

    def measure_alike(
        self, what: str, commands: Sequence[Sequence[str]], statuses: Sequence[int] = (0,)
    ) -> tuple[float, float, float]:
        """The times of programs that have to write the same."""
        measured, written = self.measure(commands, statuses)
        if written[0] != written[1]:
            sys.exit(f"the two programs wrote other texts for {what}")
        return measured

    def report(
        self,
        name: str,
        measured: tuple[float, float, float],
        most: Sequence[int],
        row: Optional[tuple[str, str]],
    ) -> None:
        """Tells what was measured, and keeps it where it is a row of a table of the page."""
        ms = 1000 * measured[0], 1000 * measured[1]
        mb = most[0] / 1024, most[1] / 1024
        times = f"{ms[0]:8.2f} {ms[1]:8.2f} {measured[2]:6.2f}"
        print(f"{name:28} {times} {mb[0]:8.1f} {mb[1]:8.1f}", flush=True)
        if row:
            self.measures.append(Measure(*row, ms, measured[2], mb))
