"""Parts of ./test side by side, as many as there are processors, each in a process of its own."""
import concurrent.futures
import contextlib
import json
import os
import pathlib
import signal
import subprocess
from typing import Callable, Iterator, Sequence

from harness import Outcome

# What takes longest is begun first, so that nothing is left to wait for at the end.
LONG = ("faults", "show", "convert", "devices", "robots", "signing", "fleet", "judge", "endings", "vectors")
LANES = len(os.sched_getaffinity(0))


def beginning_with_long(names: Sequence[str]) -> list[str]:
    return [*(name for name in LONG if name in names), *(name for name in names if name not in LONG)]


class Lanes:
    """The parts that run, of which each writes its outcomes to a file: the command of a part is made of its name and that file."""

    def __init__(self, names: Sequence[str], room: pathlib.Path, command: Callable[[str, pathlib.Path], list[str]]):
        self.room, self.command = room, command
        self.running: set["subprocess.Popen[bytes]"] = set()
        self.pool = concurrent.futures.ThreadPoolExecutor(LANES)
        self.parts = {name: self.pool.submit(self._run, name) for name in beginning_with_long(names)}

    def _file(self, name: str) -> pathlib.Path:
        return self.room / f"{name}.outcomes"

    def _run(self, name: str) -> int:
        with subprocess.Popen(self.command(name, self._file(name)), stdin=subprocess.DEVNULL, start_new_session=True) as process:
            self.running.add(process)
            status = process.wait()
            self.running.remove(process)
        return status

    def outcomes(self, name: str) -> Iterator[Outcome]:
        """Those of a part, once it has ended."""
        status = self.parts[name].result()
        with open(self._file(name), encoding="utf-8") as lines:
            for line in lines:
                yield Outcome(**json.loads(line))
        if status:
            raise subprocess.SubprocessError(f"its process ended with status {status}")

    def end(self) -> None:
        """Ends what still runs, and begins nothing more."""
        for part in self.parts.values():
            part.cancel()
        for process in list(self.running):
            with contextlib.suppress(ProcessLookupError):
                os.killpg(process.pid, signal.SIGTERM)
        self.pool.shutdown()
