"""What tests ask of the processes of this machine."""
import contextlib
import os
import pathlib
import sys
import time
from typing import Callable, Sequence

# Heeds signals again that whoever runs the tests may ignore, as a shell does for what runs behind it.
HEEDING = "import os, signal, sys; [signal.signal(it, signal.SIG_DFL) for it in (1, 2, 15)]; os.execvp(sys.argv[1], sys.argv[1:])"


def heeding(command: Sequence[str]) -> list[str]:
    return [sys.executable, "-c", HEEDING, *command]


def left_in(folder: pathlib.Path) -> list[str]:
    """Temporary files that are still there, and processes that were started with a file of this folder."""
    return [*map(str, folder.glob("mapf-*")), *(command for _, command in processes_of(folder))]


def processes_of(folder: pathlib.Path) -> list[tuple[int, str]]:
    """Those that were started with a file of a folder."""
    word, found = f"{folder}/", []
    # Any of them may be gone when it is looked at, for which `glob` has no answer.
    for pid in (int(it) for it in os.listdir("/proc") if it.isdigit()):
        with contextlib.suppress(OSError):
            command = pathlib.Path(f"/proc/{pid}/cmdline").read_bytes().replace(b"\0", b" ").decode(errors="replace")
            if word in command and pid != os.getpid():
                found.append((pid, command))
    return found


def children(pid: int) -> list[int]:
    return [int(it) for it in pathlib.Path(f"/proc/{pid}/task/{pid}/children").read_text(encoding="ascii").split()]


def wait_until(is_so: Callable[[], object], limit: float = 60) -> bool:
    last = time.monotonic() + limit
    # What was so once may be over when it is asked again.
    while not (found := bool(is_so())) and time.monotonic() < last:
        time.sleep(0.01)
    return found
