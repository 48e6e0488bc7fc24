"""tools/judge.py and rows.py on a Dask cluster: whoever is killed, no failure of the cluster is a result."""
import contextlib
import dataclasses
import os
import pathlib
import shlex
import shutil
import signal
import socket
import subprocess
import time
from typing import Iterator, Optional

from harness import ROOT, Ended, Harness, Outcome, compared, shown
from job_rooms import Room
from judge_jobs import JOBS, csv_of, differing, judge_room
from processes import children, processes_of, wait_until
from pythons import python_with
from tabling import LANE_RIGHT, RIGHT
from texts import LANE

# A worker that hasn't come by then comes no more.
LONGEST = 100
# How many scenarios there are while somebody is killed, and how many have a result before.
SCENARIOS, BEFORE = 40, 3
# How long a call waits for a scheduler.
WAITS = {"DASK_DISTRIBUTED__COMM__TIMEOUTS__CONNECT": "3s"}


@dataclasses.dataclass
class Cluster:
    """A scheduler and two workers, and the Python that tools are called by."""

    python: str
    address: str
    scheduler: "subprocess.Popen[bytes]"
    workers: list["subprocess.Popen[bytes]"]

    def run(self, room: Room, *words: str, program: str = "") -> tuple[str, "subprocess.Popen[bytes]"]:
        """Begins a call on the cluster: the command as one would type it, and its process."""
        command = [self.python, *room.words(*words, "--dask", self.address, program=program)[1:]]
        pipes = {"stdout": subprocess.PIPE, "stderr": subprocess.PIPE}
        return shown(command), subprocess.Popen(command, cwd=room.folder, env={**os.environ, **WAITS, "MAPF": ""}, **pipes)


def end(process: "subprocess.Popen[bytes]") -> None:
    with contextlib.suppress(ProcessLookupError):
        os.killpg(process.pid, signal.SIGKILL)
    process.wait()


def ended(process: "subprocess.Popen[bytes]") -> Ended:
    try:
        out, err = process.communicate(timeout=LONGEST)
    except subprocess.TimeoutExpired:
        process.kill()
        out, err = process.communicate()
    return Ended(process.returncode, out, err)


def started(folder: pathlib.Path, name: str, words: list[str]) -> "subprocess.Popen[bytes]":
    """A part of a cluster, which writes what it does to a file of its name."""
    with open(folder / name, "wb") as log:
        return subprocess.Popen(words, cwd=folder, stdout=log, stderr=log, start_new_session=True)


@contextlib.contextmanager
def cluster(harness: Harness, python: str) -> Iterator[Cluster]:
    """A cluster on this machine, started by Dask's own commands, once its workers have come."""
    folder = harness.folder()
    with socket.socket() as free:
        free.bind(("127.0.0.1", 0))
        port = free.getsockname()[1]
    address = f"tcp://127.0.0.1:{port}"
    parts = [started(folder, "scheduler", ["dask-scheduler", "--host", "127.0.0.1", "--port", str(port), "--no-dashboard"])]
    try:
        for name in ("first", "second"):
            words = ["dask-worker", address, "--nthreads", "1", "--no-dashboard", "--no-nanny", "--local-directory", str(folder / f"of {name}")]
            parts.append(started(folder, name, words))
        until = time.monotonic() + LONGEST
        while not all(b"Registered to" in (folder / name).read_bytes() for name in ("first", "second")):
            if time.monotonic() > until:
                raise ValueError(f"no worker came: {(folder / 'first').read_bytes()[-1000:]!r}")
            time.sleep(0.05)
        yield Cluster(python, address, parts[0], parts[1:])
    finally:
        for part in parts:
            end(part)


def slow_room(harness: Harness) -> tuple[Room, str]:
    """Scenarios, and a program that takes a while for each."""
    room = Room(harness, "rows", {})
    for name in ("maps", "scens"):
        (room.folder / name).mkdir()
    room.file("maps/lane.map", LANE.encode())
    for number in range(SCENARIOS):
        room.file(f"scens/{number}.scen", RIGHT.encode())
    return room, room.script("slow", f'test "$1" = rows && sleep 0.1\nexec {shlex.quote(str(harness.program))} "$@"')


def wait_for_results(room: Room, output: str, process: "subprocess.Popen[bytes]") -> None:
    until = time.monotonic() + LONGEST
    while len(room.rows(output)) < BEFORE and process.poll() is None and time.monotonic() < until:
        time.sleep(0.01)


def found_in(room: Room, output: str) -> list[tuple[str, str]]:
    return sorted((row["scenario"], row["verdict"]) for row in room.rows(output))


DUE = sorted((f"scens/{number}.scen", LANE_RIGHT[1]) for number in range(SCENARIOS))


def of_verdicts(harness: Harness, two: Cluster) -> Iterator[Outcome]:
    """Each job has the result that it has on this machine."""
    room = judge_room(harness)
    room.file("jobs.csv", csv_of([job for job, _ in JOBS]))
    ran, process = two.run(room, "jobs.csv", "-o", "cluster.csv")
    answer = ended(process)
    wrote = (answer.status, differing(room.rows("cluster.csv"), JOBS), answer.err[-300:] if answer.status else b"")
    yield compared("a cluster of two workers", ran, wrote, (0, [], b""))


def of_a_killed_python(harness: Harness, two: Cluster) -> Iterator[Outcome]:
    """A job that gets no answer has no result: here the Python of a worker is killed by the program, which is started by a process of that Python."""
    room, _ = slow_room(harness)
    killer = 'case "$*" in rows*/scens/7.scen) kill -9 $(sed -n "s/^PPid:[^0-9]*//p" /proc/$PPID/status);; esac'
    program = room.script("killer", f'{killer}\nexec {shlex.quote(str(harness.program))} "$@"')
    ran, process = two.run(room, "--maps", "maps", "scens", "-o", "killer.csv", program=program)
    answer = ended(process)
    told = answer.err.splitlines()
    wrote = (answer.status, found_in(room, "killer.csv"), len(told), told[-1:])
    why = f"rows: the Dask cluster {two.address} failed, 1 jobs have no result: a worker's Python gave no answer; the same call judges what is left"
    yield compared("a job that gets no answer", ran, wrote, (3, [it for it in DUE if it[0] != "scens/7.scen"], 2, [why.encode()]))


def of_kept_pythons(harness: Harness, two: Cluster) -> Iterator[Outcome]:
    """Both workers get jobs, and each does all of its own with one Python: a program sees it as what started the process that started it. No job ends
    before two Pythons were seen."""
    room, _ = slow_room(harness)
    told = room.folder / "pythons"
    see = f'sed -n "s/^PPid:[^0-9]*//p" /proc/$PPID/status >>{shlex.quote(str(told))}'
    both = f"until test $(sort -u {shlex.quote(str(told))} | wc -l) -ge 2; do sleep 0.1; done"
    program = room.script("seeing", f'test "$1" = rows && {see} && {both}\nexec {shlex.quote(str(harness.program))} "$@"')
    ran, process = two.run(room, "--maps", "maps", "scens", "-o", "kept.csv", program=program)
    wrote = (ended(process).status, found_in(room, "kept.csv"))
    seen = told.read_text().split() if told.exists() else []
    yield compared("how many Pythons two workers need", ran, (*wrote, len(seen), len(set(seen))), (0, DUE, len(DUE), 2))


def of_early_workers(harness: Harness, two: Cluster) -> Iterator[Outcome]:
    """Workers begin while files are read: here a scenario can't be read before a Python of a worker has asked the program for its version."""
    room, _ = slow_room(harness)
    begun = shlex.quote(str(room.folder / "begun"))
    lines = f'case "$*" in --version) >{begun};; scen*/7.scen) until test -e {begun}; do sleep 0.1; done;; esac'
    program = room.script("holding", f'{lines}\nexec {shlex.quote(str(harness.program))} "$@"')
    ran, process = two.run(room, "--maps", "maps", "scens", "-o", "early.csv", program=program)
    status = ended(process).status
    # What still waits needn't.
    (room.folder / "begun").touch()
    yield compared("workers that begin while files are read", ran, (status, found_in(room, "early.csv")), (0, DUE))


def starter_of(pid: int) -> int:
    """What has started a process that may be gone. A list of what a process has started lacks what its threads have."""
    with contextlib.suppress(OSError):
        return int(pathlib.Path(f"/proc/{pid}/status").read_text(encoding="utf-8").partition("\nPPid:")[2].split()[0])
    return 0


def of_left_pythons(harness: Harness, two: Cluster) -> Iterator[Outcome]:
    """Workers forget the Pythons of former calls that have ended."""
    room, _ = slow_room(harness)
    ended(two.run(room, "--maps", "maps", "scens", "-o", "one.csv")[1])
    waiting = [pid for pid, command in processes_of(ROOT / "tools") if "--told" in command]
    left = [pid for pid in waiting if starter_of(pid) in [worker.pid for worker in two.workers]]
    for pid in left:
        os.kill(pid, signal.SIGKILL)
    ran, process = two.run(room, "--maps", "maps", "scens", "-o", "another.csv")
    status = ended(process).status
    forgotten = wait_until(lambda: not any(pathlib.Path(f"/proc/{pid}").exists() for pid in left))
    yield compared("Pythons of a former call", ran, (status, len(left) >= 2, forgotten), (0, True, True))


def of_a_killed_worker(harness: Harness, two: Cluster) -> Iterator[Outcome]:
    room, program = slow_room(harness)
    ran, process = two.run(room, "--maps", "maps", "scens", "-o", "worker.csv", program=program)
    wait_for_results(room, "worker.csv", process)
    end(two.workers[0])
    wrote = (ended(process).status, found_in(room, "worker.csv"))
    yield compared("a worker that is killed", ran, wrote, (0, DUE))


def of_a_killed_scheduler(harness: Harness, two: Cluster) -> Iterator[Outcome]:
    """What stood before is kept, and the same call goes on."""
    room, program = slow_room(harness)
    words = ["--maps", "maps", "scens", "-o", "scheduler.csv"]
    ran, process = two.run(room, *words, program=program)
    wait_for_results(room, "scheduler.csv", process)
    end(two.scheduler)
    answer = ended(process)
    found = found_in(room, "scheduler.csv")
    told = answer.err.decode().splitlines()
    line = f"rows: the Dask cluster {two.address} failed, its scheduler is gone; the same call judges what is left"
    is_part = BEFORE <= len(found) < len(DUE) and set(found) <= set(DUE)
    yield compared("a scheduler that is killed", ran, (answer.status, is_part, told[1:]), (3, True, [line]))
    ran, process = two.run(room, *words, program=program)
    answer = ended(process)
    begins = answer.err.decode().splitlines()[-1].startswith(f"rows: the Dask cluster {two.address} failed, ")
    wrote = (answer.status, begins, b"Traceback" in answer.err, found_in(room, "scheduler.csv"))
    yield compared("a scheduler that is not there", ran, wrote, (3, True, False, found))
    here = room.run(*words, program=program)
    yield compared("what was left is judged", ran, (here.status, found_in(room, "scheduler.csv")), (0, DUE))


def links() -> list[int]:
    """The processes that talk with a cluster."""
    return [pid for pid, command in processes_of(ROOT / "tools") if "dask_link.py" in command]


def link_of(process: "subprocess.Popen[bytes]") -> Optional[int]:
    with contextlib.suppress(OSError):
        return next((pid for pid in children(process.pid) if pid in links()), None)
    return None


def of_a_killed_link(harness: Harness, two: Cluster) -> Iterator[Outcome]:
    """A call whose link is killed keeps what it has, and a call that is killed leaves no link."""
    room, program = slow_room(harness)
    words = ["--maps", "maps", "scens", "-o", "link.csv"]
    ran, process = two.run(room, *words, program=program)
    wait_for_results(room, "link.csv", process)
    link = link_of(process)
    if link:
        os.kill(link, signal.SIGKILL)
    answer = ended(process)
    found = found_in(room, "link.csv")
    line = f"rows: the Dask cluster {two.address} failed, the process that is linked to it has ended; the same call judges what is left"
    is_part = BEFORE <= len(found) < len(DUE) and set(found) <= set(DUE)
    yield compared("a link that is killed", ran, (bool(link), answer.status, is_part, answer.err.decode().splitlines()[1:]), (True, 3, True, [line]))
    before = len(found)
    ran, process = two.run(room, *words, program=program)
    wait_until(lambda: len(room.rows("link.csv")) > before or process.poll() is not None, LONGEST)
    link = link_of(process)
    process.kill()
    ended(process)
    yield compared("a call that is killed", ran, (bool(link), wait_until(lambda: link not in links(), LONGEST)), (True, True))
    ran, process = two.run(room, *words, program=program)
    yield compared("a call behind both", ran, (ended(process).status, found_in(room, "link.csv")), (0, DUE))


def without_dask(harness: Harness) -> Iterator[Outcome]:
    """A Python that lacks Dask, or has one that can't be used."""
    for name, text, status, why in (
        ("no Dask", "raise ImportError", 2, "--dask needs the Python package `distributed`, as Debian's python3-distributed"),
        ("a bad Dask", "1 / 0", 3, "the Dask cluster tcp://here:1 failed, ZeroDivisionError: division by zero; the same call judges what is left"),
    ):
        room, _ = slow_room(harness)
        room.file("distributed.py", text.encode())
        command = [*room.words("--maps", "maps", "scens", "-o", "none.csv"), "--dask", "tcp://here:1"]
        answer = harness.run(command, folder=room.folder, more={"PYTHONPATH": str(room.folder)})
        wrote = (answer.status, answer.err.decode().splitlines()[1:], found_in(room, "none.csv"))
        yield compared(name, shown(command), wrote, (status, [f"rows: {why}"], []))


def outcomes(harness: Harness) -> Iterator[Outcome]:
    yield from without_dask(harness)
    python = python_with("distributed")
    if not python or not shutil.which("dask-scheduler") or not shutil.which("dask-worker"):
        yield Outcome("a cluster", lacks="python3-distributed")
        return
    with cluster(harness, python) as two:
        yield from of_verdicts(harness, two)
        yield from of_kept_pythons(harness, two)
        yield from of_early_workers(harness, two)
        yield from of_left_pythons(harness, two)
        yield from of_a_killed_python(harness, two)
        yield from of_a_killed_link(harness, two)
        yield from of_a_killed_worker(harness, two)
        yield from of_a_killed_scheduler(harness, two)
