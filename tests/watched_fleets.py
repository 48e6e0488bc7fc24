"""Fleets for tools/watch.py: their tapes, the tool beside them, and what it is due to tell by the
plain model of fleets."""
import os
import pathlib
import re
import select
import subprocess
import sys
import time
from typing import Callable, Mapping, Optional

from harness import ROOT, Harness
from listing import rotations
from plan_chains import read
from run_model import agents_of
from statuses import Fleet, tape_of, tapes_of
from texts import plan

TOOL = ROOT / "tools" / "watch.py"
# What is told to have run.
ONCE, LIVE = "tools/watch.py", "tools/watch.py --live"
LONG = "type octile\nheight 1\nwidth 40\nmap\n" + 40 * "." + "\n"
# Three behind one another, who each go on by two.
TRAIN = plan("2 0 ee", "1 0 ee", "0 0 ee")
# No alarm for a time, and how quickly a test looks.
PATIENT, QUICK = ("--alarm", "100000"), ("--every", "0.1")
# How long something has lasted, which is another at each look.
LASTED = re.compile(r"\((?:\d+ (?:s|min|h|d) ?)+( ago)?\)")
# Nothing that is due comes nearly as late.
LATEST = 60.0
# How long ago tapes were written, in seconds.
AGO = 5000


def words_of(harness: Harness, *words: str) -> list[str]:
    files = [str(TOOL), "m", "p", "%.tape", "--program", str(harness.program)]
    return [sys.executable, *files, *words]


def masked(text: str) -> list[str]:
    """The lines of a text without how long anything lasted."""
    return [LASTED.sub(r"(..\1)", line) for line in text.splitlines()]


def clock(wall: float) -> str:
    """The time of day, with its day where that isn't today."""
    there, here = time.localtime(wall), time.localtime()
    return time.strftime("%H:%M:%S" if there[:3] == here[:3] else "%Y-%m-%d %H:%M:%S", there)


def clocks_since(begun: float) -> set[str]:
    """All times of day from then on up to now."""
    return {clock(begun + second) for second in range(int(time.time() - begun) + 2)}


def held_until(found: Callable[[], object], due: object) -> object:
    """What is found as soon as it is as due, or in the end."""
    end = time.monotonic() + LATEST
    while True:
        it = None
        try:
            it = found()
        except (OSError, ValueError):
            # A page that is just loaded has no answer, nor has a file that isn't there yet.
            pass
        if it == due or time.monotonic() > end:
            return it
        time.sleep(0.05)


def new_fleet(plan_text: str = TRAIN) -> Fleet:
    """The agents of a plan, none of whom has begun."""
    return Fleet(plan_text, agents_of(plan_text), {})


def room_of(
    harness: Harness, map_text: str, plan_text: str, files: Mapping[str, bytes]
) -> pathlib.Path:
    return harness.folder({"m": map_text.encode(), "p": plan_text.encode(), **files})


def old_room(
    harness: Harness, map_text: str, plan_text: str, fleet: Fleet
) -> tuple[pathlib.Path, dict[int, float]]:
    """A folder with a fleet whose tapes were written a while ago, each at another time."""
    tapes = tapes_of(fleet)
    folder, times = room_of(harness, map_text, plan_text, tapes), {}
    for place, name in enumerate(tapes):
        it = times[int(name.partition(".")[0])] = time.time() - AGO - 7 * place
        os.utime(folder / name, (it, it))
    return folder, times


def put(folder: pathlib.Path, agent: int, records: int) -> None:
    """Makes a tape one that has so many records, which no look sees half written."""
    (folder / "new").write_bytes(tape_of(agent, records))
    (folder / "new").replace(folder / f"{agent}.tape")


class Told:
    """What is due of a fleet, whose tapes were written at these times, or just now."""

    def __init__(self, plan_text: str, fleet: Fleet, times: Mapping[int, float] = {}):
        self.plan, self.fleet, self.times = read(plan_text), fleet, times
        lines = fleet.text().splitlines()
        self.agents, rest = lines[: len(fleet.agents)], lines[len(fleet.agents) :]
        self.roots, self.circles = (kept(rest, kind) for kind in ("root", "rotation"))

    def counts(self) -> dict[str, int]:
        ends = [line.split()[-1] for line in self.agents]
        between, unknown = sum(" between " in it for it in self.agents), len(self.fleet.faults)
        found = {"arrived": ends.count("arrived"), "moving": between, "ready": ends.count("ready")}
        waiting = sum(" waits " in it for it in self.agents)
        return {**found, "waiting": waiting, "unknown": unknown}

    def since(self, agent: int) -> str:
        at = clock(self.times[agent]) if agent in self.times else "now"
        return f"since {at} (..)"

    def summary(self) -> str:
        count, counts = len(self.agents), self.counts()
        agents = f"{count} agent{'' if count == 1 else 's'}"
        if counts["arrived"] == count:
            return f"{agents}: all arrived"
        known = [it for agent, it in self.times.items() if agent not in self.fleet.faults]
        at = clock(max(known)) if known else "now"
        words = ", ".join(f"{number} {word}" for word, number in counts.items())
        return f"{agents}: {words}; changed last at {at} (.. ago)"

    def root(self, agent: int) -> str:
        """What is told of one who keeps others."""
        it = self.fleet.agents[agent]
        if agent in self.fleet.faults:
            return f"tape {self.agents[agent].partition(' ')[2]}"
        (x, y), (u, v) = it.held()[0], it.held()[-1]
        doing = f"moving {x} {y} to {u} {v}" if it.is_moving else f"ready at {x} {y}"
        return f"{doing}, done {it.done} of {len(it.needs)}"

    def all(self) -> list[str]:
        turning = list(rotations(self.plan))
        agents = {it: turning[it][1] for it in self.circles}
        due = [blocks(it, agents[it]) for it in agents] + [self.summary()]
        for number, keeps in greatest(self.circles):
            last = max(agents[number], key=lambda it: self.times[it])
            due.append(f"rotation {number} keeps {keeps}, {self.since(last)}")
        for root, keeps in greatest(self.roots):
            due.append(f"root {root} keeps {keeps}: {self.root(root)}, {self.since(root)}")
        for agent in sorted(self.fleet.faults):
            due.append(f"unknown {agent}: {self.root(agent)[5:]}, {self.since(agent)}")
        return due


def kept(lines: list[str], kind: str) -> dict[int, int]:
    """How many each of a kind keeps."""
    words = [line.split() for line in lines]
    return {int(it[1]): int(it[3]) for it in words if it[0] == kind}


def greatest(counts: Mapping[int, int]) -> list[tuple[int, int]]:
    return sorted(counts.items(), key=lambda it: (-it[1], it[0]))


def blocks(number: int, agents: list[int]) -> str:
    """The alarm for a rotation."""
    listed = " ".join(map(str, agents))
    return f"ALARM: rotation {number} blocks: agents {listed} wait for one another for ever"


class Watched:
    """The tool beside a fleet that goes on. Its output is read here, or goes to a terminal."""

    def __init__(
        self, harness: Harness, folder: pathlib.Path, *words: str, out: Optional[int] = None
    ):
        self.lines: list[str] = []
        self.rest = b""
        command = words_of(harness, "--live", *QUICK, *words)
        # A terminal says itself how large it is.
        place = {name: it for name, it in os.environ.items() if name not in ("COLUMNS", "LINES")}
        pipes = {"stdin": subprocess.DEVNULL, "stdout": out or subprocess.PIPE}
        self.process = subprocess.Popen(
            command, cwd=folder, env=place, stderr=subprocess.PIPE, start_new_session=True, **pipes
        )

    def __enter__(self) -> "Watched":
        return self

    def __exit__(self, *_: object) -> None:
        if self.process.returncode is None:
            self.end(stops=True)

    def next(self, beginning: str) -> str:
        """The next line that begins so behind the time of day; nothing where none comes."""
        end = time.monotonic() + LATEST
        while time.monotonic() < end:
            line, is_whole, rest = self.rest.partition(b"\n")
            if not is_whole:
                if not self.reads_on(end):
                    break
                continue
            self.rest = rest
            self.lines.append(line.decode().partition(" ")[2])
            if self.lines[-1].startswith(beginning):
                return masked(self.lines[-1])[0]
        return ""

    def reads_on(self, end: float) -> bool:
        """Reads more of the output, where more comes."""
        out = self.process.stdout.fileno()
        ready, _, _ = select.select([out], [], [], max(0.0, end - time.monotonic()))
        found = os.read(out, 65536) if ready else b""
        self.rest += found
        return bool(found)

    def end(self, stops: bool = False) -> tuple[int, bytes]:
        """Its status, and what it told on standard error."""
        if stops:
            self.process.terminate()
        _, err = self.process.communicate(timeout=LATEST)
        return self.process.returncode, err
