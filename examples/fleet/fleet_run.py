"""One run of a fleet: a watcher, a process a robot, and what is done to them, until all have arrived. Its log is held against `mapf run`."""
import contextlib
import dataclasses
import os
import pathlib
import random
import signal
import subprocess
import sys
import time
from typing import Callable, Optional, Sequence

from broker import Broker
from cables import Cables
from count_file import make_count
from harm import Harm
from places import Place

HERE = pathlib.Path(__file__).resolve().parent
# Seconds between two looks at the processes, and those that they have to end.
LOOK, GRACE = 0.02, 30
# A watcher that has seen enough has ended after so many seconds.
SOON = 0.5
# The longest time after which a robot that was killed is started again.
LONGEST_PAUSE = 0.3
# How long robots look for a broker that is stopped just when they start.
PATIENCE = 60


class Wrong(Exception):
    """The fleet isn't safe, or its log isn't true."""


class Failed(Exception):
    """A process of the fleet has failed."""


@dataclasses.dataclass(frozen=True)
class Settings:
    """What all runs of a fleet have in common."""

    program: str
    python: str
    map: pathlib.Path
    robots: int
    link: str
    tells: bool
    every: float
    moves: float
    slips: float
    rates: dict[str, float]
    limit: float
    # A folder for the robots' boxes, the keys by which they sign, and the folder of their certificates, where these are wanted.
    boxes: Optional[pathlib.Path] = None
    keys: Optional[pathlib.Path] = None
    tls: Optional[pathlib.Path] = None


def said_by(process: "subprocess.Popen[bytes]") -> str:
    """What a process has written since, without waiting for it."""
    try:
        return os.read(process.stdout.fileno(), 65_536).decode("ascii") if process.stdout else ""
    except BlockingIOError:
        return ""


class Run:
    """The processes of a run, in a folder of its own."""

    # What else the watcher is told.
    watcher_words: Sequence[str] = ()

    def __init__(self, settings: Settings, place: Place, cables: Cables, broker: Optional[Broker], seed: int, folder: pathlib.Path):
        self.settings, self.place, self.cables, self.broker, self.seed, self.folder = settings, place, cables, broker, seed, folder
        self.plan, self.log, self.replies, self.socket = (folder / name for name in ("run.plan", "run.events", "run.replies", "watcher"))
        self.rng = random.Random(f"starts {seed}")
        self.robots: dict[int, "subprocess.Popen[bytes]"] = {}
        self.starts_at: dict[int, float] = {}
        self.told = ""
        self._make_tapes()
        self.watcher = self._start_watcher()

    def tape(self, robot: int) -> pathlib.Path:
        return self.folder / f"{robot}.tape"

    def _make_tapes(self) -> None:
        """Each is a new one once, before its robot starts: from then on it was kept."""
        for robot in range(self.settings.robots):
            ended = subprocess.run([*self.agent_words(robot), "--tape", "new"], stdin=subprocess.DEVNULL, stdout=subprocess.DEVNULL, check=False)
            if ended.returncode:
                raise Failed(f"the tape of robot {robot} isn't made (status {ended.returncode})")
            if self.settings.keys:
                make_count(str(self.tape(robot)))

    def plan_of(self, robot: int) -> pathlib.Path:
        """The plan by which a robot drives: all have one."""
        return self.plan

    def agent_words(self, robot: int) -> list[str]:
        settings = self.settings
        return [settings.program, "agent", str(settings.map), str(self.plan_of(robot)), str(robot), str(self.tape(robot))]

    def _start_watcher(self) -> "subprocess.Popen[bytes]":
        settings = self.settings
        words = [sys.executable, HERE / "watcher.py", settings.map, self.plan, self.socket, "--log", self.log, "--replies", self.replies]
        words += ["--moves", settings.moves, "--slips", settings.slips, "--seed", self.seed, "--program", settings.program]
        command = [*map(str, words), *(["--tell"] if settings.tells else []), *self.watcher_words]
        process = subprocess.Popen(command, stdin=subprocess.PIPE, stdout=subprocess.PIPE, start_new_session=True)
        os.set_blocking(process.stdout.fileno(), False)
        return process

    def words_of(self, robot: int) -> list[str]:
        settings, place = self.settings, self.place
        words = [settings.python, HERE / "robot.py", settings.map, self.plan_of(robot), robot, self.tape(robot), "--drive", self.socket]
        # Its tape was made for this run, and is no older one.
        words += ["--wait", 0, "--every", settings.every, "--program", settings.program, *(["--tell"] if settings.tells else [])]
        words += ["--box", settings.boxes / f"{robot}.box"] if settings.boxes else []
        words += ["--keys", settings.keys] if settings.keys else []
        if settings.link == "mqtt":
            words += ["--broker", place.broker, "--patience", PATIENCE]
            words += ["--tls", *(settings.tls / name for name in ("ca.pem", f"{robot}.pem", f"{robot}.key"))] if settings.tls else []
        elif settings.link == "multicast":
            words += ["--listen", place.address(robot), "--group", place.group]
        else:
            words += ["--listen", place.address(robot), "--peers", ",".join(place.address(n) for n in range(settings.robots) if n != robot)]
        return [*place.words(robot), *map(str, words)]

    def start_robot(self, robot: int) -> None:
        self.robots[robot] = subprocess.Popen(self.words_of(robot), stdin=subprocess.DEVNULL, start_new_session=True)

    # What harm does

    def kill(self, robot: int, what: str) -> bool:
        """Kills a robot's process, its agent's or both, where they are there."""
        process = self.robots[robot]
        agents = [] if process.poll() is not None else children_of(process.pid)
        victims = {"robot": [process.pid], "agent": agents, "both": [process.pid, *agents]}[what]
        if process.poll() is not None or not agents:
            return False
        for pid in victims:
            try:
                os.kill(pid, signal.SIGKILL)
            except ProcessLookupError:
                pass
        return True

    def cut(self, name: str) -> None:
        self.cables.cut(name)

    def mend(self, name: str) -> None:
        self.cables.mend(name)

    def stop_broker(self) -> None:
        if self.broker:
            self.broker.stop()

    def start_broker(self) -> None:
        if self.broker:
            self.broker.start()

    # The run

    def look_after_robots(self) -> None:
        """A robot that was killed is started again a little later; one that has ended by itself has said why."""
        for robot, process in self.robots.items():
            status = process.poll()
            if status is None:
                continue
            if status >= 0:
                self.say_why(robot, status)
            now = time.monotonic()
            if now >= self.starts_at.setdefault(robot, now + self.rng.uniform(0, LONGEST_PAUSE)):
                del self.starts_at[robot]
                self.start_robot(robot)

    def say_why(self, robot: int, status: int) -> None:
        """Robots end too where the watcher has seen what must not be; then that is told."""
        with contextlib.suppress(subprocess.TimeoutExpired):
            self.watcher.wait(SOON)
        self.look_after_watcher()
        raise Failed(f"robot {robot} has ended with status {status}")

    def look_after_watcher(self) -> None:
        self.told += said_by(self.watcher)
        status = self.watcher.poll()
        if status is not None:
            raise (Wrong if status == 1 else Failed)(f"the watcher has ended with status {status}")

    def wait_for(self, is_done: Callable[[], bool], limit: float, harm: Optional[Harm] = None) -> bool:
        last = time.monotonic() + limit
        while not is_done():
            if time.monotonic() > last:
                return False
            time.sleep(LOOK)
            self.look_after_watcher()
            self.look_after_robots()
            if harm:
                harm.do_what_is_due()
        return True

    def is_over(self) -> bool:
        """Whether the watcher says that all have arrived."""
        return "arrived" in self.told

    def drive(self) -> dict[str, str]:
        """Runs the fleet until all have arrived, or the time is over, and answers what was counted."""
        if not self.wait_for(lambda: "ready" in self.told, GRACE):
            raise Failed("the watcher isn't ready")
        before = self.cables.counts()
        for robot in range(self.settings.robots):
            self.start_robot(robot)
        harm = Harm(self.settings.rates, self.settings.robots, self.cable_names(), self.seed, self)
        try:
            arrived = self.wait_for(self.is_over, self.settings.limit, harm)
        finally:
            harm.undo()
        after = self.cables.counts()
        self.end_robots()
        self.end_watcher()
        if not arrived:
            self.told = f"arrived 0 seconds {self.settings.limit:.2f} {self.told}"
        counts = {**dict.fromkeys(("robot_kills", "agent_kills", "both_kills", "cuts", "stops"), 0), **harm.counts}
        counts.update({name: after[name] - before[name] for name in after})
        words = self.told.replace("ready", "").split()
        return {**dict(zip(words[::2], words[1::2])), **{name: str(count) for name, count in counts.items()}}

    def cable_names(self) -> list[str]:
        return [*map(str, range(self.settings.robots)), *(["broker"] if self.settings.link == "mqtt" else [])]

    def end_robots(self) -> None:
        for process in self.robots.values():
            process.terminate()
        for process in self.robots.values():
            end_or_kill(process)

    def end_watcher(self) -> None:
        """It takes what stands in its queue, and ends at the end of its input."""
        if self.watcher.stdin:
            self.watcher.stdin.close()
        end_or_kill(self.watcher)
        self.told += said_by(self.watcher)
        if self.watcher.returncode == 1:
            raise Wrong("the watcher has ended with status 1")

    def end(self) -> None:
        """Whatever happened, nothing is left that was started."""
        for process in [*self.robots.values(), self.watcher]:
            if process.poll() is None:
                process.terminate()
        for process in [*self.robots.values(), self.watcher]:
            end_or_kill(process)

    # What came of it

    def hold_log(self, has_arrived: bool) -> None:
        """`mapf run` answers the log by the replies that were seen, and finds nothing left to do; and each tape is at its end."""
        settings = self.settings
        words = [settings.program, "run", str(settings.map), str(self.plan), str(self.log), "--complete"]
        ended = subprocess.run(words, stdin=subprocess.DEVNULL, stdout=subprocess.PIPE, check=False)
        seen = self.replies.read_bytes()
        rest = ended.stdout[len(seen) :]
        if ended.returncode or not ended.stdout.startswith(seen) or not rest.startswith(b"complete 0\n" if has_arrived else b"complete "):
            raise Wrong(f"{self.log}: `mapf run` doesn't answer the log as the robots were answered (status {ended.returncode})")
        for robot in range(settings.robots) if has_arrived else ():
            self.hold_tape(robot)

    def hold_tape(self, robot: int) -> None:
        ended = subprocess.run([*self.agent_words(robot), "--tape", "kept"], input=b"start\n", stdout=subprocess.PIPE, check=False)
        if not ended.stdout.endswith(b"\nrefused AtEnd\n"):
            raise Wrong(f"the tape of robot {robot} isn't at its end: {ended.stdout!r}")


def children_of(pid: int) -> Sequence[int]:
    try:
        return list(map(int, pathlib.Path(f"/proc/{pid}/task/{pid}/children").read_text(encoding="ascii").split()))
    except OSError:
        return []


def end_or_kill(process: "subprocess.Popen[bytes]") -> None:
    try:
        process.wait(GRACE)
    except subprocess.TimeoutExpired:
        process.kill()
        process.wait()
