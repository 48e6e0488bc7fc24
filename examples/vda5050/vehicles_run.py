"""One run of a fleet of vehicles: its processes, what is done to them, and what came of it."""
import argparse
import contextlib
import os
import pathlib
import random
import select
import signal
import subprocess
import sys
import time
from typing import Optional

import beside
from broker import Broker
from fleet_run import GRACE, LONGEST_PAUSE, Failed, Wrong, children_of, end_or_kill
from frame import read_frame
from harm import Harm
from judge import Judge
from places import Loopback
from route import path_of

MANUFACTURER = "mapf"
MASTER, RECORDER, TO = "master", "recorder", "to "
# Seconds between two looks.
LOOK = 0.02
# The mean of a vehicle's speed, beside that of all.
SLOW, QUICK = 0.7, 1.4
# What is killed, by the words of harm, and how it is counted.
KILLED = {"robot_kills": "vehicle_kills", "agent_kills": "agent_kills", "both_kills": "master_kills"}
# How much of what a process has said is told.
TOLD = 600


class Run:
    """A vehicle's process has its name, as the master's and the recorder's have; each vehicle and the master reach the broker by a proxy."""

    def __init__(self, given: argparse.Namespace, vehicles: int, place: Loopback, broker: Broker, folder: pathlib.Path):
        self.given, self.place, self.broker, self.folder = given, place, broker, folder.absolute()
        self.rng = random.Random(f"starts {given.seed}")
        self.tapes, self.files = self.folder / "tapes", [str(given.map), str(self.folder / "run.plan")]
        self.frame = read_frame(given.frame, str(given.map))
        self.paths = [path_of(given.program, self.files, agent) for agent in range(vehicles)]
        self.names = [f"v{agent}" for agent in range(vehicles)]
        self.floor = self.folder / "floor"
        self.judge = Judge(self.floor, self.names, self.paths, self.frame)
        self.python = sys.executable
        self.processes: dict[str, "subprocess.Popen[bytes]"] = {}
        # When who was killed starts again, and whose connections are broken for a while.
        self.starts_at: dict[str, float] = {}
        self.away: set[str] = set()
        self._make_files()

    def _make_files(self) -> None:
        """Each tape is a new one once, and nobody starts before."""
        self.tapes.mkdir()
        lines = [f"{agent} {MANUFACTURER} {name}\n" for agent, name in enumerate(self.names)]
        (self.folder / "vehicles").write_text("".join(lines), encoding="ascii")
        for agent in range(len(self.names)):
            words = [self.given.program, "agent", *self.files, str(agent), self._tape(agent), "--tape", "new"]
            if subprocess.run(words, stdin=subprocess.DEVNULL, stdout=subprocess.DEVNULL, check=False).returncode:
                raise Failed(f"the tape of agent {agent} isn't made")

    def _tape(self, agent: int) -> str:
        return str(self.tapes / f"{agent}.tape")

    # Processes

    def _words(self, name: str) -> list[str]:
        if name.startswith(TO):
            return ["proxy.py", self._way(name[len(TO) :]), self.place.broker]
        if name == RECORDER:
            return ["recorder.py", self.place.broker, str(self.folder / "messages")]
        return self._master_words() if name == MASTER else self._vehicle_words(name)

    def _master_words(self) -> list[str]:
        words = ["master.py", *self.files, str(self.folder / "vehicles"), str(self.tapes), "--broker", self._way(MASTER)]
        words += ["--ahead", str(self.given.ahead), "--patience", "60", "--program", self.given.program]
        return words + (["--frame", self.given.frame] if self.given.frame else [])

    def _vehicle_words(self, name: str) -> list[str]:
        start = self.frame.middle(self.paths[self.names.index(name)][0])
        speed = self.given.speed * random.Random(f"{name} {self.given.seed}").uniform(SLOW, QUICK)
        words = ["vehicle.py", MANUFACTURER, name, str(self.folder / name), "--broker", self._way(name), "--floor", str(self.floor)]
        words += ["--at", str(start.x), str(start.y), "0", "--map-id", self.given.map.stem, "--speed", f"{speed:.3f}", "--every", str(self.given.every)]
        # One that is started again may have its order still.
        return words + (["--forgets"] if self.rng.random() < 0.5 else [])

    def _way(self, name: str) -> str:
        """The address by which a client reaches the broker."""
        return self.place.address(len(self.names) if name == MASTER else self.names.index(name))

    def _start(self, name: str) -> None:
        own, *words = self._words(name)
        with open(self._said(name), "ab") as said:
            how = {"stdin": subprocess.DEVNULL, "stdout": said, "stderr": said, "start_new_session": True}
            self.processes[name] = subprocess.Popen([self.python, str(beside.HERE / own), *words], **how)

    def _said(self, name: str) -> pathlib.Path:
        return self.folder / f"said by {name}"

    def _look_after(self) -> None:
        """Who was killed is started again a little later; who has ended by itself has said why."""
        now = time.monotonic()
        for name, process in self.processes.items():
            status = process.poll()
            if status is None or name in self.away:
                continue
            if status >= 0:
                raise Failed(f"{name} has ended with status {status}: {self._said(name).read_text(errors='replace')[-TOLD:].strip()}")
            if now >= self.starts_at.setdefault(name, now + self.rng.uniform(0, LONGEST_PAUSE)):
                del self.starts_at[name]
                self._start(name)

    # What harm does

    def kill(self, robot: int, what: str) -> bool:
        """Kills a vehicle, an agent, or the master with all its agents, where they are there."""
        process = self.processes[self.names[robot] if what == "robot" else MASTER]
        pid: Optional[int] = process.pid if process.poll() is None else None
        if what == "agent":
            pid = self._agent(robot) if pid else None
        if pid is None:
            return False
        with contextlib.suppress(ProcessLookupError):
            os.kill(pid, signal.SIGKILL)
        return True

    def _agent(self, robot: int) -> Optional[int]:
        """The process of an agent, among the master's children."""
        for pid in children_of(self.processes[MASTER].pid):
            with contextlib.suppress(OSError):
                if f"\0{self._tape(robot)}\0".encode() in pathlib.Path(f"/proc/{pid}/cmdline").read_bytes():
                    return pid
        return None

    def cut(self, name: str) -> None:
        """Breaks a connection, or has a process stand still."""
        if name.startswith(TO):
            self.away.add(name)
            self._signal(name, signal.SIGKILL)
        else:
            self._signal(name, signal.SIGSTOP)

    def mend(self, name: str) -> None:
        if name.startswith(TO):
            self.processes[name].wait()
            self._start(name)
            self.away.discard(name)
        else:
            self._signal(name, signal.SIGCONT)

    def _signal(self, name: str, number: int) -> None:
        if self.processes[name].poll() is None:
            os.kill(self.processes[name].pid, number)

    def stop_broker(self) -> None:
        self.broker.stop()

    def start_broker(self) -> None:
        self.broker.start()

    # The run

    def drive(self, python: str) -> dict[str, str]:
        """Until all have arrived or the time is over; answers what was counted."""
        self.python = python
        clients = [*self.names, MASTER]
        links = [f"{TO}{name}" for name in clients]
        for name in [*links, *([RECORDER] if self.given.keep else []), *clients]:
            self._start(name)
        rates = {"kills": self.given.kills, "cuts": self.given.cuts, "stops": self.given.stops}
        harm = Harm(rates, len(self.names), [*links, *clients], self.given.seed, self)
        begun = time.monotonic()
        try:
            while not self._is_over() and time.monotonic() < begun + self.given.limit:
                select.select([self.judge], [], [], LOOK)
                self.judge.look()
                self._look_after()
                harm.do_what_is_due()
        finally:
            harm.undo()
        arrived = len(self.names) if self.judge.have_arrived else 0
        counted = {"arrived": str(arrived), "seconds": f"{time.monotonic() - begun:.2f}", "moves": str(sum(self.judge.reached))}
        counted.update({word: str(harm.counts[name]) for name, word in KILLED.items()})
        return {**counted, "cuts": str(harm.counts["cuts"]), "stops": str(harm.counts["stops"]), "reports": str(self.judge.reports)}

    def _is_over(self) -> bool:
        """Whether all stand where their paths end, and the master says so too."""
        return self.judge.have_arrived and "arrived" in self._said(MASTER).read_text(errors="replace")

    def end(self) -> None:
        """Whatever happened, nothing is left that was started."""
        for process in self.processes.values():
            if process.poll() is None:
                process.terminate()
        # One that was started just when this call was asked to end isn't known.
        known = {it.pid for it in (*self.processes.values(), self.broker.process) if it}
        for pid in set(children_of(os.getpid())) - known:
            os.kill(pid, signal.SIGKILL)
        last = time.monotonic() + GRACE
        while any(it.poll() is None for it in self.processes.values()) and time.monotonic() < last:
            self.judge.drop()
            time.sleep(LOOK)
        for process in self.processes.values():
            end_or_kill(process)
        self.judge.end()

    # What came of it

    def hold(self) -> dict[str, str]:
        """All that the agents answered is what `mapf run` answers to the same events, behind which nothing is left to do."""
        events = self.folder / "run.events"
        boxes = [str(self.tapes / f"{agent}.box") for agent in range(len(self.names))]
        words = [sys.executable, str(beside.FLEET / "check_boxes.py"), *self.files, *boxes, "--events", str(events), "--program", self.given.program]
        checked = subprocess.run(words, stdin=subprocess.DEVNULL, capture_output=True, text=True, check=False)
        if checked.returncode:
            told = f"check_boxes.py has status {checked.returncode}: {(checked.stdout + checked.stderr)[-TOLD:].strip()}"
            raise (Wrong if checked.returncode == 1 else Failed)(told)
        words = [self.given.program, "run", *self.files, str(events), "--complete"]
        ended = subprocess.run(words, stdin=subprocess.DEVNULL, capture_output=True, text=True, check=False)
        last = ended.stdout.splitlines()[-1:]
        if self.judge.have_arrived and (ended.returncode or last != ["complete 0"]):
            raise Wrong(f"`mapf run` says of the events, at their end, {last}")
        events_text = events.read_text(encoding="ascii")
        return {"events": str(events_text.count("\n") - 1), "restarts": str(events_text.count("\nrestart "))}
