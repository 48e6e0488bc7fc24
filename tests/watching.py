"""The watcher of examples/fleet, spoken to as robots do: what it sees is written as a run, and what can't be is told."""
import functools
import json
import os
import socket
import subprocess
import sys
from typing import Callable, Iterator, Sequence

from harness import ROOT, Harness, Outcome, compared

WATCHER = ROOT / "examples" / "fleet" / "watcher.py"
# Agent 0 goes from 1 0 to 2 0, and agent 1 behind it from 0 0 to 1 0; the plan has the number 9.
MAP, PLAN = ROOT / "examples" / "plain.map", ROOT / "examples" / "behind.plan"
MESSAGE = "460100000000000900000001"
OPENED = ["0 opened at 1 0 done 0", "1 opened at 0 0 done 0"]
# Robot 0 drives, and has come.
HAS_COME = "stands 2 0"
GONE = ["0 start moving 2 0", "0 go 2 0", HAS_COME]
# What robots report, the events that are due behind the header, and the replies to them.
LOGS: list[tuple[str, list[str], str, str]] = [
    ("a whole run", [*OPENED, *GONE, "0 finish arrived 2 0", f"0 say said {MESSAGE}", f"1 hear {MESSAGE} heard 0 1", "1 start moving 1 0"],
     "start 0,finish 0,say 0,deliver 1 0,start 1", f"moving 2 0,arrived 2 0,said 0 {MESSAGE},heard 0 1,moving 1 0"),
    ("a restart", [*OPENED, "0 opened at 1 0 done 0"], "restart 0", "at 1 0 done 0"),
    ("a start that nobody was told of", [*OPENED, "0 opened between 1 0 2 0 done 0"], "start 0,restart 0", "moving 2 0,between 1 0 2 0 done 0"),
    ("a finish that nobody was told of", [*OPENED, *GONE, "0 opened at 2 0 done 1"],
     "start 0,finish 0,restart 0", "moving 2 0,arrived 2 0,at 2 0 done 1"),
    ("a start that was not stored", [*OPENED, "0 start refused StoreFailed", "0 opened at 1 0 done 0"],
     "tear 0 0,start 0,restart 0", "armed,refused StoreFailed,at 1 0 done 0"),
    ("a start that was stored all the same", [*OPENED, "0 start refused StoreFailed", "0 opened between 1 0 2 0 done 0"],
     "tear 0 10,start 0,restart 0", "armed,refused StoreFailed,between 1 0 2 0 done 0"),
    ("a finish that was stored all the same", [*OPENED, *GONE, "0 finish refused StoreFailed", "0 opened at 2 0 done 1"],
     "start 0,tear 0 10,finish 0,restart 0", "moving 2 0,armed,refused StoreFailed,at 2 0 done 1"),
    ("the same said twice", [*OPENED, *[f"0 say said {MESSAGE[:-1]}0"] * 2, f"1 hear {MESSAGE[:-1]}0 heard 0 0", "1 dropped refused WrongPlan"],
     "say 0,say 0,deliver 1 1", f"said 0 {MESSAGE[:-1]}0,said 1 {MESSAGE[:-1]}0,heard 0 0"),
]  # fmt: skip
# Reports that can't be, and what is told of them.
LEAVE = "without leave"
UNTRUE: list[tuple[str, list[str], str]] = [
    ("a drive without leave", [*OPENED, "0 go 2 0"], f"robot 0 sets out for the cell 2 0 {LEAVE}"),
    ("a drive whose start was refused", [*OPENED, "1 start refused Waits 0 1", "1 go 1 0"], f"robot 1 sets out for the cell 1 0 {LEAVE}"),
    ("two in one cell", [*OPENED, "1 start moving 1 0", "1 go 1 0"], "the robots 0 and 1 are both in the cell 1 0"),
    ("a finish on the way", [*OPENED, "0 start moving 2 0", "0 go 2 0", "0 finish arrived 2 0"], "robot 0 says 'arrived 2 0', and its drive goes 1 0 2 0"),
    ("a finish without a drive", [*OPENED, "0 start moving 2 0", "0 opened at 2 0 done 1"], "robot 0 says 'at 2 0 done 1', and its drive stands 1 0"),
    ("a message that nobody said", [*OPENED, f"1 hear {MESSAGE} heard 0 1"], f"robot 1 has heard {MESSAGE}, which none of the fleet has said"),
    ("a tape of another run", ["0 opened at 2 0 done 1"], "the tape of robot 0 isn't a new one: at 2 0 done 1"),
    ("a tape that went back", [*OPENED, "0 start moving 2 0", "0 opened at 1 0 done 0"], "robot 0 was at (1, 0), to (2, 0), done 0, and starts again at"),
    ("a robot that is none", ["7 opened at 1 0 done 0"], "is no report"),
    ("a report that is none", ["0 dances"], "is no report"),
    ("bytes", ["\xff"], "is no report"),
]


class Watched:
    """A watcher in a folder, and a socket of a robot."""

    def __init__(self, harness: Harness, more: Sequence[str] = ()):
        self.folder = harness.folder()
        self.path = str(self.folder / "watcher")
        words = [str(MAP), str(PLAN), self.path, "--log", "log", "--replies", "replies", "--program", str(harness.program), "--slips", "0", *more]
        pipes = {"stdin": subprocess.PIPE, "stdout": subprocess.PIPE, "stderr": subprocess.PIPE}
        self.process = subprocess.Popen([sys.executable, str(WATCHER), *words], cwd=self.folder, text=True, start_new_session=True, **pipes)
        self.process.stdout.readline()
        self.socket = socket.socket(socket.AF_UNIX, socket.SOCK_DGRAM)
        self.socket.bind(f"{self.path}.0")
        self.socket.settimeout(60)

    def tell(self, reports: Sequence[str]) -> None:
        for report in reports:
            if report == HAS_COME:
                while self.socket.recv(100).decode() != HAS_COME:
                    pass
                continue
            try:
                self.socket.sendto(report.encode("latin-1"), self.path)
            except OSError:
                # It has seen enough.
                return

    def end(self) -> tuple[int, str, str]:
        out, err = self.process.communicate(timeout=60)
        self.socket.close()
        return self.process.returncode, out, err

    def text(self, name: str) -> str:
        return (self.folder / name).read_text(encoding="ascii")


def of_log(harness: Harness, name: str, reports: Sequence[str], events: str, replies: str) -> list[Outcome]:
    watched = Watched(harness)
    watched.tell(reports)
    ended = watched.end()
    due = ["mapf-events 1\n" + events.replace(",", "\n") + "\n", replies.replace(",", "\n") + "\n"]
    wrote = [ended[0], ended[2], watched.text("log"), watched.text("replies")]
    # What is due is what the program answers, so that the table above is right.
    ran = harness.mapf(["run", str(MAP), str(PLAN), "log"], folder=watched.folder)
    return [
        compared(name, f"the watcher, told {json.dumps(reports)}", wrote, [3, "", *due]),
        compared(f"{name}, by `mapf run`", f"`mapf run` of {events}", ran.out.decode(), due[1]),
    ]


def of_untruth(harness: Harness, name: str, reports: Sequence[str], told: str) -> list[Outcome]:
    watched = Watched(harness, ["--moves", "5"])
    watched.tell(reports)
    status, _, err = watched.end()
    wrote = (status, err.startswith("watcher: ") and told in err, err.count("\n"), os.path.exists(watched.path))
    return [compared(name, f"the watcher, told {json.dumps(reports)}, which wrote {err!r}", wrote, (1, True, 1, False))]


def of_drive(harness: Harness) -> list[Outcome]:
    """What a drive says of a move: where it is, that it goes, and that it has come."""
    outcomes = []
    watched = Watched(harness, ["--moves", "0.1"])
    watched.tell([*OPENED, "0 where", "0 start moving 2 0", "0 go 2 0", "0 where"])
    said = [watched.socket.recv(100).decode() for _ in range(3)]
    outcomes.append(compared("a drive that moves", "the watcher, asked where robot 0 is", said, ["stands 1 0", "goes 1 0 2 0", "stands 2 0"]))
    watched.tell(["0 go 2 0"])
    outcomes.append(compared("a drive that is there", "the watcher, told go 2 0", watched.socket.recv(100).decode(), "stands 2 0"))
    watched.end()
    watched = Watched(harness, ["--moves", "0.01", "--slips", "1"])
    watched.tell([*OPENED, "0 start moving 2 0", "0 go 2 0"])
    said = [watched.socket.recv(100).decode()]
    watched.tell(["0 go 2 0"])
    said.append(watched.socket.recv(100).decode())
    watched.end()
    return [*outcomes, compared("a drive that slips", "the watcher, told go 2 0 twice", said, ["slipped 1 0 2 0"] * 2)]


def of_versions(harness: Harness) -> list[Outcome]:
    watched = Watched(harness, ["--tell"])
    watched.tell([*OPENED, "0 tell said 46020000000000090000"])
    watched.end()
    return [compared("messages of version 2", "the watcher with --tell", watched.text("log"), "mapf-events 2\nsay 0\n")]


def of_bad_calls(harness: Harness) -> list[Outcome]:
    outcomes = []
    folder = harness.folder()
    program = ["--program", str(harness.program)]
    for words, status in (
        ([str(MAP), str(PLAN), "socket", "--log", "log"], 2),
        ([str(MAP), "no.plan", "socket", "--log", "log", "--replies", "replies", *program], 3),
        ([str(MAP), str(PLAN), "no/socket", "--log", "log", "--replies", "replies", *program], 3),
        ([str(MAP), str(PLAN), "socket", "--log", "no/log", "--replies", "replies", *program], 3),
        ([str(MAP), str(PLAN), "s" * 120, "--log", "log", "--replies", "replies", *program], 3),
    ):
        ended = harness.run([sys.executable, str(WATCHER), *words], folder=folder)
        said = ended.err.splitlines()[-1].startswith(b"watcher")
        outcomes.append(compared(f"watcher.py {' '.join(words)[:200]}", "the watcher", (ended.status, said, b"Traceback" in ended.err), (status, True, False)))
    return outcomes


def tests(harness: Harness) -> Iterator[Callable[[], Sequence[Outcome]]]:
    for log in LOGS:
        yield functools.partial(of_log, harness, *log)
    for case in UNTRUE:
        yield functools.partial(of_untruth, harness, *case)
    for test in (of_drive, of_versions, of_bad_calls):
        yield functools.partial(test, harness)
