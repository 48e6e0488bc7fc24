"""A robot of examples/fleet where something is wrong beside it: an older tape, an odd drive, a bad plan, a full disk, a black box without room."""
import functools
import json
import os
import pathlib
import re
import signal
import socket
import subprocess
import sys
import threading
from typing import Callable, Iterator, Optional, Sequence

import lone_robots
from harness import ROOT, Harness, Outcome, compared, put_program, shown
from processes import children, processes_of, wait_until

ROBOT, CHECK = (ROOT / "examples" / "fleet" / name for name in ("robot.py", "check_boxes.py"))
MAP, PLAN = lone_robots.MAP, lone_robots.PLAN
# What agent 1 says of agent 0: it has finished its move.
DONE = bytes.fromhex("46020001000000090001" + "000000000001")
# Seconds between two messages of a neighbour.
OFTEN = 0.05


# A program whose agents can't store anything while a file is there.
FULL = """#!{python}
import os, subprocess, sys
if sys.argv[1] != "agent" or not os.path.exists({full!r}):
    os.execv({program!r}, [{program!r}, *sys.argv[1:]])
agent = subprocess.Popen([{program!r}, *sys.argv[1:]], stdin=subprocess.PIPE, stdout=subprocess.PIPE, close_fds=False)
print(agent.stdout.readline().decode(), end="", flush=True)
for line in sys.stdin.buffer:
    if line == b"start\\n":
        agent.stdin.close()
        agent.wait()
        print("refused StoreFailed", flush=True)
        sys.exit(3)
    agent.stdin.write(line)
    agent.stdin.flush()
    print(agent.stdout.readline().decode(), end="", flush=True)
"""


class Handled:
    """Robot 0 of a plan, whose drive this test is: all that it says is kept, and it is answered as the test wants."""

    def __init__(self, harness: Harness, port: int, *more: str, program: str = ""):
        self.folder, self.port = harness.folder(), port
        self.path = str(self.folder / "drive")
        self.socket = socket.socket(socket.AF_UNIX, socket.SOCK_DGRAM)
        self.socket.bind(self.path)
        self.plan = self.folder / "run.plan"
        self.plan.write_bytes(PLAN.read_bytes())
        harness.mapf(["agent", str(MAP), str(self.plan), "0", "tape", "--tape", "new"], folder=self.folder)
        words = [sys.executable, str(ROBOT), str(MAP), str(self.plan), "0", "tape", "--drive", self.path, "--program", program or str(harness.program)]
        self.words = [*words, "--listen", f"127.0.0.1:{port}", "--peers", "", *more]
        self.heard: list[str] = []
        self.cell = "1 0"
        # What the drive answers to a line, where it isn't what a drive has to.
        self.odd: Callable[[str], Optional[bytes]] = lambda _: None
        self.process: Optional["subprocess.Popen[bytes]"] = None
        threading.Thread(target=self._attend, daemon=True).start()

    def start(self) -> None:
        with open(self.folder / "told", "ab") as err:
            self.process = subprocess.Popen(self.words, cwd=self.folder, stdin=subprocess.DEVNULL, stderr=err, start_new_session=True)

    def _attend(self) -> None:
        while True:
            try:
                line = self.socket.recv(1 << 18).decode("ascii").partition(" ")[2]
            except OSError:
                return
            self.heard.append(line)
            answer = self.odd(line)
            if answer is None and line.startswith(("where", "go ")):
                self.cell = line[3:] if line.startswith("go ") else self.cell
                answer = f"stands {self.cell}".encode()
            if answer is not None:
                self.say(answer)

    def say(self, answer: bytes) -> None:
        try:
            self.socket.sendto(answer, f"{self.path}.0")
        except OSError:
            # The robot has ended.
            pass

    def has_heard(self, beginning: str) -> bool:
        return any(line.startswith(beginning) for line in self.heard)

    def told(self) -> list[str]:
        """The lines on the robot's standard error."""
        return (self.folder / "told").read_text(encoding="utf-8", errors="replace").splitlines()

    def ends(self) -> Optional[int]:
        """The status with which it ends by itself; none where it doesn't."""
        wait_until(lambda: self.process.poll() is not None)
        return self.process.poll()

    def end(self) -> None:
        if self.process and self.process.poll() is None:
            self.process.send_signal(signal.SIGTERM)
            self.process.wait(60)
        self.socket.close()


class Neighbour:
    """Says something on the robot's port, again and again."""

    def __init__(self, port: int, message: bytes):
        self.port, self.message, self.is_over = port, message, threading.Event()
        self.thread = threading.Thread(target=self._speak)

    def __enter__(self) -> "Neighbour":
        self.thread.start()
        return self

    def __exit__(self, *_: object) -> None:
        self.is_over.set()
        self.thread.join()

    def _speak(self) -> None:
        with socket.socket(socket.AF_INET, socket.SOCK_DGRAM) as mouth:
            while not self.is_over.wait(OFTEN):
                try:
                    mouth.sendto(self.message, ("127.0.0.1", self.port))
                except OSError:
                    # The robot isn't there yet, or has ended.
                    pass


def of_an_older_tape(harness: Harness, ports: Callable[[], int]) -> list[Outcome]:
    """A robot whose neighbours know more of it than its tape never moves, however often it is started, and ends for good."""
    # So it listens for 20 seconds, or until it hears of it.
    robot = Handled(harness, ports(), "--every", "2")
    found = []
    with Neighbour(robot.port, DONE):
        for _ in range(2):
            robot.start()
            found.append(robot.ends())
    robot.end()
    last = "robot 0: its tape is an older one (refused StaleTape 1 1)"
    stays = lone_robots.unit()["RestartPreventExitStatus"].split()
    wrote = (found, {str(it) in stays for it in found}, [robot.has_heard(it) for it in ("start", "go ")], robot.told())
    ran = f"{shown(robot.words)}, which told {robot.told()}"
    return [compared("a robot with an older tape", ran, wrote, ([1, 1], {True}, [False, False], [last] * 2))]


# What a drive must not say, and what is told of it.
ODD = (
    *(b"unknown", b"hello", b"", b"stands 1", b"stands a b", b"stands 1 0 7", b"goes 1 0"),
    *(b"slipped 1 0 x 0", b"stands 1 123456", b"stands -1 0", b"\xff\xfe"),
)


def of_an_odd_drive(harness: Harness, ports: Callable[[], int]) -> list[Outcome]:
    """What isn't understood is no answer: the drive is asked again, and nothing moves until it says where it is."""
    robot = Handled(harness, ports(), "--wait", "0")
    wheres, moves = iter(ODD), iter((b"stands 2", b"stands 2 0 0"))
    robot.odd = lambda line: next(wheres, None) if line.startswith("where") else next(moves, None) if line.startswith("go ") else None
    robot.start()
    goes = wait_until(lambda: robot.has_heard("finish"))
    asked = [line.split()[0] for line in robot.heard if line.startswith(("where", "start", "finish"))]
    robot.end()
    told = [f"robot 0: the drive at {robot.path} says {it!r}, which isn't understood" for it in (*ODD, b"stands 2", b"stands 2 0 0")]
    wrote = (goes, asked[: len(ODD) + 3], robot.told())
    due = (True, [*["where"] * (len(ODD) + 1), "start", "finish"], told)
    return [compared("a drive that says odd things", shown(robot.words), wrote, due)]


# Plans that don't go on from the one that is driven: one that was cut off, one with another number, and ones of other ways.
BAD_PLANS = (
    PLAN.read_bytes()[:-9],
    PLAN.read_bytes().replace(b"number 9", b"number 10"),
    PLAN.read_bytes().replace(b"agent 1 0 e-", b"agent 1 0 -e"),
    b"",
)


def check(harness: Harness, folder: pathlib.Path, *words: str) -> str:
    """What check_boxes.py says."""
    ended = harness.run([sys.executable, str(CHECK), str(MAP), *words, "--program", str(harness.program)], folder=folder)
    return (ended.out + ended.err).decode()


def renamed(target: pathlib.Path, text: bytes) -> None:
    """Puts another file in the place of one."""
    new = target.with_name("new")
    new.write_bytes(text)
    new.rename(target)


def of_bad_plans(harness: Harness, ports: Callable[[], int]) -> list[Outcome]:
    """A bad plan that comes in the place of the one that is driven is told of, and stops nobody; a good one behind it is taken."""
    robot = Handled(harness, ports(), "--wait", "0", "--box", "box")
    robot.start()
    wait_until(lambda: robot.has_heard("finish arrived"))
    for count, text in enumerate(BAD_PLANS, 1):
        renamed(robot.plan, text)
        wait_until(lambda: len(robot.told()) >= count)
    renamed(robot.plan, lone_robots.ONWARD.read_bytes())
    # By the longer plan it has more to do, and by the one before it has come to its end.
    goes_on = wait_until(lambda: robot.has_heard("start refused Waits 1 2"))
    status = robot.process.poll()
    robot.end()
    begin = f"robot 0: {robot.plan} isn't taken, and the plan before it goes on: mapf: "
    wrote = (goes_on, status, [line[: len(begin)] for line in robot.told()])
    ran = f"{shown(robot.words)}, which told {robot.told()}"
    checked = check(harness, robot.folder, "run.plan", "box", "--earlier", str(PLAN))
    outcomes = [compared("bad plans in the place of one", ran, wrote, (True, None, [begin] * len(BAD_PLANS)))]
    return [*outcomes, compared("a box with bad plans", "check_boxes.py", checked[:8], "agreed: ")]


# A robot whose disk is full rests behind each try at least so many seconds.
RESTS = (0.1, 0.2, 0.4, 0.8, 1.6)


def of_a_full_disk(harness: Harness, ports: Callable[[], int]) -> list[Outcome]:
    """A record that can't be stored is told of once, and tried again behind longer and longer rests, until it is stored."""
    full = pathlib.Path(harness.folder()) / "full"
    full.touch()
    program = full.with_name("mapf")
    put_program(program, FULL.format(python=sys.executable, program=str(harness.program), full=str(full)))
    robot = Handled(harness, ports(), "--wait", "0", "--box", "box", program=str(program))
    robot.start()

    def tries(word: str) -> list[float]:
        lines = (robot.folder / "box").read_text(encoding="ascii").splitlines() if (robot.folder / "box").exists() else []
        return [line["clock"] for line in map(json.loads, lines) if word in line]

    wait_until(lambda: len(tries("started")) > len(RESTS))
    rests = [start - end >= least for end, start, least in zip(tries("ended"), tries("started")[1:], RESTS)]
    full.unlink()
    goes_on = wait_until(lambda: robot.has_heard("finish arrived"))
    robot.end()
    due = ["robot 0: its tape can't be stored (refused StoreFailed); it stands, and tries again"]
    wrote = (rests, goes_on, robot.told())
    return [compared("a robot on a full disk", f"{shown(robot.words)}, which told {robot.told()}", wrote, ([True] * len(RESTS), True, due))]


def of_a_killed_robot(harness: Harness, ports: Callable[[], int]) -> list[Outcome]:
    """Nothing is wrong with a disk where an agent answers a robot that was killed."""
    robot = Handled(harness, ports(), "--box", "box", "--wait", "1000")
    robot.start()
    wait_until(lambda: robot.has_heard("say "))
    agent = children(robot.process.pid)[0]
    os.kill(agent, signal.SIGSTOP)
    box = robot.folder / "box"
    asked = wait_until(lambda: b'"asked"' in box.read_bytes().splitlines()[-1])
    # It has asked, and waits for the answer.
    wait_until(lambda: "pipe" in pathlib.Path(f"/proc/{robot.process.pid}/wchan").read_text(encoding="ascii"), 1)
    robot.process.kill()
    robot.process.wait()
    os.kill(agent, signal.SIGCONT)
    is_over = wait_until(lambda: not processes_of(robot.folder))
    robot.end()
    return [compared("a robot that was killed", shown(robot.words), (asked, is_over, robot.told()), (True, True, []))]


def of_no_room_for_a_box(harness: Harness, ports: Callable[[], int]) -> list[Outcome]:
    """A robot whose black box can't be written says so, and drives."""
    outcomes = []
    for box, why in (("no/box", "No such file or directory"), ("/dev/full", "No space left on device")):
        robot = Handled(harness, ports(), "--wait", "0", "--box", box)
        robot.start()
        goes_on = wait_until(lambda: robot.has_heard("finish arrived"))
        status = robot.process.poll()
        robot.end()
        due = [f"robot 0: {box} can't be written, and lacks what happens meanwhile: {why}"]
        outcomes.append(compared(f"the box {box}", shown(robot.words), (goes_on, status, robot.told()), (True, None, due)))
    return outcomes


def of_a_gap(harness: Harness, ports: Callable[[], int]) -> list[Outcome]:
    """A box that lacks lines says so itself, and nobody takes it for a whole one."""
    robot = Handled(harness, ports(), "--wait", "0", "--box", "boxes/box")
    robot.start()
    wait_until(lambda: robot.has_heard("finish arrived"))
    (robot.folder / "boxes").mkdir()
    box = robot.folder / "boxes" / "box"
    wait_until(lambda: box.exists() and box.read_bytes().count(b"\n") > 2)
    robot.end()
    checked = check(harness, robot.folder, "run.plan", "boxes/box")
    due = re.fullmatch(r"check_boxes: boxes/box: line 1 says that \d+ lines before it couldn't be written\n", checked)
    return [compared("a box with a gap", f"check_boxes.py, which told {checked!r}", bool(due), True)]


def of_many_boxes(harness: Harness, ports: Callable[[], int]) -> list[Outcome]:
    """A box that gets too long goes on in another file, also behind a kill; all are read as one, in order, and none may be missing."""
    robot = Handled(harness, ports(), "--wait", "0", "--every", "0.01", "--box", "box", "--box-size", "2000")
    for count in (3, 12):
        robot.start()
        wait_until(lambda: (robot.folder / f"box.{count}").exists())
        robot.process.kill()
        robot.process.wait()
        wait_until(lambda: not processes_of(robot.folder))
    robot.end()
    files = sorted(robot.folder.glob("box.*"), key=lambda it: int(it.suffix[1:]))
    sizes = {it.stat().st_size <= 2000 for it in [*files, robot.folder / "box"]}
    whole = robot.folder / "whole"
    lines = b"".join(it.read_bytes() for it in [*files, robot.folder / "box"]).splitlines(keepends=True)
    whole.write_bytes(b"".join(line for line in lines if b'"follows"' not in line))
    told = [check(harness, robot.folder, "run.plan", name) for name in ("box", "whole")]
    outcomes = [compared("a box of many files", shown(robot.words), (sizes, told[0][:8], told[0]), ({True}, "agreed: ", told[1]))]
    changed = files[6].read_text(encoding="ascii").replace("said 4601", "said 4602", 1)
    files[6].write_text(changed, encoding="ascii")
    told.append(check(harness, robot.folder, "run.plan", "box"))
    place = changed[: changed.index("said 4602")].count("\n") + 1
    outcomes.append(compared("a line of one of them", "check_boxes.py", f"line {place} of box.7\n" in told[2], True))
    files[4].unlink()
    told.append(check(harness, robot.folder, "run.plan", "box"))
    outcomes.append(compared("one that is missing", "check_boxes.py", told[3], "check_boxes: box.5: No such file or directory\n"))
    return outcomes


def tests(harness: Harness, ports: Callable[[], int]) -> Iterator[Callable[[], Sequence[Outcome]]]:
    of_boxes = (of_no_room_for_a_box, of_a_gap, of_many_boxes)
    for test in (of_an_older_tape, of_an_odd_drive, of_bad_plans, of_a_full_disk, of_a_killed_robot, *of_boxes):
        yield functools.partial(test, harness, ports)
