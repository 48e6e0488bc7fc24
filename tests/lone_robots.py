"""One robot of examples/fleet by itself: in a copy of its folder, as a service with a drive of its own, and what it says of others on its network."""
import contextlib
import functools
import hashlib
import json
import os
import pathlib
import re
import select
import shlex
import shutil
import signal
import socket
import subprocess
import sys
import tempfile
import time
from typing import Callable, Iterator, Optional, Sequence

import boxes
import watching
from harness import ROOT, Ended, Harness, Outcome, compared, ended_as, put_program, shown
from processes import children, processes_of, wait_until

FLEET = ROOT / "examples" / "fleet"
SYSTEMD = FLEET / "systemd"
UNIT, SETTINGS = SYSTEMD / "mapf-robot@.service", SYSTEMD / "robot.conf"
DRIVE_UNIT = SYSTEMD / "mapf-drive.service"
MAP, PLAN = ROOT / "examples" / "plain.map", ROOT / "examples" / "behind.plan"
# Where each robot of the plan starts, and what its tape says when it has arrived.
STARTS, ENDS = ("1 0", "0 0"), (b"at 2 0 done 1\n", b"at 1 0 done 1\n")
# A plan that goes on from that one.
ONWARD = ROOT / "examples" / "onward.plan"
# A right message of a plan with another number.
OTHERS = bytes.fromhex("460100010000000500000001")
# Seconds in which a robot that lives says so more than once.
WHILE = 3


class Copied:
    """A folder with nothing but a copy of examples/fleet, and what runs there until it is ended."""

    def __init__(self, harness: Harness):
        self.folder = harness.folder()
        self.fleet = self.folder / "fleet"
        shutil.copytree(FLEET, self.fleet, ignore=shutil.ignore_patterns("__pycache__"))
        (self.folder / "bin").mkdir()
        os.symlink(harness.program, self.folder / "bin" / "mapf")
        self.program = str(harness.program)
        self.environment = {**os.environ, "PATH": f"{self.folder / 'bin'}:{os.environ['PATH']}", "PYTHONPATH": ""}
        self.running: list["subprocess.Popen[bytes]"] = []

    def start(self, words: Sequence[str]) -> None:
        with open(self.folder / "said", "ab") as said:
            self.running.append(subprocess.Popen(words, cwd=self.folder, env=self.environment, stdin=subprocess.DEVNULL, stdout=said, stderr=said))

    def make_tape(self, robot: int) -> pathlib.Path:
        tape = self.folder / f"{robot}.tape"
        words = [self.program, "agent", str(MAP), str(PLAN), str(robot), str(tape), "--tape", "new"]
        subprocess.run(words, stdin=subprocess.DEVNULL, stdout=subprocess.DEVNULL, check=True)
        return tape

    def make_with_keys(self, *words: str) -> None:
        """What robots need that sign."""
        subprocess.run([sys.executable, str(self.fleet / "keys.py"), *words], cwd=self.folder, check=True)

    def state_of(self, robot: int) -> bytes:
        """What the robot's tape says."""
        words = [self.program, "tape", str(MAP), str(PLAN), str(robot), f"{robot}.tape"]
        return subprocess.run(words, cwd=self.folder, stdout=subprocess.PIPE, check=False).stdout.partition(b"records")[0]

    def end(self) -> str:
        for process in self.running:
            process.kill()
            process.wait()
        return (self.folder / "said").read_text(encoding="utf-8", errors="replace")


def unit(file: pathlib.Path = UNIT) -> dict[str, str]:
    """The lines of a unit, each by its name."""
    pairs = [line.partition("=") for line in file.read_text(encoding="ascii").splitlines() if line[:1].isalpha()]
    return {name: value for name, _, value in pairs}


def words_of_unit(settings: dict[str, str], robot: int, fleet: pathlib.Path) -> list[str]:
    """What the unit starts, with these settings in place of its own: those of an unbraced name become words."""
    own = dict(line.split("=", 1) for line in SETTINGS.read_text(encoding="ascii").splitlines() if line[:1].isalpha())
    if sorted(own) != sorted(settings):
        raise ValueError(f"{SETTINGS.name} has {sorted(own)}, and {sorted(settings)} were due")
    words = []
    for word in unit()["ExecStart"].split():
        name = word.strip("${}")
        words += shlex.split(settings[name]) if re.fullmatch(r"\$\w+", word) else [settings.get(name, word)] if word[0] == "$" else [word]
    words = [str(robot) if word == "%i" else word.replace("/opt/mapf/fleet", str(fleet)) for word in words]
    return [sys.executable, *words[1:]]


def of_services(harness: Harness, ports: Callable[[], int]) -> list[Outcome]:
    """Two robots of a copied folder, which sign, with the drive of ten lines: one as the unit starts it, the other with the program on the path."""
    copied, port = Copied(harness), ports()
    copied.make_with_keys("make", "fleet.keys", "2")
    for robot, start in enumerate(STARTS):
        drive, other = copied.folder / f"drive{robot}", f"127.0.0.1:{port + 1 - robot}"
        copied.start([sys.executable, str(copied.fleet / "own_drive.py"), str(drive), *start.split()])
        tape, link = str(copied.make_tape(robot)), f"--listen 127.0.0.1:{port + robot} --peers {other} --box {robot}.box --keys fleet.keys"
        copied.make_with_keys("count", tape)
        wait_until(drive.exists)
        settings = {"MAP": str(MAP), "PLAN": str(PLAN), "TAPE": tape, "DRIVE": str(drive), "PROGRAM": copied.program, "LINK": link}
        words = words_of_unit(settings, robot, copied.fleet)
        if robot == 1:
            at = words.index("--program")
            del words[at : at + 2]
        copied.start(words)
    wait_until(lambda: [copied.state_of(robot) for robot in (0, 1)] == list(ENDS))
    states = [copied.state_of(robot) for robot in (0, 1)]
    said = copied.end()
    name = "robots of a copied folder, with drives of their own"
    shutil.copy(PLAN, copied.folder)
    outcome = compared(name, f"{shown(words)}, which told {said[-800:]!r}", states, list(ENDS))
    return [outcome, boxes.held(harness, name, str(MAP), copied.folder)]


def of_the_unit(harness: Harness) -> list[Outcome]:
    """What a unit for robots must have, and must not."""
    lines = unit()
    due = {"StartLimitIntervalSec": "0", "Restart": "always", "RestartPreventExitStatus": "1 2", "LimitFSIZE": "infinity", "UMask": "0007"}
    # The folder of the tape, which may be a disk of its own.
    due["RequiresMountsFor"] = f"/var/lib/{lines['StateDirectory']}"
    found = {name: lines.get(name) for name in due}
    outcomes = [compared("the unit's lines", UNIT.name, (found, "ExecStartPre" in lines, int(lines["WatchdogSec"]) > 30), (due, False, True))]
    for file, name in ((UNIT, "mapf-robot@1.service"), (DRIVE_UNIT, DRIVE_UNIT.name)):
        if shutil.which("systemd-analyze"):
            folder = harness.folder({file.name: file.read_bytes().replace(b"/usr/bin/python3", sys.executable.encode())})
            ended = harness.run(["systemd-analyze", "verify", "--man=no", name], folder=folder, more={"SYSTEMD_UNIT_PATH": f"{folder}:"})
            told = [line for line in ended.err.decode().splitlines() if file.stem[:9] in line]
            outcomes.append(compared(f"{file.name}, as systemd reads it", "systemd-analyze verify", told, []))
    return outcomes


# Users that are nobody else's: of the robot, of the drive, and the group that they share.
ROBOT_USER, DRIVE_USER, SHARED = 64_101, 64_102, 64_103
PYTHON = "/usr/bin/python3"


@contextlib.contextmanager
def users_room(harness: Harness) -> Iterator[Optional[pathlib.Path]]:
    """A folder in which other users find the robot and the program, where this machine has such users."""
    with tempfile.TemporaryDirectory(prefix="mapf-users-") as name:
        folder = pathlib.Path(name)
        folder.chmod(0o755)
        shutil.copytree(FLEET, folder / "fleet", ignore=shutil.ignore_patterns("__pycache__"))
        for file in (harness.program, MAP, PLAN):
            shutil.copy(file, folder / file.name)
        try:
            is_new = [PYTHON, "-c", "import sys; sys.exit(sys.version_info < (3, 9))"]
            subprocess.run(is_new, user=ROBOT_USER, group=SHARED, extra_groups=[], check=True)
        except (OSError, subprocess.SubprocessError):
            folder = None
        yield folder


def of_two_users(harness: Harness, ports: Callable[[], int]) -> list[Outcome]:
    """A drive that runs as another user reaches the robot by the group and the mask of the two units; without the group the socket is named."""
    with users_room(harness) as folder:
        if not folder:
            return [Outcome("a drive of another user", lacks="other user to run as")]
        run, tapes, socket_path = folder / "run", folder / "tapes", str(folder / "run" / "socket")
        run.mkdir()
        tapes.mkdir()
        os.chown(run, DRIVE_USER, SHARED)
        run.chmod(int(unit(DRIVE_UNIT)["RuntimeDirectoryMode"], 8))
        os.chown(tapes, ROBOT_USER, SHARED)
        as_robot = {"user": ROBOT_USER, "extra_groups": [], "umask": int(unit()["UMask"], 8), "cwd": tapes}
        program, files = str(folder / "mapf"), [str(folder / MAP.name), str(folder / PLAN.name), "0", "tape"]
        nowhere = {"stdin": subprocess.DEVNULL, "stdout": subprocess.DEVNULL}
        subprocess.run([program, "agent", *files, "--tape", "new"], check=True, group=SHARED, **nowhere, **as_robot)
        words = [PYTHON, str(folder / "fleet" / "robot.py"), *files, "--drive", socket_path, "--wait", "0", "--program", program]
        words += ["--listen", f"127.0.0.1:{ports()}", "--peers", ""]
        drive_words = [PYTHON, str(folder / "fleet" / "own_drive.py"), socket_path, *STARTS[0].split()]
        as_drive = {"user": DRIVE_USER, "group": SHARED, "extra_groups": [], "umask": int(unit(DRIVE_UNIT)["UMask"], 8)}
        with subprocess.Popen(drive_words, cwd=folder, **as_drive) as drive, contextlib.ExitStack() as ends:
            ends.callback(drive.kill)
            wait_until(lambda: os.path.exists(socket_path))
            alone = subprocess.run(words, stdin=subprocess.DEVNULL, stderr=subprocess.PIPE, group=ROBOT_USER, check=False, timeout=60, **as_robot)
            with subprocess.Popen(words, stdin=subprocess.DEVNULL, stderr=subprocess.PIPE, group=SHARED, **as_robot) as robot:
                tape = [program, "tape", *files]
                has_come = wait_until(lambda: subprocess.run(tape, cwd=tapes, stdout=subprocess.PIPE, check=False).stdout.startswith(ENDS[0]))
                robot.terminate()
                told = robot.communicate()[1]
    wrote = (has_come, told, alone.returncode, alone.stderr.decode())
    due = (True, b"", 3, f"robot 0: {socket_path}.0: Permission denied\n")
    return [compared("a drive of another user", shown(words), wrote, due)]


class Alone:
    """A robot of the test's own, with a watcher that nobody but it tells anything."""

    def __init__(self, harness: Harness, port: int, more: dict[str, str]):
        self.watched = watching.Watched(harness)
        self.watched.socket.close()
        os.unlink(f"{self.watched.path}.0")
        harness.mapf(["agent", str(MAP), str(PLAN), "0", "tape", "--tape", "new"], folder=self.watched.folder)
        words = [sys.executable, str(FLEET / "robot.py"), str(MAP), str(PLAN), "0", "tape", "--drive", "watcher"]
        self.words = [*words, "--program", str(harness.program), "--listen", f"127.0.0.1:{port}", "--peers", ""]
        self.process = self.start(more)
        wait_until(lambda: children(self.process.pid))

    def start(self, more: dict[str, str]) -> "subprocess.Popen[bytes]":
        with open(self.watched.folder / "said", "ab") as err:
            return subprocess.Popen(self.words, cwd=self.watched.folder, env={**os.environ, **more}, stdin=subprocess.DEVNULL, stderr=err)

    def said(self) -> bytes:
        return (self.watched.folder / "said").read_bytes()

    def end(self) -> None:
        self.process.terminate()
        self.process.wait()
        self.watched.end()


def signs(ears: socket.socket) -> list[bytes]:
    """The signs of life that have come."""
    found = []
    while select.select([ears], [], [], 0)[0]:
        found.append(ears.recv(100))
    return found


def of_signs_of_life(harness: Harness, ports: Callable[[], int]) -> list[Outcome]:
    """A robot says to systemd that it lives, and is silent while its agent hangs."""
    path = str(harness.folder() / "notify")
    with socket.socket(socket.AF_UNIX, socket.SOCK_DGRAM) as ears:
        ears.bind(path)
        alone = Alone(harness, ports(), {"NOTIFY_SOCKET": path})
        ears.settimeout(60)
        lives = [ears.recv(100) for _ in range(2)]
        agent = children(alone.process.pid)[0]
        os.kill(agent, signal.SIGSTOP)
        time.sleep(WHILE)
        # One may have been on its way.
        is_silent = len(signs(ears)) <= 1
        # The next robot waits for the tape, and lives.
        second = alone.start({"NOTIFY_SOCKET": path})
        waits = ears.recv(100)
        second.kill()
        second.wait()
        os.kill(agent, signal.SIGCONT)
        again = ears.recv(100)
        alone.end()
    found = (lives, is_silent, waits, again)
    return [compared("signs of life", shown(alone.words), found, ([b"WATCHDOG=1"] * 2, True, b"WATCHDOG=1", b"WATCHDOG=1"))]


def of_a_robot_elsewhere(harness: Harness, ports: Callable[[], int]) -> list[Outcome]:
    """A robot that was carried off, as its drive knows, doesn't start."""
    copied, drive = Copied(harness), "drive"
    copied.start([sys.executable, str(copied.fleet / "own_drive.py"), drive, "2", "0"])
    wait_until((copied.folder / drive).exists)
    tape, link = copied.make_tape(0).name, ["--listen", f"127.0.0.1:{ports()}", "--peers", ""]
    words = [sys.executable, str(copied.fleet / "robot.py"), str(MAP), str(PLAN), "0", tape, "--drive", drive, "--program", copied.program, *link]
    ended = harness.run(words, folder=copied.folder)
    copied.end()
    due = Ended(3, b"", b"robot 0: the drive stands 2 0, and the tape says at 1 0 done 0\n")
    return [ended_as("a robot that was carried off", shown(words), ended, due)]


def of_a_renamed_plan(harness: Harness, ports: Callable[[], int]) -> list[Outcome]:
    """The box of a robot says of each start by which plan it was."""
    copied, box = Copied(harness), "0.box"
    copied.start([sys.executable, str(copied.fleet / "own_drive.py"), "drive", *STARTS[0].split()])
    wait_until((copied.folder / "drive").exists)
    tape, link = copied.make_tape(0).name, ["--listen", f"127.0.0.1:{ports()}", "--peers", "", "--box", box]
    shutil.copy(PLAN, copied.folder / "run.plan")
    copied.start([sys.executable, str(copied.fleet / "robot.py"), str(MAP), "run.plan", "0", tape, "--drive", "drive", "--program", copied.program, *link])
    due = [hashlib.sha256(plan.read_bytes()).hexdigest() for plan in (PLAN, ONWARD)]

    def plans() -> list[str]:
        lines = (copied.folder / box).read_text(encoding="ascii").splitlines() if (copied.folder / box).exists() else []
        return [line["started"]["plan"] for line in map(json.loads, lines) if "started" in line]

    wait_until(lambda: plans() == due[:1])
    shutil.copy(ONWARD, copied.folder / "next.plan")
    (copied.folder / "next.plan").rename(copied.folder / "run.plan")
    wait_until(lambda: len(plans()) > 1)
    said = copied.end()
    return [compared("a box of two plans", f"robot.py, whose plan is renamed, which told {said[-500:]!r}", plans(), due)]


def of_one_number(harness: Harness) -> list[Outcome]:
    """A tape's records fit another plan of its number, whatever the paths are. What is beside the tape tells the two apart."""
    other = PLAN.read_bytes().replace(b"agent 1 0 e-", b"agent 1 0 w").replace(b"agent 0 0 e", b"agent 2 0 =")
    folder = harness.folder({"other.plan": other})
    harness.mapf(["agent", str(MAP), str(PLAN), "0", "tape", "--tape", "new"], b"start\n", folder)
    words = [str(MAP), "other.plan", "0", "tape"]
    ended = [harness.mapf(["tape", *words], folder=folder), harness.mapf(["agent", *words, "--tape", "kept"], folder=folder)]
    due = [Ended(0, b"between 1 0 0 0 done 0\nrecords 1 torn 0\n", b""), Ended(1, b"", b"mapf: OtherPlan\n")]
    return [compared("a tape of another plan with its number", "mapf tape, mapf agent", ended, due)]


def of_another_plan(harness: Harness, ports: Callable[[], int]) -> list[Outcome]:
    """Many messages of another plan are told of, and once."""
    port = ports()
    alone = Alone(harness, port, {})
    with socket.socket(socket.AF_INET, socket.SOCK_DGRAM) as other:
        for _ in range(12):
            other.sendto(OTHERS, ("127.0.0.1", port))
    due = b"robot 0: 10 messages were dropped: refused WrongPlan\n"
    wait_until(lambda: due in alone.said())
    alone.end()
    # The robot may end while its agent answers to the last of them, and then that has nobody to write to.
    told = b"".join(line for line in alone.said().splitlines(keepends=True) if line.startswith(b"robot 0: "))
    return [compared("messages of another plan", shown(alone.words), told, due)]


# A broker's process, and who starts it until it is killed itself.
STARTER = """
import pathlib, sys, time
sys.path.insert(0, sys.argv[1])
from broker import Broker
Broker("127.0.0.1:1", [], pathlib.Path(sys.argv[2]))
print("up", flush=True)
time.sleep(600)
"""


def of_a_lone_broker(harness: Harness) -> list[Outcome]:
    """A broker ends with who started it, also where that is killed."""
    folder = harness.folder()
    put_program(folder / "mosquitto", "#!/bin/sh\nwhile :; do sleep 1; done\n")
    environment = {**os.environ, "PATH": f"{folder}:{os.environ['PATH']}"}
    with subprocess.Popen([sys.executable, "-c", STARTER, str(FLEET), str(folder)], env=environment, stdout=subprocess.PIPE) as starter:
        up = starter.stdout.readline()
        runs = [command for _, command in processes_of(folder) if "/mosquitto -c" in command]
        starter.kill()
    is_gone = wait_until(lambda: not processes_of(folder))
    return [compared("a broker whose starter is killed", "broker.py", (up, len(runs) > 0, is_gone), (b"up\n", True, True))]


def of_one_text(_: Harness) -> list[Outcome]:
    """Two folders are copied alone, and have these texts each."""
    names = ("given.py", "leaving.py")
    texts = {name: {(ROOT / folder / name).read_bytes() for folder in ("tools", "examples/fleet")} for name in names}
    return [compared(f"a text of two folders, {name}", f"looked at both {name}", len(texts[name]), 1) for name in names]


def tests(harness: Harness, ports: Callable[[], int]) -> Iterator[Callable[[], Sequence[Outcome]]]:
    for with_ports in (of_services, of_signs_of_life, of_another_plan, of_a_robot_elsewhere, of_a_renamed_plan, of_two_users):
        yield functools.partial(with_ports, harness, ports)
    for test in (of_one_number, of_the_unit, of_a_lone_broker, of_one_text):
        yield functools.partial(test, harness)
