"""The robots of examples/fleet on a network: processes that are killed at random, over UDP and a broker of MQTT, and with strangers who send bytes."""
import contextlib
import functools
import itertools
import os
import pathlib
import random
import shutil
import signal
import socket
import subprocess
import sys
import threading
import time
from typing import Callable, Iterator, Optional, Sequence

import adversities
import boxes
import campaign
import lone_robots
import mixed_boxes
import networking
import robot_faults
import watching
from failing_agents import Chances, failing_program
from harness import LONGEST, ROOT, Ended, Harness, Outcome, compared, shown, side_by_side
from processes import children, heeding, left_in, processes_of, wait_until
from pythons import python_with

FLEET = ROOT / "examples" / "fleet"
ROBOTS, ROBOT = FLEET / "robots.py", FLEET / "robot.py"
WAREHOUSE = [str(FLEET / "warehouse.map"), str(FLEET / "warehouse.plan")]
TWO = ["--map", str(ROOT / "examples" / "plain.map"), "--plan", str(ROOT / "examples" / "behind.plan")]
# Parts that run side by side have near process numbers, and begin far from one another: a port is free while a killed robot is not started again yet.
PORTS = iter([10_000 + 20 * ((137 * os.getpid() + turn) % 500) for turn in range(500)])
NUMBERS = itertools.count(100)
# The seeds of a long test with all robots.
LONG = range(1, 7)
# So many seconds orders may take.
LONGEST_OF_ORDERS = 900
# How many bytes a stranger's datagram has at most, and the seconds between two.
JUNK, OFTEN = 40, 0.005


def free_port() -> int:
    """The first of twenty ports of which the system gives none by itself, and which another run of the tests hardly takes."""
    for port in PORTS:
        with socket.socket(socket.AF_INET, socket.SOCK_DGRAM) as one, socket.socket(socket.AF_INET, socket.SOCK_STREAM) as other:
            try:
                one.bind(("127.0.0.1", port))
                other.bind(("127.0.0.1", port))
            except OSError:
                continue
        return port
    raise ValueError("no ports are free")


class Fleet:
    """A call of robots.py, and the logs that it keeps."""

    def __init__(self, harness: Harness, words: Sequence[str], program: str = ""):
        self.harness, self.folder = harness, harness.folder()
        self.command = [sys.executable, str(ROBOTS), "--number", str(next(NUMBERS)), *words, "--keep", "kept", "--program", program or str(harness.program)]
        self.command += ["--boxes", "boxes"]

    def run(self, longest: int = LONGEST) -> Ended:
        return self.harness.run(self.command, folder=self.folder, more={"TMPDIR": str(self.folder)}, longest=longest)

    def counted(self, ended: Ended) -> list[dict[str, float]]:
        """What each run's line counts."""
        lines = [line.split() for line in ended.out.decode().splitlines() if line.startswith("run ")]
        return [{name: float(value) for name, value in zip(words[::2], words[1::2])} for words in lines]

    @property
    def map(self) -> str:
        return self.command[self.command.index("--map") + 1] if "--map" in self.command else WAREHOUSE[0]

    def boxes(self, name: str, due: tuple[int, str] = boxes.AGREES) -> list[Outcome]:
        """What is told of the boxes of each run."""
        return [boxes.held(self.harness, name, self.map, folder, due) for folder in sorted((self.folder / "boxes").glob("*"))]

    def held(self) -> list[bool]:
        """Whether `mapf run` answers each log by the replies that were seen, and finds nothing left to do."""
        found = []
        for log in sorted((self.folder / "kept").glob("*.events")):
            plan = log.with_suffix(".plan")
            ended = self.harness.mapf(["run", self.map, str(plan), str(log), "--complete"])
            found.append(ended.out == log.with_suffix(".replies").read_bytes() + b"complete 0\n")
        return found

    def text(self) -> str:
        return "".join(path.read_text(encoding="ascii") for path in sorted((self.folder / "kept").glob("*.events")))

    def judged(self, name: str, robots: int, drops: bool = False, **least: int) -> list[Outcome]:
        """All have arrived, the log is true, messages were dropped or weren't, and so much was counted at least."""
        ended = self.run()
        counted = self.counted(ended)
        wrote = (ended.status, [(run["arrived"], run["dropped"] > 0) for run in counted], self.held(), short_of(counted, least))
        ran = f"{shown(self.command)}, which told {ended.out[-1500:]!r} {ended.err[-1500:]!r}"
        outcomes = [compared(name, ran, wrote, (0, [(robots, drops)], [True], {})), *self.boxes(name)]
        return outcomes + [compared(f"{name}: what is left", ran, left_in(self.folder), [])]


def short_of(counted: Sequence[dict[str, float]], least: dict[str, int]) -> dict[str, float]:
    sums = {name: sum(run.get(part, 0) for run in counted for part in name.split("_or_")) for name in least}
    return {name: count for name, count in sums.items() if count < least[name]}


KILLS = "robot_kills_or_agent_kills_or_both_kills"


def of_udp(harness: Harness) -> Iterator[Callable[[], list[Outcome]]]:
    def run(name: str, robots: int, words: Sequence[str], **least: int) -> list[Outcome]:
        return Fleet(harness, words).judged(name, robots, **least)

    yield functools.partial(run, "two robots, killed", 2, [*TWO, "--moves", "0.3", "--kills", "8"], **{KILLS: 1})
    # The moves are so slow that many processes are killed in each run.
    three = ["--robots", "3", "--kills", "5", "--moves", "0.15"]
    yield functools.partial(of_orders, harness, 3, 12, ["--moves", "0.03", "--kills", "5"])
    cast = [*three, "--slips", "0.3", "--tell", "--link", "multicast", "--seed", "3"]
    yield functools.partial(run, "three robots that tell, multicast, killed", 3, cast, **{KILLS: 1, "restarts": 1, "slips": 1})
    if not harness.is_long:
        return
    yield functools.partial(run, "three robots, killed", 3, [*three, "--slips", "0.3"], **{KILLS: 1, "restarts": 1, "slips": 1})
    yield functools.partial(run, "three robots that tell, killed", 3, [*three, "--tell", "--seed", "2"], **{KILLS: 1, "restarts": 1})
    yield functools.partial(run, "three robots, multicast, killed", 3, [*three, "--link", "multicast", "--seed", "3"], **{KILLS: 1, "restarts": 1})
    yield functools.partial(of_orders, harness, 12, 300, ["--moves", "0.01", "--every", "0.1", "--kills", "3", "--tell"])
    for seed in LONG:
        twelve = ["--kills", "3", "--moves", "0.15", "--seed", str(seed), *(["--tell"] if seed % 2 else [])]
        yield functools.partial(run, f"twelve robots, seed {seed}, killed", 12, twelve, **{KILLS: 1, "restarts": 1})


def of_orders(harness: Harness, robots: int, orders: int, more: Sequence[str]) -> list[Outcome]:
    """Plan after plan, over a link and with kills: the log is that of the last plan."""
    words = ["--robots", str(robots), "--orders", str(orders), "--limit", str(LONGEST_OF_ORDERS), *more]
    fleet = Fleet(harness, words)
    ended = fleet.run(LONGEST_OF_ORDERS)
    counted = fleet.counted(ended)
    wrote = (ended.status, [(run["arrived"], run["orders"]) for run in counted], fleet.held(), short_of(counted, {KILLS: 1}))
    due = (0, [(robots, orders)], [True], {})
    name = f"{orders} orders, {' '.join(more)}"
    ran = f"{shown(fleet.command)}, which told {ended.out[-1500:]!r} {ended.err[-1500:]!r}"
    return [compared(name, ran, wrote, due), compared(f"{name}: what is left", ran, left_in(fleet.folder), []), *fleet.boxes(name)]


def of_numbers(harness: Harness) -> list[Outcome]:
    """Each run has a number of its own, in a call and in the next one: it is drawn, so mostly too large for a count or a clock."""
    numbers, outcomes = [], []
    for more in (["--seconds", "1.5"], []):
        fleet = Fleet(harness, [*TWO, *more])
        at = fleet.command.index("--number")
        del fleet.command[at : at + 2]
        numbers += [int(run["run"]) for run in fleet.counted(fleet.run())]
        outcomes += fleet.boxes("fresh numbers")
    ran = f"{shown(fleet.command)}, behind one with --seconds, with the numbers {numbers}"
    told = len(numbers) > 1, len(set(numbers)) == len(numbers), max(numbers) - min(numbers) > 1 << 16
    return [*outcomes, compared("fresh numbers", ran, told, (True, True, True))]


# Tapes that fail


def of_failing_tapes(harness: Harness) -> list[Outcome]:
    """A program whose agents end at times behind a record: killed, with their robots or without, before anybody is told of it; or they say that it
    wasn't stored, whether it was or not."""
    program = failing_program(harness, Chances(both=0.1, killed=0.1, lost=0.1, stored=0.1))
    fleet = Fleet(harness, ["--robots", "3"], program=str(program))
    outcomes = fleet.judged("tapes that fail", 3, restarts=2, unreported=1)
    kinds = {line.split()[2] for line in fleet.text().splitlines() if line.startswith("tear ")}
    return [*outcomes, compared("tapes that fail: what was torn", "looked at the log", kinds <= {"0", "10"} and bool(kinds), True)]


# Strangers


def junk(rng: random.Random) -> bytes:
    """Bytes that form no message of the plan: some are nearly one."""
    near = [bytes.fromhex(it) for it in ("460100000000000500000001", "460200000000000500010000", "4601000000000005000000", "46010009", "46", "")]
    return rng.choice([*near, rng.randbytes(rng.randrange(JUNK)), b"heard 0 9\nstart\n", b"\0" * 60_000])


def of_strangers(harness: Harness) -> list[Outcome]:
    """Datagrams of others come to the robots' ports all the time. The plan's number is not the 5 that those have which look like messages."""
    port, rng = free_port(), random.Random(5)
    fleet = Fleet(harness, ["--robots", "3", "--port", str(port), "--moves", "0.1", "--kills", "2"])
    is_over = threading.Event()

    def send() -> None:
        with socket.socket(socket.AF_INET, socket.SOCK_DGRAM) as stranger:
            while not is_over.wait(OFTEN):
                with contextlib.suppress(OSError):
                    stranger.sendto(junk(rng), ("127.0.0.1", port + rng.randrange(3)))

    sender = threading.Thread(target=send)
    sender.start()
    try:
        return fleet.judged("strangers on the ports", 3, drops=True, dropped=20)
    finally:
        is_over.set()
        sender.join()


# MQTT


def with_paho() -> Optional[str]:
    """A Python that has a client of MQTT."""
    return python_with("paho.mqtt.client")


def mosquitto() -> Optional[str]:
    return shutil.which("mosquitto") or shutil.which("mosquitto", path="/usr/sbin:/usr/local/sbin")


# Says words on topics of a run, kept and not, until its input ends; or tells which messages the broker keeps.
CLIENT = """
import os, sys, time
import paho.mqtt.client as mqtt
port, number, is_sender = int(sys.argv[1]), sys.argv[2], sys.argv[3] == "send"
client = mqtt.Client(*([mqtt.CallbackAPIVersion.VERSION2] if hasattr(mqtt, "CallbackAPIVersion") else []))
kept = set()
client.on_message = lambda client, data, message: message.retain and kept.add(message.topic)
client.connect("127.0.0.1", port)
client.subscribe("mapf/#")
client.loop_start()
near = [bytes.fromhex(it) for it in ("460100000000000500000001", "460200000000000500010000", "4601000000000005000000", "46", "")]
end = time.time() + (60 if is_sender else 0.5)
turn = 0
while time.time() < end and (not is_sender or os.getppid() == int(sys.argv[4])):
    turn += 1
    if is_sender:
        # A right message, but of another than the topic's.
        forged = bytes.fromhex("4601%04x%08x%08x" % ((turn % 5 + 1) % 3, int(number), 1))
        client.publish(f"mapf/{number}/said/{turn % 5}", (near + [forged, os.urandom(turn % 40), b"x" * 70000])[turn % 8], retain=turn % 2 == 0)
        if turn == 40:
            print("speaks", flush=True)
    time.sleep(0.005)
print(len(kept), flush=True)
"""


class Broker:
    """A broker of this test's own, which keeps messages from one run to the next."""

    def __init__(self, harness: Harness):
        self.port, folder = free_port(), harness.folder()
        self.address = f"127.0.0.1:{self.port}"
        (folder / "conf").write_text(f"listener {self.port} 127.0.0.1\nallow_anonymous true\nlog_dest none\n", encoding="ascii")
        self.process = subprocess.Popen([mosquitto(), "-c", str(folder / "conf")], stdin=subprocess.DEVNULL, stderr=subprocess.DEVNULL)
        for _ in range(200):
            with contextlib.suppress(OSError), socket.create_connection(("127.0.0.1", self.port), 1):
                return
            time.sleep(0.02)

    def kept(self, python: str) -> int:
        ended = subprocess.run([python, "-c", CLIENT, str(self.port), "0", "look"], stdout=subprocess.PIPE, check=False)
        return int(ended.stdout or b"-1")

    def end(self) -> None:
        self.process.kill()
        self.process.wait()


def of_one_broker(harness: Harness, python: str) -> list[Outcome]:
    """The same plan twice on one broker, the second time from the start; and a third time with the number of the first, which must not be done."""
    broker = Broker(harness)
    try:
        words = ["--link", "mqtt", "--robots", "3", "--broker", broker.address, "--moves", "0.03"]
        first = Fleet(harness, [*words, "--number", "7", "--kills", "3"]).judged("MQTT, the first run", 3)
        kept = compared("MQTT: what the broker keeps", "looked at its topics", broker.kept(python), 3)
        second = Fleet(harness, [*words, "--number", "8", "--kills", "3"]).judged("MQTT, a second run on one broker", 3)
        again = Fleet(harness, [*words, "--number", "7"])
        ended = again.run()
        told = (ended.status, b"which none of the fleet has said" in ended.err)
        stale = compared("MQTT, a number that isn't fresh", f"{shown(again.command)}, which told {ended.err!r}", told, (1, True))
        return [*first, kept, *second, stale, *again.boxes("MQTT, a number that isn't fresh", (1, "what nobody said"))]
    finally:
        broker.end()


def of_topics(harness: Harness, python: str) -> list[Outcome]:
    """Bytes that are no messages come on the topics of the run all the time, and are kept by the broker."""
    broker = Broker(harness)
    sender = subprocess.Popen([python, "-c", CLIENT, str(broker.port), "77", "send", str(os.getpid())], stdout=subprocess.PIPE)
    try:
        # A run that has ended before anybody speaks would say nothing.
        sender.stdout.readline()
        words = ["--link", "mqtt", "--robots", "3", "--broker", broker.address, "--number", "77", "--moves", "0.1", "--tell", "--kills", "2"]
        return Fleet(harness, words).judged("strangers on the topics", 3, drops=True, dropped=20)
    finally:
        sender.kill()
        sender.communicate()
        broker.end()


def of_stops(harness: Harness) -> list[Outcome]:
    """The broker is killed and started again: by this seed early enough for a run on any machine."""
    fleet = Fleet(harness, ["--link", "mqtt", "--robots", "3", "--moves", "0.2", "--stops", "1", "--kills", "1", "--seed", "13"])
    return fleet.judged("MQTT, a broker that stops", 3, stops=1)


def of_mqtt(harness: Harness) -> Iterator[Callable[[], list[Outcome]]]:
    python = with_paho()
    if not mosquitto() or not python:
        yield lambda: [Outcome("MQTT", lacks="mosquitto" if python else "python3-paho-mqtt")]
        return
    yield functools.partial(of_stops, harness)
    # A broker that is stopped too, and cables that are cut where there are some (network.sh).
    yield functools.partial(of_orders, harness, 3, 60 if harness.is_long else 12, ["--link", "mqtt", "--moves", "0.05", "--kills", "2", "--stops", "0.2"])
    yield functools.partial(of_one_broker, harness, python)
    yield functools.partial(of_topics, harness, python)
    yield functools.partial(of_a_kill, harness)


# A robot by itself


def robot_words(harness: Harness, *more: str) -> list[str]:
    return [sys.executable, str(ROBOT), *TWO[1::2], "0", "tape", "--drive", "watcher", "--program", str(harness.program), *more]


def make_tape(harness: Harness, folder: pathlib.Path) -> None:
    """Makes the tape of the robot that such words start."""
    harness.mapf(["agent", *TWO[1::2], "0", "tape", "--tape", "new"], folder=folder)


def of_one_tape(harness: Harness) -> list[Outcome]:
    """An agent that doesn't end with its robot keeps the next robot waiting, so that no two agents are on one tape."""
    watched = watching.Watched(harness)
    watched.socket.close()
    os.unlink(f"{watched.path}.0")
    make_tape(harness, watched.folder)
    words = robot_words(harness, "--listen", f"127.0.0.1:{free_port()}", "--peers", "127.0.0.1:9")
    said = watched.folder / "said"
    with open(said, "wb") as err:
        start = functools.partial(subprocess.Popen, words, cwd=watched.folder, stdin=subprocess.DEVNULL, stderr=err, start_new_session=True)
        first = start()
        if not wait_until(lambda: children(first.pid)):
            raise ValueError(f"no agent was started: {said.read_bytes()!r}")
        agent = children(first.pid)[0]
        os.kill(agent, signal.SIGSTOP)
        first.kill()
        first.wait()
        second = start()
    waits = wait_until(lambda: b"waits" in said.read_bytes())
    time.sleep(0.2)
    none = children(second.pid)
    os.kill(agent, signal.SIGKILL)
    goes_on = wait_until(lambda: children(second.pid))
    second.terminate()
    second.wait()
    watched.end()
    return [compared("one agent on a tape", shown(words), (waits, none, goes_on), (True, [], True))]


def bad_calls(harness: Harness, taken: int) -> Iterator[tuple[str, list[str], int, str]]:
    """Calls that can't be done, one of whose ports is taken: each with its status, and what is told."""
    link = ["--listen", f"127.0.0.1:{taken}", "--peers", "127.0.0.1:9"]
    free = ["--listen", f"127.0.0.1:{taken + 1}", "--peers", "127.0.0.1:9"]
    robot = functools.partial(robot_words, harness)
    robots = [sys.executable, str(ROBOTS), "--program", str(harness.program)]
    broker = ["--broker", f"127.0.0.1:{taken + 2}", "--patience", "0"]
    yield from (
        ("a port in use", robot(*link), 3, "Address already in use"),
        ("no drive", robot(*free), 3, "robot 0: no drive is at watcher"),
        ("no link", robot(), 2, "either --listen or --broker is wanted"),
        ("no peers", robot("--listen", "127.0.0.1:9"), 2, "--listen goes with either --peers or --group"),
        ("no address", robot("--listen", "127.0.0.1", "--peers", ""), 2, "is no HOST:PORT"),
        ("no size of a box", robot(*free, "--box-size", "999"), 2, "'999' is no number of bytes from 1000 on"),
        ("a size of no box", robot(*free, "--box-size", "1000"), 2, "--box-size goes with --box"),
        ("no program", [*robot(*free), "--program", "./no"], 3, "robot 0: ./no: No such file or directory"),
        ("no agent", [word if word != "0" else "2" for word in robot(*free)], 1, "robot 2: its agent doesn't start (status 1)"),
        ("a tape that is none", [word if word != "tape" else "torn" for word in robot(*free)], 1, "robot 0: its agent doesn't start (status 1)"),
        ("a tape that was lost", [word if word != "tape" else "lost" for word in robot(*free)], 1, "robot 0: its agent doesn't start (status 1)"),
        ("no client of MQTT", robot(*broker), 3, "a link by MQTT needs the Python package"),
        ("a rotation", [*robots, "--map", str(ROOT / "examples/turn.map"), "--plan", str(ROOT / "examples/turn.plan")], 1, "'blocked 0'"),
        ("no plan file", [*robots, "--plan", "no"], 3, "robots: no: No such file or directory"),
        ("more robots than agents", [*robots, "--robots", "13"], 3, "there are 12 agents, and 13 were due"),
        ("no such link", [*robots, "--link", "post"], 2, "invalid choice: 'post'"),
        ("no cables", [*robots, "--cuts", "1"], 2, "there are no cables here"),
        ("no number of a plan", [*robots, "--number", f"{0:020}4294967296"], 2, "is no number up to 4294967295"),
    )
    python = with_paho()
    if python:
        yield "no broker", [python, *robot(*broker)[1:]], 3, f"robot 0: no broker answers at {broker[1]}"
        yield "no broker for a fleet", [*robots, "--link", "mqtt", *broker[:2]], 3, f"robots: no broker answers at {broker[1]}"


def of_bad_calls(harness: Harness) -> list[Outcome]:
    """One clear line and a status, whatever is wrong."""
    outcomes = []
    folder = harness.folder({"paho.py": b"raise ImportError\n"})
    make_tape(harness, folder)
    (folder / "torn").write_bytes(b"x" * 10)
    shutil.copy(folder / "tape.plan", folder / "torn.plan")
    taken = free_port()
    with socket.socket(socket.AF_INET, socket.SOCK_DGRAM) as other:
        other.bind(("127.0.0.1", taken))
        for name, command, status, told in bad_calls(harness, taken):
            more = {"PYTHONPATH": str(folder)} if name == "no client of MQTT" else {}
            ended = harness.run(command, folder=folder, more=more)
            last = ended.err.decode().splitlines()[-1:]
            wrote = (ended.status, told in "".join(last), b"Traceback" in ended.err)
            outcomes.append(compared(name, f"{shown(command)}, which told {ended.err[-500:]!r}", wrote, (status, True, False)))
    return outcomes


def of_plans(harness: Harness) -> list[Outcome]:
    """The plans of the examples can be driven to their ends."""
    outcomes = []
    for name, robots in (("warehouse", 12), ("depot", 60)):
        files = [str(FLEET / f"{name}.map"), str(FLEET / f"{name}.plan")]
        said = [harness.mapf(["check", *files]).out, harness.mapf(["run", *files, str(ROOT / "examples" / "none.events"), "--complete"]).out]
        starts = [text.startswith(due.encode()) for text, due in zip(said, (f"accepted agents {robots} ", "complete "))]
        outcomes.append(compared(f"the plan of {name}", f"`mapf check` and `mapf run --complete` of {files}", starts, [True, True]))
    return outcomes


def started(fleet: Fleet) -> "tuple[subprocess.Popen[bytes], bool]":
    """A fleet that runs, and whether its three agents do."""
    environment = {**os.environ, "TMPDIR": str(fleet.folder)}
    pipes = {"stdin": subprocess.DEVNULL, "stdout": subprocess.DEVNULL, "stderr": subprocess.PIPE}
    process = subprocess.Popen(heeding(fleet.command), cwd=fleet.folder, env=environment, start_new_session=True, **pipes)
    return process, wait_until(lambda: len([it for it in processes_of(fleet.folder) if " agent " in it[1]]) == 3)


def of_a_signal(harness: Harness, number: int) -> list[Outcome]:
    """Whatever asks the fleet to end, nothing that it started is left."""
    fleet = Fleet(harness, ["--robots", "3", "--moves", "5"])
    process, runs = started(fleet)
    process.send_signal(number)
    _, err = process.communicate(timeout=60)
    name = f"{signal.Signals(number).name} to a fleet"
    wrote = (runs, process.returncode, b"Traceback" in err, left_in(fleet.folder))
    return [compared(name, shown(fleet.command), wrote, (True, 128 + number, False, [])), *fleet.boxes(name)]


def of_a_kill(harness: Harness) -> list[Outcome]:
    """A fleet that is killed leaves no process, and no broker."""
    fleet = Fleet(harness, ["--robots", "3", "--moves", "5", "--link", "mqtt"])
    process, runs = started(fleet)
    brokers = [command for _, command in processes_of(fleet.folder) if "mosquitto -c" in command]
    process.kill()
    is_over = wait_until(lambda: not processes_of(fleet.folder))
    process.communicate(timeout=60)
    ran = f"{shown(fleet.command)}, of which {processes_of(fleet.folder)} are left"
    return [compared("a fleet that is killed", ran, (runs, len(brokers) > 0, is_over), (True, True, True))]


def outcomes(harness: Harness) -> Iterator[Outcome]:
    alone = [functools.partial(test, harness) for test in (of_plans, of_numbers, of_failing_tapes, of_strangers, of_one_tape, of_bad_calls)]
    numbers = (signal.SIGTERM, signal.SIGINT, signal.SIGHUP) if harness.is_long else (signal.SIGTERM,)
    signals = [functools.partial(of_a_signal, harness, number) for number in numbers]
    lone = lone_robots.tests(harness, free_port)
    boxed = [*boxes.tests(harness), *mixed_boxes.tests(harness)]
    others = [*lone, *robot_faults.tests(harness, free_port), *networking.tests(harness), *watching.tests(harness), *boxed]
    tests = [*of_udp(harness), *of_mqtt(harness), *alone, *signals, *others]
    # Robots wait most of their time, so twice as many of these tests as of others run at once.
    yield from side_by_side(functools.partial(collected, tests[place::2]) for place in (0, 1))
    yield from adversities.outcomes(harness)
    if harness.is_long:
        yield from campaign.outcomes(harness)


def collected(tests: Sequence[Callable[[], Sequence[Outcome]]]) -> list[Outcome]:
    return list(side_by_side(tests))
