"""Master controls of examples/vda5050 with few vehicles on a row of cells: an operator's commands, several masters, and vehicles that may not drive."""
import functools
import json
import os
import signal
import subprocess
import sys
from typing import Any, Callable, Iterator, Sequence

import vehicle_messages
from harness import ROOT, Harness, Outcome, compared, put_program
from processes import wait_until
from robot_faults import FULL, RESTS
from robots import Broker

VDA = ROOT / "examples" / "vda5050"
CHECK = ROOT / "examples" / "fleet" / "check_boxes.py"
ROW = b"type octile\nheight 1\nwidth 9\nmap\n.........\n"
PLAN = b"mapf-plan 1\nnumber 5050\nagents 2\nagent 3 0 eeeee\nagent 0 0 eeeeeee\n"
# Where the vehicles stand at first, in metres.
STARTS = ("3.5 0.5", "0.5 0.5")
# Nothing is sent in so many seconds, where nothing is to be sent.
WHILE = 1.5
# What a broker may have kept, by the agent that it seems to come from: of a run before, of another protocol, damaged, and of a stranger. The
# first one would let the vehicle that waits go further.
KEPT = {"0": "46010000000013b900000005", "6": "47010006000013ba00000005", "7": "46010007000013ba0000", "9": "46010009000013ba00000005"}
REFUSED = ("WrongPlan", "BadMagic", "BadLength", "NoSuchAgent")
# A client that has the broker at a port keep messages of the run.
KEEP = """
import json, sys
import paho.mqtt.client as mqtt
client = mqtt.Client(*([mqtt.CallbackAPIVersion.VERSION2] if hasattr(mqtt, "CallbackAPIVersion") else []))
client.connect("127.0.0.1", int(sys.argv[1]))
client.loop_start()
for agent, message in json.loads(sys.argv[2]).items():
    client.publish(f"mapf/5050/said/{agent}", bytes.fromhex(message), qos=1, retain=True).wait_for_publish()
client.disconnect()
"""


class Stage:
    """A broker, a recorder, and the vehicles and masters that a test starts."""

    def __init__(self, harness: Harness, python: str, program: str):
        self.harness, self.python, self.program = harness, python, program
        self.broker = Broker(harness)
        fleet = b"0 maker v0\n1 maker v1\n"
        self.folder = harness.folder({"row.map": ROW, "run.plan": PLAN, "fleet": fleet, "first": fleet[:11], "second": fleet[11:]})
        self.running: dict[str, "subprocess.Popen[bytes]"] = {}
        for agent in "01":
            harness.mapf(["agent", "row.map", "run.plan", agent, f"{agent}.tape", "--tape", "new"], folder=self.folder)
        self.start("recorder", "recorder.py", self.broker.address, "messages")
        wait_until((self.folder / "messages").exists)

    def start(self, name: str, program: str, *words: str) -> None:
        with open(self.folder / f"said by {name}", "ab") as said:
            how: dict[str, Any] = {"stdin": subprocess.PIPE, "stdout": said, "stderr": said, "env": {**os.environ, "PYTHONDONTWRITEBYTECODE": "1"}}
            self.running[name] = subprocess.Popen([self.python, str(VDA / program), *words], cwd=self.folder, **how)

    def vehicle(self, agent: int, *more: str, at: str = "") -> None:
        where = ["--map-id", "row", "--at", *(at or STARTS[agent]).split(), "0"]
        words = ["--broker", self.broker.address, *where, "--every", "0.3", "--speed", "2", *more]
        self.start(f"v{agent}", "vehicle.py", "maker", f"v{agent}", f"v{agent}", *words)

    def master(self, fleet: str = "fleet", *more: str) -> None:
        words = ["row.map", "run.plan", fleet, ".", "--broker", self.broker.address, "--program", self.program, *more]
        self.start(fleet, "master.py", *words)

    def command(self, line: str, fleet: str = "fleet") -> bool:
        """Gives the master a line, and waits for its answer."""
        before = len(self.said(fleet))
        stdin = self.running[fleet].stdin
        stdin.write(f"{line}\n".encode())
        stdin.flush()
        return wait_until(lambda: self.said(fleet)[before:].partition(" ")[0] in ("done", "unknown;", "vehicle"))

    def said(self, name: str) -> str:
        return (self.folder / f"said by {name}").read_text(encoding="utf-8", errors="replace")

    def records(self) -> list[vehicle_messages.Record]:
        return vehicle_messages.records_of(self.folder / "messages")

    def orders(self, agent: int) -> list[dict[str, Any]]:
        return [it.message for it in self.records() if it.kind == "order" and it.vehicle == f"v{agent}"]

    def states(self) -> list[dict[str, Any]]:
        """The last state of each vehicle."""
        last = {it.vehicle: it.message for it in self.records() if it.kind == "state"}
        return [last[name] for name in sorted(last)]

    def have_arrived(self, *fleets: str) -> bool:
        return wait_until(lambda: all("arrived" in self.said(fleet) for fleet in fleets), 30)

    def end(self) -> None:
        for process in self.running.values():
            process.terminate()
        for process in self.running.values():
            process.communicate()
        self.broker.end()

    def judged(self, name: str, *earlier: str) -> list[Outcome]:
        """Messages and boxes of all that was done on this stage, by the plan that was driven last, and perhaps by others before."""
        text = self.harness.mapf(["path", "row.map", "run.plan"], folder=self.folder).out.decode()
        paths = vehicle_messages.paths_of(text)
        wrong = vehicle_messages.against_rules(self.records(), paths, vehicle_messages.middle_of(1), self.folder)
        ran = f"{name}, of which the masters said {self.said('fleet')[-500:] if 'fleet' in self.running else ''!r}"
        boxes = [f"{agent}.box" for agent in "01" if (self.folder / f"{agent}.box").exists()]
        words = [sys.executable, str(CHECK), "row.map", "run.plan", *boxes, "--program", self.program, *(["--earlier", *earlier] if earlier else [])]
        ended = self.harness.run(words, folder=self.folder)
        return [compared(f"{name}: its orders", ran, wrong[:3], []), compared(f"{name}: its boxes", f"{words} told {ended!r}", ended.status, 0)]


def of_commands(stage: Stage) -> list[Outcome]:
    """All are paused and go on; one is cancelled, and gets another order when it is resumed."""
    for agent in (0, 1):
        stage.vehicle(agent, "--speed", "1")
    stage.master()
    found: list[object] = [wait_until(lambda: all(it["driving"] for it in stage.states()) and len(stage.states()) == 2)]
    found.append(stage.command("pause"))
    found.append(wait_until(lambda: all(it["paused"] and not it["driving"] for it in stage.states())))
    found.append(stage.command("resume"))
    found.append(wait_until(lambda: not stage.states()[0]["paused"] and stage.states()[0]["driving"]))
    found.append(stage.command("cancel 0"))
    found.append(wait_until(lambda: not stage.states()[0]["nodeStates"] and not stage.states()[0]["driving"]))
    before = len(stage.orders(0))
    found.append(wait_until(lambda: len(stage.orders(0)) > before, WHILE))
    found.append(stage.command("show 0") and "vehicle 0 online at" in stage.said("fleet"))
    found.append(stage.command("resume 0"))
    found.append(stage.have_arrived("fleet"))
    stage.command("dance")
    found.append("unknown; commands are pause" in stage.said("fleet"))
    names = [it["orderId"] for it in stage.orders(0)]
    found.append(len(set(names)) > 1)
    due = [True] * 7 + [False] + [True] * 5
    ran = f"pause, resume, cancel 0, resume 0; it said {stage.said('fleet')[-600:]!r}"
    return [compared("commands to a master", ran, found, due), *stage.judged("commands to a master")]


def of_a_renamed_plan(stage: Stage) -> list[Outcome]:
    """The plan is given out in two pieces: vehicles that drive by the first one go on by the whole, with the orders that they have. Bad plans that
    come between are told of, and stop nobody."""
    plan, whole = stage.folder / "run.plan", stage.folder / "whole.plan"
    plan.rename(whole)
    first = stage.harness.mapf(["cut", "row.map", "whole.plan", "4"], folder=stage.folder).out
    for file in (plan, stage.folder / "first.plan"):
        file.write_bytes(first)
    for agent in (0, 1):
        stage.vehicle(agent, "--speed", "0.7")
    # So none has an order up to the end of the first piece before the second one is there.
    stage.master("fleet", "--ahead", "0")
    found: list[object] = [wait_until(lambda: all(stage.orders(agent) for agent in (0, 1)))]
    for count, text in enumerate((first[:-9], first.replace(b"number 5050", b"number 5051"), PLAN.replace(b"0 0 eeeeeee", b"0 0 -eeeeeee")), 1):
        (stage.folder / "bad.plan").write_bytes(text)
        (stage.folder / "bad.plan").rename(plan)
        found.append(wait_until(lambda: stage.said("fleet").count("isn't taken, and the plan before it goes on: ") == count))
    whole.rename(plan)
    found.append(wait_until(lambda: [it["lastNodeId"] for it in stage.states()] == ["8-0", "7-0"], 30))
    found.append(stage.have_arrived("fleet"))
    found.append([len({it["orderId"] for it in stage.orders(agent)}) for agent in (0, 1)])
    ran = f"a plan in two pieces; the master said {stage.said('fleet')[-600:]!r}"
    return [compared("a plan in two pieces", ran, found, [True] * 6 + [[1, 1]]), *stage.judged("a plan in two pieces", "first.plan")]


def of_two_masters(stage: Stage) -> list[Outcome]:
    """Each has one vehicle, and hears by the broker what the other's agent says. The one whose vehicle waits is started first. The broker has kept
    messages that no agent may heed."""
    subprocess.run([stage.python, "-c", KEEP, str(stage.broker.port), json.dumps(KEPT)], check=True, timeout=60)
    for agent in (0, 1):
        stage.vehicle(agent)
    stage.master("second")
    wait_until(lambda: stage.orders(1))
    box = stage.folder / "1.box"
    refused = wait_until(lambda: box.exists() and all(f"refused {fault}" in box.read_text(encoding="ascii") for fault in REFUSED))
    stage.master("first")
    found = (refused, stage.have_arrived("first", "second"))
    ran = f"two masters, which said {stage.said('first')[-400:]!r} {stage.said('second')[-400:]!r}"
    return [compared("two masters", ran, found, (True, True)), *stage.judged("two masters")]


def of_a_vehicle_elsewhere(stage: Stage) -> list[Outcome]:
    """One that isn't where its agent is gets no order, until it is brought there; the one behind it waits."""
    stage.vehicle(0, at="6.5 0.5")
    stage.vehicle(1)
    stage.master()
    told = wait_until(lambda: "vehicle 0: it stands at 6.50 0.50, and its path goes on from 3-0" in stage.said("fleet"))
    went = wait_until(lambda: stage.orders(0), WHILE)
    stage.running["v0"].send_signal(signal.SIGKILL)
    stage.running["v0"].wait()
    (stage.folder / "v0").unlink()
    stage.vehicle(0)
    found = (told, went, stage.have_arrived("fleet"))
    ran = f"a vehicle elsewhere, of which the master said {stage.said('fleet')[-600:]!r}"
    return [compared("a vehicle that is elsewhere", ran, found, (True, False, True)), *stage.judged("a vehicle elsewhere")]


def of_a_large_vehicle(stage: Stage) -> list[Outcome]:
    """Where cells are small, a vehicle that has reached a node isn't wholly in its cell."""
    (stage.folder / "row.yaml").write_text("resolution: 0.5\norigin: [0, 0, 0]\n", encoding="ascii")
    stage.vehicle(0, at="1.75 0.25")
    stage.master("first", "--frame", "row.yaml", "--map-id", "row")
    told = wait_until(lambda: "it is too large for its cells" in stage.said("first"))
    went = wait_until(lambda: stage.orders(0), WHILE)
    ran = f"a vehicle in small cells, of which the master said {stage.said('first')[-600:]!r}"
    return [compared("a vehicle in small cells", ran, (told, went), (True, False))]


# A vehicle that fails whatever it is asked, and says the state and the connection that its input has, a line of JSON each.
ODD = """
import json, sys
import paho.mqtt.client as mqtt
port, name = int(sys.argv[1]), sys.argv[2]
client = mqtt.Client(*([mqtt.CallbackAPIVersion.VERSION2] if hasattr(mqtt, "CallbackAPIVersion") else []))
head = {"headerId": 0, "timestamp": "2026-01-01T00:00:00.000Z", "version": "2.0.0", "manufacturer": "maker", "serialNumber": name}
state = {"orderId": "", "orderUpdateId": 0, "lastNodeId": "", "lastNodeSequenceId": 0, "nodeStates": [], "edgeStates": [], "actionStates": [],
         "driving": False, "batteryState": {"batteryCharge": 80.0, "charging": False}, "operatingMode": "AUTOMATIC", "errors": [], "information": [],
         "safetyState": {"eStop": "NONE", "fieldViolation": False},
         "agvPosition": {"x": 0.5, "y": 0.5, "theta": 0.0, "mapId": "row", "positionInitialized": True}}
def say(kind, message):
    client.publish(f"uagv/v2/maker/{name}/{kind}", json.dumps({**head, **message}), qos=1, retain=kind == "connection").wait_for_publish()
def take(client, data, message):
    for it in json.loads(message.payload)["actions"]:
        state["actionStates"].append({"actionId": it["actionId"], "actionType": it["actionType"], "actionStatus": "FAILED"})
    client.publish(f"uagv/v2/maker/{name}/state", json.dumps({**head, **state}))
client.on_message = take
client.connect("127.0.0.1", port)
client.subscribe(f"uagv/v2/maker/{name}/instantActions")
client.loop_start()
for line in sys.stdin:
    given = json.loads(line)
    if "connectionState" in given:
        say("connection", given)
    else:
        state.update(given)
        say("state", state)
"""


def of_a_vehicle_that_stands(stage: Stage) -> list[Outcome]:
    """Why a vehicle stands is told when it begins, each time, whether more could be released or not."""
    command = [stage.python, "-c", ODD, str(stage.broker.port), "v1"]
    stage.running["odd"] = subprocess.Popen(command, cwd=stage.folder, stdin=subprocess.PIPE, stderr=subprocess.DEVNULL)
    stage.vehicle(0)
    stage.master()
    wrote: list[object] = []

    def tell(what: dict[str, Any], alarm: str, count: int = 1) -> None:
        """The alarm comes once more."""
        stage.running["odd"].stdin.write(f"{json.dumps(what)}\n".encode())
        stage.running["odd"].stdin.flush()
        wrote.append(wait_until(lambda: stage.said("fleet").count(f"master: vehicle 1: {alarm}\n") == count))

    tell({"connectionState": "ONLINE"}, "it answers stateRequest with FAILED")
    stops, runs = ({"safetyState": {"eStop": it, "fieldViolation": False}} for it in ("MANUAL", "NONE"))
    tell(stops, "its emergency stop is pressed")
    tell({**runs, "operatingMode": "MANUAL"}, "its mode is MANUAL")
    tell({"connectionState": "CONNECTIONBROKEN"}, "it is offline")
    tell({"connectionState": "ONLINE"}, "its mode is MANUAL", 2)
    tell({**stops, "operatingMode": "AUTOMATIC"}, "its emergency stop is pressed", 2)
    lines = [line for line in stage.said("fleet").splitlines() if "vehicle 1" in line]
    return [compared("a vehicle that stands", f"the master said {stage.said('fleet')[-900:]!r}", (wrote, len(lines)), ([True] * 6, 6))]


def of_a_full_disk(stage: Stage) -> list[Outcome]:
    """Records that can't be stored are told of once, and tried again behind longer and longer rests."""
    full, program = stage.folder / "full", stage.folder / "mapf"
    full.touch()
    put_program(program, FULL.format(python=sys.executable, program=stage.program, full=str(full)))
    stage.program = str(program)
    for agent in (0, 1):
        stage.vehicle(agent)
    stage.master()
    box = stage.folder / "0.box"

    def times(word: str) -> list[float]:
        lines = box.read_text(encoding="ascii").splitlines() if box.exists() else []
        return [line["clock"] for line in map(json.loads, lines) if word in line]

    wait_until(lambda: len(times("started")) > len(RESTS))
    rests = [start - end >= least for end, start, least in zip(times("ended"), times("started")[1:], RESTS)]
    full.unlink()
    told = stage.said("fleet").count("vehicle 0: its tape can't be stored (refused StoreFailed); it stands, and tries again\n")
    found = (rests, told, stage.have_arrived("fleet"))
    ran = f"a full disk, of which the master said {stage.said('fleet')[-600:]!r}"
    return [compared("a master's full disk", ran, found, ([True] * len(RESTS), 1, True)), *stage.judged("a master's full disk")]


def of_a_stage(harness: Harness, test: Callable[[Stage], list[Outcome]], python: str, program: str) -> list[Outcome]:
    stage = Stage(harness, python, program)
    try:
        return test(stage)
    finally:
        stage.end()


def tests(harness: Harness, python: str, program: str) -> Iterator[Callable[[], Sequence[Outcome]]]:
    for test in (of_commands, of_a_renamed_plan, of_two_masters, of_a_vehicle_elsewhere, of_a_large_vehicle, of_a_vehicle_that_stands, of_a_full_disk):
        yield functools.partial(of_a_stage, harness, test, python, program)
