"""Vehicles by VDA 5050, of examples/vda5050: the standard's rules, a master's orders, and fleets whose processes are killed and cut off."""
import functools
import json
import os
import pathlib
import signal
import subprocess
import sys
from typing import Callable, Iterator, Optional, Sequence

import vehicle_links
import vehicle_masters
import vehicle_messages
import vehicle_rules
import vehicle_stages
from harness import ROOT, Ended, Harness, Outcome, compared, shown, side_by_side
from processes import heeding, left_in, processes_of, wait_until
from robots import Broker, mosquitto, short_of, with_paho
from seeing_ahead import program_that_does_not

VDA, FLEET = ROOT / "examples" / "vda5050", ROOT / "examples" / "fleet"
RUN, CHECK, TALK = VDA / "run.py", FLEET / "check_boxes.py", ROOT / "tests" / "vehicle_talk.py"
WAREHOUSE = str(FLEET / "warehouse.map")
# The rows of that map.
HEIGHT = 7
# The longest time of a run, in seconds.
LIMIT = 300
LONG_LIMIT = 600
LONG = range(1, 5)


# The vehicle alone


def of_talk(harness: Harness, python: str) -> list[Outcome]:
    """What a vehicle does where it is told what the standard allows, and what it doesn't."""
    broker, folder = Broker(harness), harness.folder()
    try:
        ended = harness.run([python, str(TALK), str(broker.port), str(folder)])
    finally:
        broker.end()
    told = [json.loads(line) for line in ended.out.decode().splitlines()]
    due = [
        ["at first", " 0 > at 0.0", ["ONLINE"]],
        ["an order, of which the base is driven", "order 0 c>de at 2.0", True, [0, 2, 4]],
        ["the same update with more", "order 0 c>de at 2.0", []],
        ["an update from elsewhere", "order 0 c>de at 2.0", ["orderUpdateError"]],
        ["no order, and another one", "order 0 c>de at 2.0", ["orderUpdateError", "validationError", "orderError"]],
        ["an update", "order 1 e>fg at 4.0", []],
        ["a pause", True, True, "FINISHED"],
        ["behind it", "order 2 f>g at 5.0", ["FINISHED", "FINISHED", "FINISHED", "FAILED"], "CARRIER"],
        ["a kill on the way", "order 3 g>h at 6.0", ["CONNECTIONBROKEN", "ONLINE"]],
        ["a kill, and its order is forgotten", " 0 > at 6.0"],
        ["an order from there, and one from elsewhere", "elsewhere 0 h> at 7.0", ["noRouteError"]],
        ["a cancelled order is driven to the next node", "back 0 c> at 5.0"],
        ["and is over", "back 0 c> at 5.0", "FAILED", ["noOrderToCancel", "orderUpdateError"]],
        ["in the end", "OFFLINE"],
    ]
    ran = f"vehicle_talk.py, which told {ended.err[-800:]!r}"
    outcomes = [compared(f"a vehicle: {it[0]}", ran, next((own for own in told if own[0] == it[0]), None), it) for it in due]
    text = folder / "messages"
    return [*outcomes, *(of_schemas("a vehicle alone", without_faults(text)) if text.exists() else [])]


def without_faults(path: pathlib.Path) -> list[vehicle_messages.Record]:
    """The messages but the one that is none."""
    lines = [line for line in path.read_text(encoding="utf-8").splitlines() if json.loads(line)["payload"] != "{"]
    path.write_text("\n".join([*lines, ""]), encoding="utf-8")
    return vehicle_messages.records_of(path)


def of_schemas(name: str, records: Sequence[vehicle_messages.Record]) -> list[Outcome]:
    validators = vehicle_messages.validators()
    name = f"{name}: messages by the schemas"
    if validators is None:
        return [Outcome(name, lacks="python3-jsonschema")]
    kinds = {it.kind for it in vehicle_messages.messages_of(records)}
    found = vehicle_messages.against_schemas(records, validators)
    return [compared(name, f"looked at {len(records)} messages", (found[:3], kinds), ([], set(vehicle_messages.KINDS)))]


# Fleets


class Fleet:
    """A call of run.py."""

    def __init__(self, harness: Harness, program: str, words: Sequence[str]):
        self.harness, self.program, self.folder = harness, program, harness.folder()
        self.command = [sys.executable, str(RUN), "--program", program, "--keep", "kept", *words]

    @property
    def kept(self) -> pathlib.Path:
        return self.folder / "kept"

    def run(self, limit: int) -> Ended:
        return self.harness.run([*self.command, "--limit", str(limit)], folder=self.folder, longest=limit + 60)

    def judged(self, name: str, vehicles: int, middle: vehicle_messages.Middle, limit: int = LIMIT, **least: int) -> list[Outcome]:
        """All have arrived, none met, the boxes agree, as run.py says; so much was counted at least; and all messages are right."""
        ended = self.run(limit)
        words = ended.out.decode().split()[1:]
        counted = dict(zip(words[::2], map(float, words[1::2])))
        ran = f"{shown(self.command)}, which told {ended.out[-800:]!r} {ended.err[-1500:]!r}"
        outcomes = [compared(name, ran, (ended.status, counted.get("arrived"), short_of([counted], least)), (0, vehicles, {}))]
        outcomes.append(compared(f"{name}: what is left", ran, left_in(self.folder), []))
        if ended.status:
            return outcomes
        records = vehicle_messages.records_of(self.kept / "messages")
        text = self.harness.mapf(["path", WAREHOUSE, "run.plan"], folder=self.kept).out.decode()
        wrong = vehicle_messages.against_rules(records, vehicle_messages.paths_of(text), middle, self.kept / "tapes")
        outcomes.append(compared(f"{name}: orders by the rules", f"looked at {self.kept / 'messages'}", wrong[:3], []))
        return [*outcomes, *of_schemas(name, records), self.replayed(name)]

    def replayed(self, name: str) -> Outcome:
        """`mapf run` answers the list of events by what the agents answered, and nothing is left to do."""
        ended = self.harness.mapf(["run", WAREHOUSE, "run.plan", "run.events", "--complete"], folder=self.kept)
        moves = sum(line.startswith(b"arrived ") for line in ended.out.splitlines())
        asked = [json.loads(line) for box in sorted((self.kept / "tapes").glob("*.box")) for line in box.read_text().splitlines()]
        due = sum(it.get("answered", "").startswith("arrived ") for it in asked)
        wrote = (ended.status, ended.out.splitlines()[-1:], moves >= due > 0)
        return compared(f"{name}: replayed", "mapf run --complete", wrote, (0, [b"complete 0"], True))


KILLS = "vehicle_kills_or_agent_kills_or_master_kills"


def of_kills(harness: Harness, program: str) -> list[Outcome]:
    """Vehicles, agents and the master are killed, connections break and processes stand still."""
    words = ["--vehicles", "4", "--speed", "1.2", "--kills", "0.7", "--cuts", "0.3", "--seed", "2"]
    return Fleet(harness, program, words).judged("four vehicles, killed", 4, vehicle_messages.middle_of(HEIGHT), **{KILLS: 2, "restarts": 5})


def of_calm(harness: Harness, program: str) -> list[Outcome]:
    """Nothing is done to them: then they drive on without a stop where they may, as orders show. And a changed answer to `may` is seen."""
    fleet = Fleet(harness, program, ["--vehicles", "3", "--speed", "3"])
    outcomes = fleet.judged("three vehicles", 3, vehicle_messages.middle_of(HEIGHT))
    far = vehicle_messages.far_orders(vehicle_messages.records_of(fleet.kept / "messages"))
    outcomes.append(compared("three vehicles: further than one node", "looked at their orders", far > 0, True))
    box = fleet.kept / "tapes" / "0.box"
    box.write_text(box.read_text(encoding="ascii").replace('"may 3"}', '"may 2"}', 4).replace('"asked": "may 2"', '"asked": "may 3"'), encoding="ascii")
    boxes = [str(fleet.kept / "tapes" / f"{agent}.box") for agent in range(3)]
    ended = harness.run([sys.executable, str(CHECK), WAREHOUSE, str(fleet.kept / "run.plan"), *boxes, "--program", program])
    told = (ended.status, b"agent 0 differs" in ended.out, b"answered   may 2\nthe rules  may 3" in ended.out)
    return [*outcomes, compared("an answer to `may` that was changed", f"check_boxes.py, which told {ended!r}", told, (1, True, True))]


def of_older_program(harness: Harness, program: str) -> list[Outcome]:
    """Its agents don't know `may`, so vehicles stop in each cell. The frame is another one too."""
    frame = harness.folder({"map.yaml": b"resolution: 1.5\norigin: [-3, 4.5, 0]\n"}) / "map.yaml"
    fleet = Fleet(harness, program, ["--vehicles", "3", "--speed", "5", "--frame", str(frame)])
    middle = vehicle_messages.middle_of(HEIGHT, 1.5, -3, 4.5)
    outcomes = fleet.judged("three vehicles, an older program", 3, middle)
    far = vehicle_messages.far_orders(vehicle_messages.records_of(fleet.kept / "messages"))
    return [*outcomes, compared("an older program: no further than one node", "looked at their orders", far, 0)]


def of_long_runs(harness: Harness, program: str, seed: int) -> list[Outcome]:
    """All vehicles of the plan, with whatever may be done to them."""
    words = ["--speed", "1", "--kills", "1", "--cuts", "0.5", "--stops", "0.03", "--seed", str(seed)]
    ended = Fleet(harness, program, words).run(LONG_LIMIT)
    return [compared(f"twelve vehicles, seed {seed}", f"{words}, which told {ended!r}", ended.status, 0)]


def of_a_signal(harness: Harness, program: str) -> list[Outcome]:
    """Whatever asks the run to end, nothing that it started is left."""
    fleet = Fleet(harness, program, ["--vehicles", "3", "--speed", "0.1"])
    environment = {**os.environ, "TMPDIR": str(fleet.folder)}
    pipes = {"stdin": subprocess.DEVNULL, "stdout": subprocess.DEVNULL, "stderr": subprocess.PIPE}
    process = subprocess.Popen(heeding(fleet.command), cwd=fleet.folder, env=environment, start_new_session=True, **pipes)
    runs = wait_until(lambda: sum(" agent " in command for _, command in processes_of(fleet.folder)) >= 3)
    process.send_signal(signal.SIGTERM)
    _, err = process.communicate(timeout=60)
    wrote = (runs, process.returncode, b"Traceback" in err, left_in(fleet.folder))
    return [compared("SIGTERM to a fleet of vehicles", shown(fleet.command), wrote, (True, 128 + signal.SIGTERM, False, []))]


def of_bad_calls(harness: Harness, python: str) -> list[Outcome]:
    """One clear line and a status, whatever is wrong."""
    files = {"fleet": b"0 maker v0\n", "twice": b"0 maker v0\n1 maker v0\n", "none": b"", "other": b"0 maker/v0\n", "great": b"%s maker v0\n" % (b"1" * 5_000), "far": b"7 maker v7\n"}
    folder = harness.folder({**files, "bad.yaml": b"resolution: 0\n", "row.map": vehicle_stages.ROW, "run.plan": vehicle_stages.PLAN})
    nobody = ["--broker", "127.0.0.1:9", "--patience", "0"]
    program = ["--program", str(harness.program)]

    def master(fleet: str, *more: str) -> list[str]:
        return [python, str(VDA / "master.py"), "row.map", "run.plan", fleet, ".", *nobody, *program, *more]

    cases = [
        ("no broker", master("fleet"), 3, "master: no broker answers at 127.0.0.1:9"),
        ("a vehicle twice", master("twice"), 1, "each agent and each vehicle stands there once"),
        ("no vehicles", master("none"), 1, "each agent and each vehicle stands there once"),
        ("a line that is none", master("other"), 1, "other: line 1 isn't AGENT MANUFACTURER SERIAL"),
        ("a number that no agent has", master("great"), 1, "great: line 1 isn't AGENT MANUFACTURER SERIAL"),
        ("no list of vehicles", master("lost"), 3, "master: lost: No such file or directory"),
        ("a bad frame", master("fleet", "--frame", "bad.yaml"), 1, "bad.yaml: `resolution: METRES` is wanted"),
        ("no such agent", master("far"), 1, "`mapf path` says of agent 7 'mapf: NoSuchAgent'"),
        ("a vehicle without a broker", [python, str(VDA / "vehicle.py"), "maker", "v0", "v0", *nobody], 3, "vehicle v0: no broker answers at 127.0.0.1:9"),
        ("a run with a rotation", [sys.executable, str(RUN), "--map", str(ROOT / "examples/turn.map"), "--plan", str(ROOT / "examples/turn.plan"), *program],
         1, "'blocked 0'"),
        ("more vehicles than agents", [sys.executable, str(RUN), "--vehicles", "13", *program], 3, "there are 12 agents, and 13 were due"),
    ]  # fmt: skip
    outcomes = []
    for name, command, status, due in cases:
        ended = harness.run(command, folder=folder)
        wrote = (ended.status, due in "".join(ended.err.decode().splitlines()[-1:]), b"Traceback" in ended.err)
        outcomes.append(compared(name, f"{shown(command)}, which told {ended.err[-500:]!r}", wrote, (status, True, False)))
    return outcomes


def lacking(python: Optional[str]) -> str:
    return "" if python and mosquitto() else "mosquitto" if python else "python3-paho-mqtt"


def outcomes(harness: Harness) -> Iterator[Outcome]:
    for rules in (*vehicle_rules.TESTS, *vehicle_masters.TESTS, vehicle_links.of_links):
        yield from rules(harness)
    python = with_paho()
    if not python or lacking(python):
        yield Outcome("vehicles on a broker", lacks=lacking(python))
        return
    sees, older = str(harness.program), program_that_does_not(harness)
    tests: list[Callable[[], Sequence[Outcome]]] = [functools.partial(of_kills, harness, sees), functools.partial(of_talk, harness, python)]
    tests += [functools.partial(of_calm, harness, sees), functools.partial(of_older_program, harness, older)]
    tests += vehicle_stages.tests(harness, python, sees)
    tests += [functools.partial(of_a_signal, harness, sees), functools.partial(of_bad_calls, harness, python)]
    if harness.is_long:
        tests += [functools.partial(of_long_runs, harness, sees, seed) for seed in LONG]
    yield from side_by_side(tests)
