"""Holds the messages of a fleet of vehicles, as a recorder wrote them, against the standard's schemas, and a master's orders against its rules and
against what the black boxes of its agents say. Shares no code with the master or the vehicles."""
import dataclasses
import datetime
import json
import pathlib
import warnings
from typing import Any, Callable, Iterator, Optional, Sequence

from harness import ROOT

SCHEMAS = ROOT / "examples" / "vda5050" / "schemas"
KINDS = ("order", "instantActions", "state", "connection", "visualization", "factsheet")
Cell = tuple[int, int]
# Where the middle of a cell is, in metres.
Middle = Callable[[Cell], tuple[float, float]]
# Times in messages are cut to milliseconds.
CUT = 0.001
# So many nodes that aren't released are shown at most, and so many are released behind the end of a move that is begun.
HORIZON, AHEAD = 4, 3
# How far a vehicle may be from a node or a way, as a part of a cell's side.
OFF = 0.1


# The kind of what a recorder notes when it is connected: some messages before are missing, as they may be up to so many seconds behind.
CONNECTED, SOON = "connected", 0.5


@dataclasses.dataclass(frozen=True)
class Record:
    """A message, of the vehicle's whose topic it came on. The time is that of its head."""

    vehicle: str
    kind: str
    at: float
    message: dict[str, Any]


def records_of(path: pathlib.Path) -> list[Record]:
    found = []
    # The last line may not be whole yet.
    for line in path.read_text(encoding="utf-8").split("\n")[:-1]:
        fields = json.loads(line)
        if not fields["topic"]:
            found.append(Record("", CONNECTED, fields["wall"], {}))
            continue
        words, message = fields["topic"].split("/"), json.loads(fields["payload"])
        if words[:2] != ["uagv", "v2"] or words[3] != message.get("serialNumber") or words[2] != message.get("manufacturer"):
            raise ValueError(f"{fields['topic']} has {fields['payload'][:200]}")
        at = datetime.datetime.strptime(message["timestamp"].replace("Z", "+0000"), "%Y-%m-%dT%H:%M:%S.%f%z").timestamp()
        found.append(Record(words[3], words[4], at, message))
    return found


def messages_of(records: Sequence[Record]) -> list[Record]:
    return [it for it in records if it.kind != CONNECTED]


def gaps_of(records: Sequence[Record]) -> list[tuple[float, float]]:
    """When messages may be missing."""
    return [(one.at, other.at + SOON) for one, other in zip(records, records[1:]) if other.kind == CONNECTED]


# Schemas


def validators() -> Optional[dict[str, Callable[[Any], Iterator[Any]]]]:
    """What finds the faults of each kind of message; none without the package jsonschema."""
    try:
        with warnings.catch_warnings():
            warnings.simplefilter("ignore")
            import jsonschema
    except ImportError:
        return None
    common = json.loads((SCHEMAS / "common.json").read_text(encoding="utf-8"))
    found = {}
    for kind in KINDS:
        schema = json.loads((SCHEMAS / f"{kind}.json").read_text(encoding="utf-8"))
        schema["properties"] = {**common["head"]["properties"], **schema["properties"]}
        schema["required"] = [*common["head"]["required"], *schema["required"]]
        schema["definitions"] = common["definitions"]
        jsonschema.Draft7Validator.check_schema(schema)
        found[kind] = jsonschema.Draft7Validator(schema).iter_errors
    return found


def against_schemas(records: Sequence[Record], faults_of: dict[str, Callable[[Any], Iterator[Any]]]) -> list[str]:
    found = []
    for record in messages_of(records):
        found += [f"{record.kind} of {record.vehicle}: {fault.message[:200]}" for fault in faults_of[record.kind](record.message)]
    return found


# What a box says


@dataclasses.dataclass
class Allowed:
    """Up to which cell of its path an agent's vehicle may drive from a time on, and how often it had finished a move when it was asked to finish one."""

    ends: list[tuple[float, int]]
    finishes: list[tuple[float, int]]

    def end_at(self, at: float) -> int:
        return max((end for time, end in self.ends if time <= at), default=0)


def allowed_by(box: pathlib.Path) -> Allowed:
    allowed, done, is_between, asked = Allowed([], []), 0, False, ""
    for line in box.read_text(encoding="ascii").splitlines():
        fields = json.loads(line)
        asked = "" if "started" in fields else fields.get("asked", asked)
        if fields.get("asked") == "finish":
            allowed.finishes.append((fields["wall"], done))
        words = fields.get("answered", "").split()
        if not words:
            continue
        more = 0
        if words[0] in ("at", "between") and not asked:
            done, is_between = int(words[-1]), words[0] == "between"
        elif words[0] == "moving":
            is_between = True
        elif words[0] == "arrived":
            done, is_between = done + 1, False
        elif words[0] == "may" and is_between:
            more = int(words[1])
        allowed.ends.append((fields["wall"], done + is_between + more))
    return allowed


# Orders


class Chain:
    """The orders of one vehicle, one after another."""

    def __init__(self, path: Sequence[Cell], middle: Middle, allowed: Allowed):
        self.path, self.middle, self.allowed = path, middle, allowed
        # Of the last order its name, its last update, where that may end, and where the one before may.
        self.name, self.update = "", -1
        self.ends: set[int] = set()
        self.ends_before: set[int] = set()
        self.seen: set[str] = set()
        # Whether orders may be missing here.
        self.may_jump = False

    def faults(self, record: Record) -> Iterator[str]:
        order, nodes = record.message, record.message["nodes"]
        first = int(order["orderId"].split("-")[2])
        begin = first + nodes[0]["sequenceId"] // 2
        end = begin + sum(it["released"] for it in nodes) - 1
        yield from self._faults_of_form(order, begin, 2 * (begin - first))
        yield from self._faults_of_place(order, begin)
        yield from self._faults_of_chain(order, begin)
        self.ends.add(end)
        if end > self.allowed.end_at(record.at + CUT):
            yield f"it releases up to {end}, and {self.allowed.end_at(record.at + CUT)} is allowed"
        if len(nodes) > end - begin + 1 + HORIZON or (end < len(self.path) - 1 and len(nodes) == end - begin + 1):
            yield f"its horizon has {len(nodes) - (end - begin + 1)} nodes"

    def _faults_of_form(self, order: dict[str, Any], begin: int, sequence: int) -> Iterator[str]:
        nodes, edges = order["nodes"], order["edges"]
        names = [it["nodeId"] for it in nodes]
        if [it["sequenceId"] for it in nodes] != list(range(sequence, sequence + 2 * len(nodes), 2)):
            yield "the numbers of its nodes"
        if [it["sequenceId"] for it in edges] != list(range(sequence + 1, sequence + 2 * len(nodes) - 1, 2)):
            yield "the numbers of its edges"
        if [(it["startNodeId"], it["endNodeId"]) for it in edges] != list(zip(names, names[1:])):
            yield "the ends of its edges"
        released = [it["released"] for it in nodes]
        if released != sorted(released, reverse=True) or not released[0] or [it["released"] for it in edges] != released[1:]:
            yield "what it releases"

    def _faults_of_place(self, order: dict[str, Any], begin: int) -> Iterator[str]:
        """Nodes are the cells of the path. The first one of a first order may stand on the way to the second."""
        for place, node in enumerate(order["nodes"]):
            at = node["nodePosition"]
            middles = [self.middle(cell) for cell in self.path[begin + place : begin + place + 2]]
            name = "-".join(map(str, self.path[begin + place]))
            if (node["nodeId"], at["x"], at["y"]) == (name, *middles[0]):
                continue
            (x, y), (u, v) = middles
            is_between = min(x, u) - OFF <= at["x"] <= max(x, u) + OFF and min(y, v) - OFF <= at["y"] <= max(y, v) + OFF
            if place or node["sequenceId"] or not is_between:
                yield f"the node {node['nodeId']}, in place of {name}"

    def _faults_of_chain(self, order: dict[str, Any], begin: int) -> Iterator[str]:
        name, update = order["orderId"], order["orderUpdateId"]
        jumps, self.may_jump = self.may_jump, False
        if name != self.name:
            if name in self.seen or (not jumps and (update or order["nodes"][0]["sequenceId"])):
                yield "it begins anew, and has a name or a number that was there before"
            self.seen.add(name)
            self.name, self.update, self.ends, self.ends_before = name, update, set(), set()
            return
        if jumps or update not in (self.update, self.update + 1):
            if not jumps or update < self.update:
                yield f"update {update} behind {self.update}"
            self.update, self.ends, self.ends_before = update, set(), set()
        elif update > self.update:
            self.update, self.ends, self.ends_before = update, set(), self.ends
        if self.ends_before and begin not in self.ends_before:
            yield f"it goes on from {begin}, and the base before ended at {sorted(self.ends_before)}"


def against_rules(records: Sequence[Record], paths: Sequence[Sequence[Cell]], middle: Middle, boxes: pathlib.Path) -> list[str]:
    """What is wrong with the orders of a master whose vehicles have the names v0, v1, and so on; and moves that were finished too soon."""
    found, gaps = [], gaps_of(records)
    for agent, path in enumerate(paths):
        own = [it for it in records if it.vehicle in (f"v{agent}", "")]
        allowed = allowed_by(boxes / f"{agent}.box")
        chain = Chain(path, middle, allowed)
        for record in own:
            chain.may_jump |= record.kind == CONNECTED
            if record.kind == "order":
                found += [f"{fault}: {json.dumps(record.message)[:600]}" for fault in chain.faults(record)]
        states = [it for it in own if it.kind == "state"]
        for at, done in allowed.finishes:
            if any(begin <= at <= end for begin, end in gaps):
                continue
            behind = [middle(cell) for cell in path[done + 1 : done + 2 + AHEAD]]
            if not any(it.at <= at + CUT and has_reached(it.message, done, behind) for it in states):
                found.append(f"vehicle {agent} has finished move {done}, and no state says so")
    return found


def has_reached(state: dict[str, Any], done: int, behind: Sequence[tuple[float, float]]) -> bool:
    """Whether a vehicle is further than by so many moves: by its order, or by its position at one of these places, which come next."""
    if state["orderId"]:
        return int(state["orderId"].split("-")[2]) + state["lastNodeSequenceId"] // 2 > done
    where = state["agvPosition"]
    return any(abs(where["x"] - x) < 1 and abs(where["y"] - y) < 1 for x, y in behind)


def paths_of(text: str) -> list[list[Cell]]:
    """The paths of all agents, by what `mapf path` writes."""
    times = [list(map(int, line.split()[1:])) for line in text.splitlines()]
    paths: list[list[Cell]] = [[] for _ in times[0][::2]]
    for time in times:
        for path, cell in zip(paths, zip(time[::2], time[1::2])):
            if path[-1:] != [cell]:
                path.append(cell)
    return paths


def middle_of(height: int, resolution: float = 1, x: float = 0, y: float = 0) -> Middle:
    """By a frame that isn't turned."""
    return lambda cell: (x + (cell[0] + 0.5) * resolution, y + (height - cell[1] - 0.5) * resolution)


def far_orders(records: Sequence[Record]) -> int:
    """How many orders release more than one node behind the first."""
    return sum(sum(node["released"] for node in it.message["nodes"]) > 2 for it in records if it.kind == "order")
