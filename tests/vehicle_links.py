"""A master's pilot and a vehicle over a link that loses and delays, both restarting at any moment: whatever happens, the vehicle is only in cells that its
agent still holds, and comes to its end. Paths come back to the same cells again and again, since an order that comes too late is dangerous there."""
import json
import random
from typing import Any, Iterator, Optional

from harness import Harness, Outcome, compared
from vehicle_rules import HEAD, IDENTITY, Message
from alarms import Alarms
from assignment import Assignment, Refused
from contact import Contact
from frame import Frame, Point
from pilot import Pilot
from route import Route
from bus import Post

FRAME = Frame(1.0, Point(0.0, 0.0), 0.0, 2)
AHEAD, HORIZON = 3, 2
RUNS, LONG_RUNS = 120, 3000
# So many things happen in a run; it is quiet from some time on.
NOISY, ALL = 1500, 6000
# How often a thing happens beside the others, and how often harm is done.
FREQUENT, HARM = (1, 4), 0.02
STEPS = ((1, 0), (-1, 0), (0, 1), (0, -1))
Cell = tuple[int, int]


def walk(rng: random.Random) -> list[Cell]:
    cells = [(1, 0)]
    while len(cells) < 14:
        step = rng.choice(STEPS)
        cell = cells[-1][0] + step[0], cells[-1][1] + step[1]
        if 0 <= cell[0] < 3 and 0 <= cell[1] < 2:
            cells.append(cell)
    return cells


class Tape:
    """In place of a teller: what is stored, how far others have made room, and how much of that the agent has heard."""

    said = b""

    def __init__(self, last: int):
        self.last = last
        self.done, self.is_between, self.room, self.heard = 0, False, 0, 0
        self.agent: Optional[object] = self
        # The furthest cell that was ever allowed.
        self.most = 0

    def keep(self, _: float) -> bool:
        return False

    def start(self) -> bool:
        self.is_between = self.is_between or self.done < min(self.heard, self.last)
        return self.is_between

    def finish(self) -> bool:
        self.done, self.is_between = self.done + self.is_between, False
        return True

    def allowed(self, ahead: int) -> int:
        end = max(self.done + 1, min(self.done + 1 + ahead, self.heard, self.last)) if self.is_between else self.done
        self.most = max(self.most, end)
        return end

    def farthest(self, ahead: int) -> int:
        return self.done + self.is_between + ahead if self.done or self.is_between else 0


class Body:
    """A vehicle of few lines: it goes half a way at once."""

    def __init__(self, start: Point):
        self.point, self.order = start, Assignment()
        self.actions: list[Message] = []

    def heed(self, kind: str, message: Message) -> None:
        if kind == "order":
            try:
                self.order.take(message, IDENTITY, self._is_near)
            except Refused:
                pass
        else:
            self.actions = [*self.actions, *({**it, "actionStatus": "FINISHED"} for it in message["actions"])][-3:]

    def _is_near(self, node: Message) -> bool:
        return abs(node["nodePosition"]["x"] - self.point.x) + abs(node["nodePosition"]["y"] - self.point.y) < 0.1

    def drive(self) -> None:
        node = self.order.next_node()
        if node:
            x, y = node["nodePosition"]["x"], node["nodePosition"]["y"]
            near = abs(x - self.point.x) + abs(y - self.point.y) <= 0.5
            self.point = Point(x, y) if near else Point((x + self.point.x) / 2, (y + self.point.y) / 2)
            if near:
                self.order.reach()

    def state(self) -> Message:
        order, where = self.order, {"x": self.point.x, "y": self.point.y, "theta": 0.0, "mapId": "map", "positionInitialized": True}
        moves = {"operatingMode": "AUTOMATIC", "safetyState": {"eStop": "NONE"}, "agvPosition": where, "errors": [], "actionStates": self.actions}
        name, sequence = order.last_name
        named = {"orderId": order.order_id, "orderUpdateId": order.update_id, "lastNodeId": name, "lastNodeSequenceId": sequence}
        return {**HEAD, **named, **moves, "nodeStates": order.nodes, "edgeStates": order.edges}


class Unheard(Alarms):
    """Nobody is told."""

    def say(self, what: str) -> None:
        pass


class World:
    """Between the two is a broker: what one has sent is on its way to it, and then from it to the other."""

    def __init__(self, rng: random.Random):
        self.rng, self.cells, self.now = rng, walk(rng), 0.0
        self.tape, self.body = Tape(len(self.cells) - 1), Body(FRAME.middle(self.cells[0]))
        self.to_broker: list[tuple[str, bytes]] = []
        self.to_vehicle: list[tuple[str, bytes]] = []
        self.to_master: list[tuple[str, bytes]] = []
        self.pilot = self._pilot()
        self._connect_vehicle()

    def _pilot(self) -> Pilot:
        route = Route(self.cells, FRAME, "map", 7, 3)
        link: Any = self
        tape: Any = self.tape
        return Pilot(route, tape, Contact(IDENTITY, link, lambda _: None), (AHEAD, HORIZON), Unheard("vehicle"))

    def publish(self, post: Post, **_: Any) -> None:
        self.to_broker.append((post.topic.split("/")[-1], post.payload))

    # What may happen

    def pass_on(self) -> None:
        if self.to_broker:
            self.to_vehicle.append(self.to_broker.pop(0))

    def heed(self) -> None:
        if self.to_vehicle:
            kind, payload = self.to_vehicle.pop(0)
            self.body.heed(kind, json.loads(payload))
            self._say()

    def drive(self) -> None:
        self.body.drive()
        self._say()

    def _say(self) -> None:
        self.to_master.append(("state", json.dumps(self.body.state()).encode()))

    def hear(self) -> None:
        if self.to_master:
            self.pilot.take(*self.to_master.pop(0))

    def lead(self) -> None:
        self.now += self.rng.choice((0.1, 0.5, 2))
        self.pilot.turn(self.now)

    def make_room(self) -> None:
        """Others make room, or the agent hears of it."""
        self.tape.room += self.rng.random() < 0.3
        self.tape.heard = min(self.tape.heard + 1, self.tape.room)

    def _connect_vehicle(self) -> None:
        """A new connection ends the old one, with what is still on its way there."""
        self.to_vehicle.clear()
        for state in ("CONNECTIONBROKEN", "ONLINE"):
            self.to_master.append(("connection", json.dumps({**HEAD, "connectionState": state}).encode()))
        self._say()

    def break_vehicle(self) -> None:
        # Of what it has said some may still have come to the broker.
        del self.to_master[self.rng.randrange(len(self.to_master) + 1) :]
        self._connect_vehicle()

    def restart_vehicle(self) -> None:
        order = self.body.order if self.rng.random() < 0.5 else Assignment()
        point, self.body = self.body.point, Body(self.body.point)
        self.body.point, self.body.order = point, order
        self.break_vehicle()

    def break_master(self) -> None:
        """What it has sent comes to the broker as far as it does; what was said to it is lost, but whether the vehicle is there."""
        del self.to_broker[self.rng.randrange(len(self.to_broker) + 1) :]
        while self.to_broker:
            self.pass_on()
        self.to_master = [("connection", json.dumps({**HEAD, "connectionState": "ONLINE"}).encode())]
        self.pilot.contact.unsettle()

    def restart_master(self) -> None:
        self.break_master()
        self.tape.heard = self.tape.done
        self.pilot = self._pilot()

    # What has to be

    def is_safe(self) -> bool:
        return FRAME.cells(self.body.point) <= set(self.cells[self.tape.done : self.tape.most + 1])

    @property
    def is_over(self) -> bool:
        return self.tape.done == self.tape.last


def fate(seed: int) -> str:
    rng = random.Random(f"links {seed}")
    world = World(rng)
    usual = [world.pass_on, world.heed, world.drive, world.hear, world.hear, world.lead, world.make_room]
    harm = [world.break_vehicle, world.restart_vehicle, world.break_master, world.restart_master]
    # Each run has what is slow in it, and what is done to it.
    weights, harms = ([rng.choice(FREQUENT) for _ in kinds] for kinds in (usual, harm))
    for turn in range(ALL):
        is_harm = turn < NOISY and rng.random() < HARM
        kinds, chances = (harm, harms) if is_harm else (usual, weights if turn < NOISY else [1] * len(usual))
        rng.choices(kinds, chances)[0]()
        if not world.is_safe():
            return f"seed {seed}, turn {turn}: {world.body.point} of {world.cells}, done {world.tape.done}, allowed {world.tape.most}"
        if world.is_over:
            return ""
    return f"seed {seed}: it has finished {world.tape.done} moves of {world.cells}"


def of_links(harness: Harness) -> Iterator[Outcome]:
    runs = LONG_RUNS if harness.is_long else RUNS
    found = [it for it in map(fate, range(runs)) if it]
    yield compared(f"{runs} vehicles over bad links", "vehicle_links.py", found[:3], [])
