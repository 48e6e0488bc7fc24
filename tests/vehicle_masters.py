"""What the master control of examples/vda5050 makes of what vehicles say: when it may send an order, and where on its path a vehicle is."""
import json
from typing import Any, Callable, Iterator, Optional

from harness import Harness, Outcome, compared
from vehicle_rules import HEAD, IDENTITY, Message
from contact import AGAIN, Contact
from frame import Frame, Point
from route import Astray, Place, Route

# A path that comes back: the cells 0, 1, 2, 1 of the row, and 1 below.
CELLS = [(0, 0), (1, 0), (2, 0), (1, 0), (1, 1)]
NAME = "7-3-0-0123abcd"


def state_of(order: str = "", update: int = 0, last: tuple[str, int] = ("", 0), x: Optional[float] = 0.5, y: float = 1.5) -> Message:
    """A state, of a vehicle that doesn't know where it is for no x."""
    where = {"x": x, "y": y, "theta": 0.0, "mapId": "map", "positionInitialized": True}
    lists: Message = {"nodeStates": [], "edgeStates": [], "actionStates": [], "errors": []}
    moves = {"driving": False, "operatingMode": "AUTOMATIC", "safetyState": {"eStop": "NONE"}, **({"agvPosition": where} if x is not None else {})}
    return {**HEAD, "orderId": order, "orderUpdateId": update, "lastNodeId": last[0], "lastNodeSequenceId": last[1], **lists, **moves}


def nodes(*sequences: int, released: int) -> Message:
    return {"nodeStates": [{"nodeId": "n", "sequenceId": it, "released": it <= released} for it in sequences]}


# When an order may be sent


class Sent:
    """In place of a bus: what was sent."""

    def __init__(self) -> None:
        self.actions: list[tuple[str, str]] = []
        self.orders = 0

    def publish(self, post: Any, **_: Any) -> None:
        message = json.loads(post.payload)
        self.orders += "nodes" in message
        self.actions += [(it["actionType"], it["actionId"]) for it in message.get("actions", [])]

    def last_question(self) -> str:
        return [name for kind, name in self.actions if kind == "stateRequest"][-1]


class Talk:
    """A contact, and what happens to it."""

    def __init__(self) -> None:
        self.sent, self.alarms, self.now = Sent(), [], 0.0
        self.contact = Contact(IDENTITY, self.sent, self.alarms.append)
        self.seen: list[bool] = []

    def take(self, kind: str, message: Message) -> "Talk":
        self.contact.take(kind, json.dumps({**HEAD, **message}).encode())
        self.seen.append(self.contact.is_ready)
        return self

    def connect(self, state: str = "ONLINE") -> "Talk":
        return self.take("connection", {"connectionState": state})

    def answer(self, question: str = "", order: tuple[str, int] = ("", 0)) -> "Talk":
        """A state that answers a question, the last one unless another is named."""
        actions = [{"actionId": question or self.sent.last_question(), "actionStatus": "FINISHED"}]
        return self.take("state", {**state_of(*order), "actionStates": actions})

    def wait(self, seconds: float) -> "Talk":
        self.now += seconds
        self.contact.ask_on(self.now)
        return self

    def give(self, update: int) -> "Talk":
        self.contact.give({"orderId": "order", "orderUpdateId": update, "nodes": []}, self.now)
        self.seen.append(self.contact.is_ready)
        return self


def of_sending(_: Harness) -> Iterator[Outcome]:
    """An order may be sent once nothing that was sent before can still come."""
    late = 2 * AGAIN

    def begun() -> Talk:
        talk = Talk().connect().wait(0).answer()
        talk.seen.clear()
        return talk

    talk = Talk().take("state", state_of()).wait(0).connect().take("state", state_of()).wait(0).answer()
    yield compared("not before the first answer", "Contact.is_ready", talk.seen, [False, False, False, True])
    talk = begun().give(0).take("state", state_of("other")).take("state", state_of("order", 0)).give(1).take("state", state_of("order", 0))
    yield compared("not before a state has shown the last order", "Contact.is_ready", talk.seen, [False, False, True, False, False])
    talk = begun().give(0).wait(AGAIN / 2)
    asked = len(talk.sent.actions)
    talk.wait(AGAIN).take("state", state_of()).answer()
    yield compared("an order that was lost", "Contact.is_ready", (talk.seen, len(talk.sent.actions) - asked), ([False, False, True], 1))
    talk = begun()
    question = talk.sent.last_question()
    talk.give(0).answer(question).wait(late).answer(question).answer()
    yield compared("an answer to an older question", "Contact.is_ready", talk.seen, [False, False, False, True])
    talk = begun().give(0).wait(late)
    question = talk.sent.last_question()
    talk.wait(late).answer(question).answer()
    yield compared("a question that was asked twice", "Contact.is_ready", talk.seen, [False, False, True])
    talk = begun().connect("CONNECTIONBROKEN").wait(late).connect().take("state", state_of()).wait(late).answer()
    yield compared("a connection that broke", "Contact.is_ready", talk.seen, [False, False, False, True])
    talk = begun().give(0).connect("OFFLINE").connect().take("state", state_of()).wait(late).answer()
    yield compared("a vehicle that restarts behind an order", "Contact.is_ready", talk.seen, [False, False, False, False, True])
    talk = begun()
    talk.contact.unsettle()
    talk.take("state", state_of()).wait(0).answer()
    yield compared("a connection of one's own that broke", "Contact.is_ready", talk.seen, [False, True])
    wrong = {name: value for name, value in state_of().items() if name != "nodeStates"}
    talk = begun().take("state", wrong).take("state", {**state_of(), "serialNumber": "two"}).take("state", {**state_of(), "agvPosition": {"x": 1}})
    fine = all(it.startswith("its state can't be understood: ") for it in talk.alarms)
    yield compared("states that are none", "Contact.take", (len(talk.alarms), fine), (3, True))


# Where a vehicle is


def located(state: Message, done: int, farthest: int) -> str:
    route = Route(CELLS, Frame(1.0, Point(0.0, 0.0), 0.0, 2), "map", 7, 3)
    try:
        place: Place = route.locate(state, done, farthest)
    except Astray:
        return "astray"
    return f"{place.index} to {place.end}{' ordered' if place.order else ''}"


def of_places(_: Harness) -> Iterator[Outcome]:
    """By its order or else by its position, where both fit."""
    cases: list[tuple[str, Message, int, int, str]] = [
        ("no order, in the first cell", state_of(), 0, 0, "0 to 0"),
        ("no order, nothing was begun, in the second cell", state_of(x=1.5), 0, 0, "astray"),
        ("no order, in a cell ahead", state_of(x=1.5), 0, 4, "1 to 1"),
        ("no order, in a cell that is there twice", state_of(x=1.5), 2, 4, "3 to 3"),
        ("no order, on a way", state_of(x=1.8), 0, 4, "1 to 1"),
        ("no order, on a way that is driven back later", state_of(x=1.8), 2, 4, "2 to 2"),
        ("no order, behind the tape", state_of(), 1, 4, "astray"),
        ("no order, too far ahead", state_of(x=1.5, y=0.5), 0, 3, "astray"),
        ("no order, on no way", state_of(x=0.8, y=0.9), 0, 4, "astray"),
        ("no order, and it doesn't know where", state_of(x=None), 0, 4, "astray"),
        ("another map", {**state_of(), "agvPosition": {**state_of()["agvPosition"], "mapId": "other"}}, 0, 4, "astray"),
        ("an order of others", {**state_of("theirs"), **nodes(2, released=2)}, 0, 4, "astray"),
        ("an order of others that is done", state_of("theirs", 3, ("x", 4)), 0, 4, "0 to 0"),
        ("an order of another run", {**state_of("8-3-0-0123abcd"), **nodes(2, released=2)}, 0, 4, "astray"),
        ("an order of another agent", {**state_of("7-2-0-0123abcd"), **nodes(2, released=2)}, 0, 4, "astray"),
        ("its order", {**state_of(NAME, 1, ("0-0", 0)), **nodes(2, 4, 6, released=4)}, 0, 4, "0 to 2 ordered"),
        ("its order, at the end of the base", {**state_of(NAME, 1, ("2-0", 4), 2.5), **nodes(6, released=4)}, 0, 4, "2 to 2 ordered"),
        ("its order, ahead of the tape", {**state_of(NAME, 1, ("1-0", 6), 1.5), **nodes(8, released=8)}, 1, 2, "3 to 4 ordered"),
        ("its order, behind the tape", {**state_of(NAME, 1, ("1-0", 2), 1.5), **nodes(4, released=4)}, 2, 4, "astray"),
        ("its order, which was cancelled", state_of(NAME, 1, ("1-0", 2), 1.5), 1, 4, "1 to 1"),
        ("its order, nearly at the next node", {**state_of(NAME, 0, ("0-0", 0), 1.41), **nodes(2, released=2)}, 0, 4, "0 to 1 ordered"),
        ("its order, of which it has the name alone", state_of(NAME, 0, ("", 0), 2.5), 1, 4, "2 to 2"),
        ("its order from a later cell", {**state_of("7-3-2-0123abcd", 0, ("1-0", 2), 1.5), **nodes(4, released=4)}, 3, 4, "3 to 4 ordered"),
        ("its order, by another name of the node", {**state_of(NAME, 1, ("2-0", 2), 1.5), **nodes(4, released=4)}, 1, 4, "astray"),
        ("its order, from the way to the second cell", {**state_of(NAME, 0, ("0-0_1-0", 0), 0.8), **nodes(2, released=2)}, 0, 4, "0 to 1 ordered"),
        ("its order, and it stands elsewhere", {**state_of(NAME, 1, ("0-0", 0), 2.5), **nodes(2, released=2)}, 0, 4, "astray"),
        ("its order, behind the path's end", {**state_of(NAME, 1, ("1-1", 8), 1.5, 0.5), **nodes(10, released=10)}, 4, 4, "astray"),
    ]
    for name, state, done, farthest, due in cases:
        yield compared(name, "Route.locate", located(state, done, farthest), due)


def of_first_nodes(_: Harness) -> Iterator[Outcome]:
    """An order begins so near to its vehicle that this is on the node."""
    route = Route(CELLS, Frame(1.0, Point(0.0, 0.0), 0.0, 2), "map", 7, 3)
    near, off, away = ("0-0", 0.5, 1.5), ("0-0", 0.59, 1.59), ("0-0_1-0", 0.8, 1.5)
    for point, due in (((0.5, 1.5), near), ((0.55, 1.5), near), ((0.59, 1.59), off), ((0.8, 1.5), away)):
        place = Place(0, 0, Point(*point))
        message = route.message(route.new_order(place), place, 2, 1)
        node = message["nodes"][0]
        told = (node["nodeId"], node["nodePosition"]["x"], node["nodePosition"]["y"])
        yield compared(f"an order for one at {point}", "Route.message", (told, message["edges"][0]["startNodeId"]), (due, due[0]))


TESTS: list[Callable[[Harness], Iterator[Outcome]]] = [of_sending, of_places, of_first_nodes]
