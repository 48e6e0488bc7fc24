"""The standard's rules for orders, held against what the simulated vehicle of examples/vda5050 takes and refuses; and cells as metres."""
import copy
import math
import sys
from typing import Any, Callable, Iterator, Optional

from harness import ROOT, Harness, Outcome, compared

sys.path.append(str(ROOT / "examples" / "vda5050"))
from assignment import Assignment, Refused  # noqa: E402
from frame import BadFrame, Frame, Point, read_frame  # noqa: E402
from standard import Identity  # noqa: E402

Message = dict[str, Any]
IDENTITY = Identity("maker", "one")
HEAD = {"headerId": 0, "timestamp": "2026-01-01T00:00:00.00Z", "version": "2.0.0", "manufacturer": "maker", "serialNumber": "one"}
INVALID, NOT_DOABLE, NO_UPDATE, NO_ROUTE = "validationError", "orderError", "orderUpdateError", "noRouteError"
# Cells of a row: a node each, a metre from one to the next.
ALL = "abcdefgh"


def node(place: int, sequence: int, released: bool) -> Message:
    position = {"x": float(place), "y": 0.0, "mapId": "map", "allowedDeviationXY": 0.1}
    return {"nodeId": ALL[place], "sequenceId": sequence, "released": released, "nodePosition": position, "actions": []}


def edge(place: int, sequence: int, released: bool) -> Message:
    ends = {"startNodeId": ALL[place], "endNodeId": ALL[place + 1]}
    return {"edgeId": f"to {ALL[place + 1]}", "sequenceId": sequence, "released": released, **ends, "actions": []}


def order(first: int, base: int, last: int, name: str = "order", update: int = 0) -> Message:
    """From one node to another, released up to a third; the node at place p has the number 2p."""
    nodes = [node(place, 2 * place, place <= base) for place in range(first, last + 1)]
    edges = [edge(place, 2 * place + 1, place < base) for place in range(first, last)]
    return {**HEAD, "orderId": name, "orderUpdateId": update, "nodes": nodes, "edges": edges}


def given(*orders: Message, reached: int = 0) -> Assignment:
    """A vehicle that stands at place 0 has taken these orders, and has reached so many nodes."""
    assignment = Assignment()
    for it in orders:
        assignment.take(copy.deepcopy(it), IDENTITY, lambda first: first["nodeId"] == "a")
    for _ in range(reached):
        assignment.reach()
    return assignment


def told(assignment: Assignment, message: Message, stands: str = "a") -> tuple[str, str]:
    """What comes of an order: why it is refused, if it is; and what is to be driven then, released nodes in capitals, behind the last one."""
    why = ""
    try:
        why = "" if assignment.take(copy.deepcopy(message), IDENTITY, lambda first: first["nodeId"] == stands) else "ignored"
    except Refused as fault:
        why = fault.kind
    return why, way_of(assignment)


def way_of(assignment: Assignment) -> str:
    nodes = "".join(it["nodeId"].upper() if it["released"] else it["nodeId"] for it in assignment.nodes)
    fits = [it["sequenceId"] + 1 for it in assignment.edges] == [it["sequenceId"] for it in assignment.nodes]
    return f"{assignment.last_name[0]}>{nodes}{'' if fits else ' with other edges'}"


def of_taking(_: Harness) -> Iterator[Outcome]:
    """What may follow what."""
    begun, done = order(0, 2, 4), order(0, 2, 2)
    cases: list[tuple[str, Assignment, Message, tuple[str, str]]] = [
        ("a first order", Assignment(), begun, ("", "a>BCde")),
        ("an order that begins elsewhere", Assignment(), order(1, 2, 4), (NO_ROUTE, ">")),
        ("an update that is here already", given(begun), order(0, 4, 6), ("ignored", "a>BCde")),
        ("an update from the end of the base", given(begun), order(2, 3, 6, update=1), ("", "a>BCDefg")),
        ("an update that shortens the horizon", given(begun), order(2, 3, 3, update=5), ("", "a>BCD")),
        ("an update that takes the horizon away", given(begun), order(2, 2, 2, update=1), ("", "a>BC")),
        ("an update from before the end of the base", given(begun), order(1, 3, 6, update=1), (NO_UPDATE, "a>BCde")),
        ("an update from behind the end of the base", given(begun), order(3, 4, 6, update=1), (NO_UPDATE, "a>BCde")),
        ("an update from the horizon's end", given(begun), order(4, 5, 6, update=1), (NO_UPDATE, "a>BCde")),
        ("an older update", given(begun, order(2, 3, 5, update=2)), order(3, 4, 5, update=1), (NO_UPDATE, "a>BCDef")),
        ("an update of one who waits where its base ends", given(begun, reached=2), order(2, 4, 4, update=1), ("", "c>DE")),
        ("an update of one who has come to its end", given(done, reached=2), order(2, 4, 4, update=1), ("", "c>DE")),
        ("an update from where one has been", given(begun, reached=2), order(1, 4, 4, update=1), (NO_UPDATE, "c>de")),
        ("another order, while one is carried out", given(begun), order(0, 1, 1, "other"), (NOT_DOABLE, "a>BCde")),
        ("another order, while one waits for an update", given(begun, reached=2), order(2, 3, 3, "other"), (NOT_DOABLE, "c>de")),
        ("another order of one who has come to its end", given(done, reached=2), order(0, 1, 1, "other"), ("", "a>B")),
        ("an older number of another order", given(done, reached=2), order(0, 1, 1, "another", update=7), ("", "a>B")),
    ]
    for name, assignment, message, due in cases:
        yield compared(name, "Assignment.take", told(assignment, message), due)
    other = order(2, 3, 6, update=1)
    for it in (*other["nodes"], *other["edges"]):
        it["sequenceId"] += 2
    yield compared("the right node with another number", "Assignment.take", told(given(begun), other), (NO_UPDATE, "a>BCde"))


def changed(place: tuple[Any, ...], value: object) -> Message:
    """An order, one field of which is another; none at all for no value."""
    message = copy.deepcopy(order(0, 2, 4))
    thing: Any = message
    for name in place[:-1]:
        thing = thing[name]
    if value is None:
        del thing[place[-1]]
    else:
        thing[place[-1]] = value
    return message


def of_malformed_orders(_: Harness) -> Iterator[Outcome]:
    """Whatever is wrong in an order, it is refused, and the one before stays."""
    faults: list[tuple[tuple[Any, ...], object]] = [
        *(((name,), None) for name in (*HEAD, "orderId", "orderUpdateId", "nodes", "edges")),
        *((("nodes", 1, name), None) for name in ("nodeId", "sequenceId", "released", "nodePosition", "actions")),
        *((("edges", 1, name), None) for name in ("edgeId", "sequenceId", "released", "startNodeId", "endNodeId", "actions")),
        *((("nodes", 1, "nodePosition", name), None) for name in ("x", "y", "mapId")),
        (("headerId",), "0"), (("serialNumber",), "two"), (("manufacturer",), "other"), (("version",), "1.1.0"), (("orderId",), ""), (("orderId",), 5),
        (("orderUpdateId",), -1), (("orderUpdateId",), True), (("orderUpdateId",), 0.5), (("nodes",), {}), (("nodes",), []), (("nodes", 2), 7),
        (("edges", 3), None), (("edges", 0), None), (("nodes", 4), None), (("nodes", 0, "sequenceId"), 2), (("nodes", 0, "sequenceId"), -2),
        (("nodes", 2, "sequenceId"), 5), (("edges", 2, "sequenceId"), 6), (("edges", 1, "startNodeId"), "a"), (("edges", 1, "endNodeId"), "d"),
        (("nodes", 0, "released"), False), (("nodes", 1, "released"), False), (("nodes", 3, "released"), True), (("edges", 1, "released"), False),
        (("edges", 2, "released"), True), (("nodes", 2, "released"), 1), (("nodes", 2, "nodePosition", "x"), math.inf),
        (("nodes", 2, "nodePosition", "y"), math.nan), (("nodes", 2, "nodePosition", "y"), "0"), (("nodes", 2, "actions"), None),
    ]  # fmt: skip
    for place, value in faults:
        name = f"an order with {'.'.join(map(str, place))} {'left out' if value is None else value!r}"
        yield compared(name, "Assignment.take", told(Assignment(), changed(place, value)), (INVALID, ">"))
    action = {"actionType": "lift", "actionId": "1", "blockingType": "HARD"}
    for place in (("nodes", 1, "actions"), ("edges", 3, "actions")):
        yield compared(f"an action at {place}", "Assignment.take", told(Assignment(), changed(place, [action])), (NOT_DOABLE, ">"))


def of_giving_up(_: Harness) -> Iterator[Outcome]:
    """What is left of an order that is cancelled, and what may follow it."""
    for name, is_under_way, left in (("one that stands", False, "b>"), ("one that is under way", True, "b>C")):
        assignment = given(order(0, 2, 4), reached=1)
        assignment.give_up(is_under_way)
        yield compared(f"cancelling of {name}", "Assignment.give_up", way_of(assignment), left)
        message = order(2, 3, 4, update=1) if is_under_way else order(1, 3, 4, update=1)
        yield compared(f"an update behind cancelling of {name}", "Assignment.take", told(assignment, message), (NO_UPDATE, left))
        if is_under_way:
            assignment.reach()
        yield compared("a new order behind that", "Assignment.take", told(assignment, order(0, 1, 1, "other")), ("", "a>B"))


def of_base(_: Harness) -> Iterator[Outcome]:
    """The horizon isn't driven, and more is wanted near the base's end."""
    assignment = given(order(0, 2, 4))
    seen = []
    for _ in range(3):
        following = assignment.next_node()
        seen.append((following and following["nodeId"], assignment.wants_more))
        if following:
            assignment.reach()
    yield compared("what is driven of an order", "Assignment.next_node", seen, [("b", False), ("c", True), (None, True)])


# Cells as metres


def fault_of(text: Optional[str], harness: Harness) -> str:
    folder = harness.folder({"map": b"type octile\nheight 4\nwidth 3\nmap\n", "map.yaml": (text or "").encode()})
    try:
        frame = read_frame(None if text is None else str(folder / "map.yaml"), str(folder / "map"))
    except BadFrame as fault:
        return str(fault).partition(": ")[2]
    return f"{frame.resolution:g} {frame.origin.x:g} {frame.origin.y:g} {frame.yaw:g} {frame.height}"


def of_frames(harness: Harness) -> Iterator[Outcome]:
    """What is read of a map.yaml."""
    pose, side = "`origin: [X, Y, YAW]` is wanted, on one line", "`resolution: METRES` is wanted"
    cases = [
        (None, "1 0 0 0 4"),
        ("image: a.pgm\nresolution: 0.05 # of a cell\norigin: [-1.5, 2, 0.5]\nnegate: 0\n", "0.05 -1.5 2 0.5 4"),
        ("origin: [0,0,0]\nresolution: 2\n", "2 0 0 0 4"),
        ("resolution: 1\n", pose), ("resolution: 1\norigin: [1, 2]\n", pose), ("resolution: 1\norigin:\n- 0\n- 0\n- 0\n", pose),
        ("resolution: 1\norigin: [0, 0, nan]\n", pose), ("origin: [0, 0, 0]\n", side), ("origin: [0, 0, 0]\nresolution: 0\n", side),
        ("origin: [0, 0, 0]\nresolution: wide\n", side),
    ]  # fmt: skip
    for text, due in cases:
        yield compared(f"the frame of {text!r}", "read_frame", fault_of(text, harness), due)


def of_cells(_: Harness) -> Iterator[Outcome]:
    """Where the cells are, and in which a vehicle is."""
    frame, turned = Frame(0.5, Point(10.0, 20.0), 0.0, 4), Frame(2.0, Point(1.0, 1.0), math.pi / 2, 4)
    yield compared("the lowest cell at the left", "Frame.middle", frame.middle((0, 3)), Point(10.25, 20.25))
    yield compared("a cell above to the right", "Frame.middle", frame.middle((2, 0)), Point(11.25, 21.75))
    x, y = turned.middle((2, 3))
    yield compared("a cell of a frame that is turned", "Frame.middle", (round(x, 9), round(y, 9)), (0.0, 6.0))
    for of in (frame, turned):
        back = [of.cells(of.middle((x, y))) == {(x, y)} for x in range(3) for y in range(4)]
        yield compared("each cell's middle", "Frame.cells", all(back), True)
    cases: list[tuple[float, float, set[tuple[int, int]]]] = [
        (0.25, 0.25, {(0, 3)}), (0.29, 0.21, {(0, 3)}), (0.35, 0.25, {(0, 3), (1, 3)}), (0.69, 0.25, {(0, 3), (1, 3)}), (0.72, 0.25, {(1, 3)}),
        (0.25, 0.4, {(0, 3), (0, 2)}), (0.5, 0.5, {(0, 3), (1, 3), (0, 2), (1, 2)}),
    ]  # fmt: skip
    for x, y, due in cases:
        yield compared(f"the cells at {x} {y}", "Frame.cells", frame.cells(Point(10 + x, 20 + y)), due)


TESTS: list[Callable[[Harness], Iterator[Outcome]]] = [of_taking, of_malformed_orders, of_giving_up, of_base, of_frames, of_cells]
