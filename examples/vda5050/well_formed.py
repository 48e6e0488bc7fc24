"""Whether a message is one that can be understood: its fields, and of an order the numbers of nodes and edges, and how they hang together."""
import math
from typing import Any, Iterator, Mapping, Optional, Sequence

from standard import Identity, Message

Kind = tuple[type, ...]
NUMBER, TEXT, LIST = (int, float), (str,), (list,)
HEAD: Mapping[str, Kind] = {"headerId": (int,), "timestamp": TEXT, "version": TEXT, "manufacturer": TEXT, "serialNumber": TEXT}
OF_ORDER: Mapping[str, Kind] = {**HEAD, "orderId": TEXT, "orderUpdateId": (int,), "nodes": LIST, "edges": LIST}
OF_ACTIONS: Mapping[str, Kind] = {**HEAD, "actions": LIST}
OF_ACTION: Mapping[str, Kind] = {"actionType": TEXT, "actionId": TEXT, "blockingType": TEXT}
OF_STEP: Mapping[str, Kind] = {"sequenceId": (int,), "released": (bool,), "actions": LIST}
OF_NODE: Mapping[str, Kind] = {**OF_STEP, "nodeId": TEXT, "nodePosition": (dict,)}
OF_EDGE: Mapping[str, Kind] = {**OF_STEP, "edgeId": TEXT, "startNodeId": TEXT, "endNodeId": TEXT}
OF_POSITION: Mapping[str, Kind] = {"x": NUMBER, "y": NUMBER, "mapId": TEXT}
WHERE: Mapping[str, Kind] = {"orderId": TEXT, "orderUpdateId": (int,), "lastNodeId": TEXT, "lastNodeSequenceId": (int,)}
OF_STATE: Mapping[str, Kind] = {**HEAD, **WHERE, "nodeStates": LIST, "actionStates": LIST, "errors": LIST, "operatingMode": TEXT, "safetyState": (dict,)}
OF_NODE_STATE: Mapping[str, Kind] = {"nodeId": TEXT, "sequenceId": (int,), "released": (bool,)}
OF_ACTION_STATE: Mapping[str, Kind] = {"actionId": TEXT, "actionStatus": TEXT}
OF_FACTSHEET: Mapping[str, Kind] = {**HEAD, "physicalParameters": (dict,)}
OF_SIZE: Mapping[str, Kind] = {"length": NUMBER, "width": NUMBER}
OF_ERROR: Mapping[str, Kind] = {"errorType": TEXT, "errorLevel": TEXT}


def lacking(thing: Any, fields: Mapping[str, Kind]) -> Optional[str]:
    """The first field that isn't there or of another kind."""
    if not isinstance(thing, dict):
        return "an object"
    for name, kind in fields.items():
        value = thing.get(name)
        # Of Python's kinds a truth value is a number too.
        if not isinstance(value, kind) or (isinstance(value, bool) and bool not in kind):
            return name
    return None


def fault_of_order(order: Message, identity: Identity) -> Optional[str]:
    """What is wrong with an order, if anything is."""
    return next(faults_of_order(order, identity), None)


def fault_of_actions(message: Message, identity: Identity) -> Optional[str]:
    return next(faults_of_head(message, OF_ACTIONS, identity), None) or next(faults_of_each(message["actions"], OF_ACTION, "action"), None)


def fault_of_factsheet(message: Message, identity: Identity) -> Optional[str]:
    return next(faults_of_head(message, OF_FACTSHEET, identity), None) or next(faults_of_each([message["physicalParameters"]], OF_SIZE, "size"), None)


def fault_of_state(state: Message, identity: Identity) -> Optional[str]:
    return next(faults_of_state(state, identity), None)


def faults_of_state(state: Message, identity: Identity) -> Iterator[str]:
    yield from faults_of_head(state, OF_STATE, identity)
    for name, fields in (("nodeStates", OF_NODE_STATE), ("actionStates", OF_ACTION_STATE), ("errors", OF_ERROR)):
        yield from faults_of_each(state[name], fields, name)
    if state.get("agvPosition") is not None:
        yield from faults_of_each([state["agvPosition"]], OF_POSITION, "position")


def faults_of_head(message: Message, fields: Mapping[str, Kind], identity: Identity) -> Iterator[str]:
    name = lacking(message, fields)
    if name:
        yield f"{name} is wanted"
    elif (message["manufacturer"], message["serialNumber"]) != identity:
        yield "it is another vehicle's"
    elif not message["version"].startswith("2."):
        yield "version 2 is wanted"


def faults_of_each(things: Sequence[Any], fields: Mapping[str, Kind], what: str) -> Iterator[str]:
    for place, thing in enumerate(things):
        name = lacking(thing, fields)
        if name:
            yield f"{name} of {what} {place} is wanted"


def faults_of_order(order: Message, identity: Identity) -> Iterator[str]:
    """In an order in which each fault stands before those that could not be looked for because of it."""
    yield from faults_of_head(order, OF_ORDER, identity)
    nodes, edges = order["nodes"], order["edges"]
    yield from faults_of_each(nodes, OF_NODE, "node")
    yield from faults_of_each(edges, OF_EDGE, "edge")
    positions = [it["nodePosition"] for it in nodes]
    yield from faults_of_each(positions, OF_POSITION, "position")
    if not all(math.isfinite(it["x"]) and math.isfinite(it["y"]) for it in positions):
        yield "positions are finite"
    if order["orderUpdateId"] < 0 or not order["orderId"]:
        yield "orderId and orderUpdateId are wanted"
    if len(nodes) != len(edges) + 1:
        yield "an edge between each two nodes is wanted, and no more"
    if not nodes[0]["released"]:
        yield "a node to begin from is wanted, which is released"
    yield from faults_between(nodes, edges)


def faults_between(nodes: Sequence[Message], edges: Sequence[Message]) -> Iterator[str]:
    first = nodes[0]["sequenceId"]
    if first < 0 or first % 2:
        yield "the sequenceId of a node is even"
    for place, (edge, node) in enumerate(zip(edges, nodes[1:])):
        if (edge["sequenceId"], node["sequenceId"]) != (first + 2 * place + 1, first + 2 * place + 2):
            yield f"the sequenceId rises by one, and doesn't at edge {place}"
        if (edge["startNodeId"], edge["endNodeId"]) != (nodes[place]["nodeId"], node["nodeId"]):
            yield f"edge {place} leads from one node to the next, and doesn't"
        if edge["released"] != node["released"]:
            yield f"edge {place} and the node behind it are released together"
        if node["released"] and not nodes[place]["released"]:
            yield f"node {place + 1} is released, and the one before isn't"
