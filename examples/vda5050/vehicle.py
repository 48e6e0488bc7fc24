#!/usr/bin/env python3
"""A simulated vehicle that follows VDA 5050, version 2.0, and knows of nothing else.

Usage: vehicle.py MANUFACTURER SERIAL FILE --broker HOST:PORT --at X Y THETA --map-id NAME [OPTIONS]

It takes orders that are well formed and begin where it stands, or go on from the end of their base, and drives the released nodes alone, straight from one
to the next. It may be killed at any moment: FILE has where it is, and FILE.order its order, unless it forgets that.

Status 2: a bad command line. 3: a file or a socket failed, or there is no client of MQTT. It ends when it is asked to.
"""
import argparse
import pathlib
import sys
import time
from typing import Optional, Sequence

sys.dont_write_bytecode = True
import beside  # noqa: E402, F401
from addresses import address  # noqa: E402
from assignment import INVALID, NOTHING_TO_CANCEL, Refused  # noqa: E402
from body import Body, Memory  # noqa: E402
from bus import Bus, Post  # noqa: E402
from leaving import heed_signals  # noqa: E402
from link_mqtt import NoBroker, NoClient  # noqa: E402
from standard import BROKEN, CANCEL_ORDER, CONNECTION, FACTSHEET, FACTSHEET_REQUEST, FAILED, FINISHED, INSTANT_ACTIONS  # noqa: E402
from standard import OFFLINE, ONLINE, ORDER, RUNNING, START_PAUSE, STATE, STATE_REQUEST, STOP_PAUSE, VISUALIZATION  # noqa: E402
from standard import Heads, Identity, Message, read, written  # noqa: E402
from well_formed import fault_of_actions  # noqa: E402

LOST = 3
# Seconds between two steps, and between two pictures of where it is.
STEP, PICTURE = 0.04, 0.5
# How near a node counts as reached whose order says nothing, in metres.
USUAL_DEVIATION = 0.05
# So many actions are remembered.
REMEMBERED = 16
# What the vehicle is, in metres and kilograms.
LENGTH, WIDTH, HEIGHT, WEIGHT = 0.6, 0.4, 0.3, 50
HIDDEN = {"safetyState": {"eStop": "NONE", "fieldViolation": False}, "batteryState": {"batteryCharge": 80.0, "charging": False}}


def read_words(words: Sequence[str]) -> argparse.Namespace:
    parser = argparse.ArgumentParser(prog="vehicle.py", description=__doc__, formatter_class=argparse.RawDescriptionHelpFormatter)
    parser.add_argument("manufacturer", metavar="MANUFACTURER")
    parser.add_argument("serial", metavar="SERIAL")
    parser.add_argument("file", type=pathlib.Path, metavar="FILE", help="where it keeps where it is")
    parser.add_argument("--broker", type=address, required=True, metavar="HOST:PORT")
    parser.add_argument("--at", type=float, nargs=3, default=[0.0, 0.0, 0.0], metavar=("X", "Y", "THETA"), help="where it is at first, in metres")
    parser.add_argument("--map-id", default="map", metavar="NAME", help="the map that it knows (%(default)s)")
    parser.add_argument("--speed", type=float, default=1.0, metavar="V", help="metres a second (%(default)g)")
    parser.add_argument("--every", type=float, default=30.0, metavar="S", help="says its state again after so many seconds (%(default)g)")
    parser.add_argument("--forgets", action="store_true", help="forgets the order that it had when it ended")
    parser.add_argument("--patience", type=float, default=60.0, metavar="S", help="how long a broker may be away at first (%(default)g)")
    parser.add_argument("--floor", metavar="SOCKET", help="is told of each step before it is made")
    return parser.parse_args(words)


class Vehicle:
    def __init__(self, given: argparse.Namespace):
        self.given, self.identity = given, Identity(given.manufacturer, given.serial)
        self.heads = Heads(self.identity)
        self.body = Body(given.file, given.at, given.serial, given.floor)
        self.memory = Memory(given.file.with_name(f"{given.file.name}.order"), given.forgets)
        self.order = self.memory.recall()
        self.is_paused = False
        self.errors: list[Message] = []
        self.actions: list[Message] = []
        self.says_at = self.shows_at = 0.0
        broken = self._post(CONNECTION, {"connectionState": BROKEN})
        topics = [self.identity.topic(ORDER), self.identity.topic(INSTANT_ACTIONS)]
        self.bus = Bus(given.broker, "-".join(self.identity), topics, broken)
        self.bus.greet = self._greet

    def _post(self, kind: str, content: Message) -> Post:
        return Post(self.identity.topic(kind), written(self.heads.headed(kind, content)))

    def _greet(self) -> None:
        self.bus.publish(self._post(CONNECTION, {"connectionState": ONLINE}), retain=True, qos=1)
        self.say()

    # What it says

    def _position(self) -> Message:
        return {"x": self.body.x, "y": self.body.y, "theta": self.body.theta, "mapId": self.given.map_id, "positionInitialized": True}

    def say(self) -> None:
        """Its state, now and not only when it is due."""
        order = self.order
        node, sequence = order.last_name
        named = {"orderId": order.order_id, "orderUpdateId": order.update_id, "lastNodeId": node, "lastNodeSequenceId": sequence}
        nodes = [{name: node[name] for name in ("nodeId", "sequenceId", "released", "nodePosition")} for node in order.nodes]
        edges = [{name: edge[name] for name in ("edgeId", "sequenceId", "released")} for edge in order.edges]
        moves = {"driving": self.is_driving, "paused": self.is_paused, "newBaseRequest": order.wants_more, "operatingMode": "AUTOMATIC"}
        lists = {"nodeStates": nodes, "edgeStates": edges, "actionStates": self.actions, "errors": self.errors}
        self.bus.publish(self._post(STATE, {**named, **moves, **lists, **HIDDEN, "agvPosition": self._position()}))
        self.says_at = time.monotonic() + self.given.every

    def _show(self) -> None:
        self.bus.publish(self._post(VISUALIZATION, {"agvPosition": self._position()}))
        self.shows_at = time.monotonic() + PICTURE

    def _say_what_it_is(self) -> None:
        kind = {"seriesName": "simulated", "agvKinematic": "DIFF", "agvClass": "CARRIER", "maxLoadMass": 0}
        size = {"length": LENGTH, "width": WIDTH, "heightMin": HEIGHT, "heightMax": HEIGHT}
        speeds = {"speedMin": 0, "speedMax": self.given.speed, "accelerationMax": 1, "decelerationMax": 1}
        limits: Message = {"maxStringLens": {}, "maxArrayLens": {}, "timing": {"minOrderInterval": 0, "minStateInterval": 0}}
        ways = {"localizationTypes": ["NATURAL"], "navigationTypes": ["VIRTUAL_LINE_GUIDED"]}
        actions = [{"actionType": it, "actionScopes": ["INSTANT"]} for it in (CANCEL_ORDER, START_PAUSE, STOP_PAUSE, STATE_REQUEST, FACTSHEET_REQUEST)]
        content = {"typeSpecification": {**kind, **ways}, "physicalParameters": {**size, **speeds}, "protocolLimits": limits}
        content.update(protocolFeatures={"optionalParameters": [], "agvActions": actions}, agvGeometry={}, loadSpecification={})
        self.bus.publish(self._post(FACTSHEET, content))

    # What it hears

    def heed(self, post: Post) -> None:
        message = read(post.payload)
        if message is None:
            self._complain(INVALID, "no object of JSON", {})
        elif post.topic == self.identity.topic(ORDER):
            self._take_order(message)
        else:
            self._take_actions(message)

    def _complain(self, kind: str, why: str, about: Message) -> None:
        """Tells why an order wasn't taken, until one is."""
        references = [{"referenceKey": key, "referenceValue": str(about[key])} for key in ("orderId", "orderUpdateId", "actionId") if key in about]
        error = {"errorType": kind, "errorLevel": "WARNING", "errorDescription": why, "errorReferences": references}
        if error not in self.errors:
            self.errors.append(error)
        self.say()

    def _take_order(self, message: Message) -> None:
        try:
            if not self.order.take(message, self.identity, self._is_near):
                return
        except Refused as fault:
            self._complain(fault.kind, str(fault), message)
            return
        self.errors.clear()
        self.memory.keep(self.order)
        self.say()

    def _is_near(self, node: Message) -> bool:
        place = node["nodePosition"]
        return place["mapId"] == self.given.map_id and self.body.distance(place["x"], place["y"]) <= deviation_of(node)

    def _take_actions(self, message: Message) -> None:
        fault = fault_of_actions(message, self.identity)
        if fault:
            self._complain(INVALID, fault, message)
            return
        for action in message["actions"]:
            # What comes twice is done once.
            if not any(it["actionId"] == action["actionId"] for it in self.actions):
                self._act(action)

    def _act(self, action: Message) -> None:
        kind, status = action["actionType"], FINISHED
        if kind == CANCEL_ORDER and self.order.nodes:
            self.order.give_up(self._is_under_way())
            self.memory.keep(self.order)
            status = RUNNING if self.order.nodes else FINISHED
        elif kind in (START_PAUSE, STOP_PAUSE):
            self.is_paused = kind == START_PAUSE
        elif kind == FACTSHEET_REQUEST:
            self._say_what_it_is()
        elif kind != STATE_REQUEST:
            status = FAILED
        self.actions = [*self.actions, {"actionId": action["actionId"], "actionType": kind, "actionStatus": status}][-REMEMBERED:]
        if kind == CANCEL_ORDER and status == FAILED:
            self._complain(NOTHING_TO_CANCEL, "there is no order", action)
        self.say()

    # How it drives

    def _is_under_way(self) -> bool:
        """Whether it has left the last node, and so goes on to the next one in any case."""
        last = self.order.last
        return bool(last and self.order.next_node()) and not self._is_near(last)

    def _target(self) -> Optional[Message]:
        """The released node to drive to; else the middle of the last one, where it isn't there yet."""
        if self.is_paused:
            return None
        node, last = self.order.next_node(), self.order.last
        if node:
            return node
        return last if last and 0 < self._distance(last) <= deviation_of(last) else None

    def _distance(self, node: Message) -> float:
        return self.body.distance(node["nodePosition"]["x"], node["nodePosition"]["y"])

    @property
    def is_driving(self) -> bool:
        return self._target() is not None

    def drive(self, seconds: float) -> None:
        """Comes on so far as it does in this time."""
        target = self._target()
        if not target:
            return
        if self._distance(target):
            self.body.step(target["nodePosition"]["x"], target["nodePosition"]["y"], self.given.speed * seconds)
        if target is self.order.next_node() and self._distance(target) <= deviation_of(target):
            self.order.reach()
            if not self.order.nodes:
                self.actions = [{**it, "actionStatus": FINISHED} if it["actionStatus"] == RUNNING else it for it in self.actions]
            self.memory.keep(self.order)
            self.say()
        elif not self.is_driving:
            self.say()

    def live(self) -> None:
        self.bus.reach(self.given.patience)
        last = time.monotonic()
        while True:
            now = time.monotonic()
            # Who was stopped for a while hasn't driven meanwhile.
            self.drive(min(now - last, 2 * STEP))
            last = now
            if now >= self.says_at:
                self.say()
            if now >= self.shows_at:
                self._show()
            self.bus.work(STEP if self.is_driving else min(max(self.says_at - now, 0), PICTURE))
            for post in self.bus.received():
                self.heed(post)

    def leave(self) -> None:
        self.bus.publish(self._post(CONNECTION, {"connectionState": OFFLINE}), retain=True, qos=1)
        self.bus.close()


def deviation_of(node: Message) -> float:
    """How near a node counts as reached."""
    return float(node["nodePosition"].get("allowedDeviationXY") or USUAL_DEVIATION)


def main(words: Sequence[str]) -> int:
    given = read_words(words)
    try:
        vehicle = Vehicle(given)
        try:
            vehicle.live()
        finally:
            vehicle.leave()
    except (NoClient, NoBroker) as fault:
        why = str(fault)
    except OSError as fault:
        why = f"{fault.filename or given.file}: {fault.strerror or fault}"
    print(f"vehicle {given.serial}: {why}", file=sys.stderr)
    return LOST


if __name__ == "__main__":
    heed_signals()
    sys.exit(main(sys.argv[1:]))
