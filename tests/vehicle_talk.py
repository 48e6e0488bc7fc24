"""A master control of the tests, which talks to one simulated vehicle as the standard allows and as it doesn't, and writes what came of it as lines.

Usage: vehicle_talk.py PORT FOLDER, by a Python that has a client of MQTT. The vehicle's nodes stand in a row, a metre from one to the next.
"""
import json
import pathlib
import signal
import subprocess
import sys
import time
from typing import Any, Callable, Optional

ROOT = pathlib.Path(__file__).resolve().parent.parent
sys.dont_write_bytecode = True
sys.path.insert(0, str(ROOT / "examples" / "vda5050"))
from bus import Bus, Post  # noqa: E402
from standard import Heads, Identity, Message, read, written  # noqa: E402
from vehicle_rules import order  # noqa: E402

IDENTITY = Identity("maker", "one")
# Seconds within which everything comes, and in which nothing may.
LONGEST, WHILE = 20, 0.4


class Talk:
    def __init__(self, port: str, folder: pathlib.Path):
        self.port, self.folder = port, folder
        self.heads = Heads(IDENTITY)
        self.bus = Bus(("127.0.0.1", int(port)), "tests", ["uagv/v2/#"])
        self.bus.reach(LONGEST)
        self.last: dict[str, Message] = {}
        # Where the vehicle has said that it is, and its connections.
        self.reached: list[int] = []
        self.connections: list[str] = []
        self.messages: list[Post] = []
        self.process: Optional["subprocess.Popen[bytes]"] = None

    def start(self, *more: str) -> None:
        """Starts the vehicle, and waits until it is there."""
        words = [sys.executable, str(ROOT / "examples" / "vda5050" / "vehicle.py"), *IDENTITY, str(self.folder / "place"), "--speed", "2", "--every", "0.2"]
        self.last.clear()
        self.process = subprocess.Popen([*words, "--broker", f"127.0.0.1:{self.port}", *more], stdin=subprocess.DEVNULL)
        self.wait(lambda: self.last["connection"]["connectionState"] == "ONLINE" and self.state)

    def end(self, number: int) -> None:
        if self.process:
            self.process.send_signal(number)
            self.process.wait()

    @property
    def state(self) -> Message:
        return self.last["state"]

    def hear(self, seconds: float) -> None:
        self.bus.work(seconds)
        for post in self.bus.received():
            self.messages.append(post)
            kind, message = post.topic.split("/")[-1], read(post.payload) or {}
            self.last[kind] = message
            if kind == "connection":
                self.connections.append(message["connectionState"])
            if kind == "state" and self.reached[-1:] != [message["lastNodeSequenceId"]]:
                self.reached.append(message["lastNodeSequenceId"])

    def wait(self, is_so: Callable[[], Any]) -> None:
        last = time.monotonic() + LONGEST
        while time.monotonic() < last:
            try:
                if is_so():
                    return
            except (KeyError, IndexError):
                pass
            self.hear(0.05)
        raise SystemExit(f"waited in vain; the state is {self.last.get('state')}")

    def let_go_by(self) -> None:
        last = time.monotonic() + WHILE
        while time.monotonic() < last:
            self.hear(0.05)

    def send(self, message: Message) -> None:
        self.send_bytes("order", written(message))

    def send_bytes(self, kind: str, payload: bytes) -> None:
        self.bus.publish(Post(IDENTITY.topic(kind), payload))

    def act(self, kind: str, name: str) -> None:
        action = {"actionType": kind, "actionId": name, "blockingType": "NONE"}
        self.send_bytes("instantActions", written(self.heads.headed("instantActions", {"actions": [action]})))

    def status(self, name: str) -> str:
        return next((it["actionStatus"] for it in self.state["actionStates"] if it["actionId"] == name), "")

    def errors(self) -> list[str]:
        return [it["errorType"] for it in self.state["errors"]]

    def is_at(self, sequence: int) -> bool:
        return self.state["lastNodeSequenceId"] == sequence and not self.state["driving"]

    def way(self) -> str:
        """Where it is, and what is still to be driven, released nodes in capitals."""
        nodes = "".join(it["nodeId"].upper() if it["released"] else it["nodeId"] for it in self.state["nodeStates"])
        return f"{self.state['orderId']} {self.state['orderUpdateId']} {self.state['lastNodeId']}>{nodes} at {self.state['agvPosition']['x']:.1f}"


def of_orders(talk: Talk) -> None:
    talk.start()
    tell("at first", talk.way(), talk.connections)
    talk.send(order(0, 2, 4))
    talk.wait(lambda: talk.is_at(4))
    talk.let_go_by()
    tell("an order, of which the base is driven", talk.way(), talk.state["newBaseRequest"], talk.reached)
    talk.send(order(0, 4, 4))
    talk.let_go_by()
    tell("the same update with more", talk.way(), talk.errors())
    talk.send(order(3, 4, 4, update=1))
    talk.wait(talk.errors)
    tell("an update from elsewhere", talk.way(), talk.errors())
    talk.send_bytes("order", b"{")
    talk.send(order(0, 1, 1, "other"))
    talk.wait(lambda: len(talk.errors()) == 3)
    tell("no order, and another one", talk.way(), talk.errors())
    talk.send(order(2, 4, 6, update=1))
    talk.wait(lambda: talk.is_at(8))
    tell("an update", talk.way(), talk.errors())


def of_pauses(talk: Talk) -> None:
    talk.send(order(4, 5, 6, update=2))
    talk.wait(lambda: talk.state["driving"] and talk.state["agvPosition"]["x"] > 4.2)
    talk.act("startPause", "p")
    talk.wait(lambda: talk.state["paused"] and not talk.state["driving"])
    where = talk.state["agvPosition"]["x"]
    talk.let_go_by()
    tell("a pause", talk.state["agvPosition"]["x"] == where, 4.2 < where < 5, talk.status("p"))
    talk.act("stopPause", "q")
    talk.wait(lambda: talk.is_at(10))
    talk.act("stateRequest", "r")
    talk.act("factsheetRequest", "s")
    talk.act("dance", "t")
    talk.wait(lambda: talk.status("t"))
    tell("behind it", talk.way(), [talk.status(it) for it in "qrst"], talk.last["factsheet"]["typeSpecification"]["agvClass"])


def of_kills(talk: Talk) -> None:
    talk.send(order(5, 6, 7, update=3))
    talk.wait(lambda: talk.state["driving"])
    talk.connections.clear()
    talk.end(signal.SIGKILL)
    talk.wait(lambda: talk.connections[-1:] == ["CONNECTIONBROKEN"])
    talk.start()
    talk.wait(lambda: talk.is_at(12))
    tell("a kill on the way", talk.way(), talk.connections)
    talk.end(signal.SIGKILL)
    talk.start("--forgets")
    tell("a kill, and its order is forgotten", talk.way())
    talk.send(order(6, 7, 7, "elsewhere"))
    talk.wait(lambda: talk.is_at(14))
    talk.send(order(0, 1, 1, "far"))
    talk.wait(talk.errors)
    tell("an order from there, and one from elsewhere", talk.way(), talk.errors())


def of_cancelling(talk: Talk) -> None:
    back = order(0, 7, 7, "back")
    for place, node in enumerate(back["nodes"]):
        node["nodePosition"]["x"] = 7.0 - place
    talk.send(back)
    talk.wait(lambda: talk.state["driving"] and 5.2 < talk.state["agvPosition"]["x"] < 5.8)
    talk.act("cancelOrder", "c")
    talk.wait(lambda: talk.status("c") == "RUNNING")
    talk.wait(lambda: talk.status("c") == "FINISHED" and not talk.state["driving"])
    tell("a cancelled order is driven to the next node", talk.way())
    talk.act("cancelOrder", "d")
    talk.wait(lambda: talk.status("d"))
    talk.send({**order(2, 3, 3, "back", 1)})
    talk.wait(lambda: len(talk.errors()) > 1)
    tell("and is over", talk.way(), talk.status("d"), talk.errors())
    talk.end(signal.SIGTERM)
    talk.wait(lambda: talk.connections[-1] == "OFFLINE")
    tell("in the end", talk.connections[-1])


def tell(name: str, *what: object) -> None:
    print(json.dumps([name, *what]), flush=True)


def main(port: str, folder: pathlib.Path) -> None:
    talk = Talk(port, folder)
    try:
        for part in (of_orders, of_pauses, of_kills, of_cancelling):
            part(talk)
    finally:
        talk.end(signal.SIGKILL)
    lines = [json.dumps({"wall": 0, "topic": it.topic, "payload": it.payload.decode()}) for it in talk.messages]
    (folder / "messages").write_text("\n".join(lines) + "\n", encoding="utf-8")


if __name__ == "__main__":
    main(sys.argv[1], pathlib.Path(sys.argv[2]))
