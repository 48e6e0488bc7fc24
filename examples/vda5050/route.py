"""An agent's path as nodes and edges of orders, and where on it a vehicle is by what it says."""
import dataclasses
import math
import re
import secrets
import subprocess
from typing import Optional, Sequence

import beside  # noqa: F401
from drive import Cell
from frame import Frame, Point
from standard import Message

# The plan's number, the agent, the cell of its path that is the order's first node, and what no other order has.
NAME = re.compile(r"(\d{1,10})-(\d{1,5})-(\d{1,5})-[0-9a-f]{8}", re.ASCII)
# So near a node, as a part of how near it counts as reached, its vehicle surely finds itself there.
SURELY = 0.9


class Astray(Exception):
    """The vehicle isn't where it may be, or says nothing of it that can be understood."""


class NoPath(Exception):
    """The program says no path of an agent."""


@dataclasses.dataclass(frozen=True)
class Order:
    """An order of this run, as its vehicle has it."""

    name: str
    update: int
    # Of the agent's path the cell that is its first node.
    first: int

    def following(self) -> "Order":
        """Its next update."""
        return dataclasses.replace(self, update=self.update + 1)


@dataclasses.dataclass(frozen=True)
class Place:
    """Where a vehicle is: it has last reached this cell of its path."""

    index: int
    # The cell to which it may drive by what it was given.
    end: int
    point: Point
    # The order that it carries out; none where another may be given.
    order: Optional[Order] = None


def path_of(program: str, files: Sequence[str], agent: int, inherited: Sequence[int] = ()) -> list[Cell]:
    """The cells of an agent's path, one behind the other, without the waits. The files may name some that the program inherits."""
    words = [program, "path", *files, "--agent", str(agent)]
    ended = subprocess.run(words, stdin=subprocess.DEVNULL, capture_output=True, text=True, pass_fds=inherited, check=False)
    if ended.returncode:
        raise NoPath(f"`mapf path` says of agent {agent} '{ended.stderr.strip()}'")
    cells: list[Cell] = []
    for line in ended.stdout.splitlines():
        _, x, y = map(int, line.split())
        if cells[-1:] != [(x, y)]:
            cells.append((x, y))
    return cells


class Route:
    """Each cell that the agent comes into is a node. A node's sequenceId is even, and counts from the order's first node."""

    def __init__(self, cells: Sequence[Cell], frame: Frame, map_id: str, run: int, agent: int):
        self.cells, self.frame, self.map_id, self.run, self.agent = cells, frame, map_id, run, agent

    @property
    def last(self) -> int:
        return len(self.cells) - 1

    # What is given out

    def node_id(self, index: int) -> str:
        return "{}-{}".format(*self.cells[index])

    def edge_id(self, index: int) -> str:
        """Of the edge from this cell of the path to the next."""
        return f"{self.node_id(index)}_{self.node_id(index + 1)}"

    def new_order(self, place: Place) -> Order:
        return Order(f"{self.run}-{self.agent}-{place.index}-{secrets.token_hex(4)}", 0, place.index)

    def message(self, order: Order, place: Place, end: int, horizon: int) -> Message:
        """An order from where the vehicle's base ends, or else from where it stands: its base goes to this cell, its horizon so much further."""
        begin, after = place.end if place.order else place.index, min(end + horizon, self.last)
        nodes = [self._node(order, index, index <= end) for index in range(begin, after + 1)]
        edges = [self._edge(order, index, index < end) for index in range(begin, after)]
        if not place.order and math.dist(self.frame.middle(self.cells[begin]), place.point) > self.frame.deviation * SURELY:
            # An order begins where the vehicle is. On the way to the next cell that is a node of its own.
            nodes[0]["nodePosition"].update(x=place.point.x, y=place.point.y)
            if len(self.frame.cells(place.point)) > 1:
                nodes[0]["nodeId"] = edges[0]["startNodeId"] = self.edge_id(begin)
        return {"orderId": order.name, "orderUpdateId": order.update, "nodes": nodes, "edges": edges}

    def _node(self, order: Order, index: int, is_released: bool) -> Message:
        middle = self.frame.middle(self.cells[index])
        # So near, that whoever has reached the node is wholly in its cell.
        position = {"x": middle.x, "y": middle.y, "mapId": self.map_id, "allowedDeviationXY": self.frame.deviation}
        sequence = 2 * (index - order.first)
        return {"nodeId": self.node_id(index), "sequenceId": sequence, "released": is_released, "nodePosition": position, "actions": []}

    def _edge(self, order: Order, index: int, is_released: bool) -> Message:
        ends = {"startNodeId": self.node_id(index), "endNodeId": self.node_id(index + 1)}
        return {"edgeId": self.edge_id(index), "sequenceId": 2 * (index - order.first) + 1, "released": is_released, **ends, "actions": []}

    # Where a vehicle is

    def locate(self, state: Message, done: int, farthest: int) -> Place:
        """By the order of this run that it has; else by its position, on what is left of the path and no further than it can have been let go."""
        point = point_of(state, self.map_id)
        found = NAME.fullmatch(state["orderId"])
        if found and (int(found[1]), int(found[2])) == (self.run, self.agent):
            try:
                return self._by_order(state, Order(state["orderId"], state["orderUpdateId"], int(found[3])), point, done)
            except Astray:
                # One that has forgotten all but its order's name is looked for too.
                if state["nodeStates"]:
                    raise
        elif state["nodeStates"]:
            raise Astray(f"it carries out an order of others, {state['orderId']!r}")
        return self._by_position(point, done, farthest)

    def _by_position(self, point: Point, done: int, farthest: int) -> Place:
        # Of two visits of one cell it is taken to be on the first: what is driven again then is held still.
        for index in range(done, min(farthest, self.last) + 1):
            if self._fits(point, index):
                return Place(index, index, point)
        raise Astray(f"it stands at {point.x:.2f} {point.y:.2f}, and its path goes on from {self.node_id(done)}")

    def _by_order(self, state: Message, order: Order, point: Point, done: int) -> Place:
        index = order.first + state["lastNodeSequenceId"] // 2
        released = [order.first + node["sequenceId"] // 2 for node in state["nodeStates"] if node["released"]]
        end = max([index, *released])
        if not done <= index <= end <= self.last or not self._is_named(state["lastNodeId"], index, index == order.first):
            raise Astray(f"its last node is {state['lastNodeId']!r}, the cell {index} of its path, and its agent has finished {done} moves")
        # It may be in the next cell already, and not so near its middle that it says so.
        if not self.frame.cells(point) <= set(self.cells[index : index + 2]):
            raise Astray(f"it stands at {point.x:.2f} {point.y:.2f}, and its last node is {state['lastNodeId']!r}")
        return Place(index, end, point, order if state["nodeStates"] else None)

    def _is_named(self, name: str, index: int, is_first: bool) -> bool:
        return name == self.node_id(index) or (is_first and index < self.last and name == self.edge_id(index))

    def _fits(self, point: Point, index: int) -> bool:
        """Whether it is in this cell of the path, or on the way from it to the next one."""
        cells = self.frame.cells(point)
        return cells == set(self.cells[index : index + 1]) or cells == set(self.cells[index : index + 2])


def point_of(state: Message, map_id: str) -> Point:
    position = state.get("agvPosition") or {}
    if not position.get("positionInitialized") or position.get("mapId") != map_id:
        raise Astray("it doesn't know where it is on this map")
    return Point(position["x"], position["y"])
