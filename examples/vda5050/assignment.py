"""The order that a vehicle carries out, and the standard's rules for taking another, going on with it and giving it up."""
import dataclasses
from typing import Callable, Optional

from standard import Identity, Message
from well_formed import fault_of_order

# Why an order isn't taken, as the standard names it.
INVALID, NOT_DOABLE, NO_UPDATE, NO_ROUTE = "validationError", "orderError", "orderUpdateError", "noRouteError"
# Why an order isn't given up.
NOTHING_TO_CANCEL = "noOrderToCancel"


class Refused(Exception):
    """An order isn't taken, and the one before goes on."""

    def __init__(self, kind: str, why: str):
        super().__init__(why)
        self.kind = kind


@dataclasses.dataclass
class Assignment:
    """What is still to be driven of an order: its nodes, each behind the edge that leads to it."""

    order_id: str = ""
    update_id: int = 0
    # The last node that was reached, if there was one.
    last: Message = dataclasses.field(default_factory=dict)
    nodes: list[Message] = dataclasses.field(default_factory=list)
    edges: list[Message] = dataclasses.field(default_factory=list)
    # Whether it was cancelled: then nothing goes on from it.
    is_over: bool = False

    @property
    def last_name(self) -> tuple[str, int]:
        return self.last.get("nodeId", ""), self.last.get("sequenceId", 0)

    @property
    def base(self) -> list[Message]:
        """The released nodes that are still to be reached."""
        return [node for node in self.nodes if node["released"]]

    @property
    def decision_point(self) -> tuple[str, int]:
        """Where the base ends, by its node's names."""
        base = self.base
        return (base[-1]["nodeId"], base[-1]["sequenceId"]) if base else self.last_name

    @property
    def wants_more(self) -> bool:
        """Whether the end of the base is near, and the order goes on behind it."""
        base = len(self.base)
        return base <= 1 and base < len(self.nodes)

    def take(self, order: Message, identity: Identity, is_near: Callable[[Message], bool]) -> bool:
        """Takes an order or an update of the one at hand. An update that is here already changes nothing."""
        fault = fault_of_order(order, identity)
        if fault:
            raise Refused(INVALID, fault)
        if any(it["actions"] for it in (*order["nodes"], *order["edges"])):
            raise Refused(NOT_DOABLE, "this vehicle has no actions on nodes and edges")
        if order["orderId"] == self.order_id:
            return self._take_update(order)
        if self.nodes:
            raise Refused(NOT_DOABLE, f"the order {self.order_id} isn't done yet")
        if not is_near(order["nodes"][0]):
            raise Refused(NO_ROUTE, f"the node {order['nodes'][0]['nodeId']} isn't where this vehicle stands")
        self._begin(order)
        return True

    def _take_update(self, order: Message) -> bool:
        if order["orderUpdateId"] == self.update_id:
            return False
        if order["orderUpdateId"] < self.update_id:
            raise Refused(NO_UPDATE, f"the update {self.update_id} is here already")
        if self.is_over:
            raise Refused(NO_UPDATE, "the order was cancelled")
        first = order["nodes"][0]
        if (first["nodeId"], first["sequenceId"]) != self.decision_point:
            raise Refused(NO_UPDATE, "it doesn't begin where the base ends, at {} {}".format(*self.decision_point))
        base = self.base
        self.update_id = order["orderUpdateId"]
        self.nodes, self.edges = base + order["nodes"][1:], self.edges[: len(base)] + order["edges"]
        return True

    def _begin(self, order: Message) -> None:
        self.order_id, self.update_id = order["orderId"], order["orderUpdateId"]
        self.last, self.nodes, self.edges, self.is_over = order["nodes"][0], order["nodes"][1:], order["edges"], False

    def next_node(self) -> Optional[Message]:
        """The node to drive to, if one is released."""
        return self.nodes[0] if self.nodes and self.nodes[0]["released"] else None

    def reach(self) -> None:
        """The next node was reached."""
        self.last = self.nodes.pop(0)
        self.edges.pop(0)

    def give_up(self, is_under_way: bool) -> None:
        """Nothing is left of the order but, between two nodes, the way to the next one."""
        kept = 1 if is_under_way else 0
        self.nodes, self.edges, self.is_over = self.nodes[:kept], self.edges[:kept], True
