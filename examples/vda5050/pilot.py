"""Leads one vehicle along its agent's path: what it has done is stored first, and then it is let go as far as the agent allows."""
import math
from typing import Optional

import beside  # noqa: F401
from alarms import Alarms
from contact import AGAIN, Contact
from frame import Frame
from route import Astray, Place, Route
from standard import CANCEL_ORDER, START_PAUSE, STOP_PAUSE, Message
from teller import Teller


def bar_of(state: Message) -> str:
    """Why a vehicle gets no more to drive, by what it says of itself."""
    fatal = [it["errorType"] for it in state["errors"] if it["errorLevel"] == "FATAL"]
    if fatal:
        return f"it has the error {fatal[0]}"
    if state["operatingMode"] != "AUTOMATIC":
        return f"its mode is {state['operatingMode']}"
    return "" if state["safetyState"].get("eStop") == "NONE" else "its emergency stop is pressed"


def is_too_large(factsheet: Optional[Message], frame: Frame) -> bool:
    """Whether a vehicle that has reached a cell's node, however it is turned, may stand out of the cell."""
    size = (factsheet or {}).get("physicalParameters", {})
    length, width = size.get("length", 0), size.get("width", 0)
    return math.hypot(length, width) / 2 + frame.deviation > frame.resolution / 2


class Pilot:
    def __init__(self, route: Route, teller: Teller, contact: Contact, far: tuple[int, int], alarms: Alarms):
        self.route, self.teller, self.contact, self.alarms = route, teller, contact, alarms
        # So many moves are released behind the one that is begun, where they are allowed, and so many more are shown.
        self.ahead, self.horizon = far
        self.place: Optional[Place] = None
        self.has_news = False
        # What the operator wants.
        self.is_held = self.wants_pause = False
        self.acts_at = 0.0
        # Why the vehicle stands, if it does by what is known.
        self.bar = ""

    @property
    def has_arrived(self) -> bool:
        return self.teller.done == self.route.last

    def shown(self) -> str:
        """A line for the operator."""
        teller, place = self.teller, self.place
        where = f"at {self.route.node_id(place.index)}, released to {self.route.node_id(place.end)}" if place else "nobody knows where"
        return f"vehicle {self.route.agent} {'online' if self.contact.is_online else 'offline'} {where}, done {teller.done} of {self.route.last}"

    def go_over(self, route: Route) -> None:
        """Goes on by another plan, whose route begins as the one before."""
        self.route, self.place = route, None
        self.teller.go_over()

    def take(self, kind: str, payload: bytes) -> None:
        self.has_news |= self.contact.take(kind, payload)

    def turn(self, now: float) -> bool:
        """Does what is due, and answers whether its agent has something to say, or to hear again."""
        self._look_at_bar()
        is_opened, before = self.teller.keep(now), self.teller.said
        if not self.teller.agent:
            return False
        self.contact.ask_on(now)
        if self.contact.state and (is_opened or self.has_news):
            self._look(self.contact.state)
        if self.place:
            self._follow(self.place)
        if self.place and self.contact.state:
            self._give(self.place, now)
            self._act(self.contact.state, now)
        return is_opened or self.teller.said != before

    def _look_at_bar(self) -> None:
        """Tells why the vehicle stands, whenever that begins, whether there is more to release or not."""
        contact, before = self.contact, self.bar
        self.bar = bar_of(contact.state) if contact.state else ""
        if contact.is_known and not contact.is_online:
            self.bar = "it is offline"
        if self.bar not in ("", before):
            self.alarms.say(self.bar)

    def _look(self, state: Message) -> None:
        self.has_news, self.place = False, None
        for error in state["errors"]:
            self.alarms.tell(f"{error['errorType']}: {error.get('errorDescription', '')}")
        try:
            self.place = self.route.locate(state, self.teller.done, self.teller.farthest(self.ahead))
        except Astray as fault:
            self.alarms.tell(str(fault))

    def _follow(self, place: Place) -> None:
        """Has the agent store each move that the vehicle has done, and begin the next one. What it was let go to by what was heard once has to be
        heard again by an agent that was started again."""
        teller = self.teller
        while teller.done < place.index and teller.start() and teller.finish():
            pass
        if teller.done == place.index < self.route.last and not self.is_held:
            teller.start()

    def _give(self, place: Place, now: float) -> None:
        """Sends the vehicle an order, or an update of the one that it has, where it may go further."""
        if not self.contact.is_ready or self.is_held or self.wants_pause:
            return
        end = self.teller.allowed(self.ahead)
        # Who has an order goes on from the end of its base; who has none, as after a restart, from where it stands, once that is stored.
        if end <= place.end or (not place.order and self.teller.done < place.index):
            return
        if is_too_large(self.contact.factsheet, self.route.frame):
            self.alarms.tell("it is too large for its cells")
            return
        if self.bar:
            return
        order = place.order.following() if place.order else self.route.new_order(place)
        self.contact.give(self.route.message(order, place, end, self.horizon), now)

    def _act(self, state: Message, now: float) -> None:
        """What the operator wants is asked for until the state says that it is so."""
        kind, is_paused = "", bool(state.get("paused"))
        if self.is_held and state["nodeStates"]:
            kind = CANCEL_ORDER
        elif self.wants_pause != is_paused:
            kind = START_PAUSE if self.wants_pause else STOP_PAUSE
        if kind and self.contact.is_online and now >= self.acts_at:
            self.contact.act(kind)
            self.acts_at = now + AGAIN
