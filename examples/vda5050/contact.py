"""A vehicle as its master control sees it: what it says of itself, and what is sent to it.

An order is sent only where nothing that was sent before can still come. So at most one is on its way, which the vehicle hasn't had before: else one that
forgets its order when it restarts might take an old one for new, and drive a way again. What became of an order the state says; where it doesn't, a
`stateRequest` is sent behind it, and once that is answered the order was lost or refused.
"""
import secrets
from typing import Callable, Optional

from bus import Bus, Post
from standard import CONNECTION, FACTSHEET, FACTSHEET_REQUEST, FAILED, FINISHED, INSTANT_ACTIONS, ONLINE, ORDER, STATE, STATE_REQUEST
from standard import Heads, Identity, Message, read, written
from well_formed import fault_of_factsheet, fault_of_state

# Seconds after which an answer is asked for again.
AGAIN = 1.0


class Contact:
    def __init__(self, identity: Identity, bus: Bus, alarm: Callable[[str], None]):
        self.identity, self.bus, self.alarm = identity, bus, alarm
        self.heads = Heads(identity)
        self.is_online = False
        # Whether it has ever said so.
        self.is_known = False
        self.state: Optional[Message] = None
        self.factsheet: Optional[Message] = None
        # Whether nothing is on its way of which it isn't known what becomes of it.
        self.is_settled = False
        # The order that was sent and that no state has shown yet.
        self.sent: Optional[tuple[str, int]] = None
        # The last question for the state, and when what was sent last is asked for again.
        self.question = ""
        self.asks_at = 0.0

    @property
    def is_ready(self) -> bool:
        """Whether an order may be sent."""
        return self.is_online and self.is_settled and not self.sent

    def unsettle(self) -> None:
        """What was on its way may be lost, or may still come."""
        self.is_settled, self.question, self.asks_at = False, "", 0.0

    # What it says

    def take(self, kind: str, payload: bytes) -> bool:
        """Whether it is a state that says where the vehicle is."""
        message = read(payload)
        if message is None:
            self.alarm(f"its {kind} is no object of JSON")
        elif kind == CONNECTION:
            self.is_known, self.is_online = True, message.get("connectionState") == ONLINE
            self.unsettle()
            if self.is_online and not self.factsheet:
                self.act(FACTSHEET_REQUEST)
        elif kind == FACTSHEET:
            fault = fault_of_factsheet(message, self.identity)
            if fault:
                self.alarm(f"its factsheet can't be understood: {fault}")
            else:
                self.factsheet = message
        elif kind == STATE:
            return self._take_state(message)
        return False

    def _take_state(self, state: Message) -> bool:
        fault = fault_of_state(state, self.identity)
        if fault:
            self.alarm(f"its state can't be understood: {fault}")
            return False
        self.state = state
        answers = {it["actionStatus"] for it in state["actionStates"] if it["actionId"] == self.question}
        is_answered = FINISHED in answers
        if FAILED in answers:
            self.alarm(f"it answers {STATE_REQUEST} with {FAILED}")
        if is_answered:
            self.is_settled, self.question = True, ""
        if is_answered or self.sent == (state["orderId"], state["orderUpdateId"]):
            self.sent = None
        return True

    # What is sent to it

    def act(self, kind: str) -> str:
        """Sends an instant action, and answers its name."""
        name = secrets.token_hex(8)
        action = {"actionType": kind, "actionId": name, "blockingType": "NONE", "actionParameters": []}
        self._send(INSTANT_ACTIONS, {"actions": [action]})
        return name

    def _send(self, kind: str, content: Message) -> None:
        self.bus.publish(Post(self.identity.topic(kind), written(self.heads.headed(kind, content))))

    def give(self, order: Message, now: float) -> None:
        self._send(ORDER, order)
        self.sent, self.question, self.asks_at = (order["orderId"], order["orderUpdateId"]), "", now + AGAIN

    def ask_on(self, now: float) -> None:
        """Asks for the state, where something isn't known and enough time is over."""
        if self.is_online and (self.sent or not self.is_settled) and now >= self.asks_at:
            self.question, self.asks_at = self.act(STATE_REQUEST), now + AGAIN
