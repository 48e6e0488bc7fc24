"""A client of MQTT without a thread: whoever has it lets it work while he waits, so that what is written before something is said is written then."""
import collections
import select
import time
from typing import Any, Callable, Deque, NamedTuple, Optional, Sequence

import beside  # noqa: F401
from addresses import Address
from link_mqtt import KEEPALIVE, NoBroker, new_client

# Seconds between two tries to reach the broker, and the longest time for a leave.
SOON = 0.3


class Post(NamedTuple):
    """A message on a topic."""

    topic: str
    payload: bytes


def silent() -> None:
    """Where nothing is to be said after a connection."""


class Bus:
    """The connection, which is made again and again when it breaks. Its name is its own: a broker ends an older connection of that name, so
    that nothing which was sent there comes after what is sent here."""

    def __init__(self, broker: Address, name: str, topics: Sequence[str], will: Optional[Post] = None):
        self.broker, self.topics = broker, topics
        # Is called behind each connection.
        self.greet: Callable[[], None] = silent
        self.waiting: Deque[Post] = collections.deque()
        # How often a connection was made.
        self.connections = 0
        self.tries_at = 0.0
        self.client = new_client(name)
        self.client.on_connect, self.client.on_message = self._begin, self._take
        if will:
            self.client.will_set(will.topic, will.payload, qos=1, retain=True)

    def reach(self, patience: float) -> None:
        """Waits until the broker has answered for the first time."""
        last = time.monotonic() + patience
        while not self.connections:
            if time.monotonic() > last:
                raise NoBroker("no broker answers at {}:{}".format(*self.broker))
            self.work(SOON)

    def _begin(self, *_: Any) -> None:
        """The broker has forgotten who was there before."""
        if self.is_connected:
            self.connections += 1
            for topic in self.topics:
                self.client.subscribe(topic, qos=1)
            self.greet()

    def _take(self, _: Any, __: Any, message: Any) -> None:
        self.waiting.append(Post(message.topic, message.payload))

    @property
    def is_connected(self) -> bool:
        return self.client.is_connected()

    def publish(self, post: Post, retain: bool = False, qos: int = 0) -> None:
        """While the broker is away nothing is sent, and nothing later."""
        if self.is_connected:
            self.client.publish(post.topic, post.payload, qos=qos, retain=retain)

    def received(self) -> list[Post]:
        return [self.waiting.popleft() for _ in range(len(self.waiting))]

    def work(self, wait: float, others: Sequence[int] = ()) -> list[int]:
        """Sends and receives until a message has come, one of the other files can be read, or the time is over; answers which of these can be."""
        if self.client.socket() is None:
            self._connect()
        own = self.client.socket()
        if own is None:
            return select.select(others, [], [], min(wait, SOON))[0]
        to_write = [own] if self.client.want_write() else []
        readable, writable, _ = select.select([own, *others], to_write, [], 0 if self.waiting else wait)
        if own in readable:
            self.client.loop_read()
        if writable and self.client.socket() is not None:
            self.client.loop_write()
        self.client.loop_misc()
        return [it for it in readable if it is not own]

    def _connect(self) -> None:
        now = time.monotonic()
        if now < self.tries_at:
            return
        self.tries_at = now + SOON
        try:
            self.client.connect(*self.broker, keepalive=KEEPALIVE)
        except OSError:
            # It is tried again.
            pass

    def close(self) -> None:
        """Sends what is still to be sent, and takes its leave."""
        last = time.monotonic() + SOON
        while self.client.want_write() and time.monotonic() < last:
            self.work(SOON)
        self.client.disconnect()
