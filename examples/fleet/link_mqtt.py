"""A link by MQTT: each robot says on a topic of its own, of which the broker keeps the last message for those that come later.

The topics name the run, so that what the broker keeps of another run is never heard in this one. And they name the sender: a message that names
another one is dropped, so that a broker which lets each client write on one topic alone keeps it to one name. By TLS both show certificates.
"""
import collections
import contextlib
import dataclasses
import os
import ssl
import threading
import time
from typing import Any, Deque, Optional

from addresses import Address
from letters import Letter, sender_of

try:
    import paho.mqtt.client as mqtt
except ImportError:
    mqtt = None

# Seconds after which a broker that says nothing is taken to be gone, and between two tries to reach it.
KEEPALIVE = 4
SOONEST, LATEST = 0.2, 1
# Why a message is dropped that another one says than it names.
NOT_ITS_TOPIC = "NotItsTopic"


class NoClient(Exception):
    """There is no client of MQTT for this Python."""


class NoBroker(Exception):
    """Nobody answers where the broker is to be, or it doesn't let this robot in."""


class BadCertificate(Exception):
    """A file of TLS can't be used."""


@dataclasses.dataclass(frozen=True)
class Tls:
    """The files by which a robot and its broker know each other: who signed all certificates, and the robot's own one with its key."""

    authority: str
    certificate: str
    key: str

    def context(self) -> ssl.SSLContext:
        try:
            context = ssl.create_default_context(cafile=self.authority)
        except OSError as fault:
            raise BadCertificate(f"{self.authority}: {fault.strerror or fault}") from None
        try:
            # A key with a password would ask for it.
            context.load_cert_chain(self.certificate, self.key, password="")
        except (OSError, ValueError) as fault:
            raise BadCertificate(f"{self.certificate}, {self.key}: {getattr(fault, 'strerror', None) or fault}") from None
        return context


def topic_of(run: int, agent: str) -> str:
    return f"mapf/{run}/said/{agent}"


class Steady:
    """A client whose thread goes on, whatever a connection fails by: at a fault of TLS that of paho ends, and then nothing would be heard any more."""

    fault: Optional[OSError] = None
    is_closed = False

    def loop_forever(self, *words: Any, **named: Any) -> Any:
        while not self.is_closed:
            try:
                return super().loop_forever(*words, **named)
            except OSError as fault:
                self.fault = fault
                time.sleep(LATEST)
                with contextlib.suppress(OSError):
                    self.reconnect()


def new_client(name: str) -> Any:
    """A client of paho, of whichever version, with a session that begins anew each time."""
    if mqtt is None:
        raise NoClient("a link by MQTT needs the Python package `paho-mqtt`, as Debian's python3-paho-mqtt")
    version = (mqtt.CallbackAPIVersion.VERSION2,) if hasattr(mqtt, "CallbackAPIVersion") else ()
    return type("Client", (Steady, mqtt.Client), {})(*version, client_id=name, clean_session=True)


class MqttLink:
    """A client with a thread of its own, which comes back by itself when the broker was gone."""

    def __init__(self, broker: Address, run: int, agent: int, patience: float, tls: Optional[Tls]):
        self.broker, self.tls, self.run, self.own = broker, tls, run, topic_of(run, str(agent))
        self.unsent = 0
        self.waiting: Deque[Letter] = collections.deque()
        self.woken, self.waker = os.pipe()
        os.set_blocking(self.woken, False)
        os.set_blocking(self.waker, False)
        self.client = new_client(f"mapf-{run}-{agent}")
        self.client.on_connect, self.client.on_message = self._subscribe, self._take
        self.client.reconnect_delay_set(SOONEST, LATEST)
        self.is_let_in = threading.Event()
        if tls:
            self.client.tls_set_context(tls.context())
        self._reach(patience)
        self.client.loop_start()
        # Of a certificate that it refuses a broker tells only behind a connection.
        if tls and not self.is_let_in.wait(patience):
            self.close()
            raise self._no_broker(self.client.fault or "its log may say why")

    def _reach(self, patience: float) -> None:
        last = time.monotonic() + patience
        while True:
            try:
                self.client.connect(*self.broker, keepalive=KEEPALIVE)
                return
            except OSError as fault:
                if time.monotonic() > last:
                    raise self._no_broker(fault) from None
                time.sleep(SOONEST)

    def _no_broker(self, why: object) -> NoBroker:
        where, told = "{}:{}".format(*self.broker), getattr(why, "strerror", None) or why
        return NoBroker(f"no broker at {where} lets this robot in by TLS: {told}" if self.tls else f"no broker answers at {where}: {told}")

    def _subscribe(self, *told: Any) -> None:
        """After each connection, since the broker has forgotten who was there before."""
        self.client.subscribe(topic_of(self.run, "+"), qos=0)
        # Behind the client, its data and flags, whichever version of paho it is, what the broker answered.
        if told[3] == 0:
            self.is_let_in.set()

    def _take(self, _: Any, __: Any, message: Any) -> None:
        if message.topic != self.own:
            is_its_own = message.topic == topic_of(self.run, str(sender_of(message.payload)))
            self.waiting.append(Letter(message.payload, "" if is_its_own else NOT_ITS_TOPIC))
            try:
                os.write(self.waker, b".")
            except BlockingIOError:
                # It has been woken often enough.
                pass

    def fileno(self) -> int:
        """Is readable where messages wait."""
        return self.woken

    def send(self, message: bytes) -> None:
        """Publishes a message. While the broker is gone it is lost."""
        if self.client.publish(self.own, message, qos=0, retain=True).rc != mqtt.MQTT_ERR_SUCCESS:
            self.unsent += 1

    def received(self) -> list[Letter]:
        """The messages that wait."""
        try:
            os.read(self.woken, 65_536)
        except BlockingIOError:
            pass
        return [self.waiting.popleft() for _ in range(len(self.waiting))]

    def close(self) -> None:
        self.client.is_closed = True
        self.client.disconnect()
        self.client.loop_stop()
