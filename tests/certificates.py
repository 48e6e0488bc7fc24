"""A broker of MQTT that lets in only who has a certificate of the fleet, each client to its own topic: examples/fleet/broker, on a real mosquitto."""
import contextlib
import functools
import pathlib
import shutil
import subprocess
import sys
from typing import Callable, Iterator, Sequence

import robots
from harness import ROOT, Ended, Harness, Outcome, compared, shown

FLEET = ROOT / "examples" / "fleet"
MAKE = FLEET / "broker" / "certificates.sh"
sys.path.append(str(FLEET))
from broker import Broker  # noqa: E402

# A client with a certificate, or with none, says whether it is let in, publishes words on topics, and tells all that it hears until it is killed.
CLIENT = """
import os, sys, threading
import paho.mqtt.client as mqtt
# Nobody waits for ever for what isn't heard.
threading.Timer(60, os._exit, (1,)).start()
port, patience, folder, name, client_id, *topics = sys.argv[1:]
client = mqtt.Client(*([mqtt.CallbackAPIVersion.VERSION1] if hasattr(mqtt, "CallbackAPIVersion") else []), client_id=client_id)
is_in, is_there = threading.Event(), threading.Event()
client.on_connect = lambda client, data, flags, code: code == 0 and (client.subscribe("mapf/7/said/+"), is_in.set())
client.on_subscribe = lambda *_: is_there.set()
client.on_message = lambda client, data, message: print(message.topic, message.payload.decode(), flush=True)
# What paho's thread ends by is told here as not being let in.
threading.excepthook = lambda _: None
if name != "plain":
    files = {} if name == "none" else {"certfile": f"{folder}/{name}.pem", "keyfile": f"{folder}/{name}.key"}
    client.tls_set(ca_certs=f"{folder}/ca.pem", **files)
try:
    client.connect("127.0.0.1", int(port))
    client.loop_start()
    print("in" if is_in.wait(int(patience)) and is_there.wait(int(patience)) else "out", flush=True)
except OSError:
    print("out", flush=True)
for topic in topics:
    client.publish(topic, f"by {name}", qos=1)
sys.stdin.read()
"""

# Who isn't let in: whether its files are another fleet's, their name, and what it has.
STRANGERS = ((False, "none", "no certificate"), (True, "1", "that of another authority"), (False, "broker", "the broker's"), (False, "plain", "no TLS"))


class Clients:
    """Clients of a broker, each a process."""

    def __init__(self, python: str, port: int):
        self.python, self.port, self.running = python, port, []

    def add(self, folder: pathlib.Path, name: str, client_id: str, topics: Sequence[str] = (), patience: int = 30) -> "subprocess.Popen[str]":
        words = [self.python, "-c", CLIENT, str(self.port), str(patience), str(folder), name, client_id, *topics]
        process = subprocess.Popen(words, stdin=subprocess.PIPE, stdout=subprocess.PIPE, text=True, cwd="/")
        self.running.append(process)
        return process

    def close(self) -> None:
        for process in self.running:
            process.kill()
            process.communicate()


def made(harness: Harness, count: int = 3) -> pathlib.Path:
    """A folder of certificates."""
    folder = harness.folder() / "tls"
    harness.run(["sh", str(MAKE), str(folder), "127.0.0.1", str(count)])
    return folder


def lines_until(process: "subprocess.Popen[str]", last: str) -> list[str]:
    found = []
    while not found or found[-1] not in (last, ""):
        found.append(process.stdout.readline().strip())
    return found


@contextlib.contextmanager
def broker_of(harness: Harness, tls: pathlib.Path) -> Iterator[int]:
    """The port of a broker, which is stopped then."""
    port = robots.free_port()
    broker = Broker(f"127.0.0.1:{port}", [], harness.folder(), tls)
    try:
        yield port
    finally:
        broker.stop()


def of_clients(harness: Harness, python: str) -> list[Outcome]:
    """Who may speak: robots of the fleet, each on its own topic, and nobody in another's name."""
    tls, others = made(harness), made(harness)
    with broker_of(harness, tls) as port, contextlib.closing(Clients(python, port)) as clients:
        listener = clients.add(tls, "0", "mapf-7-0")
        let_in = {"0": listener.stdout.readline().strip()}
        # A robot that says that it is another client, and speaks on its topic; and then on its own.
        topics = ["mapf/7/said/2", "mapf/7/said/0", "mapf/8/said/1/1", "mapf/7/said/", "other", "mapf/7/said/1"]
        clients.add(tls, "1", "mapf-7-0", topics)
        heard = lines_until(listener, "mapf/7/said/1 by 1")
        shutil.copy(tls / "ca.pem", others / "ca.pem")
        strangers = {what: clients.add(others if is_foreign else tls, name, "mapf-7-1", patience=2) for is_foreign, name, what in STRANGERS}
        let_in.update({what: stranger.stdout.readline().strip() for what, stranger in strangers.items()})
        clients.add(tls, "2", "mapf-7-2", ["mapf/7/said/1", "mapf/7/said/2"])
        heard += lines_until(listener, "mapf/7/said/2 by 2")
    ran = "mosquitto with examples/fleet/broker/mosquitto.conf and acl"
    due = {"0": "in", **{what: "out" for _, _, what in STRANGERS}}
    return [
        compared("who is let in by a broker", ran, let_in, due),
        compared("what a broker lets its clients say", ran, heard, ["mapf/7/said/1 by 1", "mapf/7/said/2 by 2"]),
    ]


def of_robots(harness: Harness, python: str) -> list[Outcome]:
    """A robot that isn't let in, or doesn't know its broker, says so in a line."""
    tls, others, outcomes = made(harness), made(harness), []
    with broker_of(harness, tls) as port:
        link, out = ["--broker", f"127.0.0.1:{port}", "--patience", "1"], f"no broker at 127.0.0.1:{port} lets this robot in by TLS: "
        for name, files, told in (
            ("another fleet's certificate", (tls / "ca.pem", others / "0.pem", others / "0.key"), out),
            ("a broker of another authority", (others / "ca.pem", tls / "0.pem", tls / "0.key"), out),
            ("another's key", (tls / "ca.pem", tls / "0.pem", tls / "1.key"), f"{tls}/0.pem, {tls}/1.key: "),
            ("no certificate", (tls / "ca.pem", tls / "7.pem", tls / "0.key"), f"{tls}/7.pem, {tls}/0.key: No such file or directory"),
            ("no authority", (tls / "no.pem", tls / "0.pem", tls / "0.key"), f"{tls}/no.pem: No such file or directory"),
        ):
            folder = harness.folder()
            robots.make_tape(harness, folder)
            words = [python, *robots.robot_words(harness, *link, "--tls", *map(str, files))[1:]]
            ended = harness.run(words, folder=folder)
            lines = ended.err.decode().splitlines()
            wrote = (ended.status, len(lines), lines[-1:] and lines[-1].startswith(f"robot 0: {told}"))
            outcomes.append(compared(f"a robot with {name}", f"{shown(words)}, which told {ended.err!r}", wrote, (3, 1, True)))
    return outcomes


def of_a_fleet(harness: Harness) -> list[Outcome]:
    """A fleet that signs, over TLS, whose robots are killed and whose broker is stopped. What a broker has kept may be heard twice, and is dropped."""
    tls = made(harness)
    words = ["--link", "mqtt", "--tls", str(tls), "--keys", "fleet.keys", "--robots", "3", "--moves", "0.2", "--kills", "5", "--stops", "0.5", "--seed", "4"]
    fleet = robots.Fleet(harness, words)
    ended = fleet.run()
    counted = fleet.counted(ended)
    wrote = (ended.status, [run["arrived"] for run in counted], fleet.held(), robots.short_of(counted, {robots.KILLS: 1}))
    ran = f"{shown(fleet.command)}, which told {ended.out[-1500:]!r} {ended.err[-1500:]!r}"
    name = "a fleet that signs, by TLS"
    return [compared(name, ran, wrote, (0, [3], [True], {})), *fleet.boxes(name)]


def of_making(harness: Harness) -> list[Outcome]:
    """Certificates are made once, more may follow, and each is good for what it is to be used for, and nothing else."""
    folder = harness.folder() / "tls"
    make = ["sh", str(MAKE), str(folder), "broker.example"]
    ended = [harness.run([*make, "2"])]
    before = {path.name: path.read_bytes() for path in folder.iterdir()}
    ended.append(harness.run([*make, "3"]))
    after = {path.name: path.read_bytes() for path in folder.iterdir()}
    names = sorted(f"{name}.{ending}" for name in ("0", "1", "broker", "ca") for ending in ("key", "pem"))
    kept = {name: after[name] for name in before}
    rights = {path.stat().st_mode & 0o077 for path in (folder, *folder.iterdir())}
    wrote = (ended, sorted(before), kept == before, sorted(set(after) - set(before)), rights)
    due = ([Ended(0, b"", b"")] * 2, names, True, ["2.key", "2.pem"], {0})
    outcomes = [compared("certificates", shown(make), wrote, due)]
    for name, purpose, is_good in (("0", "sslclient", True), ("0", "sslserver", False), ("broker", "sslserver", True), ("broker", "sslclient", False)):
        words = ["openssl", "verify", "-x509_strict", "-CAfile", str(folder / "ca.pem"), "-purpose", purpose, str(folder / f"{name}.pem")]
        outcomes.append(compared(f"the certificate {name} as {purpose}", shown(words), harness.run(words).status == 0, is_good))
    subject = harness.run(["openssl", "x509", "-in", str(folder / "1.pem"), "-noout", "-subject", "-nameopt", "RFC2253"])
    return [*outcomes, compared("whose certificate it is", "openssl x509", subject.out, b"subject=CN=1\n")]


def of_bad_calls(harness: Harness) -> list[Outcome]:
    outcomes, folder = [], harness.folder()
    for words, status, told in (
        (["tls", "127.0.0.1"], 2, "Usage: certificates.sh FOLDER BROKER ROBOTS"),
        (["tls", "127.0.0.1", "many"], 2, "'many' is no number"),
        (["tls", "a/b", "1"], 2, "'a/b' is no name and no address"),
        (["/dev/null/tls", "127.0.0.1", "1"], 3, "/dev/null"),
    ):
        ended = harness.run(["sh", str(MAKE), *words], folder=folder)
        outcomes.append(compared(f"certificates.sh {' '.join(words)}", f"which told {ended.err!r}", (ended.status, told in ended.err.decode()), (status, True)))
    for words, told in (
        ([*robots.robot_words(harness, "--listen", "127.0.0.1:9", "--peers", ""), "--tls", "a", "b", "c"], "--tls goes with --broker"),
        ([sys.executable, str(robots.ROBOTS), "--tls", "a"], "--tls goes with --link mqtt"),
    ):
        ended = harness.run(words, folder=folder)
        outcomes.append(compared(told, shown(words), (ended.status, told in ended.err.decode().splitlines()[-1]), (2, True)))
    return outcomes


def lacking() -> str:
    """What these tests need and isn't here."""
    for what, is_here in (("openssl", shutil.which("openssl")), ("mosquitto", robots.mosquitto()), ("python3-paho-mqtt", robots.with_paho())):
        if not is_here:
            return what
    return ""


def tests(harness: Harness) -> Iterator[Callable[[], list[Outcome]]]:
    yield functools.partial(of_bad_calls, harness)
    yield functools.partial(of_making, harness) if shutil.which("openssl") else lambda: [Outcome("certificates", lacks="openssl")]
    what, python = lacking(), robots.with_paho() or ""
    if what:
        yield lambda: [Outcome("a broker with certificates", lacks=what)]
        return
    yield functools.partial(of_a_fleet, harness)
    yield functools.partial(of_clients, harness, python)
    yield functools.partial(of_robots, harness, python)
