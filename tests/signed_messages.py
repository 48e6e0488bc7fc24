"""Messages that robots of examples/fleet sign: forged, replayed, cut, changed and unsigned ones, which no agent hears; robots that are killed while they
sign, or can't; and whole fleets."""
import collections
import functools
import json
import pathlib
import random
import signal
import socket
import subprocess
import sys
import threading
import time
from typing import Callable, Counter, Iterator, Sequence

import certificates
import key_files
import robots
from envelopes import TAG, Envelope, Fleet, Forger, opened, tag_of
from harness import Ended, Harness, Outcome, compared, ended_as, shown, side_by_side
from key_files import FLEET, KEYS, OTHER
from processes import wait_until

sys.path.append(str(FLEET))
from letters import Letter  # noqa: E402
from signing import SignedLink, Signer, Verifier  # noqa: E402

# So many wrong ones of each kind, and one right one behind so many of these.
EACH, EVERY = 1000, 10
# Robot 0, which makes one move, hears of two others.
MAP = b"type octile\nheight 1\nwidth 6\nmap\n......\n"
PLAN = b"mapf-plan 1\nnumber 7\nagents 3\nagent 0 0 e\nagent 2 0 ew\nagent 4 0 e\n"
# What may be said of each: nobody says of robot 0 what it hasn't done.
RUN, MOVES = 7, (0, 2, 1)
# Envelopes whose tags `openssl dgst -sha256 -mac HMAC` worked out.
KNOWN = [
    (
        "000102030405060708090a0b0c0d0e0f101112131415161718191a1b1c1d1e1f",
        Envelope(1, 9, 42, bytes.fromhex("460100010000000900000001")),
        "5301000100000009000000000000002a460100010000000900000001c9436da60a7ebc709756fd8a5e71e79d9dd9d8c6748f92566142192ba3b9bbbe",
    ),
    (
        "ffeeddccbbaa99887766554433221100ffeeddccbbaa99887766554433221100",
        Envelope(9999, 4294967294, 18446744073709551615, bytes.fromhex("4602270ffffffffe00020000000000010001000000ff")),
        "5301270ffffffffeffffffffffffffff4602270ffffffffe00020000000000010001000000ffff1fc087866dbbd592ae505503734e80eb5806c43877c0ecb2ddc7b4301759e2",
    ),
]


def keys_of(seed: int, robots: int = 3) -> dict[int, bytes]:
    return {robot: random.Random(f"key {robot} {seed}").randbytes(32) for robot in range(robots)}


def text_of(keys: dict[int, bytes]) -> bytes:
    return "".join(["mapf-keys 1\n", *(f"{robot} {key.hex()}\n" for robot, key in keys.items())]).encode()


# Envelopes


class Counted:
    """In place of a file: counts from a number on."""

    def __init__(self, first: int):
        self.next = first

    def take(self) -> int:
        self.next += 1
        return self.next - 1


def of_known_tags(_: Harness) -> list[Outcome]:
    outcomes = []
    for digits, envelope, due in KNOWN:
        key = bytes.fromhex(digits)
        told = [Signer(key, envelope.sender, envelope.run, Counted(envelope.count)).signed(envelope.message).hex(), envelope.signed(key).hex()]
        outcomes.append(compared(f"what robot {envelope.sender} signs", "signing.py, and HMAC by hand", told, [due] * 2))
        # Twice in one process, and once more in the next one, which doesn't know what was heard before.
        one, other = (Verifier({envelope.sender: key}, envelope.run) for _ in range(2))
        heard = [it.opened(Letter(bytes.fromhex(due))) for it in (one, one, other)]
        right = Letter(envelope.message)
        outcomes.append(compared(f"what robot {envelope.sender} has signed", "signing.py", heard, [right, Letter(envelope.message, "NotNewer"), right]))
    return outcomes


def of_a_module(harness: Harness) -> list[Outcome]:
    """All that a forger sends, each kind a thousand times: no wrong one is taken, whatever came before, and each right one is."""
    outcomes = []
    for seed in range(10 if harness.is_long else 1):
        forger = Forger(Fleet(keys_of(seed, 4), RUN, (*MOVES, 0), (1, 2)), seed)
        verifier, found = Verifier(forger.fleet.keys, RUN), []
        for datagram, reason in forger.turns(EACH, 3):
            letter = verifier.opened(Letter(datagram))
            if letter.fault != reason or (not reason and letter.message != opened(datagram).message):
                found.append((datagram.hex(), letter, reason))
        outcomes.append(compared(f"wrong envelopes of seed {seed}", "Verifier.opened", found[:3], []))
    return outcomes


class Queue:
    """A link that carries nothing: what is sent stands in it, and comes as it was put there."""

    def __init__(self) -> None:
        self.sent: list[bytes] = []
        self.letters: list[Letter] = []

    def send(self, message: bytes) -> None:
        self.sent.append(message)

    def received(self) -> list[Letter]:
        return self.letters


def of_a_wrong_topic(_: Harness) -> list[Outcome]:
    """What came on another's topic is dropped for that, and the right one behind it is heard."""
    keys, queue = keys_of(1), Queue()
    link = SignedLink(queue, Signer(keys[1], 1, RUN, Counted(5)), Verifier(keys, RUN))
    message = bytes.fromhex("460100010000000700000001")
    link.send(message)
    right = Envelope(1, RUN, 5, message).signed(keys[1])
    queue.letters = [Letter(right, "NotItsTopic"), Letter(right), Letter(right)]
    wrote = (queue.sent, [(it.message if not it.fault else b"", it.fault) for it in link.received()])
    return [compared("a message on a wrong topic", "SignedLink", wrote, ([right], [(b"", "NotItsTopic"), (message, ""), (b"", "NotNewer")]))]


# A robot


class Drive:
    """A drive that is at once where it is to be, and counts what its robot reports."""

    def __init__(self, path: pathlib.Path, cell: str):
        self.path, self.cell = str(path), cell
        self.dropped: Counter[str] = collections.Counter()
        self.heard = 0
        self.socket = socket.socket(socket.AF_UNIX, socket.SOCK_DGRAM)
        self.socket.bind(self.path)
        self.thread = threading.Thread(target=self._live, daemon=True)
        self.thread.start()

    def _live(self) -> None:
        while True:
            robot, word, *more = self.socket.recv(1 << 18).decode().split()
            if word == "end":
                return
            self.cell = " ".join(more) if word == "go" else self.cell
            if word in ("go", "where"):
                try:
                    self.socket.sendto(f"stands {self.cell}".encode(), f"{self.path}.{robot}")
                except OSError:
                    # Who was killed asks again.
                    pass
            self.heard += word == "hear"
            if word == "dropped":
                self.dropped[" ".join(more)] += 1

    def count(self) -> int:
        return self.heard + sum(self.dropped.values())

    def end(self) -> None:
        with socket.socket(socket.AF_UNIX, socket.SOCK_DGRAM) as other:
            other.sendto(b"0 end", self.path)
        self.thread.join()
        self.socket.close()


class Signing:
    """Robot 0, which signs, with the drive above, and a socket that is the only other one to which it speaks."""

    def __init__(self, harness: Harness, keys: dict[int, bytes], more: Sequence[str] = ()):
        self.folder = harness.folder({"map": MAP, "plan": PLAN, "keys": text_of(keys)})
        (self.folder / "keys").chmod(0o600)
        harness.mapf(["agent", "map", "plan", "0", "tape", "--tape", "new"], folder=self.folder)
        harness.run([sys.executable, str(KEYS), "count", "tape"], folder=self.folder)
        self.drive = Drive(self.folder / "drive", "0 0")
        self.other = socket.socket(socket.AF_INET, socket.SOCK_DGRAM)
        self.other.bind(("127.0.0.1", 0))
        self.other.settimeout(60)
        self.address = ("127.0.0.1", robots.free_port())
        own, peer = ("{}:{}".format(*it) for it in (self.address, self.other.getsockname()))
        words = ["map", "plan", "0", "tape", "--drive", "drive", "--program", str(harness.program), "--listen", own, "--peers", peer]
        self.words = [sys.executable, str(FLEET / "robot.py"), *words, "--keys", "keys", *more]
        self.processes: list["subprocess.Popen[bytes]"] = []

    def start(self) -> None:
        with open(self.folder / "said", "ab") as said:
            self.processes.append(subprocess.Popen(self.words, cwd=self.folder, stdin=subprocess.DEVNULL, stderr=said))

    def has_reported(self, count: int) -> bool:
        """Whether it has reported so many messages, for which it is given time as long as it lives."""
        wait_until(lambda: self.drive.count() >= count or self.processes[-1].poll() is not None)
        return self.drive.count() >= count

    def end(self) -> list[str]:
        """Ends it, and answers what it has told."""
        for process in self.processes:
            process.terminate()
            process.wait()
        self.drive.end()
        self.other.close()
        return (self.folder / "said").read_text(encoding="utf-8", errors="replace").splitlines()

    def asked(self) -> list[str]:
        """The messages that its agent was given."""
        lines = map(json.loads, (self.folder / "box").read_text(encoding="ascii").splitlines())
        return [line["asked"][5:] for line in lines if line.get("asked", "").startswith("hear ")]


def of_a_robot(harness: Harness) -> list[Outcome]:
    """What a forger sends to a robot by UDP: its agent is given the right messages, and these alone. All others are counted, and told of."""
    keys = keys_of(2)
    signing, forger = Signing(harness, keys, ["--box", "box"]), Forger(Fleet(keys, RUN, MOVES, (1, 2)), 2)
    signing.start()
    # It listens before it speaks.
    signing.other.recv(100)
    due: Counter[str] = collections.Counter()
    right: list[str] = []
    for turn, (datagram, reason) in enumerate(forger.turns(EACH, EVERY), 1):
        signing.other.sendto(datagram, signing.address)
        due.update([f"refused {reason}"] if reason else [])
        right += [] if reason else [opened(datagram).message.hex()]
        # No more than its socket has room for.
        if turn % 50 == 0 and not signing.has_reported(turn):
            break
    signing.has_reported(sum(due.values()) + len(right))
    said = signing.end()
    told = sorted(line for line in said if "dropped" in line)
    tens = sorted(f"robot 0: {count} messages were dropped: {kind}" for kind, sum_ in due.items() for count in (10, 100, 1000) if count <= sum_)
    wrote = (signing.drive.dropped, signing.drive.heard, signing.asked() == right, told)
    ran = f"{shown(signing.words)}, which told {said[-3:]}"
    return [compared(f"{sum(due.values())} wrong datagrams to a robot, and {len(right)} right ones", ran, wrote, (due, len(right), True, tens))]


def of_an_unsigned_robot(harness: Harness) -> list[Outcome]:
    """A robot without keys hears what isn't signed, as before, and nothing that is."""
    keys = keys_of(3)
    signing = Signing(harness, keys)
    at = signing.words.index("--keys")
    del signing.words[at : at + 2]
    signing.start()
    said = signing.other.recv(100)
    plain = bytes.fromhex("460100010000000700000001")
    for datagram in (plain, Envelope(1, RUN, 1, plain).signed(keys[1])):
        signing.other.sendto(datagram, signing.address)
    signing.has_reported(2)
    signing.end()
    wrote = (said[:8].hex(), signing.drive.heard, dict(signing.drive.dropped))
    return [compared("a robot without keys", shown(signing.words), wrote, ("4601000000000007", 1, {"refused BadMagic": 1}))]


# Robots that are killed, or can't sign


def of_killed_robots(harness: Harness) -> list[Outcome]:
    """A robot that is killed and started again and again signs each message by a number above those before."""
    keys, rng, kills = keys_of(4), random.Random("killed"), 400 if harness.is_long else 100
    signing = Signing(harness, keys, ["--every", "0.01"])
    found: list[bytes] = []
    for _ in range(kills):
        signing.start()
        found.append(signing.other.recv(100))
        time.sleep(rng.uniform(0, 0.05))
        signing.processes[-1].send_signal(signal.SIGKILL)
        signing.processes.pop().wait()
    signing.other.setblocking(False)
    while True:
        try:
            found.append(signing.other.recv(100))
        except BlockingIOError:
            break
    said = signing.end()
    envelopes = [opened(it) for it in found]
    right = [it[-TAG:] == tag_of(keys[0], it[:-TAG]) and (envelope.sender, envelope.run) == (0, RUN) for it, envelope in zip(found, envelopes)]
    numbers = [it.count for it in envelopes]
    wrote = (all(right), len(set(numbers)) == len(numbers), len(numbers) >= kills, [line for line in said if "Traceback" in line])
    return [compared(f"{kills} kills of a robot", f"{shown(signing.words)}, {len(numbers)} messages", wrote, (True, True, True, []))]


def bad_robots() -> Iterator[tuple[str, Callable[[pathlib.Path], object], int, str]]:
    """What is done in the folder of a robot that signs, and then its status and what it tells."""

    def write(name: str, text: str) -> Callable[[pathlib.Path], object]:
        return lambda folder: (folder / name).write_text(text, encoding="ascii")

    damaged = "tape.count: this is no count, or a damaged one"
    yield "no keys", lambda folder: (folder / "keys").unlink(), 3, "keys: No such file or directory"
    yield "keys that are a folder", lambda folder: ((folder / "keys").unlink(), (folder / "keys").mkdir(0o700)), 1, "keys: this is no file"
    yield "keys that others may read", lambda folder: (folder / "keys").chmod(0o640), 1, (
        "keys: others than its owner may use it (rights 0640): chmod 600, or make new keys if they did"
    )
    yield "keys with a bad line", write("keys", "mapf-keys 1\n0 1\n"), 1, "keys: line 2: a robot, a space and 64 digits in 0-9a-f were due"
    yield "keys of others", write("keys", f"mapf-keys 1\n{OTHER}\n"), 1, "keys: there is no key of robot 0"
    yield "no count", lambda folder: (folder / "tape.count").unlink(), 1, (
        "tape.count: there is no count: the disk isn't mounted, or it is lost, or was never made"
    )
    for name, text in (("an empty", ""), ("a cut", "mapf-count 1\n17960"), ("another", "mapf-count 2\n1\n"), ("too high a", f"mapf-count 1\n{2**64 - 1}\n")):
        yield f"{name} count", write("tape.count", text), 1, damaged
    yield "a count that can't be written", lambda folder: (folder / "tape.count.new").mkdir(), 3, "tape.count: Is a directory"


def of_bad_robots(harness: Harness) -> list[Outcome]:
    """One line and a status, whatever is wrong; and nothing was said."""
    outcomes = []
    for name, spoil, status, told in bad_robots():
        signing = Signing(harness, keys_of(5))
        spoil(signing.folder)
        ended = harness.run(signing.words, folder=signing.folder)
        signing.other.setblocking(False)
        try:
            said = signing.other.recv(100)
        except BlockingIOError:
            said = b""
        (signing.folder / "said").touch()
        signing.end()
        outcomes.append(ended_as(f"a robot: {name}", shown(signing.words), ended, Ended(status, b"", f"robot 0: {told}\n".encode())))
        outcomes.append(compared(f"a robot that said nothing: {name}", shown(signing.words), said, b""))
    return outcomes


# Fleets


def of_a_fleet(harness: Harness, name: str, words: Sequence[str]) -> list[Outcome]:
    """A whole fleet that signs, with keys that it makes and keeps, is killed and arrives."""
    fleet = robots.Fleet(harness, ["--robots", "3", "--keys", "fleet.keys", *words])
    outcomes = fleet.judged(name, 3, **{robots.KILLS: 1})
    path = fleet.folder / "fleet.keys"
    before = path.read_bytes()
    made = (path.stat().st_mode & 0o7777, key_files.robots_in(path))
    path.write_bytes(before.replace(b"\n1 ", b"\n3 "))
    ended = fleet.run()
    there = (ended.status, ended.err.decode().endswith("fleet.keys: line 4: a robot above 3 and below 10000 was due\n"), ended.err.count(b"\n"))
    ran = f"{shown(fleet.command)}, which told {ended.err[-300:]!r}"
    return [*outcomes, compared(f"{name}: its keys", ran, (made, there), ((0o600, [0, 1, 2]), (1, True, 1)))]


def of_a_stranger(harness: Harness) -> list[Outcome]:
    """Unsigned messages of the run itself, which say that all have arrived, come to a fleet all the time: nobody believes them."""
    port, number, is_over = robots.free_port(), 4711, threading.Event()
    words = ["--robots", "3", "--keys", "fleet.keys", "--port", str(port), "--moves", "0.1", "--number", str(number)]
    fleet = robots.Fleet(harness, words)

    def send() -> None:
        with socket.socket(socket.AF_INET, socket.SOCK_DGRAM) as stranger:
            turn = 0
            while not is_over.wait(robots.OFTEN):
                turn += 1
                lie = bytes.fromhex(f"4601{turn % 3:04x}{number:08x}{1 + turn % 5:08x}")
                try:
                    stranger.sendto(lie, ("127.0.0.1", port + turn // 3 % 3))
                except OSError:
                    pass

    sender = threading.Thread(target=send)
    sender.start()
    try:
        return fleet.judged("a stranger who lies to a fleet that signs", 3, drops=True, dropped=20)
    finally:
        is_over.set()
        sender.join()


# Says on the topic of each robot that it has arrived, until its input ends.
LIAR = """
import sys, threading, time
import paho.mqtt.client as mqtt
client = mqtt.Client(*([mqtt.CallbackAPIVersion.VERSION1] if hasattr(mqtt, "CallbackAPIVersion") else []))
client.connect("127.0.0.1", int(sys.argv[1]))
client.loop_start()
is_over, number = threading.Event(), int(sys.argv[2])
threading.Thread(target=lambda: (sys.stdin.read(), is_over.set()), daemon=True).start()
while not is_over.wait(0.01):
    for robot in range(3):
        client.publish(f"mapf/{number}/said/{robot}", bytes.fromhex(f"4601{robot:04x}{number:08x}{1:08x}"), retain=True)
    print("lies", flush=True)
"""


def of_a_liar(harness: Harness) -> list[Outcome]:
    """The same on the topics of a broker that lets in anybody, and keeps the last lie."""
    python, number = robots.with_paho(), 4712
    if not python or not robots.mosquitto():
        return [Outcome("a stranger who lies on the topics of a fleet that signs", lacks="mosquitto" if python else "python3-paho-mqtt")]
    broker = robots.Broker(harness)
    liar = subprocess.Popen([python, "-c", LIAR, str(broker.port), str(number)], stdin=subprocess.PIPE, stdout=subprocess.PIPE)
    try:
        liar.stdout.readline()
        threading.Thread(target=liar.stdout.read, daemon=True).start()
        words = ["--link", "mqtt", "--robots", "3", "--broker", broker.address, "--number", str(number), "--moves", "0.1", "--kills", "2"]
        fleet = robots.Fleet(harness, [*words, "--keys", "fleet.keys"])
        return fleet.judged("a stranger who lies on the topics of a fleet that signs", 3, drops=True, dropped=20)
    finally:
        liar.kill()
        liar.wait()
        broker.end()


def tests(harness: Harness) -> Iterator[Callable[[], list[Outcome]]]:
    for test in (of_a_robot, of_killed_robots, of_bad_robots, of_an_unsigned_robot, of_a_stranger, of_a_liar):
        yield functools.partial(test, harness)
    killed = ["--moves", "0.15", "--kills", "5"]
    yield functools.partial(of_a_fleet, harness, "a fleet that signs, killed", killed)
    if harness.is_long:
        yield functools.partial(of_a_fleet, harness, "a fleet that signs and tells, multicast, killed", [*killed, "--link", "multicast", "--tell"])
    for test in (of_known_tags, of_a_module, of_a_wrong_topic):
        yield functools.partial(test, harness)


def outcomes(harness: Harness) -> Iterator[Outcome]:
    yield from side_by_side([*certificates.tests(harness), *tests(harness), *key_files.tests(harness)])
