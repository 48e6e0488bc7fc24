#!/usr/bin/env python3
"""A switch of Ethernet frames in user space, for kernels that have no `tc netem`: it does the same to the frames of each cable.

Usage: switch.py CONTROL NAME=NAMESPACE.. [--loss RATE] [--twice RATE] [--least MS] [--most MS] [--seed N]

Each cable ends in a TAP device `link` in its namespace, which has to be there. A frame goes to whom its address names, or to all. On its way down the
cable of whom it goes to it is lost, or comes twice, and each copy takes a time of its own, so that frames overtake one another. At the Unix socket
CONTROL it is asked, one datagram each: `cut NAME`, `mend NAME`, `counts`. It ends when it is asked to, or with its input.
"""
import argparse
import ctypes
import fcntl
import heapq
import os
import random
import selectors
import socket
import struct
import sys
import time
from typing import Optional, Sequence

sys.dont_write_bytecode = True
from leaving import heed_signals  # noqa: E402

DEVICE = b"link"
TUNSETIFF, IFF_TAP, IFF_NO_PI = 0x400454CA, 2, 0x1000
CLONE_NEWNET = 0x40000000
NAMESPACES = "/run/netns"
LONGEST_FRAME = 65_536
# So many frames of a cable are taken before others have their turn.
AT_ONCE = 16
FAILED = 3
COUNTS = ("frames", "lost", "cut_off", "repeated", "overtaken")


def rate(word: str) -> float:
    try:
        value = float(word)
    except ValueError:
        value = -1
    if not 0 <= value <= 1:
        raise argparse.ArgumentTypeError(f"a rate from 0 to 1 is wanted, and '{word[:40]}' is none")
    return value


def read_words(words: Sequence[str]) -> argparse.Namespace:
    parser = argparse.ArgumentParser(prog="switch.py", description=__doc__, formatter_class=argparse.RawDescriptionHelpFormatter)
    parser.add_argument("control", metavar="CONTROL")
    parser.add_argument("cables", nargs="+", metavar="NAME=NAMESPACE")
    parser.add_argument("--loss", type=rate, default=0.0, help="how many frames are lost (0)")
    parser.add_argument("--twice", type=rate, default=0.0, help="how many come twice (0)")
    parser.add_argument("--least", type=float, default=0.0, metavar="MS", help="the least delay (0)")
    parser.add_argument("--most", type=float, default=0.0, metavar="MS", help="the greatest delay (0)")
    parser.add_argument("--seed", type=int, default=1, metavar="N")
    return parser.parse_args(words)


def enter(namespace: int) -> None:
    library = ctypes.CDLL(None, use_errno=True)
    if library.setns(namespace, CLONE_NEWNET):
        raise OSError(ctypes.get_errno(), os.strerror(ctypes.get_errno()), "setns")


def open_tap(namespace: str) -> int:
    """The device of a namespace. It is opened in there, and is usable from everywhere then."""
    own = os.open("/proc/self/ns/net", os.O_RDONLY)
    other = os.open(f"{NAMESPACES}/{namespace}", os.O_RDONLY)
    try:
        enter(other)
        tap = os.open("/dev/net/tun", os.O_RDWR | os.O_NONBLOCK)
        try:
            fcntl.ioctl(tap, TUNSETIFF, struct.pack("16sH22x", DEVICE, IFF_TAP | IFF_NO_PI))
        except OSError as fault:
            raise OSError(fault.errno, fault.strerror, f"the device {DEVICE.decode()} of {namespace}") from None
        return tap
    finally:
        enter(own)
        os.close(own)
        os.close(other)


class Cable:
    """What goes down to one end, with chances of its own."""

    def __init__(self, name: str, tap: int, given: argparse.Namespace):
        self.name, self.tap, self.given = name, tap, given
        self.rng = random.Random(f"{name} {given.seed}")
        self.is_cut = False
        self.latest = 0

    def delays(self) -> list[float]:
        """How many seconds each copy of a frame takes; none where it is lost."""
        rng, given = self.rng, self.given
        is_lost, copies = rng.random() < given.loss, 2 if rng.random() < given.twice else 1
        delays = [rng.uniform(given.least, given.most) / 1000 for _ in range(copies)]
        return [] if is_lost else delays


class Switch:
    def __init__(self, cables: Sequence[Cable], control: socket.socket):
        self.cables, self.control = {cable.name: cable for cable in cables}, control
        self.where: dict[bytes, Cable] = {}
        self.under_way: list[tuple[float, int, Cable, bytes]] = []
        self.counts = dict.fromkeys(COUNTS, 0)
        self.taken = 0

    def take(self, cable: Cable) -> None:
        """Takes the frames that come up a cable."""
        for _ in range(AT_ONCE):
            try:
                frame = os.read(cable.tap, LONGEST_FRAME)
            except OSError:
                return
            self.where[frame[6:12]] = cable
            to = self.where.get(frame[:6])
            for other in [to] if to else self.cables.values():
                if other is not cable:
                    self.send(frame, cable, other)

    def send(self, frame: bytes, cable: Cable, other: Cable) -> None:
        self.counts["frames"] += 1
        if cable.is_cut or other.is_cut:
            self.counts["cut_off"] += 1
            return
        delays, now = other.delays(), time.monotonic()
        self.counts["lost"] += not delays
        self.counts["repeated"] += len(delays) > 1
        self.taken += 1
        for delay in delays:
            heapq.heappush(self.under_way, (now + delay, self.taken, other, frame))

    def deliver(self) -> Optional[float]:
        """Gives out what is due, and answers how long the next one takes."""
        while self.under_way:
            due, number, cable, frame = self.under_way[0]
            wait = due - time.monotonic()
            if wait > 0:
                return wait
            heapq.heappop(self.under_way)
            self.put(number, cable, frame)
        return None

    def put(self, number: int, cable: Cable, frame: bytes) -> None:
        self.counts["overtaken"] += number < cable.latest
        cable.latest = max(number, cable.latest)
        try:
            os.write(cable.tap, frame)
        except OSError:
            # The device is full, or down.
            self.counts["lost"] += 1

    def heed(self) -> None:
        """A word at the control socket. Each is answered."""
        line, sender = self.control.recvfrom(4096)
        word, _, name = line.decode("ascii", "replace").partition(" ")
        answer = "unknown"
        if word == "counts":
            answer = " ".join(f"{it} {count}" for it, count in self.counts.items())
        elif word in ("cut", "mend") and name in self.cables:
            self.cables[name].is_cut = word == "cut"
            answer = "done"
        try:
            self.control.sendto(answer.encode("ascii"), socket.MSG_DONTWAIT, sender)
        except OSError:
            # Who asked is gone.
            pass

    def work(self) -> None:
        with selectors.DefaultSelector() as selector:
            for cable in self.cables.values():
                selector.register(cable.tap, selectors.EVENT_READ, cable)
            selector.register(self.control, selectors.EVENT_READ)
            selector.register(0, selectors.EVENT_READ)
            while True:
                for key, _ in selector.select(self.deliver()):
                    if key.fd == 0:
                        return
                    if key.data:
                        self.take(key.data)
                    else:
                        self.heed()


def serve(given: argparse.Namespace) -> None:
    cables = [Cable(name, open_tap(namespace), given) for name, _, namespace in (word.partition("=") for word in given.cables)]
    with socket.socket(socket.AF_UNIX, socket.SOCK_DGRAM) as control:
        control.bind(given.control)
        try:
            print("ready", flush=True)
            Switch(cables, control).work()
        finally:
            os.unlink(given.control)


def main(words: Sequence[str]) -> int:
    given = read_words(words)
    try:
        serve(given)
    except OSError as fault:
        print(f"switch: {fault.filename or given.control}: {fault.strerror or fault}", file=sys.stderr)
        return FAILED
    return 0


if __name__ == "__main__":
    heed_signals()
    sys.exit(main(sys.argv[1:]))
