"""The cables of a network between the robots: they are cut and mended, and say what went over them."""
import json
import socket
import subprocess
from typing import Protocol

# Seconds within which the switch answers.
PATIENCE = 10


class Broken(Exception):
    """The cables don't do what they are asked to."""


class Cables(Protocol):
    def cut(self, name: str) -> None: ...
    def mend(self, name: str) -> None: ...
    def counts(self) -> dict[str, int]: ...


class Loopback:
    """No cables at all."""

    def cut(self, name: str) -> None:
        pass

    def mend(self, name: str) -> None:
        pass

    def counts(self) -> dict[str, int]:
        return {}


class Switch:
    """Those of switch.py, by its socket."""

    def __init__(self, path: str):
        self.path = path
        self.socket = socket.socket(socket.AF_UNIX, socket.SOCK_DGRAM)
        self.socket.bind(f"{path}.asks")
        self.socket.settimeout(PATIENCE)

    def ask(self, line: str) -> str:
        try:
            self.socket.sendto(line.encode("ascii"), self.path)
            return self.socket.recv(4096).decode("ascii")
        except OSError as fault:
            raise Broken(f"the switch at {self.path} doesn't answer: {fault.strerror or fault}") from None

    def cut(self, name: str) -> None:
        self.ask(f"cut {name}")

    def mend(self, name: str) -> None:
        self.ask(f"mend {name}")

    def counts(self) -> dict[str, int]:
        words = self.ask("counts").split()
        return {name: int(count) for name, count in zip(words[::2], words[1::2])}


class Veth:
    """Pairs of devices on a bridge in the namespace of a hub, where `tc netem` may lose and repeat."""

    def __init__(self, hub: str):
        self.hub = hub

    def call(self, *words: str) -> str:
        ended = subprocess.run([words[0], "-n", self.hub, *words[1:]], stdin=subprocess.DEVNULL, capture_output=True, text=True, check=False)
        if ended.returncode:
            raise Broken(f"{' '.join(words)}: {ended.stderr.strip() or 'failed'}")
        return ended.stdout

    def cut(self, name: str) -> None:
        self.call("ip", "link", "set", f"link{name}", "down")

    def mend(self, name: str) -> None:
        self.call("ip", "link", "set", f"link{name}", "up")

    def counts(self) -> dict[str, int]:
        """What netem counts: it doesn't say how many frames it has repeated, and counts those as sent."""
        found = [it for it in json.loads(self.call("tc", "-s", "-j", "qdisc", "show") or "[]") if it.get("kind") == "netem"]
        return {"frames": sum(it.get("packets", 0) for it in found), "lost": sum(it.get("drops", 0) for it in found)}


def cables_of(word: str) -> Cables:
    """By a word as `switch:SOCKET` or `veth:HUB`."""
    kind, _, where = word.partition(":")
    if not kind:
        return Loopback()
    return Switch(where) if kind == "switch" else Veth(where)
