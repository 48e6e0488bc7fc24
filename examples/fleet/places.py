"""Where robots of a fleet run: all on this machine's loopback, or each in a network namespace of its own."""
import os
import socket
from typing import Protocol

# Ports that the system gives to nobody by itself, so that a robot that is killed finds its own free again.
FIRST_PORT, LAST_PORT = 20_000, 32_000
NETWORK_PORT, BROKER_PORT = 7_700, 1_883
GROUP = "239.77.0.1"
BROKER = 254


class NoRoom(Exception):
    """No ports are free."""


class Place(Protocol):
    group: str
    broker: str

    def words(self, robot: int) -> list[str]:
        """What stands before a command that runs where this robot is."""

    def broker_words(self) -> list[str]: ...

    def address(self, robot: int) -> str: ...


def is_free(port: int) -> bool:
    for kind in (socket.SOCK_DGRAM, socket.SOCK_STREAM):
        with socket.socket(socket.AF_INET, kind) as probe:
            try:
                probe.bind(("127.0.0.1", port))
            except OSError:
                return False
    return True


class Loopback:
    """Each robot has a port of its own at 127.0.0.1; one more is the broker's and the group's."""

    def __init__(self, robots: int, first: int = 0):
        count = robots + 1
        if not first:
            begin = FIRST_PORT + os.getpid() * 64 % (LAST_PORT - FIRST_PORT - count)
            tries = [*range(begin, LAST_PORT - count, count), *range(FIRST_PORT, begin, count)]
            first = next((it for it in tries if all(map(is_free, range(it, it + count)))), 0)
        if not first:
            raise NoRoom(f"no {count} ports in a row are free from {FIRST_PORT} to {LAST_PORT}")
        self.first = first
        self.broker = f"127.0.0.1:{first + robots}"
        self.group = f"{GROUP}:{first + robots}"

    def words(self, robot: int) -> list[str]:
        return []

    def broker_words(self) -> list[str]:
        return []

    def address(self, robot: int) -> str:
        return f"127.0.0.1:{self.first + robot}"


class Namespaces:
    """Robot N is in the namespace PREFIX and N, as network.sh makes them."""

    def __init__(self, prefix: str):
        self.prefix = prefix
        self.broker = f"10.77.0.{BROKER}:{BROKER_PORT}"
        self.group = f"{GROUP}:{NETWORK_PORT}"

    def words(self, robot: int) -> list[str]:
        return ["ip", "netns", "exec", f"{self.prefix}{robot}"]

    def broker_words(self) -> list[str]:
        return ["ip", "netns", "exec", f"{self.prefix}broker"]

    def address(self, robot: int) -> str:
        return f"10.77.0.{robot + 1}:{NETWORK_PORT}"
