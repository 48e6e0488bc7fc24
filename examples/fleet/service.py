"""What a robot says to systemd where it is a service: that it lives. One that is silent is killed and started again."""
import contextlib
import os
import socket
import time

# Seconds between two signs of life. A service is given many times as long.
EACH = 1.0


class Supervisor:
    """Who started this process and waits for its signs of life, or nobody."""

    def __init__(self) -> None:
        # It is this process's own, and not its agent's.
        path = os.environ.pop("NOTIFY_SOCKET", "")
        self.address = f"\0{path[1:]}" if path.startswith("@") else path
        self.socket = socket.socket(socket.AF_UNIX, socket.SOCK_DGRAM) if path else None
        self.due = 0.0

    def lives(self) -> None:
        """Is called whenever something was done, and says so now and then."""
        now = time.monotonic()
        if self.socket and now >= self.due:
            self.due = now + EACH
            # What is lost now is said again soon.
            with contextlib.suppress(OSError):
                self.socket.sendto(b"WATCHDOG=1", socket.MSG_DONTWAIT, self.address)
