"""How far a tool has come."""
import sys
import time


class Progress:
    """A line on the terminal, written anew each half second."""

    def __init__(self) -> None:
        self.is_shown, self.due, self.width = sys.stderr.isatty(), 0.0, 0

    def show(self, line: str) -> None:
        now = time.monotonic()
        if self.is_shown and now >= self.due:
            print(f"\r{line:{self.width}}", end="", file=sys.stderr, flush=True)
            self.due, self.width = now + 0.5, len(line)

    def end(self) -> None:
        if self.width:
            print(file=sys.stderr)
