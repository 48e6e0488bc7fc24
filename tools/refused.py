"""What a tool can't go on with."""
from mapf.program import FAULT


class Refused(Exception):
    """A text has a fault, or doesn't fit, or is more than can be taken: the line that says so, and the status."""

    def __init__(self, line: str, status: int = FAULT) -> None:
        super().__init__(line)
        self.status = status
