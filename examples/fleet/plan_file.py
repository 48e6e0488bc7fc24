"""The file of a plan that is driven, in whose place another one may be put at any time, a bad one too."""
import contextlib
import os
from typing import Optional

# By these another file is told from the one before.
Mark = tuple[int, int, int, int]


class PlanFile:
    """What was read of the file, in a copy of its own. So agents can be started again by the last plan that one of them has taken, whatever
    stands in the file by then."""

    def __init__(self, path: str):
        self.path = path
        self.file = os.memfd_create("plan")
        # Its name, also in a process that inherits it.
        self.copy = f"/proc/self/fd/{self.file}"
        self.mark: Optional[Mark] = None
        self.text = self.taken = b""
        self.read()

    def _look(self) -> Mark:
        found = os.stat(self.path)
        return found.st_dev, found.st_ino, found.st_size, found.st_mtime_ns

    def is_another(self) -> bool:
        # While it is being replaced in some other way there may be none.
        with contextlib.suppress(FileNotFoundError):
            return self._look() != self.mark
        return False

    def read(self) -> None:
        """Copies what is in the file now."""
        self.mark = self._look()
        with open(self.path, "rb") as file:
            self._put(file.read())

    def _put(self, text: bytes) -> None:
        self.text = text
        with open(self.copy, "wb") as copy:
            copy.write(text)

    def take(self) -> None:
        """What was read is a plan that agents have taken."""
        self.taken = self.text

    def go_back(self) -> bool:
        """Copies the plan that was taken last, if there is one and it isn't that which was read."""
        is_there = bool(self.taken) and self.taken != self.text
        if is_there:
            self._put(self.taken)
        return is_there
