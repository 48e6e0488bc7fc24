"""How far a robot has counted the messages that it signs: the file TAPE.count beside its tape, which is made once, as the tape is.

The file has a number, and those below it may have been used. It is raised by many at once, and is on the disk, before the first of them is used: so
whatever is killed, and whenever, no number is used twice.
"""
import contextlib
import os
import re
import time

HEADER = "mapf-count 1"
TEXT = re.compile(rf"{HEADER}\n(0|[1-9][0-9]{{0,19}})\n")
# So many numbers are taken at a time.
BLOCK = 1000
# All numbers are below this one.
NUMBERS = 1 << 64


class BadCount(Exception):
    """The file isn't there, or is no count."""


def path_of(tape: str) -> str:
    return f"{tape}.count"


def sync_folder(path: str) -> None:
    """A name that is new in its folder is still there after a power cut."""
    folder = os.open(os.path.dirname(path) or ".", os.O_RDONLY)
    try:
        os.fsync(folder)
    finally:
        os.close(folder)


def put(path: str, number: int, flags: int) -> None:
    """Writes the file, which is on the disk then."""
    file = os.open(path, os.O_WRONLY | os.O_CREAT | flags, 0o666)
    try:
        left = f"{HEADER}\n{number}\n".encode("ascii")
        while left:
            left = left[os.write(file, left) :]
        os.fsync(file)
    finally:
        os.close(file)


def make_count(tape: str) -> None:
    """Makes the count of a tape. One that is there is left as it is. It begins at the nanoseconds since 1970: so one that is made anew is above what an
    earlier one has reached, if the clock is right, since nobody says so much."""
    path = path_of(tape)
    try:
        put(path, time.time_ns(), os.O_EXCL)
        sync_folder(path)
    except FileExistsError:
        raise
    except OSError:
        # Half a count is none.
        with contextlib.suppress(FileNotFoundError):
            os.unlink(path)
        raise


class Count:
    """The numbers of one process. Only one at a time has the file, since it holds the lock of the tape."""

    def __init__(self, tape: str):
        self.path = path_of(tape)
        self.next = self.end = self._stored()
        self._reserve()

    def _stored(self) -> int:
        try:
            with open(self.path, "rb") as file:
                found = TEXT.fullmatch(file.read(100).decode("latin-1"))
        except FileNotFoundError:
            raise BadCount(f"{self.path}: there is no count: the disk isn't mounted, or it is lost, or was never made") from None
        if not found or int(found[1]) > NUMBERS - BLOCK:
            raise BadCount(f"{self.path}: this is no count, or a damaged one")
        return int(found[1])

    def _reserve(self) -> None:
        """The next numbers are this process's own once the file is above them."""
        try:
            put(f"{self.path}.new", self.end + BLOCK, os.O_TRUNC)
            os.replace(f"{self.path}.new", self.path)
            sync_folder(self.path)
        except OSError as fault:
            raise OSError(fault.errno, fault.strerror, self.path) from None
        self.end += BLOCK

    def take(self) -> int:
        """A number above all that this robot has used."""
        if self.next == self.end:
            self._reserve()
        self.next += 1
        return self.next - 1
