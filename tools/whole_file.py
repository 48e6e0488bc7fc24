"""Files that are there as a whole, or as they were before."""
import contextlib
import os
import pathlib
import stat
import tempfile
from typing import Iterable, Iterator, Optional, Union


def refuse_what_is_no_file(target: pathlib.Path) -> None:
    """A folder or a device can't be replaced by a file."""
    if target.exists() and not stat.S_ISREG(target.stat().st_mode):
        raise OSError(0, "is no regular file", str(target))


def mode_of(target: pathlib.Path) -> int:
    """The rights of the file that is there, or those that a new one gets here."""
    if target.exists():
        return stat.S_IMODE(target.stat().st_mode)
    mask = os.umask(0)
    os.umask(mask)
    return 0o666 & ~mask


def as_bytes(piece: Union[str, bytes]) -> bytes:
    return piece if isinstance(piece, bytes) else piece.encode("ascii")


class Draft:
    """A text or a picture beside its target, or in a folder of temporary files where there is none."""

    def __init__(self, pieces: Iterable[Union[str, bytes]], target: Optional[pathlib.Path]):
        # What a link names is replaced, and the link is kept.
        self.target = target and pathlib.Path(os.path.realpath(target))
        if self.target:
            refuse_what_is_no_file(self.target)
        folder = self.target and self.target.parent
        with tempfile.NamedTemporaryFile("wb", prefix=".mapf-", dir=folder, delete=False) as file:
            self.path = pathlib.Path(file.name)
            try:
                file.writelines(map(as_bytes, pieces))
                file.flush()
                if self.target:
                    os.fsync(file.fileno())
            except BaseException:
                self.drop()
                raise

    def drop(self) -> None:
        with contextlib.suppress(FileNotFoundError):
            self.path.unlink()

    def put(self) -> None:
        """The draft is the target from now on."""
        self.path.chmod(mode_of(self.target))
        os.replace(self.path, self.target)
        folder = os.open(self.target.parent, os.O_RDONLY)
        try:
            os.fsync(folder)
        finally:
            os.close(folder)


@contextlib.contextmanager
def draft(pieces: Iterable[Union[str, bytes]], target: Optional[pathlib.Path]) -> Iterator[Draft]:
    """A draft that is gone afterwards, unless it was put in place of its target."""
    made = Draft(pieces, target)
    try:
        yield made
    finally:
        made.drop()
