"""The files that are measured, and where something stands in them."""
import dataclasses
import functools
import os
import pathlib
from typing import Iterator

# Folders of what people don't write.
NOT_WRITTEN = {".git", "out", "target", "__pycache__"}


class BadWorkspace(Exception):
    """A file can't be measured: which, and why."""


@dataclasses.dataclass(frozen=True, order=True)
class Place:
    """Something that a measure counts: its file and line, and what it is."""

    path: str
    line: int
    what: str

    def __str__(self) -> str:
        return f"{self.path}:{self.line}: {self.what}"

    def which(self, told: str) -> "Place":
        """The same place, with more told of it."""
        return dataclasses.replace(self, what=f"{self.what} {told}")


class Workspace:
    """A folder with crates, and with the tools, tests and docs beside them."""

    def __init__(self, root: pathlib.Path) -> None:
        self.root = root
        self.paths = sorted(self._paths())
        in_crates = (path.split("/") for path in self.files("crates"))
        self.crates = sorted({parts[1] for parts in in_crates if len(parts) > 2})

    def _paths(self) -> Iterator[str]:
        for folder, inside, names in os.walk(self.root):
            inside[:] = [name for name in inside if name not in NOT_WRITTEN]
            above = pathlib.Path(folder).relative_to(self.root)
            yield from ((above / name).as_posix() for name in names)

    def files(self, folder: str, *endings: str) -> list[str]:
        """The files under a folder whose names end so, or all of them, in order of their paths."""
        under = (path for path in self.paths if path.startswith(f"{folder}/"))
        return [path for path in under if path.endswith(endings or "")]

    def of_crates(self, *folders: str) -> list[str]:
        """The files of code and of definitions in these folders of each crate."""
        below = [f"crates/{crate}/{folder}" for crate in self.crates for folder in folders]
        return [path for folder in below for path in self.files(folder, ".rt", ".antt")]

    @functools.lru_cache(maxsize=None)
    def text(self, path: str) -> str:
        """The text of a file."""
        try:
            return (self.root / path).read_text(encoding="utf-8")
        except UnicodeDecodeError:
            raise BadWorkspace(f"{path} is no text in UTF-8") from None
        except OSError as error:
            raise BadWorkspace(f"{path} can't be read: {error.strerror}") from None

    def lines(self, path: str) -> list[str]:
        """The lines of a file."""
        return self.text(path).splitlines()
