"""The files of a package, before anything is written: each with its bytes and its mode, or as a link."""
import gzip
import io
import os
import pathlib
from typing import Iterator, Union

PROGRAM, PLAIN, FOLDER = 0o755, 0o644, 0o755
# What begins a script, and what Debian's own scripts of Python begin with.
SCRIPT, ANY_PYTHON, PYTHON = b"#!", b"#!/usr/bin/env python3\n", b"#!/usr/bin/python3\n"
# What a checkout has beside its files.
LEFT_OUT = ("__pycache__",)


def packed(content: bytes) -> bytes:
    """The content compressed, the same at any time."""
    out = io.BytesIO()
    with gzip.GzipFile("", "wb", 9, out, mtime=0) as file:
        file.write(content)
    return out.getvalue()


def files_below(folder: pathlib.Path) -> Iterator[pathlib.Path]:
    """The files of a folder of the repository, and none that are hidden or made by a run."""
    for path in sorted(folder.iterdir()):
        if path.name in LEFT_OUT or path.name.startswith("."):
            continue
        if path.is_dir():
            yield from files_below(path)
        else:
            yield path


class Tree:
    """The files by their paths from the root on; a link is what it names."""

    def __init__(self) -> None:
        self.files: dict[str, Union[bytes, str]] = {}

    def put(self, path: str, content: Union[bytes, str]) -> None:
        """Puts a file there; text is that of a link."""
        self.files[path] = content

    def put_text(self, path: str, text: str) -> None:
        self.put(path, text.encode())

    def copy(self, file: pathlib.Path, path: str) -> None:
        """Puts a file of the repository there. Its scripts call the Python that Debian's packages are for."""
        content = file.read_bytes()
        self.put(path, PYTHON + content[len(ANY_PYTHON) :] if content.startswith(ANY_PYTHON) else content)

    def copy_folder(self, folder: pathlib.Path, path: str, without: frozenset[str] = frozenset()) -> None:
        """Puts the files of a folder there, but those of these names in it."""
        for file in files_below(folder):
            name = file.relative_to(folder)
            if name.parts[0] not in without:
                self.copy(file, f"{path}/{name.as_posix()}")

    def size(self) -> int:
        """How much room it takes, in KiB."""
        return sum(max(1, -(-len(it) // 1024)) for it in self.files.values())

    def write(self, root: pathlib.Path, time: int) -> None:
        """Writes all files below a folder, with these modes whatever the caller's mask is, and with one time."""
        folders = {root}
        for path, content in self.files.items():
            target = root / path
            target.parent.mkdir(parents=True, exist_ok=True)
            folders.update(it for it in target.parents if root in it.parents)
            if isinstance(content, str):
                target.symlink_to(content)
            else:
                target.write_bytes(content)
                target.chmod(PROGRAM if is_program(content) else PLAIN)
            os.utime(target, (time, time), follow_symlinks=False)
        for folder in folders:
            folder.chmod(FOLDER)
            os.utime(folder, (time, time))


def is_program(content: bytes) -> bool:
    return content.startswith((SCRIPT, b"\x7fELF"))
