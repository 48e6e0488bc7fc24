"""The program, as a page or a repair asks it: over copies of the files, so that all its answers are of the same texts."""
import contextlib
import pathlib
import shutil
from typing import Iterator

from mapf.faults import Failed
from mapf.program import DONE, FAULT, Program, Talk
from refused import Refused


@contextlib.contextmanager
def talk(program: Program, command: str, *words: str) -> Iterator[Talk]:
    """A call whose lines can be read. One that ends by neither of its statuses has to say why."""
    with program.talk(command, *words) as it:
        it.lines = told_of(it, it.lines)
        yield it


def told_of(it: Talk, lines: Iterator[bytes]) -> Iterator[bytes]:
    yield from lines
    if it.status not in (DONE, FAULT) and not it.told:
        raise Failed(f"`mapf` ended with status {it.status}, and without a word")


def answer(program: Program, command: str, *words: str) -> tuple[bytes, Talk]:
    """All that a call writes."""
    with talk(program, command, *words) as it:
        written = b"".join(it.lines)
    return written, it


def refuse(it: Talk, file: str) -> None:
    """Passes on what the program told of a file."""
    raise Refused(f"{file}: {it.told}", it.status)


def copied(file: str, folder: pathlib.Path, name: str) -> str:
    """A copy of a file, which stays as it is. Of a file that can't be read the program itself is to say why."""
    with contextlib.suppress(OSError):
        return str(shutil.copyfile(file, folder / name))
    return file
