"""The program mapf: where it is, and how it is called. Whatever asks it from Python comes through here."""
import contextlib
import dataclasses
import functools
import os
import pathlib
import platform
import re
import shutil
import subprocess
import sys
import tempfile
from typing import IO, Callable, Generic, Iterator, Optional, Sequence, TypeVar, Union

from mapf.faults import BEFORE_WORDS, Failed, Fault

File = Union[str, os.PathLike[str]]
Process = subprocess.Popen[bytes]
# It lies so where this folder does, in a checkout and where Debian's package puts it.
BESIDE = pathlib.Path(__file__).resolve().parent.parent.parent / "mapf"
# What it is in a checkout starts this one, after a look whether it can be started.
SHIPPED = BESIDE.parent / "dist" / "x86_64-linux" / "mapf"
BUILD = "MAPF_BUILD"
# The variable of the environment that names another one.
VARIABLE = "MAPF"
# No fault, and a fault or an answer that is no.
DONE, FAULT = 0, 1
# The most of a line on standard error that is passed on.
MOST_TOLD = 400
# How the line ends that says that a file can't be opened, but not which; and what stands before the files of a command line.
OPEN_FAILED, BEFORE_FILES = "OpenFailed", "--"
VERSION = re.compile(rb"mapf [\w.+-]+")
# A program that hasn't said its version by then is asked no more.
SECONDS = 10
Read = TypeVar("Read")


def usual_program() -> pathlib.Path:
    """The program where no argument names one: that of the environment, else the one beside these tools, else the one on the path."""
    named = os.environ.get(VARIABLE)
    if named:
        return pathlib.Path(named)
    if BESIDE.is_file() and os.access(BESIDE, os.X_OK):
        return SHIPPED if is_shipped_usual() else BESIDE
    return pathlib.Path(shutil.which("mapf") or BESIDE)


def is_shipped_usual() -> bool:
    """Whether a checkout's own program can be started here, and no other build is asked for."""
    return platform.machine() == "x86_64" and sys.platform == "linux" and os.access(SHIPPED, os.X_OK) and os.environ.get(BUILD) != "1"


@dataclasses.dataclass
class Talk:
    """A call of the program: the lines that it writes, and, behind the last of them, its status and the first line that it told on standard error."""

    lines: Iterator[bytes]
    told: str = ""
    status: int = DONE


@dataclasses.dataclass(frozen=True)
class Said(Generic[Read]):
    """A call that has ended: what was read of its answer, its status, and the line that it told."""

    answer: Read
    status: int
    told: str

    @property
    def words(self) -> str:
        """The words of the fault."""
        return self.told.removeprefix(BEFORE_WORDS)


@dataclasses.dataclass(frozen=True)
class Program:
    """The program mapf, by the name of its file."""

    path: pathlib.Path

    def start(self, words: Sequence[str], err: IO[bytes], stdin: int = subprocess.DEVNULL, restore_signals: bool = True) -> Process:
        """A process of it."""
        line = [str(self.path.absolute()), *words]
        try:
            return subprocess.Popen(line, stdin=stdin, stdout=subprocess.PIPE, stderr=err, restore_signals=restore_signals)
        except OSError as error:
            raise Failed(f"{self.path} can't be started: {error.strerror}") from None

    @contextlib.contextmanager
    def talk(self, *words: str) -> Iterator[Talk]:
        """A call whose lines can be read. Where the reader leaves by a fault of its own, the call is ended."""
        with tempfile.TemporaryFile() as err, self.start(words, err) as process:
            talk = Talk(iter(()))
            talk.lines = followed(talk, process, err)
            try:
                yield talk
            except BaseException:
                process.kill()
                raise

    def ask(self, words: Sequence[str], read: Callable[[Iterator[bytes]], Read]) -> Said[Read]:
        """A call whose answer is read to its end."""
        with self.talk(*words) as talk:
            answer = read(talk.lines)
            # Whatever was read, the program comes to its end, and says why.
            for _ in talk.lines:
                pass
        return Said(answer, talk.status, talk.told)

    def answer(self, *words: str) -> str:
        """All that a call writes, or the fault that it tells in place of an answer or behind one."""
        return self.answer_bytes(*words).decode(errors="surrogateescape")

    def answer_bytes(self, *words: str) -> bytes:
        """The same as bytes: a long answer is read in one piece."""
        with tempfile.TemporaryFile() as err, self.start(words, err) as process:
            answer = process.stdout.read() if process.stdout else b""
            status, told = process.wait(), told_in(err)
        hold(words, status, told, answer)
        return answer

    def version(self) -> str:
        """What it says of itself, as `mapf 0.1.0`, and nothing where it says nothing of the kind."""
        return version_said(self.path)


def followed(talk: Talk, process: Process, err: IO[bytes]) -> Iterator[bytes]:
    """The lines of a process. Behind the last of them it is known how it ended."""
    yield from process.stdout or ()
    talk.status, talk.told = process.wait(), told_in(err)


def told_in(err: IO[bytes]) -> str:
    """The first line of standard error."""
    err.seek(0)
    return err.read(MOST_TOLD).decode(errors="replace").partition("\n")[0]


def hold(words: Sequence[str], status: int, told: str, answer: bytes = b"") -> None:
    """Raises what a call told, or how it ended in place of an answer."""
    if status == FAULT and told:
        raise Fault(told, status, answer.decode(errors="surrogateescape"))
    if told.endswith(OPEN_FAILED):
        raise Failed(told, status, *unopened(words))
    if status not in (DONE, FAULT) or told:
        raise Failed(told or f"`mapf {words[0]}` ended with status {status}, and without a word", status)


def unopened(words: Sequence[str]) -> tuple[str, ...]:
    """The first file of a command line that can't be opened, and what the system says of it."""
    files_last = words[words.index(BEFORE_FILES) + 1 :]
    for name in [*files_last, *(word.partition("=")[2] for word in words if word.startswith("--scen="))]:
        try:
            os.close(os.open(name, os.O_RDONLY | os.O_NONBLOCK))
        except OSError as error:
            # Numbers stand among the files, and a name that stands for many tapes.
            if not name.isdigit() and "%" not in name:
                return name, error.strerror
    return ()


@functools.lru_cache(maxsize=None)
def version_said(path: pathlib.Path) -> str:
    words, nothing, pipe = [str(path.absolute()), "--version"], subprocess.DEVNULL, subprocess.PIPE
    try:
        # In a session of its own: whatever it does to its group, it does to itself.
        ran = subprocess.run(words, stdin=nothing, stdout=pipe, stderr=nothing, timeout=SECONDS, start_new_session=True, check=False)
    except (OSError, subprocess.TimeoutExpired):
        return ""
    said = VERSION.match(ran.stdout)
    return said[0].decode() if said else ""


AnyProgram = Union[File, Program, None]


def program_at(named: AnyProgram) -> Program:
    """The program that an argument names, else the usual one."""
    if isinstance(named, Program):
        return named
    return Program(pathlib.Path(named) if named is not None else usual_program())


def option(name: str, value: Optional[object]) -> list[str]:
    """An option that has a value, where there is one."""
    return [] if value is None else [f"--{name}={number(value) if isinstance(value, int) else value}"]


def number(value: int, least: int = 0) -> str:
    """A number as a word of a command line."""
    if isinstance(value, bool) or not isinstance(value, int) or value < least:
        raise ValueError(f"{value!r}: a whole number from {least} on was due")
    return str(value)


def flag(name: str, is_set: bool) -> list[str]:
    """An option without a value."""
    return [f"--{name}"] if is_set else []


def files(*names: File) -> list[str]:
    """Files as words of a command line, none of which is taken for an option."""
    return [BEFORE_FILES, *(os.fspath(name) for name in names)]
