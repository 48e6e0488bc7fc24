"""What the parts of ./test share: how commands are run, and how it is told whether they did what was due."""
import concurrent.futures
import contextlib
import dataclasses
import itertools
import os
import pathlib
import pty
import signal
import subprocess
import sys
import tty
from typing import Callable, Iterable, Iterator, Mapping, Optional, Sequence

ROOT = pathlib.Path(__file__).resolve().parent.parent
# Where the program lies in a checkout.
SHIPPED = pathlib.Path("dist") / "x86_64-linux" / "mapf"
# The kit that proved the program, and what the program says of itself.
KIT = (ROOT / SHIPPED).with_name("made-from.txt").read_text().partition("\nkit ")[2].partition("\n")[0]
VERSION = f"mapf 0.2.0-dev\nproved by {KIT}\n"
# No run of a part takes nearly as long: a command that hangs fails its test.
LONGEST = 120
# The status of a command that could not be started, as a shell has it.
CANNOT_START = 126
# How many tests run at once where they may: most of their time they wait for a process.
AT_ONCE = 2


@dataclasses.dataclass(frozen=True)
class Ended:
    """What a command did: its status, or the signal that ended it as a negative number, and what it wrote."""

    status: int
    out: bytes
    err: bytes


@dataclasses.dataclass(frozen=True)
class Outcome:
    """A test that was run. The fault says which command was run, what it wrote and what was due; it is empty where all is well. A test that
    this machine has no device or no tool for says what it lacks, and is counted as skipped."""

    name: str
    fault: str = ""
    lacks: str = ""


def put_program(path: pathlib.Path, text: str) -> None:
    """Writes a program that can be started at once. Were it written here, a process that another thread starts meanwhile would have it open for writing
    for a moment, and the system starts no such file."""
    subprocess.run(["sh", "-c", 'cat >"$0" && chmod 755 "$0"', str(path)], input=text.encode(), check=True)


class Harness:
    """The program under test, and a folder for what the tests write."""

    def __init__(self, program: pathlib.Path, room: pathlib.Path, is_long: bool = False, is_proved: bool = False):
        self.program = program
        self.room = room
        self.is_long = is_long
        self.is_proved = is_proved
        self._folders = itertools.count(1)

    def folder(self, files: Mapping[str, bytes] = {}) -> pathlib.Path:
        """A new folder with these files."""
        folder = self.room / str(next(self._folders))
        folder.mkdir()
        for name, content in files.items():
            (folder / name).write_bytes(content)
        return folder

    def mapf(self, words: Sequence[str], given: bytes = b"", folder: Optional[pathlib.Path] = None) -> Ended:
        """Runs the program under test."""
        return self.run([str(self.program), *words], given, folder)

    def run(
        self,
        command: Sequence[str],
        given: bytes = b"",
        folder: Optional[pathlib.Path] = None,
        more: Mapping[str, str] = {},
        longest: int = LONGEST,
    ) -> Ended:
        """Runs a command. Where this call is interrupted, the command and all that it started end too."""
        # What the caller calls mapf is not what is tested.
        environment = {**os.environ, "TMPDIR": str(self.room), "PYTHONDONTWRITEBYTECODE": "1", "MAPF": "", **more}
        pipes = {"stdin": subprocess.PIPE, "stdout": subprocess.PIPE, "stderr": subprocess.PIPE}
        try:
            process = subprocess.Popen(command, cwd=folder or self.room, env=environment, start_new_session=True, **pipes)
        except OSError as error:
            return Ended(CANNOT_START, b"", str(error).encode())
        with process:
            try:
                out, err = process.communicate(given, timeout=longest)
            except BaseException as error:
                with contextlib.suppress(ProcessLookupError):
                    os.killpg(process.pid, signal.SIGKILL)
                out, err = process.communicate()
                if not isinstance(error, subprocess.TimeoutExpired):
                    raise
                err += f"(it had not ended after {longest} seconds)".encode()
            return Ended(process.returncode, out, err)

    def on_a_terminal(
        self, words: Sequence[str], folder: pathlib.Path, variables: Mapping[str, str] = {}, gets_output: bool = False
    ) -> Ended:
        """Runs the program under test with a terminal as its standard error, and perhaps as its standard output too. Of the
        terminal and of colour its environment has these variables alone."""
        near, far = pty.openpty()
        tty.setraw(far)
        environment = {name: value for name, value in os.environ.items() if name not in ("NO_COLOR", "TERM")}
        pipes = {"stdin": subprocess.DEVNULL, "stdout": far if gets_output else subprocess.PIPE, "stderr": far}
        err = b""
        with subprocess.Popen([str(self.program), *words], cwd=folder, env={**environment, **variables}, **pipes) as process:
            os.close(far)
            try:
                while read := os.read(near, 4096):
                    err += read
            except OSError:
                # The other end is closed.
                pass
            os.close(near)
            out, _ = process.communicate(timeout=LONGEST)
        return Ended(process.returncode, out or b"", err)


def has_terminals() -> bool:
    """Whether this machine gives tests a terminal."""
    try:
        ends = pty.openpty()
    except OSError:
        return False
    for end in ends:
        os.close(end)
    return True


def side_by_side(tests: Iterable[Callable[[], Sequence[Outcome]]]) -> Iterator[Outcome]:
    """Runs tests that don't need one another, a few at once, and gives their outcomes in order."""
    with concurrent.futures.ThreadPoolExecutor(AT_ONCE) as pool:
        running = [pool.submit(test) for test in tests]
        try:
            for test in running:
                yield from test.result()
        finally:
            for test in running:
                test.cancel()


def shown(command: Sequence[str], given: bytes = b"") -> str:
    """A command as one would type it, shortened, and its input."""
    words = " ".join(word if word and word.isprintable() and " " not in word else repr(word) for word in map(cut, command))
    return f"{words}  with the input {cut(given)!r}" if given else words


def cut(text, most: int = 400):
    """A text, or its beginning where it is long."""
    return text if len(text) <= most else text[:most] + (b".." if isinstance(text, bytes) else "..")


def compared(name: str, ran: str, wrote: object, due: object) -> Outcome:
    """The outcome of a test that compares what a command wrote with what was due."""
    return Outcome(name) if wrote == due else Outcome(name, f"ran    {ran}\n    wrote  {wrote!r}\n    due    {due!r}")


def ended_as(name: str, ran: str, ended: Ended, due: Ended) -> Outcome:
    """The outcome of a test that compares all that a command did, and tells only what differs."""
    differ = [field.name for field in dataclasses.fields(Ended) if getattr(ended, field.name) != getattr(due, field.name)]
    return compared(name, ran, {it: getattr(ended, it) for it in differ}, {it: getattr(due, it) for it in differ})


class Report:
    """Counts outcomes, tells the faults, and shows on a terminal how far it is."""

    def __init__(self) -> None:
        self.passed = self.failed = self.skipped = 0
        self.faults: list[str] = []
        self.is_terminal = sys.stdout.isatty()

    def take(self, part: str, outcomes: Iterator[Outcome]) -> None:
        """Runs the tests of a part to their end."""
        before = (self.passed, self.failed, self.skipped)

        def counted() -> str:
            passed, failed, skipped = (now - then for now, then in zip((self.passed, self.failed, self.skipped), before))
            return f"{part}: {passed} passed, {failed} failed" + (f", {skipped} skipped" if skipped else "")

        try:
            for outcome in outcomes:
                if outcome.lacks:
                    self.skipped += 1
                    self.say(f"skipped {part}: {outcome.name}: there is no {outcome.lacks} here")
                elif outcome.fault:
                    self.fail(f"{part}: {outcome.name}\n    {outcome.fault}")
                else:
                    self.passed += 1
                self.show(counted())
        except (OSError, ValueError, subprocess.SubprocessError) as error:
            # The other parts still have something to say.
            self.fail(f"{part}: not run to its end: {error!r}")
        self.say(counted())

    def show(self, text: str) -> None:
        if self.is_terminal:
            print(f"\r\033[K{text}", end="", flush=True)

    def say(self, text: str) -> None:
        self.show("")
        # One write, which lines of others do not come into.
        print(f"{text}\n", end="", flush=True)

    def fail(self, why: str) -> None:
        self.failed += 1
        self.faults.append(why)
        self.say(f"FAILED {why}")

    def count(self, passed: int, failed: int) -> None:
        """Adds what another program counted."""
        self.passed += passed
        self.failed += failed

    def end(self) -> int:
        """Writes the faults once more, since much may have been written since, and the last line. Answers the status."""
        for why in self.faults:
            self.say(f"FAILED {why}")
        self.say(f"{self.passed} passed, {self.failed} failed")
        return 1 if self.failed or not (self.passed or self.skipped) else 0
