"""./mapf: it hands its words, streams and status to the program of dist/, and says in a line what it needs where that does not start."""
import os
import pathlib
import resource
import shutil
import signal
import subprocess
from typing import Callable, Iterator, Sequence

from harness import LONGEST, ROOT, SHIPPED, Ended, Harness, Outcome, compared, ended_as, put_program
from texts import BEHIND, LANE, SWAP


def checkout(harness: Harness) -> pathlib.Path:
    """A copy of what the launcher is about, in which the program under test stands for the one of dist/."""
    folder = harness.folder()
    shutil.copy2(ROOT / "mapf", folder)
    (folder / SHIPPED).parent.mkdir(parents=True)
    shutil.copy2(harness.program, folder / SHIPPED)
    return folder


def bare_path(harness: Harness) -> dict[str, str]:
    """A path on which there is the shell's own and no kit."""
    tools = harness.folder()
    for tool in ("readlink", "sh"):
        os.symlink(shutil.which(tool) or "/bin/false", tools / tool)
    return {"PATH": str(tools)}


def ordinary_calls(harness: Harness) -> Iterator[Outcome]:
    """The caller's folder, words, streams, signals and status are the program's."""
    bare, folder = bare_path(harness), checkout(harness)
    lane = LANE.encode()
    elsewhere = harness.folder({"M": lane, "P": BEHIND.encode(), "X": SWAP.encode(), "two words": lane, "*": lane})
    os.symlink(folder / "mapf", elsewhere / "linked")
    for launcher in (str(folder / "mapf"), os.path.relpath(folder / "mapf", elsewhere), "./linked"):
        for words, given, due in (
            (["map", "two words"], b"", Ended(0, lane, b"")),
            (["map", "*"], b"", Ended(0, lane, b"")),
            (["map", ""], b"", Ended(3, b"", b"mapf: OpenFailed\n")),
            (["check", "M", "X"], b"", Ended(1, b"rejected Swap 0 1 0\n", b"")),
            (["map", "X"], b"", Ended(1, b"", b"mapf: BadHeader 1\n")),
            (["map", "/dev/stdin"], lane, Ended(0, lane, b"")),
            (["agent", "M", "P", "0", "T"], b"held\n", Ended(0, b"at 1 0 done 0\nat 1 0 done 0\n", b"")),
        ):
            ended = harness.run([launcher, *words], given, elsewhere, bare)
            yield ended_as(f"{os.path.basename(launcher)} {words}", f"{launcher} {words}", ended, due)
    how = {"cwd": elsewhere, "stdin": subprocess.PIPE, "stdout": subprocess.PIPE, "env": {**os.environ, **bare}}
    with subprocess.Popen([str(folder / "mapf"), "agent", "M", "P", "0", "T"], **how) as process:
        process.stdout.readline()
        process.send_signal(signal.SIGTERM)
        status = process.wait(LONGEST)
    yield compared("a signal", "mapf agent M P 0 T, ended by SIGTERM", status, -signal.SIGTERM)
    yield tape_at_a_limit(harness, folder, elsewhere)


def tape_at_a_limit(harness: Harness, folder: pathlib.Path, elsewhere: pathlib.Path) -> Outcome:
    """A limit on the size of files is a write that fails: no signal ends the agent."""
    how = {"cwd": elsewhere, "input": b"start\nfinish\n", "capture_output": True, "env": {**os.environ, **bare_path(harness)}, "timeout": LONGEST}
    done = subprocess.run([str(folder / "mapf"), "agent", "M", "P", "0", "small"], preexec_fn=least_files, **how)
    due = Ended(3, b"at 1 0 done 0\nmoving 2 0\nrefused StoreFailed\n", b"")
    return ended_as("a tape at a limit", "mapf agent M P 0 small, files of at most 15 bytes", Ended(done.returncode, done.stdout, done.stderr), due)


def least_files() -> None:
    resource.setrlimit(resource.RLIMIT_FSIZE, (15, 15))


def cut_off(program: pathlib.Path) -> None:
    program.write_bytes(program.read_bytes()[:5000])


def of_another_processor(program: pathlib.Path) -> None:
    content = bytearray(program.read_bytes())
    # The ELF header's machine: AArch64.
    content[18:20] = (183).to_bytes(2, "little")
    program.write_bytes(content)


def not_executable(program: pathlib.Path) -> None:
    program.chmod(0o644)


def empty(program: pathlib.Path) -> None:
    program.write_bytes(b"")


def needs_a_loader_that_is_not_here(program: pathlib.Path) -> None:
    program.write_bytes(program.read_bytes().replace(b"/lib64/ld-linux-x86-64.so.2\0", b"/lib64/ld-linux-x86-64.so.0\0"))


SPOILED: Sequence[Callable[[pathlib.Path], None]] = (
    cut_off,
    of_another_processor,
    not_executable,
    empty,
    needs_a_loader_that_is_not_here,
    pathlib.Path.unlink,
)
# In place of the checkout's own build, of which only is seen that it is called.
BUILT = '#!/bin/sh\necho "own build: $*"\nexit 7\n'


def programs_that_do_not_start(harness: Harness) -> Iterator[Outcome]:
    bare = bare_path(harness)
    for spoil in SPOILED:
        folder = checkout(harness)
        spoil(folder / SHIPPED)
        ended = harness.run([str(folder / "mapf"), "--version"], more=bare)
        yield one_line(f"dist/'s program is spoiled: {spoil.__name__}", ended, "dist/x86_64-linux/mapf does not start")
        own_build(folder)
        ended = harness.run([str(folder / "mapf"), "--version"], more=bare)
        yield ended_as(f"{spoil.__name__}, with an own build", "mapf --version", ended, Ended(7, b"own build: --version\n", b""))


def own_build(folder: pathlib.Path) -> None:
    built = folder / "crates" / "mapf" / "out" / "mapf"
    built.parent.mkdir(parents=True)
    put_program(built, BUILT)


def one_line(name: str, ended: Ended, named: str) -> Outcome:
    told = ended.err.decode(errors="replace")
    well = (ended.status, ended.out) == (3, b"") and told.startswith("mapf: ") and told.count("\n") == 1 and named in told
    return compared(name, "mapf --version", ended, ended if well else f"status 3, and one line with {named!r}")


def builds_that_are_asked_for(harness: Harness) -> Iterator[Outcome]:
    asked = {**bare_path(harness), "MAPF_BUILD": "1"}
    folder = checkout(harness)
    yield one_line("MAPF_BUILD=1 without a kit", harness.run([str(folder / "mapf"), "--version"], more=asked), "MAPF_BUILD=1")
    own_build(folder)
    ended = harness.run([str(folder / "mapf"), "map", "a b"], more=asked)
    yield ended_as("MAPF_BUILD=1 with a build", "MAPF_BUILD=1 mapf map 'a b'", ended, Ended(7, b"own build: map a b\n", b""))


def outcomes(harness: Harness) -> Iterator[Outcome]:
    yield from ordinary_calls(harness)
    yield from programs_that_do_not_start(harness)
    yield from builds_that_are_asked_for(harness)
