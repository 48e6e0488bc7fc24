#!/usr/bin/env python3
"""Proves and builds the program mapf, says on standard error how far it is, and then runs it with the given words.

The launcher ./mapf calls this where the checkout's own build is asked for and isn't there. The crates that the program stands on are
copied to a folder of their own, without tests and wrong bodies, and the kit's gate runs there: it proves crates that do not stand on one
another side by side, and gives those that all others wait for more than one processor. The program appears in crates/mapf/out only when
it is whole. An interrupted build begins anew.
"""
import contextlib
import fcntl
import os
import pathlib
import re
import shutil
import signal
import subprocess
import sys
import tempfile
import threading
import time
from typing import IO, Any, Callable, Iterable

sys.dont_write_bytecode = True
import product  # noqa: E402

NOT_BUILT = 3
# What the kit's gate says of each crate once it is proved.
PROVED = re.compile(r"rt: (\w+) proved$")

# The signals that asked this call to end.
asked: list[int] = []


def say(text: str, log: str = "") -> None:
    """Writes a line on standard error, below what a command printed. Where nobody can read it, the work goes on."""
    with contextlib.suppress(OSError):
        sys.stderr.write(f"{log}mapf: {text}\n")
        sys.stderr.flush()


def heed_signals() -> None:
    for number in (signal.SIGINT, signal.SIGTERM, signal.SIGHUP):
        # Where the caller ignores a signal, this call ignores it too.
        if signal.getsignal(number) is not signal.SIG_IGN:
            signal.signal(number, lambda number, _: asked.append(number))


class Interrupted(Exception):
    """A signal asked this call to end."""


def wait_until(is_done: Callable[[], bool]) -> None:
    while not is_done():
        if asked:
            raise Interrupted
        time.sleep(0.05)


def lock(file: IO[Any]) -> None:
    """Waits until no other call builds. The lock is held until the file is closed."""

    def is_ours() -> bool:
        try:
            fcntl.flock(file, fcntl.LOCK_EX | fcntl.LOCK_NB)
        except BlockingIOError:
            return False
        return True

    if not is_ours():
        say("waiting for another call, which builds the program")
        wait_until(is_ours)


def copy_product(to: pathlib.Path) -> int:
    """Makes a repository of the product's crates alone, and answers how many there are."""
    crates, lines = product.crates(), product.crate_lines()
    for crate in crates:
        for part in ("src", "specs", "proofs"):
            if (product.ROOT / "crates" / crate / part).is_dir():
                shutil.copytree(product.ROOT / "crates" / crate / part, to / "crates" / crate / part)
    program = product.ROOT / "crates" / product.NAME
    for path in program.iterdir():
        # What the kit runs the program on.
        if path.name in ("args", "data", "status", "stdin", "stdout"):
            (shutil.copytree if path.is_dir() else shutil.copy)(path, to / "crates" / product.NAME / path.name)
    (to / "crates.txt").write_text("".join(f"{lines[crate]}\n" for crate in crates), encoding="utf-8")
    shutil.copy(product.ROOT / "HANDLES", to)
    return len(crates)


def gate(folder: pathlib.Path, count: int) -> bool:
    """Runs the kit's gate, tells each crate that is proved, and answers whether it passed. The gate ends where this call does."""
    began, written = time.monotonic(), []

    def follow(lines: Iterable[str]) -> None:
        for line in lines:
            written.append(line)
            if PROVED.match(line):
                done = sum(bool(PROVED.match(it)) for it in written)
                say(f"{PROVED.match(line)[1]} proved ({done} of {count}, {time.monotonic() - began:.0f} s)")

    # In a session of its own it gets no signal of the terminal.
    how = {"stdin": subprocess.DEVNULL, "stdout": subprocess.PIPE, "stderr": subprocess.STDOUT, "text": True, "errors": "replace"}
    with subprocess.Popen(["rt", "ci"], cwd=folder, start_new_session=True, **how) as ran:
        reader = threading.Thread(target=follow, args=(ran.stdout,))
        reader.start()
        try:
            wait_until(lambda: ran.poll() is not None)
        except BaseException:
            os.killpg(ran.pid, signal.SIGTERM)
            raise
        finally:
            ran.wait()
            reader.join()
    if ran.returncode:
        say("the program could not be proved and built", "".join(written))
    return ran.returncode == 0


def prove_and_build() -> bool:
    """Proves and builds the program of these sources, and answers whether it is there now."""
    with tempfile.TemporaryDirectory(prefix="mapf-build-") as room:
        folder = pathlib.Path(room)
        count = copy_product(folder)
        say(f"proving and building the program from {count} crates; it takes half an hour on four processors")
        if not gate(folder, count):
            return False
        product.BUILT.parent.mkdir(parents=True, exist_ok=True)
        new = product.BUILT.with_suffix(".new")
        shutil.copy(folder / product.BUILT.relative_to(product.ROOT), new)
        os.replace(new, product.BUILT)
    return True


def build_once() -> bool:
    """Builds the program, unless another call just did."""
    heed_signals()
    with open(product.ROOT / "crates.txt", encoding="utf-8") as listed:
        lock(listed)
        return product.BUILT.exists() or prove_and_build()


def main(words: list[str]) -> int:
    try:
        if not build_once():
            return NOT_BUILT
    except Interrupted:
        say("interrupted; nothing was built")
        signal.signal(asked[0], signal.SIG_DFL)
        os.kill(os.getpid(), asked[0])
    # Python ignores these, and the program would inherit that.
    for number in (signal.SIGPIPE, signal.SIGXFSZ):
        signal.signal(number, signal.SIG_DFL)
    os.execv(product.BUILT, [str(product.BUILT), *words])


if __name__ == "__main__":
    try:
        sys.exit(main(sys.argv[1:]))
    except OSError as error:
        say(f"the program could not be built: {error}")
        sys.exit(NOT_BUILT)
