#!/usr/bin/env python3
"""Makes what robots need that sign: the keys of a fleet, and beside each tape the count of what its robot has signed.

Usage: keys.py make FILE ROBOTS
       keys.py count TAPE

`make` draws a key for each robot from 0 on, and writes all into a file that its owner alone may read. `count` makes the file TAPE.count, once for each
tape. What is there already is left as it is.

Status 0: it is made. 1: it was there. 2: a bad command line. 3: it can't be written.
"""
import argparse
import contextlib
import os
import re
import secrets
import stat
import sys
from typing import Iterable, Iterator, Sequence

sys.dont_write_bytecode = True
from count_file import make_count, path_of  # noqa: E402
from given import number_in  # noqa: E402

WAS_THERE, FAILED = 1, 3
HEADER = "mapf-keys 1"
LINE = re.compile(r"(0|[1-9][0-9]{0,4}) ([0-9a-f]{64})")
# How many bytes a key has, and how many agents a plan may have.
LENGTH, MOST = 32, 10_000
Keys = dict[int, bytes]


class BadKeys(Exception):
    """The file has no keys for this fleet, or others may read it."""


def make_keys(path: str, robots: int) -> None:
    """Writes new keys. From its beginning on nobody but its owner may read the file."""
    lines = [HEADER, *(f"{robot} {secrets.token_hex(LENGTH)}" for robot in range(robots))]
    file = os.open(path, os.O_WRONLY | os.O_CREAT | os.O_EXCL, 0o600)
    try:
        with open(file, "w", encoding="ascii") as keys:
            keys.write("".join(f"{line}\n" for line in lines))
            keys.flush()
            os.fsync(file)
    except BaseException:
        # Half the keys are none.
        os.unlink(path)
        raise


def text_of(path: str) -> str:
    """What stands in the file, if nobody else may read that."""
    if os.path.exists(path) and not os.path.isfile(path):
        raise BadKeys(f"{path}: this is no file")
    with open(path, "rb") as keys:
        mode = stat.S_IMODE(os.fstat(keys.fileno()).st_mode)
        if mode & 0o077:
            raise BadKeys(f"{path}: others than its owner may use it (rights {mode:04o}): chmod 600, or make new keys if they did")
        return keys.read().decode("latin-1")


def pairs_of(path: str, text: str) -> Iterator[tuple[int, bytes]]:
    """Each robot with its key, by rising numbers."""
    lines, before = text.split("\n"), -1
    if lines[0] != HEADER:
        raise BadKeys(f"{path}: line 1: '{HEADER}' was due")
    if lines[-1]:
        raise BadKeys(f"{path}: line {len(lines)}: it has no end")
    for number, line in enumerate(lines[1:-1], 2):
        found = LINE.fullmatch(line)
        if not found:
            raise BadKeys(f"{path}: line {number}: a robot, a space and {2 * LENGTH} digits in 0-9a-f were due")
        if not before < int(found[1]) < MOST:
            raise BadKeys(f"{path}: line {number}: a robot above {before} and below {MOST} was due")
        before = int(found[1])
        yield before, bytes.fromhex(found[2])


def read_keys(path: str, robots: Iterable[int]) -> Keys:
    """The keys of a file, among them those of these robots."""
    keys = dict(pairs_of(path, text_of(path)))
    if len(set(keys.values())) < len(keys):
        raise BadKeys(f"{path}: two robots have the same key")
    for robot in robots:
        if robot not in keys:
            raise BadKeys(f"{path}: there is no key of robot {robot}")
    return keys


def make_or_keep(path: str, robots: int) -> None:
    """Makes the keys of a fleet where there are none yet."""
    with contextlib.suppress(FileExistsError):
        make_keys(path, robots)
    read_keys(path, range(robots))


def amount(word: str) -> int:
    found = number_in(word, MOST)
    if not found:
        raise argparse.ArgumentTypeError(f"a number from 1 to {MOST} is wanted, and '{word[:40]}' is none")
    return found


def read_words(words: Sequence[str]) -> argparse.Namespace:
    parser = argparse.ArgumentParser(prog="keys.py", description=__doc__, formatter_class=argparse.RawDescriptionHelpFormatter)
    commands = parser.add_subparsers(dest="command", required=True, metavar="COMMAND")
    make = commands.add_parser("make", help="draws the keys of a fleet")
    make.add_argument("path", metavar="FILE")
    make.add_argument("robots", type=amount, metavar="ROBOTS", help="how many there are")
    count = commands.add_parser("count", help="makes the count of a tape")
    count.add_argument("tape", metavar="TAPE")
    return parser.parse_args(words)


def main(words: Sequence[str]) -> int:
    given = read_words(words)
    path = given.path if given.command == "make" else path_of(given.tape)
    try:
        if given.command == "make":
            make_keys(path, given.robots)
        else:
            make_count(given.tape)
    except FileExistsError:
        print(f"keys: {path}: it is there already, and was left as it is", file=sys.stderr)
        return WAS_THERE
    except OSError as fault:
        print(f"keys: {path}: {fault.strerror or fault}", file=sys.stderr)
        return FAILED
    return 0


if __name__ == "__main__":
    sys.exit(main(sys.argv[1:]))
