"""The files of robots that sign, beside their tapes: counts, through kills, and keys, also damaged ones and such as others may read."""
import functools
import os
import pathlib
import random
import re
import subprocess
import sys
import time
from typing import Callable, Iterator, Sequence

from harness import ROOT, Ended, Harness, Outcome, compared

FLEET = ROOT / "examples" / "fleet"
KEYS = FLEET / "keys.py"
sys.path.append(str(FLEET))
from count_file import Count  # noqa: E402
from keys import BadKeys, read_keys  # noqa: E402

# Counts

# Takes numbers and tells them, until it is killed.
TAKER = """
import os, sys
sys.path.insert(0, sys.argv[1])
from count_file import Count
count = Count(sys.argv[2])
while True:
    os.write(1, b"".join(b"%d\\n" % count.take() for _ in range(40)))
"""


def is_rising(numbers: Sequence[int]) -> bool:
    return all(one < other for one, other in zip(numbers, numbers[1:]))


def of_kills(harness: Harness) -> list[Outcome]:
    """Processes that take numbers, killed at random: no number is taken twice, and each is above those before."""
    folder, rng = harness.folder(), random.Random("kills")
    made = harness.run([sys.executable, str(KEYS), "count", "tape"], folder=folder)
    numbers: list[int] = []
    lives, takers = [], 300 if harness.is_long else 50
    for _ in range(takers):
        with subprocess.Popen([sys.executable, "-c", TAKER, str(FLEET), "tape"], cwd=folder, stdout=subprocess.PIPE) as taker:
            first = taker.stdout.readline()
            time.sleep(rng.uniform(0, 0.02))
            taker.kill()
            # The last line may have been cut off.
            lines = [first, *taker.stdout.read().splitlines(keepends=True)]
        own = [int(line) for line in lines if line.endswith(b"\n")]
        lives.append(len(own))
        numbers += own
    wrote = (made.status, is_rising(numbers), min(lives) > 0, max(lives) > 1000)
    return [compared(f"{takers} kills of who takes numbers", f"count_file.py, {len(numbers)} numbers", wrote, (0, True, True, True))]


def of_counts(harness: Harness) -> list[Outcome]:
    """A count is made once; one that is made anew goes on above it."""
    folder = harness.folder()
    make = [sys.executable, str(KEYS), "count", "tape"]
    ended = [harness.run(make, folder=folder)]
    path = folder / "tape.count"
    before = path.read_bytes()
    ended.append(harness.run(make, folder=folder))
    is_same, is_one = path.read_bytes() == before, re.fullmatch(rb"mapf-count 1\n[1-9][0-9]*\n", before) is not None
    count = Count(str(folder / "tape"))
    # Of each number the file says that it was used, which it is only behind that.
    used = [number for number in (count.take() for _ in range(2500)) if int(path.read_bytes().split()[-1]) > number]
    again = Count(str(folder / "tape")).take()
    os.unlink(path)
    ended.append(harness.run(make, folder=folder))
    anew = Count(str(folder / "tape")).take()
    ended.append(harness.run([*make[:-1], "no/tape"], folder=folder))
    there = b"keys: tape.count: it is there already, and was left as it is\n"
    due = [Ended(0, b"", b""), Ended(1, b"", there), Ended(0, b"", b""), Ended(3, b"", b"keys: no/tape.count: No such file or directory\n")]
    rises = is_rising([int(before.split()[-1]) - 1, *used, again, anew])
    wrote = (ended, is_same, is_one, len(used), rises, sorted(it.name for it in folder.iterdir()))
    return [compared("a count", "keys.py count, count_file.py", wrote, (due, True, True, 2500, True, ["tape.count"]))]


# Runs a command that can't write a byte into a file.
FULL = ["sh", "-c", 'ulimit -f 0; exec "$@"', "sh"]


def of_full_disks(harness: Harness) -> list[Outcome]:
    """What can't be written whole isn't there."""
    outcomes, folder = [], harness.folder()
    for words, name in ((["count", "tape"], "tape.count"), (["make", "keys", "3"], "keys")):
        ended = harness.run([*FULL, sys.executable, str(KEYS), *words], folder=folder)
        wrote = (ended, [it.name for it in folder.iterdir()])
        outcomes.append(compared(f"keys.py {words[0]} on a full disk", "keys.py", wrote, (Ended(3, b"", f"keys: {name}: File too large\n".encode()), [])))
    return outcomes


# Takes all numbers of a block and one more, for which the file has to be raised: notes the calls of that, of which one may fail.
STEPPER = """
import os, sys
sys.path.insert(0, sys.argv[1])
from count_file import BLOCK, Count
count, calls, fails = Count("tape"), [], int(sys.argv[2])
def noted(name, call):
    def do(*words):
        calls.append(" ".join([name, *[it for it in words if isinstance(it, str)][-1:]]))
        if len(calls) == fails:
            raise OSError(28, "No space left on device")
        return call(*words)
    return do
for name in ("open", "write", "fsync", "replace"):
    setattr(os, name, noted(name, getattr(os, name)))
last = [count.take() for _ in range(BLOCK)][-1]
before = len(calls)
try:
    told = count.take() - last
except OSError as fault:
    told = f"{fault.filename}: {fault.strerror}"
print(before, told, ", ".join(calls), last, sep="\\n")
"""
# The text is on the disk, and then its name.
STEPS = ["open tape.count.new", "write", "fsync", "replace tape.count", "open .", "fsync"]


def of_steps(harness: Harness) -> list[Outcome]:
    """Before a number is used that the file wasn't above, the file is raised, and is on the disk. Where a step of that fails, the number isn't used."""
    outcomes = []
    for fails in range(len(STEPS) + 1):
        folder = harness.folder()
        harness.run([sys.executable, str(KEYS), "count", "tape"], folder=folder)
        ended = harness.run([sys.executable, "-c", STEPPER, str(FLEET), str(fails)], folder=folder)
        *told, last = ended.out.decode().splitlines() or [ended.err.decode()]
        is_above = last.isdigit() and Count(str(folder / "tape")).take() > int(last)
        due = ["0", "tape.count: No space left on device" if fails else "1", ", ".join(STEPS[: fails or None])]
        name = f"step {fails} fails" if fails else "no step fails"
        outcomes.append(compared(f"a count that is raised, and {name}", "count_file.py", (told, is_above), (due, True)))
    return outcomes


# Files

ONE, OTHER = "0 " + "1f" * 32, "1 " + "a0" * 32
# Files of keys that are none for robot 0, each with what is told.
BAD_KEYS = [
    ("no text", "", "line 1: 'mapf-keys 1' was due"),
    ("another version", f"mapf-keys 2\n{ONE}\n", "line 1: 'mapf-keys 1' was due"),
    ("a line end of two bytes", f"mapf-keys 1\r\n{ONE}\r\n", "line 1: 'mapf-keys 1' was due"),
    ("a header alone", "mapf-keys 1\n", "there is no key of robot 0"),
    ("a header without end", "mapf-keys 1", "line 1: it has no end"),
    ("a line without end", f"mapf-keys 1\n{ONE}\n{OTHER}", "line 3: it has no end"),
    ("a key too short", f"mapf-keys 1\n{ONE[:-1]}\n", "line 2: a robot, a space and 64 digits in 0-9a-f were due"),
    ("a key too long", f"mapf-keys 1\n{ONE}0\n", "line 2: a robot, a space and 64 digits in 0-9a-f were due"),
    ("capital digits", f"mapf-keys 1\n{ONE.upper()}\n", "line 2: a robot, a space and 64 digits in 0-9a-f were due"),
    ("two spaces", f"mapf-keys 1\n{ONE}\n{OTHER.replace(' ', '  ')}\n", "line 3: a robot, a space and 64 digits in 0-9a-f were due"),
    ("a blank line", f"mapf-keys 1\n{ONE}\n\n{OTHER}\n", "line 3: a robot, a space and 64 digits in 0-9a-f were due"),
    ("a number with a zero before", f"mapf-keys 1\n0{OTHER}\n", "line 2: a robot, a space and 64 digits in 0-9a-f were due"),
    ("a robot twice", f"mapf-keys 1\n{ONE}\n0{OTHER[1:]}\n", "line 3: a robot above 0 and below 10000 was due"),
    ("a robot too far", f"mapf-keys 1\n{ONE}\n10000{OTHER[1:]}\n", "line 3: a robot above 0 and below 10000 was due"),
    ("a key twice", f"mapf-keys 1\n{ONE}\n1{ONE[1:]}\n", "two robots have the same key"),
    ("keys of others", f"mapf-keys 1\n{OTHER}\n", "there is no key of robot 0"),
    ("bytes that are no text", f"mapf-keys 1\n\xff{ONE}\n", "line 2: a robot, a space and 64 digits in 0-9a-f were due"),
]


def robots_in(path: pathlib.Path) -> list[int]:
    """Whose keys a file has, by its lines."""
    return [int(line.split()[0]) for line in path.read_text(encoding="ascii").splitlines()[1:]]


def of_bad_keys(harness: Harness) -> list[Outcome]:
    """One fault of each file, in one line; and the one right one is read."""
    outcomes, folder = [], harness.folder()
    path = folder / "keys"
    for name, text, told in [("the right one", f"mapf-keys 1\n{ONE}\n{OTHER}\n", ""), *BAD_KEYS]:
        path.write_bytes(text.encode("latin-1"))
        path.chmod(0o600)
        try:
            found: object = read_keys(str(path), [0])
        except BadKeys as fault:
            found = str(fault)
        outcomes.append(compared(f"keys: {name}", "keys.read_keys", found, f"{path}: {told}" if told else {0: b"\x1f" * 32, 1: b"\xa0" * 32}))
    return outcomes


def of_rights(harness: Harness) -> list[Outcome]:
    """A robot takes no keys that others may use, whatever they may do with them, and makes none that they may."""
    outcomes, folder = [], harness.folder()
    for mode in range(0o1000):
        path = folder / "keys"
        path.write_text(f"mapf-keys 1\n{ONE}\n", encoding="ascii")
        path.chmod(mode | 0o400)
        try:
            is_taken = bool(read_keys(str(path), [0]))
        except BadKeys as fault:
            is_taken = f"rights {mode | 0o400:04o}" not in str(fault)
        path.unlink()
        if is_taken != (mode & 0o077 == 0):
            outcomes.append(compared(f"keys with the rights {mode:o}", "keys.read_keys", is_taken, not is_taken))
    old = os.umask(0)
    try:
        ended = [harness.run([sys.executable, str(KEYS), "make", "new", "12"], folder=folder) for _ in range(2)]
    finally:
        os.umask(old)
    made = (folder / "new").stat().st_mode & 0o7777, robots_in(folder / "new")
    due = [Ended(0, b"", b""), Ended(1, b"", b"keys: new: it is there already, and was left as it is\n")]
    return [*outcomes, compared("the rights of keys", "keys.py make", (ended, made), (due, (0o600, [*range(12)])))]


def tests(harness: Harness) -> Iterator[Callable[[], list[Outcome]]]:
    for test in (of_kills, of_counts, of_steps, of_full_disks, of_bad_keys, of_rights):
        yield functools.partial(test, harness)
