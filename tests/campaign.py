"""A long campaign of fleets: agents are killed at random and while they write, over links that lose messages, and all answers have to be due.
And damage to what they left, at random places, has to be found."""
import functools
import pathlib
import random
import re
import sys
from typing import Callable, Iterator, Sequence

import boxes
import networking
from failing_agents import Chances, failing_program
from harness import Harness, Outcome, compared, shown, side_by_side

LEAST_KILLS = 500
# By the seed. Where that is odd, all tell.
LINKS = (["--link", "multicast"],) * 2 + (["--link", "udp"],) * 2
# How often a write of an agent fails, or it is killed in the middle of one or behind it.
WRITES = Chances(both=0.04, killed=0.05, torn=0.05, lost=0.03, stored=0.03)


def on_a_simulated_link(harness: Harness, seed: int) -> list[str]:
    words = ["--quiet", "--loss", "0.5" if seed % 4 < 2 else "0.2", "--kills", "0.1", "--program", str(harness.program)]
    return [sys.executable, str(boxes.FLEET / "fleet.py"), *words]


def that_is_killed(harness: Harness, seed: int) -> list[str]:
    words = [*LINKS[seed % 4], "--kills", "8", "--moves", "0.15", "--slips", "0.1", "--program", str(harness.program)]
    return [sys.executable, str(boxes.FLEET / "robots.py"), *words]


def that_is_killed_in_writes(harness: Harness, seed: int) -> list[str]:
    words = [*LINKS[seed % 4], "--slips", "0.1", "--program", str(failing_program(harness, WRITES))]
    return [sys.executable, str(boxes.FLEET / "robots.py"), *words]


def on_cables(harness: Harness, seed: int) -> list[str]:
    words = [*LINKS[seed % 4], "--robots", "6", "--loss", "30", "--moves", "0.2", "--kills", "4", "--cuts", "0.2", "--program", str(harness.program)]
    return ["sh", str(boxes.FLEET / "network.sh"), *words]


# Each kind of a fleet, with the seeds of its fleets.
FLEETS = [
    (on_a_simulated_link, range(6)),
    (that_is_killed, range(6, 11)),
    (that_is_killed_in_writes, range(11, 16)),
    (on_cables, range(16, 20)),
]


# What is changed in a line of a box: how it is found, and what stands there then. A message is one of another plan.
CHANGES: list[tuple[str, str, Callable[["re.Match[str]"], str]]] = [
    ("a move to another cell", r'(?<="moving )\d+', lambda it: str(int(it[0]) + 1)),
    ("an arrival elsewhere", r'(?<="arrived )\d+', lambda it: str(int(it[0]) + 1)),
    ("another count that was heard", r'(?<="heard )(\d+ )(\d+)', lambda it: f"{it[1]}{int(it[2]) + 1}"),
    ("another refusal", r'(?<="refused Waits )\d+', lambda it: str(int(it[0]) + 1)),
    ("another first line", r'(?<= done )\d+(?=")', lambda it: str(int(it[0]) + 1)),
    ("another message that was said", r'(?<="said )(.*)(.)(?=")', lambda it: f"{it[1]}{(int(it[2], 16) + 1) % 16:x}"),
    ("a message that nobody said", r'(?<="hear )(.{8})(.{8})', lambda it: f"{it[1]}{int(it[2], 16) ^ 1:08x}"),
]
RECORD = re.compile(r'"(?:moving|arrived) ')
Boxes = dict[str, list[str]]


def places(boxes_of: Boxes, pattern: "re.Pattern[str]") -> list[tuple[str, int]]:
    """Where such a line is, and an answer: in that line or the next one."""
    found = [(name, at) for name, lines in boxes_of.items() for at, line in enumerate(lines[:-1]) if pattern.search(line)]
    return [(name, at) for name, at in found if any('"answered"' in line for line in boxes_of[name][at : at + 2])]


def damaged(whole: Boxes, rng: random.Random) -> Iterator[tuple[str, Boxes]]:
    """The boxes of a fleet with one kind of damage after another."""
    for kind, pattern, change in CHANGES:
        of_kind = re.compile(pattern)
        name, at = rng.choice(places(whole, of_kind))
        lines = whole[name]
        yield kind, {**whole, name: [*lines[:at], of_kind.sub(change, lines[at]), *lines[at + 1 :]]}
    name, at = rng.choice(places(whole, RECORD))
    lines = whole[name]
    yield "a call that was left out", {**whole, name: [*lines[: at - 1], *lines[at + 1 :]]}
    yield "a call that was doubled", {**whole, name: [*lines[: at + 1], *lines[at - 1 :]]}
    one, other = rng.sample(sorted(whole), 2)
    numbers = [re.sub(r'.*("agent": \d+).*', r"\1", whole[it][0]) for it in (one, other)]
    swapped = [[line.replace(numbers[it], numbers[1 - it]) for line in whole[(one, other)[it]]] for it in (0, 1)]
    yield "two boxes that were exchanged", {**whole, one: swapped[0], other: swapped[1]}
    yield "a box that was left out", {it: lines for it, lines in whole.items() if it != one}


def found_in(harness: Harness, folder: pathlib.Path, seed: int) -> list[str]:
    """The kinds of damage that weren't found in these boxes."""
    whole = {path.name: path.read_text(encoding="ascii").splitlines() for path in sorted(folder.glob("*.box"))}
    missed = []
    for kind, lines_of in damaged(whole, random.Random(f"damage {seed}")):
        files = {name: "".join(f"{line}\n" for line in lines).encode("ascii") for name, lines in lines_of.items()}
        files.update((path.name, path.read_bytes()) for path in folder.glob("*.plan"))
        ended = boxes.asked_of(harness, str(boxes.WAREHOUSE), harness.folder(files))
        if ended.status != 1:
            missed.append(f"{kind}: {ended}")
    return missed


def driven(harness: Harness, kind: Callable[[Harness, int], list[str]], seed: int, told: list[str]) -> list[Outcome]:
    """A fleet, and what is told of its boxes."""
    kept = harness.folder() / "boxes"
    command = [*kind(harness, seed), "--boxes", str(kept), "--seed", str(seed), *(["--tell"] if seed % 2 else [])]
    ended = harness.run(command)
    # Of robots.py each run has a folder of its own.
    checked = [boxes.asked_of(harness, str(boxes.WAREHOUSE), plan.parent) for plan in sorted(kept.glob("**/*.plan"))]
    told += [it.out.decode() for it in checked if it.status == 0]
    missed = [it for plan in kept.glob("**/*.plan") for it in found_in(harness, plan.parent, seed)]
    wrote = (ended.status, [(it.status, it.out[:7]) for it in checked], missed)
    ran = f"{shown(command)}, which told {ended.err[-1500:]!r}, and of its boxes was told {checked}"
    return [compared(f"a fleet {kind.__name__.replace('_', ' ')}, seed {seed}", ran, wrote, (0, [(0, b"agreed:")], []))]


def counted(told: Sequence[str]) -> dict[str, int]:
    """The sums of what was counted of boxes."""
    pairs = [(name, int(count.replace(",", ""))) for line in told for count, name in re.findall(r"([0-9,]+) ([a-z' ]+)", line)]
    return {name: sum(count for other, count in pairs if other == name) for name in dict.fromkeys(name for name, _ in pairs)}


def outcomes(harness: Harness) -> Iterator[Outcome]:
    told: list[str] = []
    fleets = [(that_is_killed if kind is on_cables and networking.lacking() else kind, seed) for kind, seeds in FLEETS for seed in seeds]
    yield from side_by_side(functools.partial(driven, harness, *fleet, told) for fleet in fleets)
    sums = counted(told)
    many = (len(told), sums.get("kills", 0) >= LEAST_KILLS)
    yield compared(f"{len(told)} fleets that agree: {sums}", "all of them", many, (len(fleets), True))
