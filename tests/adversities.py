"""Fleets of real agents to which adversities happen, one behind the other.

Agents are killed at any moment. A network loses, repeats, delays, reorders and damages messages of
both versions. Drives stop, plans are taken back, robots are lost, and robots break down. A referee
judges each change of each drive, and check_boxes.py judges all answers.
"""
import collections
import contextlib
import functools
import os
import pathlib
import tempfile
from typing import Iterator

import boxes
from adverse_fleets import Fleet
from adverse_robots import Run
from floors import Drive, Hasty, Referee, Unsafe
from harness import Harness, Outcome, compared, side_by_side
from random_runs import Cell

SHORT_SEEDS, LONG_SEEDS = range(1, 3), range(1, 41)
# The seed of a fleet whose drives are hasty.
HASTY = 1
# What has to be reached at least, and in a long test.
LEAST = {"kills": 40, "damaged": 100, "of old runs": 20, "taken back": 2, "lost": 2, "blocked": 2}
LEAST_LONG = {"kills": 1_000, "kills in writes": 300, "damaged": 3_000, "of old runs": 1_000}
LEAST_LONG.update({"stops": 160, "taken back": 40, "lost": 40, "blocked": 40})
LEAST_LONG.update({"blocked, and not seen": 5, "blocked, and driven": 1, "lost ahead": 5})
LEAST_LONG.update({"tapes gone": 10, "too many": 10})
# Where files are in memory. The program syncs each record, which takes a disk milliseconds.
MEMORY = "/dev/shm"
Counts = collections.Counter[str]
HAPPENINGS = ("stop", "take_back", "lose", "break_down")


def happenings_of(fleet: Fleet) -> list[str]:
    """Each of them once, in any order, and one more."""
    names = [*HAPPENINGS, fleet.rng.choice(HAPPENINGS[:2])]
    return fleet.rng.sample(names, len(names))


@contextlib.contextmanager
def driven(harness: Harness, seed: int, drives: type[Drive]) -> Iterator[tuple[Fleet, str]]:
    """A fleet to which all has happened, and why it isn't safe, if it isn't."""
    room, told = MEMORY if os.access(MEMORY, os.W_OK | os.X_OK) else harness.room, ""
    with tempfile.TemporaryDirectory(prefix="mapf-adversities-", dir=room) as folder:
        fleet = Fleet(harness, pathlib.Path(folder), seed, drives)
        try:
            fleet.drive(happenings_of(fleet))
        except Unsafe as fault:
            told = str(fault)
        finally:
            fleet.leave()
        yield fleet, told


def judged(harness: Harness, name: str, run: Run) -> Outcome:
    """What check_boxes.py says of a run."""
    return boxes.held(harness, f"{name}, run {run.plans[0].number}", str(run.map), run.folder)


def of_seed(harness: Harness, seed: int, counted: list[Counts]) -> list[Outcome]:
    """A fleet that has to be safe, and the boxes of each of its runs."""
    name = f"adversities, seed {seed}"
    with driven(harness, seed, Drive) as (fleet, told):
        counted.append(fleet.counts)
        outcome = compared(name, f"{fleet.happened}, with {dict(fleet.counts)}", told, "")
        return [outcome, *([] if told else [judged(harness, name, run) for run in fleet.runs])]


def of_hasty_drives(harness: Harness) -> list[Outcome]:
    """Where drives go on without a word, the referee sees two in one cell."""
    with driven(harness, HASTY, Hasty) as (fleet, told):
        is_seen = told.endswith("share a cell")
        return [compared("hasty drives", f"{fleet.happened}: '{told}'", is_seen, True)]


# Walks of drives 0 and 1 on a lane, whether 1 has broken down, and what the referee says.
LANE = [(0, 0), (1, 0), (2, 0), (3, 0)]
WALKS: list[tuple[str, list[tuple[int, list[Cell]]], bool, str]] = [
    ("one goes behind", [(1, LANE[1:3]), (1, LANE[2:3]), (0, LANE[:2]), (0, LANE[1:2])], False, ""),
    ("a cell that is held", [(0, LANE[:2])], False, "share a cell"),
    ("a cell that isn't left yet", [(1, LANE[1:3]), (0, LANE[:2])], False, "share a cell"),
    ("over a cell", [(1, LANE[2:3])], False, "jumps from"),
    ("off the path", [(1, [LANE[1], (1, 1)])], False, "its path is"),
    ("where one broke down", [(0, LANE[:2])], True, "where 1 broke down"),
]


def of_the_referee() -> Iterator[Outcome]:
    """The referee sees each kind of fault, and nothing else."""
    for name, walk, breaks, due in WALKS:
        referee, told = Referee(), ""
        for drive in (0, 1):
            referee.begins(drive, LANE[drive:])
        if breaks:
            referee.breaks(1)
        try:
            for drive, cells in walk:
                referee.sees(drive, tuple(cells))
        except Unsafe as fault:
            told = str(fault)
        seen = due in told if due else not told
        yield compared(f"the referee: {name}", f"{walk}, of which it said '{told}'", seen, True)


def outcomes(harness: Harness) -> Iterator[Outcome]:
    seeds, least = (LONG_SEEDS, LEAST_LONG) if harness.is_long else (SHORT_SEEDS, LEAST)
    yield from of_the_referee()
    yield from of_hasty_drives(harness)
    counted: list[Counts] = []
    yield from side_by_side(functools.partial(of_seed, harness, seed, counted) for seed in seeds)
    sums = sum(counted, collections.Counter())
    short = {name: sums[name] for name, count in least.items() if sums[name] < count}
    told = f"{len(counted)} fleets, with {dict(sums)}"
    yield compared(f"adversities: {told}", told, (len(counted), short), (len(seeds), {}))
