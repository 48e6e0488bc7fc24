#!/usr/bin/env python3
"""Writes the gate's table of docs/PERFORMANCE.md from the log of `./test --prove`.

Usage: gate.py LOG [--write PAGE]

The log has a line for each crate with the minutes of a processor that its proof, its tests and its wrong bodies took. The table has these
lines, the dearest crate first, and how many wrong bodies each crate has. A log of a run that took proofs from an earlier run is refused,
since its minutes are not those of the whole gate.

Status 0: the table was written. 1: the log is not one of a whole gate, or a file can't be read or written. 2: a bad command line.
"""
import argparse
import collections
import dataclasses
import pathlib
import re
import sys
import textwrap
import time
from typing import Sequence

sys.dont_write_bytecode = True
sys.path.insert(0, str(pathlib.Path(__file__).resolve().parent.parent / "tools"))
import tables  # noqa: E402
from whole_file import draft  # noqa: E402

MARK = "<!--gate-->"
CRATE = re.compile(r"gate: (\w+): proof ([\d.]+), tests ([\d.]+), wrong bodies ([\d.]+)")
TOOK = re.compile(r"gate: ([\d.]+) minutes on (\d+) processors")
EDIT = re.compile(r"rt: must-fail (\w+)/\S+: refused")
# How a gate ends well that has done all itself: some kits say so, and the others keep no proofs.
WHOLE = re.compile(r"rt: ok; handles allowed: [^;]*(?:; .*every proof and must-fail edit was done in this run)?")


class BadLog(Exception):
    """Why the log makes no table."""


@dataclasses.dataclass(frozen=True)
class Crate:
    """A crate with the minutes of a processor that the gate took for it."""

    name: str
    proof: float
    tests: float
    wrong: float
    count: int

    @property
    def all(self) -> float:
        return self.proof + self.tests + self.wrong


@dataclasses.dataclass(frozen=True)
class Gate:
    """A whole run of the gate."""

    crates: tuple[Crate, ...]
    minutes: float
    processors: int


def read(log: str) -> Gate:
    lines = log.splitlines()
    if not any(map(WHOLE.fullmatch, lines)):
        raise BadLog("it is not the log of a gate that proved everything in one run and passed")
    counts = collections.Counter(found[1] for found in map(EDIT.match, lines) if found)
    crates = [
        Crate(found[1], *map(float, found.group(2, 3, 4)), counts[found[1]])
        for found in map(CRATE.fullmatch, lines)
        if found
    ]
    took = next((found for found in map(TOOK.fullmatch, lines) if found), None)
    if not crates or not took:
        raise BadLog("it has no minutes: only `./test --prove` writes them")
    return Gate(tuple(sorted(crates, key=lambda it: -it.all)), float(took[1]), int(took[2]))


def cell(minutes: float) -> str:
    """Minutes, or nothing where there are none."""
    return f"{minutes:.1f}" if minutes >= 0.05 else ""


def row(name: str, crate: Crate) -> str:
    cells = [name, cell(crate.proof), cell(crate.tests), cell(crate.wrong), str(crate.count or ""), cell(crate.all)]
    return "|".join(["", *cells, ""])


def table(gate: Gate, when: str) -> str:
    """What stands in the page."""
    names = ("proof", "tests", "wrong", "count")
    whole = Crate("", *(sum(getattr(it, name) for it in gate.crates) for name in names))
    told = (
        f"{when}, {gate.processors} processors of {tables.machine()}: it took {gate.minutes:.0f} minutes,"
        f" and {whole.all:.0f} of a processor: {whole.proof:.0f} for proofs, {whole.tests:.0f} for proved tests,"
        f" {whole.wrong:.0f} for {whole.count} wrong bodies."
    )
    head = ["|Processor minutes|Proof|Its tests|Wrong bodies|How many|In all|", "|---|---|---|---|---|---|"]
    rows = [row(f"`{it.name}`", it) for it in gate.crates]
    return "\n".join([*textwrap.wrap(told, **tables.LAYOUT), "", *head, *rows, row("all", whole)])


def main(words: Sequence[str]) -> int:
    parser = argparse.ArgumentParser(description=__doc__, formatter_class=argparse.RawDescriptionHelpFormatter)
    parser.add_argument("log", type=pathlib.Path)
    parser.add_argument("--write", type=pathlib.Path, metavar="PAGE", help="writes the table into this page, between its marks")
    given = parser.parse_args(words)
    try:
        text = table(read(given.log.read_text(encoding="utf-8")), time.strftime("%Y-%m-%d"))
        if not given.write:
            print(text)
            return 0
        page = tables.replaced(given.write.read_text(encoding="utf-8"), MARK, text)
        with draft([page.encode()], given.write) as made:
            made.put()
    except BadLog as fault:
        print(f"gate: {given.log}: {fault}", file=sys.stderr)
        return 1
    except tables.BadTables as fault:
        print(f"gate: {given.write}: {fault}", file=sys.stderr)
        return 1
    except OSError as fault:
        print(f"gate: {fault.filename}: {fault.strerror}", file=sys.stderr)
        return 1
    return 0


if __name__ == "__main__":
    sys.exit(main(sys.argv[1:]))
