#!/usr/bin/env python3
"""Runs a program over the vectors of vectors/, which vectors/README.md describes.

Usage: vectors.py PROGRAM [COMMAND ..]      (COMMAND: a file of vectors/ without its ending, as map; none: all)
The last line is 'N passed, M failed'.
"""
import functools
import json
import pathlib
import shutil
import sys
import tempfile
from typing import Iterator, Optional

sys.dont_write_bytecode = True
from harness import ROOT, Ended, Harness, Outcome, Report, compared, ended_as, shown, side_by_side  # noqa: E402

VECTORS = ROOT / "vectors"


def commands() -> list[str]:
    """The files of vectors, by name without their ending."""
    return sorted(path.stem for path in VECTORS.glob("*.jsonl"))


def text_of(path: pathlib.Path) -> Optional[str]:
    return path.read_bytes().decode("latin-1") if path.exists() else None


def outcomes_of_line(harness: Harness, name: str, line: str) -> list[Outcome]:
    """Runs one vector in a folder of its own, which is gone afterwards."""
    vector = json.loads(line)
    folder = harness.folder({name: text.encode("latin-1") for name, text in vector["files"].items()})
    try:
        given = vector.get("stdin", "").encode("latin-1")
        ran = f"{shown(['mapf', *vector['words']], given)}  with the files {vector['files']!r}"
        ended = harness.mapf(vector["words"], given, folder)
        due = Ended(vector["status"], vector["stdout"].encode("latin-1"), vector["stderr"].encode("latin-1"))
        if ended != due:
            return [ended_as(name, ran, ended, due)]
        after = vector.get("after", {})
        return [compared(name, f"{ran}, and looked into the files afterwards", {it: text_of(folder / it) for it in after}, after)]
    finally:
        shutil.rmtree(folder)


def outcomes_of(harness: Harness, command: str) -> Iterator[Outcome]:
    with open(VECTORS / f"{command}.jsonl", encoding="utf-8") as lines:
        named = [(f"line {number} of vectors/{command}.jsonl", line) for number, line in enumerate(lines, 1)]
    yield from side_by_side(functools.partial(outcomes_of_line, harness, *it) for it in named)


def outcomes(harness: Harness) -> Iterator[Outcome]:
    """All vectors, as a part of ./test."""
    for command in commands():
        yield from outcomes_of(harness, command)


def main(words: list[str]) -> int:
    unknown = [word for word in words[1:] if word not in commands()]
    if not words or words[0].startswith("-") or unknown:
        print(__doc__.strip(), f"There are: {' '.join(commands())}.", sep="\n", file=sys.stderr)
        return 2
    report = Report()
    with tempfile.TemporaryDirectory(prefix="mapf-") as room:
        harness = Harness(pathlib.Path(words[0]).resolve(), pathlib.Path(room))
        for command in words[1:] or commands():
            report.take(command, outcomes_of(harness, command))
    return report.end()


if __name__ == "__main__":
    sys.exit(main(sys.argv[1:]))
