"""bench/run.py: how measures are written into the tables of docs/PERFORMANCE.md, and which texts
whole scenarios are measured with. No time that is taken is looked at."""
import json
import pathlib
import re
import shlex
import sys
from typing import Iterator, Optional

from harness import ROOT, Ended, Harness, Outcome, compared, ended_as, put_program

sys.path.insert(0, str(ROOT / "bench"))
import far  # noqa: E402

TOOL, PAGE = ROOT / "bench" / "run.py", ROOT / "docs" / "PERFORMANCE.md"
# What stands between two lines of the page. The gate's table is made by another tool.
MARKED = re.compile(r"^<!--(?!gate-->)(\w+)-->\n(.*?)^<!--end-->$", re.DOTALL | re.MULTILINE)


def measure(table: str, name: str, ms: float, ratio: Optional[float] = 1.25) -> dict:
    return {"table": table, "name": name, "ms": [ms, 2 * ms], "ratio": ratio, "mb": [1.04, 10]}


def alone(name: str, ms: float) -> dict:
    """Of a command that no other program has."""
    return {"table": "alone", "name": name, "ms": [ms], "ratio": None, "mb": [1.04]}


MADE_UP = """# Page

<!--measured-->
<!--end-->

Of maps:
<!--maps-->
old
<!--end-->
<!--checkers-->
<!--end-->
<!--alone-->
<!--end-->
More.
<!--runs-->

as it was

<!--end-->
"""
MAPS = [measure("maps", "open", 1), measure("maps", "rooms", 12.345)]
FIRST = [*MAPS, measure("checkers", "x", 200.5, None), alone("y", 3)]
SECOND = [measure("maps", "closed", 1000)]
ONCE = """# Page

<!--measured-->

- 2026-01-02, 4 x Some Processor: maps, alone, checkers.

<!--end-->

Of maps:
<!--maps-->

|Map|`mapf` ms|peer ms|ratio|`mapf` MB|peer MB|
|---|---|---|---|---|---|
|open|1.00|2.00|1.25|1.0|10.0|
|rooms|12.35|24.69|1.25|1.0|10.0|

<!--end-->
<!--checkers-->

|Checker|`mapf` ms|its ms|ratio|`mapf` MB|its MB|
|---|---|---|---|---|---|
|x|200.50|401||1.0|10.0|

<!--end-->
<!--alone-->

|Command|`mapf` ms|`mapf` MB|
|---|---|---|
|y|3.00|1.0|

<!--end-->
More.
<!--runs-->

as it was

<!--end-->
"""
TWICE = ONCE
for was, now in (
    (": maps, alone, checkers.\n", ": alone, checkers.\n- 2026-02-03, 1 x Other: maps.\n"),
    ("|open|1.00|2.00|1.25|1.0|10.0|\n", "|closed|1000.00|2000.00|1.25|1.0|10.0|\n"),
    ("|rooms|12.35|24.69|1.25|1.0|10.0|\n", ""),
):
    TWICE = TWICE.replace(was, now)
NO_LINES = "the page has no lines '<!--{}-->' and '<!--end-->'"
# A stand-in for the other program: ours, which knows no way of searching by its name.
STAND_IN = """#!/bin/sh
for word; do shift; [ "$word" = --jump ] || set -- "$@" "$word"; done
exec {} "$@"
"""
SMALL = ["--rounds", "1", "--seconds", "0", "--side", "64", "--rows", "400"]
# The rows that each command measures.
SCENARIOS = [
    (table, name)
    for name in ("open", "one cell in five blocked", "35 cells of 100 blocked", "maze")
    + ("corridors three cells wide", "rooms")
    for table in ("scenarios", "straight", "jumps")
]
ALONE = [
    ("alone", f"`{name}")
    for name in ("bound`, boxes on 16 x 16", "bound`, far through a maze of 16 x 16")
    + ("check --all`, 40 agents in one cell", "check --all=100000`, 40 agents in one cell")
    + ("check --all`, 4 agents astray", "check --all=100000`, 4 agents astray")
]
# What can't be written: the measures, the page, and what is told.
BAD: list[tuple[object, str, str]] = [
    ("none", MADE_UP, "kept.json holds no measures"),
    ([{"table": "maps"}], MADE_UP, "kept.json holds no measures"),
    ([], MADE_UP, "nothing was measured"),
    ([measure("bees", "x", 1)], MADE_UP, "there is no table 'bees'"),
    ([measure("rows", "x", 1)], MADE_UP, NO_LINES.format("rows")),
    ([measure("maps", "x", 1)], "<!--maps-->\n<!--end-->\n", NO_LINES.format("measured")),
]
BAD_LINES = (
    ["--kept", "no.json"],
    ["--write", "page.md", "--side", "64"],
    ["--write", "page.md", "--rows", "9"],
)


def write(harness: Harness, folder: pathlib.Path, *words: str) -> Ended:
    return harness.run([sys.executable, str(TOOL), *words], folder=folder)


def keep(folder: pathlib.Path, when: str, machine: str, measures: object) -> None:
    kept = {"when": when, "machine": machine, "measures": measures}
    (folder / "kept.json").write_text(json.dumps(kept))


def of_made_up(harness: Harness) -> Iterator[Outcome]:
    """Just the tables that were measured are others, and it is said of each when it was."""
    folder = harness.folder({"page.md": MADE_UP.encode()})
    words = ["--kept", "kept.json", "--write", "page.md"]
    for when, machine, measures, due in (
        ("2026-01-02", "4 x Some Processor", FIRST, ONCE),
        ("2026-02-03", "1 x Other", SECOND, TWICE),
        ("2026-02-03", "1 x Other", SECOND, TWICE),
    ):
        keep(folder, when, machine, measures)
        ended = write(harness, folder, *words)
        yield ended_as(f"tables of {when}", f"{TOOL.name} {words}", ended, Ended(0, b"", b""))
        page = (folder / "page.md").read_text()
        yield compared(f"the page of {when}", f"{TOOL.name} {words}", page, due)


def of_page(harness: Harness) -> Iterator[Outcome]:
    """The page of the checkout has each table, and nothing else of it is written."""
    text = PAGE.read_text(encoding="utf-8")
    names = [name for name, _ in MARKED.findall(text)]
    measured = [name for name in names if name != "measured"]
    folder = harness.folder({"page.md": text.encode()})
    keep(folder, "2026-01-02", "here", [measure(name, "x", 1) for name in measured])
    ended = write(harness, folder, "--kept", "kept.json", "--write", "page.md")
    yield ended_as("all tables", f"{TOOL.name} --write", ended, Ended(0, b"", b""))
    page = (folder / "page.md").read_text(encoding="utf-8")
    found = {name: it.splitlines() for name, it in MARKED.findall(page)}
    listed = f"- 2026-01-02, here: {', '.join(measured)}."
    found_list = "\n".join(found.pop("measured")).strip().replace("\n  ", " ")
    yield compared("when all were", f"{TOOL.name} --write", found_list, listed)
    rows = {name: len(it) for name, it in found.items()}
    yield compared("a row in each", f"{TOOL.name} --write", rows, {name: 5 for name in measured})
    rest = [MARKED.sub("", it) for it in (page, text)]
    yield compared("nothing else", f"{TOOL.name} --write", rest[0], rest[1])


def of_bad(harness: Harness) -> Iterator[Outcome]:
    for measures, page, told in BAD:
        folder = harness.folder({"page.md": page.encode()})
        keep(folder, "2026-01-02", "here", measures)
        ended = write(harness, folder, "--kept", "kept.json", "--write", "page.md")
        due = Ended(1, b"", f"bench: {told}\n".encode())
        yield ended_as(told, f"{TOOL.name} --kept", ended, due)
        left = (folder / "page.md").read_text()
        yield compared(f"nothing is written: {told}", f"{TOOL.name} --kept", left, page)
    folder = harness.folder({"page.md": MADE_UP.encode()})
    for words, missing in ((["no.json", "page.md"], "no.json"), (["no.json", "no.md"], "no.md")):
        ended = write(harness, folder, "--kept", words[0], "--write", words[1])
        due = Ended(1, b"", f"bench: {missing}: No such file or directory\n".encode())
        yield ended_as(f"no file {missing}", f"{TOOL.name} {words}", ended, due)
    for words in BAD_LINES:
        ended = write(harness, folder, *words)
        wrote, ran = (ended.status, ended.out, ended.err[:6]), f"{TOOL.name} {' '.join(words)}"
        yield compared(f"a bad command line: {words}", ran, wrote, (2, b"", b"usage:"))


def of_small(harness: Harness) -> Iterator[Outcome]:
    """Small texts are measured: both programs answer them alike, and none of what they answer is
    otherwise than it should be, or nothing is kept."""
    stand_in = STAND_IN.format(shlex.quote(str(harness.program.resolve())))
    folder = harness.folder()
    put_program(folder / "peer", stand_in)
    programs = ["--program", str(harness.program.resolve()), "--peer", str(folder / "peer")]
    for command, due in (("rows", SCENARIOS), ("alone", ALONE)):
        words = [*programs, *SMALL, "--only", command, "--keep", "kept.json"]
        ended = write(harness, folder, *words)
        ran = f"{TOOL.name} {' '.join(words)}"
        yield compared(f"small texts: {command}", ran, (ended.status, ended.err), (0, b""))
        kept = json.loads((folder / "kept.json").read_text())["measures"]
        yield compared(f"its rows: {command}", ran, [(it["table"], it["name"]) for it in kept], due)


def of_spread(harness: Harness) -> Iterator[Outcome]:
    """Of lengths of which most are middling, as many are chosen of each part of the range as there
    are; and a walk leads from each cell of a pair to the other."""
    lengths = [*range(100), *([50.0] * 500)]
    chosen = sorted(lengths[it] for it in far.spread(lengths, 100))
    low = sum(it < 45 for it in chosen)
    yield compared("lengths that are spread", "spread", (chosen[0], chosen[-1], low), (0, 99, 45))
    text = "type octile\nheight 2\nwidth 6\nmap\n..@...\n..@..@\n"
    cells = {cell for pair in far.pairs_of(text, 1, 200) for cell in pair}
    due = {(3, 0), (4, 0), (5, 0), (3, 1), (4, 1)}
    yield compared("pairs of one region", "pairs_of", sorted(cells), sorted(due))


def outcomes(harness: Harness) -> Iterator[Outcome]:
    yield from of_made_up(harness)
    yield from of_page(harness)
    yield from of_bad(harness)
    yield from of_spread(harness)
    yield from of_small(harness)
