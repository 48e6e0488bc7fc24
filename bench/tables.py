"""The tables of docs/PERFORMANCE.md: what was measured, and how it is written there.

Each table stands between the lines `<!--NAME-->` and `<!--end-->`, and the list of when and where
they were measured between `<!--measured-->` and `<!--end-->`.
"""
import dataclasses
import json
import os
import pathlib
import re
import textwrap
import time
from typing import Optional, Sequence

LAYOUT = {"width": 100, "subsequent_indent": "  ", "break_on_hyphens": False}
MEASURED, END = "<!--measured-->", "<!--end-->"
# `- 2026-11-28, 4 x Intel Xeon @ 2.50GHz: maps, rows.`
ITEM = re.compile(r"- (.+): (.+)\.")


class BadTables(Exception):
    """Why nothing can be written."""


@dataclasses.dataclass(frozen=True)
class Table:
    """A table by its name: what its rows are, whom `mapf` stands beside, if anyone, and how exact the
    times of that one are."""

    rows: str
    other: Optional[str] = "peer"
    decimals: int = 2


TABLES = {
    "maps": Table("Map"),
    "scenario": Table("Text"),
    "rows": Table("Map, goal"),
    "scenarios": Table("Map"),
    "jumps": Table("Map", "by jump points"),
    "straight": Table("Map"),
    "alone": Table("Command", None),
    "plans": Table("Plan"),
    "waits": Table("Acts"),
    "checkers": Table("Checker", "its", 0),
    "dependencies": Table("Plan"),
    "proofs": Table("Proof"),
    "runs": Table("Events"),
    "endings": Table("Written"),
}


@dataclasses.dataclass(frozen=True)
class Measure:
    """A row of a table: the best times of `mapf` and of the other program, if there is one, in
    milliseconds, the median of their ratios, where it is known, and the most memory of each in
    megabytes."""

    table: str
    name: str
    ms: tuple[float, ...]
    ratio: Optional[float]
    mb: tuple[float, ...]


@dataclasses.dataclass(frozen=True)
class Run:
    """What was measured, when, and on which machine."""

    when: str
    machine: str
    measures: tuple[Measure, ...]


def machine() -> str:
    """How many processors this machine has, and of which kind."""
    told = pathlib.Path("/proc/cpuinfo").read_text(encoding="utf-8")
    found = re.search(r"^model name\s*: (.+)$", told, re.MULTILINE)
    kind = found[1] if found else "processors"
    short = re.sub(r"\(\w+\)|\b(?:CPU|Processor)\b", " ", kind)
    return f"{os.cpu_count()} x {' '.join(short.split())}"


def run_of(measures: Sequence[Measure]) -> Run:
    return Run(time.strftime("%Y-%m-%d"), machine(), tuple(measures))


def keep(run: Run, file: pathlib.Path) -> None:
    file.write_text(json.dumps(dataclasses.asdict(run), indent=1) + "\n", encoding="utf-8")


def kept(file: pathlib.Path) -> Run:
    """What an earlier run kept."""
    try:
        found = json.loads(file.read_text(encoding="utf-8"))
        return Run(found["when"], found["machine"], tuple(map(measure_of, found["measures"])))
    except (ValueError, TypeError, KeyError):
        raise BadTables(f"{file} holds no measures") from None


def measure_of(found: dict) -> Measure:
    (ours, *theirs), (our_room, *their_room) = found["ms"], found["mb"]
    ratio = None if found["ratio"] is None else float(found["ratio"])
    times = tuple(map(float, (ours, *theirs)))
    memory = tuple(map(float, (our_room, *their_room)))
    return Measure(str(found["table"]), str(found["name"]), times, ratio, memory)


def cells_of(table: Table, measure: Measure) -> list[str]:
    """The cells of a row."""
    time, memory = f"{measure.ms[0]:.2f}", f"{measure.mb[0]:.1f}"
    if table.other is None:
        return [measure.name, time, memory]
    ratio = "" if measure.ratio is None else f"{measure.ratio:.2f}"
    its_time, its_memory = f"{measure.ms[1]:.{table.decimals}f}", f"{measure.mb[1]:.1f}"
    return [measure.name, time, its_time, ratio, memory, its_memory]


def lines_of(name: str, measures: Sequence[Measure]) -> str:
    """A table in Markdown."""
    table = TABLES[name]
    heads = [table.rows, "`mapf` ms", "`mapf` MB"]
    if table.other is not None:
        heads[2:] = [f"{table.other} ms", "ratio", "`mapf` MB", f"{table.other} MB"]
    rows = [heads, *(cells_of(table, it) for it in measures)]
    first, *rest = ["|".join(["", *row, ""]) for row in rows]
    return "\n".join([first, "|---" * len(heads) + "|", *rest])


def replaced(page: str, mark: str, text: str) -> str:
    """The page with this text between a line and the next that ends what it begins."""
    begin = f"\n{page}".find(f"\n{mark}\n")
    end = page.find(f"\n{END}\n", begin)
    if begin < 0 or end < 0:
        raise BadTables(f"the page has no lines '{mark}' and '{END}'")
    return f"{page[: begin + len(mark)]}\n\n{text}\n{page[end:]}"


def between(page: str, mark: str) -> str:
    """What stands behind a line, up to the next that ends what it begins."""
    return page.partition(f"{mark}\n")[2].partition(f"\n{END}\n")[0]


def measured(page: str, run: Run, names: Sequence[str]) -> str:
    """The list of when and where each table was measured, with those of a run."""
    items: dict[str, list[str]] = {}
    for found in ITEM.finditer(between(page, MEASURED).replace("\n  ", " ")):
        left = [it for it in found[2].split(", ") if it not in names]
        items.setdefault(found[1], []).extend(left)
    items.setdefault(f"{run.when}, {run.machine}", []).extend(names)
    order = {name: place for place, name in enumerate(TABLES)}
    listed = {when: sorted(of, key=lambda it: order.get(it, 0)) for when, of in items.items() if of}
    lines = [f"- {when}: {', '.join(of)}." for when, of in listed.items()]
    return "\n".join(textwrap.fill(it, **LAYOUT) for it in lines)


def written(page: str, run: Run) -> str:
    """The page with the tables that a run measured, all others as they were."""
    by_table: dict[str, list[Measure]] = {}
    for it in run.measures:
        by_table.setdefault(it.table, []).append(it)
    unknown = [name for name in by_table if name not in TABLES]
    if unknown or not by_table:
        raise BadTables(f"there is no table '{unknown[0]}'" if unknown else "nothing was measured")
    for name, measures in by_table.items():
        page = replaced(page, f"<!--{name}-->", lines_of(name, measures))
    return replaced(page, MEASURED, measured(page, run, list(by_table)))
