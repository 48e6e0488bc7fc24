#!/usr/bin/env python3
"""Converts what planners write to a plan, `mapf-plan 1`, and back. docs/CONVERTING.md says more.

Usage: convert.py FILE [-o PLAN] [--from FORMAT] [--map MAP] [--scen SCEN] [--number N]
                       [--fill-waits]
       convert.py PLAN [-o PLAN] [--map MAP] [--scen SCEN] [--number N]
       convert.py PLAN --to FORMAT [-o FILE] [--map MAP] [--scen SCEN]
       convert.py MAP [-o MAP]
       convert.py --help-format FORMAT

Each conversion is held against what was read: `mapf path` says where each agent of the plan stands
at each time, and that has to be each cell that the text has. So a mistake of this tool refuses a
plan, and never passes off another one. With --scen, starts have to be those of the scenario's rows:
row k is of agent k. What a planner did wrong, as a goal that is missed or a cell off the map, is
converted and said: `mapf check` rejects it.

A plan without --to is the same plan under another number. Each number is drawn, unless --number
fixes it: a plan that robots drive needs one that no run had before.

A map of the League of Robot Runners becomes one of MovingAI: its emitters and stations (E, S) are
free cells.

Status 0: done. 1: a text has a fault, told in one line as `FILE:LINE: what is wrong, what was due`.
2: a bad command line. 3: a file or a tool failed. Unless it is 0, nothing is written.
"""
import argparse
import contextlib
import pathlib
import shutil
import sys
from typing import Optional, Sequence

sys.dont_write_bytecode = True
import canonical  # noqa: E402
import path_check  # noqa: E402
from given import plan_number  # noqa: E402
from leaving import heed_signals  # noqa: E402
from mapf.faults import Failed  # noqa: E402
from mapf.numbers import drawn_number  # noqa: E402
from mapf.program import Program, usual_program  # noqa: E402
from plan_formats import HEAD, Format, formats, guess, league_map, mapf_plan, page_of  # noqa: E402
from plan_formats.texts import text_of  # noqa: E402
from plan_formats.walks import Fault, Found, Given, Task, Walk, difference, moved, padded  # noqa: E402
from refused import Refused  # noqa: E402
from whole_file import Draft, draft  # noqa: E402

REFUSED, BAD_LINE, FAILED = 1, 2, 3


class BadLine(Exception):
    """The words of the command line don't fit together."""


def tell(line: str) -> None:
    """Writes a line on standard error. Where nobody can read it, the work goes on."""
    # A closed standard error is None, and would be taken for standard output.
    with contextlib.suppress(OSError):
        if sys.stderr:
            print(line, file=sys.stderr, flush=True)


def say(text: str) -> None:
    tell(f"convert: {text}")


class FormatHelp(argparse.Action):
    """Shows the page of a format, and ends."""

    def __call__(
        self,
        parser: argparse.ArgumentParser,
        given: argparse.Namespace,
        name: str,
        option: Optional[str] = None,
    ) -> None:
        if name not in formats():
            say(f"{name[:40]!r} is no format, one of {', '.join(formats())} was due")
            parser.exit(BAD_LINE)
        try:
            with open(1, "wb", closefd=False) as out:
                out.write(page_of(name).encode())
        except OSError as fault:
            say(str(fault.strerror))
            parser.exit(FAILED)
        parser.exit()


def read_words(words: Sequence[str]) -> argparse.Namespace:
    names = list(formats())
    parser = argparse.ArgumentParser(prog="convert.py", description=__doc__, formatter_class=argparse.RawDescriptionHelpFormatter)
    parser.add_argument("file", metavar="FILE", help="what a planner wrote, or a plan")
    parser.add_argument("-o", "--output", type=pathlib.Path, metavar="FILE", help="where the text goes (standard output)")
    parser.add_argument("--from", dest="source", choices=names, metavar="FORMAT", help=f"what FILE is: {', '.join(names)} (guessed by its beginning)")
    parser.add_argument("--to", choices=names, metavar="FORMAT", help="converts a plan to this format")
    parser.add_argument("--map", metavar="MAP", help="the map of the plan; what it doesn't allow is said")
    parser.add_argument("--scen", metavar="SCEN", help="the scenario that the plan is to solve")
    parser.add_argument("--number", type=plan_number, metavar="N", help="the plan's number (one that is drawn)")
    parser.add_argument("--fill-waits", action="store_true", help="an agent waits at times that a schedule leaves out")
    parser.add_argument("--program", type=pathlib.Path, default=usual_program(), metavar="PATH", help="another program mapf than the usual one")
    page = "shows what is to be known of a format, and ends"
    parser.add_argument("--help-format", action=FormatHelp, metavar="FORMAT", help=page)
    given = parser.parse_args(words)
    for taken, name in ((given.source, "--from"), (given.number is not None, "--number"), (given.fill_waits, "--fill-waits")):
        if given.to and taken:
            parser.error(f"{name} goes with a conversion to a plan, and not with --to")
    if given.to and not formats()[given.to].write:
        parser.error(formats()[given.to].no_way_back)
    return given


def hold_plan(given: argparse.Namespace, plan: str, walks: Sequence[Walk]) -> None:
    """Compares a plan with the cells that were read, by what the program says of it: on its map, or on an open one where that doesn't allow it."""
    program = Program(given.program)
    # No map has negative cells, so those that are moved are only compared where they are as they were.
    fault = given.map is not None and path_check.said_of_the_path(program, given.map, plan, moved(walks))
    if given.map is None or fault:
        path_check.hold_on_open_map(program, plan, walks)
    if fault:
        say(f"{given.map} allows no such plan: {fault}. `mapf check` is to say what is wrong with it")


def hold_tasks(given: argparse.Namespace, walks: Sequence[Walk], tasks: Optional[Sequence[Task]]) -> None:
    """Refuses other starts. A goal that is missed is said: it may be the planner's mistake."""
    if tasks is None:
        return
    found = path_check.start_difference(walks, tasks, given.scen)
    if found:
        raise Fault(*found)
    missed = path_check.goal_difference(walks, tasks, given.scen)
    if missed:
        tell_of_line(given.file, missed)


def tell_of_line(file: str, remark: tuple[int, str]) -> None:
    tell(f"{file}:{remark[0]}: {remark[1]}")


def tell_found(file: str, found: Found) -> None:
    """What a reader found beside the cells, and what is claimed and wrong."""
    for remark in [*found.remarks, *((claim.line, claim.what) for claim in found.claims if not claim.is_right)]:
        tell_of_line(file, remark)


def hold_back(chosen: Format, file: pathlib.Path, walks: Sequence[Walk]) -> None:
    """Reads a text that was written of a plan, and compares the cells."""
    tasks = [Task(walk.start, walk.end) for walk in walks]
    reader = chosen.read_back or chosen.read
    try:
        again = reader(text_of(file.read_bytes()), Given(tasks=tasks))
    except Fault as fault:
        raise Failed(f"what was written is refused in line {fault.line}: {fault.what}; this is a fault of the converter") from None
    found = difference(padded(walks) if chosen.is_padded else walks, again)
    if found:
        raise Failed(f"what was written differs from the plan: {found}; this is a fault of the converter")


def give(made: Draft, target: Optional[pathlib.Path]) -> None:
    """Puts the draft in its place, or copies it to standard output."""
    if target:
        made.put()
        return
    with open(made.path, "rb") as file, open(1, "wb", closefd=False) as out:
        shutil.copyfileobj(file, out)


def format_of(given: argparse.Namespace, text: bytes, context: Given) -> Format:
    """The format that is named, or that the text begins as. What else it needs has to be there."""
    chosen = formats()[given.source] if given.source else guess(text, f"--from and one of {', '.join(formats())}")
    if not given.source:
        say(f"{given.file} is read as {chosen.name}")
    if chosen.needs_tasks and context.tasks is None:
        raise BadLine(f"the format {chosen.name} leaves out where agents start: --scen is wanted")
    if chosen.needs_map and not context.has_map:
        raise BadLine(f"the format {chosen.name} has numbers of cells, which the width of a map makes columns and rows: --map is wanted")
    if given.fill_waits and not chosen.may_have_gaps:
        raise BadLine(f"the format {chosen.name} leaves out no times: --fill-waits goes with a schedule")
    return chosen


def to_plan(given: argparse.Namespace, data: bytes, context: Given) -> None:
    text = text_of(data)
    chosen = format_of(given, text, context)
    walks = chosen.read(text, context)
    hold_tasks(given, walks, context.tasks)
    if chosen.word_on_reading:
        say(chosen.word_on_reading)
    with draft(mapf_plan.write(walks, given.number), given.output) as made:
        hold_plan(given, str(made.path), walks)
        give(made, given.output)
    tell_found(given.file, context.found)
    say(f"{len(walks)} agents, {sum(len(walk.acts) for walk in walks)} acts")


def read_plan(given: argparse.Namespace, data: bytes, context: Given) -> list[Walk]:
    # A plan has one spelling: no line end but LF.
    text_of(data)
    walks = mapf_plan.read(data, context)
    hold_tasks(given, walks, context.tasks)
    return walks


def renumber(given: argparse.Namespace, data: bytes, context: Given) -> None:
    """Writes a plan under another number."""
    walks = read_plan(given, data, context)
    number = drawn_number() if given.number is None else given.number
    with draft(mapf_plan.write(walks, number), given.output) as made:
        hold_plan(given, str(made.path), walks)
        give(made, given.output)
    say(f"{given.file} is a plan, and has the number {number} now")


def from_plan(given: argparse.Namespace, data: bytes, context: Given) -> None:
    chosen = formats()[given.to]
    walks = read_plan(given, data, context)
    # What was read is held against the cells, whatever becomes of the file meanwhile.
    with draft([data.decode()], None) as copy:
        hold_plan(given, str(copy.path), walks)
    with draft(chosen.write(walks), given.output) as made:
        hold_back(chosen, made.path, walks)
        give(made, given.output)
    if chosen.word_on_writing:
        say(chosen.word_on_writing)


def to_map(given: argparse.Namespace, data: bytes) -> None:
    """Writes the canonical map of a map of the League, which the program has to read as it is written."""
    if any((given.source, given.to, given.map, given.scen, given.number is not None, given.fill_waits)):
        raise Fault(1, "the text is a map, a plan was due: with a map only -o and --program go")
    rows, counts = league_map.read(text_of(data))
    with draft(league_map.write(rows), given.output) as made:
        if canonical.text(Program(given.program), "map", str(made.path)) != made.path.read_bytes():
            raise Failed("the map that was written is read as another one; this is a fault of the converter")
        give(made, given.output)
    what = " and ".join(f"{count} {sign}" for sign, count in counts.items())
    say(f"{given.file} is read as a map of the League of Robot Runners: {what} are free cells now")


def convert(given: argparse.Namespace) -> None:
    program = Program(given.program)
    data = pathlib.Path(given.file).read_bytes()
    if league_map.begins(data[:HEAD]):
        to_map(given, data)
        return
    size = canonical.map_size(program, given.map) if given.map is not None else ()
    tasks = canonical.tasks(program, given.scen) if given.scen is not None else None
    context = Given(*size, has_map=bool(size), tasks=tasks, fills_waits=given.fill_waits)
    is_plan = not given.source and not given.fill_waits and mapf_plan.begins(data[:HEAD])
    (from_plan if given.to else renumber if is_plan else to_plan)(given, data, context)


def main(words: Sequence[str]) -> int:
    given = read_words(words)
    try:
        convert(given)
    except Fault as fault:
        tell(f"{given.file}:{fault.line}: {fault.what}")
        return REFUSED
    except Refused as fault:
        say(str(fault))
        return REFUSED
    except BadLine as fault:
        say(str(fault))
        return BAD_LINE
    except Failed as fault:
        say(str(fault))
    except OSError as fault:
        say(f"{fault.filename}: {fault.strerror}" if fault.filename else fault.strerror or str(fault))
    except MemoryError:
        say(f"{given.file}: there is no memory for it")
    else:
        return 0
    return FAILED


if __name__ == "__main__":
    heed_signals()
    sys.exit(main(sys.argv[1:]))
