#!/usr/bin/env python3
"""Shows a plan, or a run of it, as one page for a browser, or as pictures. docs/CONVERTING.md says more.

Usage: show.py MAP PLAN [EVENTS] [--scen SCEN] [--from FORMAT] [-o PAGE.html]
       show.py MAP PLAN --beside PLAN [--scen SCEN] [-o PAGE.html]
       show.py MAP PLAN [EVENTS] --png TIME -o PICTURE.png
       show.py MAP PLAN [EVENTS] --gif FROM TO -o PICTURE.gif

All that is shown is what `mapf` says of the files. PLAN may also be what a planner wrote:
convert.py makes a plan of it first, and says so. The page of a plan that is rejected, also for a
scenario that it doesn't solve, opens at the first fault, and lists all, up to 1,000. With EVENTS it
shows a run: TIME is then how many events have been answered. A picture is drawn by a Chromium and
written by Pillow (python3-pil), which have to be there; a page needs nothing but a browser to look
at it.

Status 0: done. 1: a text has a fault, told in the line of `mapf` or of convert.py with the file.
2: a bad command line. 3: a file or a tool failed, or there is no browser or no Pillow for a
picture. Unless it is 0, nothing is written.
"""
import argparse
import contextlib
import dataclasses
import pathlib
import shutil
import sys
import tempfile
from typing import Sequence

sys.dont_write_bytecode = True
from leaving import heed_signals  # noqa: E402
from mapf.faults import Failed  # noqa: E402
from mapf.program import Program, usual_program  # noqa: E402
from plan_formats import formats  # noqa: E402
from refused import Refused  # noqa: E402
from showing import pictures  # noqa: E402
from showing.browser import Browser, find  # noqa: E402
from showing.page import Shown, page  # noqa: E402
from showing.planners import Converter  # noqa: E402
from showing.program import copied  # noqa: E402
from showing.runs import read_run  # noqa: E402
from showing.sides import Side, read_side  # noqa: E402
from showing.verdicts import Ground, read_ground, read_scenario  # noqa: E402
from whole_file import draft  # noqa: E402

BAD_LINE, FAILED = 2, 3


def tell(line: str) -> None:
    """Writes a line on standard error. Where nobody can read it, the work goes on."""
    # A closed standard error is None, and would be taken for standard output.
    with contextlib.suppress(OSError):
        if sys.stderr:
            print(line, file=sys.stderr, flush=True)


def time(word: str) -> float:
    """A time, or a moment between two times."""
    with contextlib.suppress(ValueError):
        if word.isascii() and word.replace(".", "", 1).isdigit() and len(word) < 16:
            return float(word)
    raise argparse.ArgumentTypeError(f"a time is wanted, as 12 or 12.5, and '{word[:40]}' is none")


def read_words(words: Sequence[str]) -> argparse.Namespace:
    parser = argparse.ArgumentParser(prog="show.py", description=__doc__, formatter_class=argparse.RawDescriptionHelpFormatter)
    parser.add_argument("map", metavar="MAP", help="the map of the plan")
    parser.add_argument("plan", metavar="PLAN", help="the plan, or what a planner wrote")
    parser.add_argument("events", metavar="EVENTS", nargs="?", help="the events of a run of the plan")
    parser.add_argument("--scen", metavar="SCEN", help="the scenario that the plan is to solve")
    parser.add_argument("--from", dest="source", choices=list(formats()), metavar="FORMAT", help="what a planner wrote (guessed by its beginning)")
    parser.add_argument("-o", "--output", type=pathlib.Path, metavar="FILE", help="where the page (standard output) or the picture goes")
    parser.add_argument("--beside", metavar="PLAN", help="another plan on this map, shown beside the first at the same times")
    kind = parser.add_mutually_exclusive_group()
    kind.add_argument("--png", type=time, metavar="TIME", help="a picture of this time, in place of the page")
    kind.add_argument("--gif", type=time, nargs=2, metavar=("FROM", "TO"), help="a moving picture from one time to the other")
    parser.add_argument("--dark", action="store_true", help="the picture is dark")
    parser.add_argument("--width", type=int, default=pictures.WIDTH, metavar="PIXELS", help=f"the most pixels that a picture is wide ({pictures.WIDTH})")
    parser.add_argument("--browser", metavar="PATH", help="the browser that draws pictures (a Chromium on the path)")
    parser.add_argument("--program", type=pathlib.Path, default=usual_program(), metavar="PATH", help="another program mapf than the usual one")
    given = parser.parse_args(words)
    given.is_picture = given.png is not None or given.gif is not None
    if given.is_picture and not given.output:
        parser.error("a picture goes into a file: -o FILE is wanted")
    if given.beside and given.events:
        parser.error("--beside shows two plans: no EVENTS go with it")
    if given.gif and given.gif[0] > given.gif[1]:
        parser.error("--gif FROM TO: the first time is above the second")
    if not pictures.LEAST_WIDTH <= given.width <= pictures.MOST_WIDTH:
        parser.error(f"--width is a number from {pictures.LEAST_WIDTH} to {pictures.MOST_WIDTH}")
    return given


def look(given: argparse.Namespace, folder: pathlib.Path) -> Shown:
    """All that the program says of the files."""
    program = Program(given.program)
    ground, map_text = read_ground(program, given.map, given.map)
    (folder / "map").write_bytes(map_text)
    names = {name: pathlib.Path(getattr(given, name)).name for name in ("map", "plan", "beside", "events", "scen") if getattr(given, name)}
    side = with_run(given, program, folder, look_at_plan(given, program, folder, "plan", ground))
    return Shown(names, ground, side, look_at_plan(given, program, folder, "beside", ground) if given.beside else None)


def look_at_plan(given: argparse.Namespace, program: Program, folder: pathlib.Path, name: str, ground: Ground) -> Side:
    """All that the program says of a plan, which is that of the option of this name."""
    plan = getattr(given, name)
    file, source, told = Converter(program, given.map, given.source, given.scen).plan_of(plan, folder, name)
    if told:
        tell(told)
    scenario = read_scenario(program, copied(given.scen, folder, "scen"), given.scen) if given.scen else None
    return read_side(program, [str(folder / "map"), file], plan, source, ground, scenario)


def with_run(given: argparse.Namespace, program: Program, folder: pathlib.Path, side: Side) -> Side:
    """The plan with its run, where there are events of one."""
    if given.events and side.is_valid:
        return dataclasses.replace(side, run=read_run(program, [*side.files, copied(given.events, folder, "events")], given.events))
    if given.events:
        tell(f"show: {given.events}: not shown, since a plan that is rejected has no runs")
    return side


def write_page(given: argparse.Namespace, shown: Shown) -> None:
    with draft(page(shown), given.output) as made:
        if given.output:
            made.put()
            return
        with open(made.path, "rb") as file, open(1, "wb", closefd=False) as out:
            shutil.copyfileobj(file, out)


def write_picture(given: argparse.Namespace, shown: Shown, folder: pathlib.Path) -> None:
    pictures.hold_time(given.gif[1] if given.gif else given.png, shown.end)
    file = folder / "page.html"
    file.write_text("".join(page(shown)), encoding="ascii")
    kind = pictures.Kind(given.width, given.dark)
    with Browser(find(given.browser), folder / "browser") as browser:
        browser.open(file)
        picture = pictures.moving_picture(browser, *given.gif, kind) if given.gif else pictures.picture(browser, given.png, kind)
    with draft([picture], given.output) as made:
        made.put()


def show(given: argparse.Namespace) -> None:
    if given.is_picture:
        find(given.browser)
        pictures.hold_pillow()
    with tempfile.TemporaryDirectory(prefix="mapf-show-") as name:
        folder = pathlib.Path(name)
        shown = look(given, folder)
        if given.is_picture:
            write_picture(given, shown, folder)
        else:
            write_page(given, shown)


def main(words: Sequence[str]) -> int:
    given = read_words(words)
    try:
        show(given)
    except Refused as fault:
        tell(str(fault))
        return fault.status
    except Failed as fault:
        tell(f"show: {fault}")
    except OSError as fault:
        tell(f"show: {fault.filename}: {fault.strerror}" if fault.filename else f"show: {fault.strerror or fault}")
    except MemoryError:
        tell(f"show: {given.plan}: there is no memory for it")
    else:
        return 0
    return FAILED


if __name__ == "__main__":
    heed_signals()
    sys.exit(main(sys.argv[1:]))
