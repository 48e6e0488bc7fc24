#!/usr/bin/env python3
"""Runs a fleet of simulated vehicles by VDA 5050 on this machine: a broker, a vehicle a process, and a master control, and holds what came of it against
`mapf run`.

Usage: run.py [--vehicles N] [--speed V] [--kills RATE] [--cuts RATE] [--stops RATE] [--ahead N] [--seed N] [--limit S] [--keep FOLDER] [OPTIONS]

A judge sees where the vehicles really are, in both cells while they are between two. What is done to them: vehicles, agents and the master are killed and
started again, and a vehicle may forget its order then; connections break, processes stand still for some seconds; the broker is stopped. In the end a line
of names and numbers is written.

Status 0: all have arrived, no two were in one cell, and the agents' answers are those of one run. 1: they aren't. 2: a bad command line. 3: something failed,
is not here, or the time was over.
"""
import argparse
import contextlib
import pathlib
import random
import sys
import tempfile
from typing import Sequence

sys.dont_write_bytecode = True
import beside  # noqa: E402
from broker import Broker, NoBroker  # noqa: E402
from drive import Cell  # noqa: E402
from fleet_run import Failed, Wrong  # noqa: E402
from frame import BadFrame  # noqa: E402
from judge import Met  # noqa: E402
from given import plan_number  # noqa: E402
from leaving import heed_signals  # noqa: E402
from orders import NoPlan, Orders  # noqa: E402
from places import Loopback, NoRoom  # noqa: E402
from program import usual_program  # noqa: E402
from robots import amount, check_plan, courses_of, fresh_numbers, with_paho  # noqa: E402
from route import NoPath  # noqa: E402
from vehicles_run import Run  # noqa: E402

WRONG, FAILED = 1, 3


def read_words(words: Sequence[str]) -> argparse.Namespace:
    parser = argparse.ArgumentParser(prog="run.py", description=__doc__, formatter_class=argparse.RawDescriptionHelpFormatter)
    parser.add_argument("--vehicles", type=int, metavar="N", help="how many of the plan's agents drive (all)")
    parser.add_argument("--speed", type=amount, default=2.0, metavar="V", help="metres a second, in the mean (%(default)g)")
    parser.add_argument("--every", type=amount, default=1.0, metavar="S", help="vehicles say their states again after so many seconds (%(default)g)")
    parser.add_argument("--kills", type=amount, default=0.0, metavar="RATE", help="how many processes are killed a second (0)")
    parser.add_argument("--cuts", type=amount, default=0.0, metavar="RATE", help="how often a second one is cut off or stands still, for some seconds (0)")
    parser.add_argument("--stops", type=amount, default=0.0, metavar="RATE", help="how often a second the broker is stopped, for some seconds (0)")
    parser.add_argument("--ahead", type=int, default=3, metavar="N", help="so many moves are released behind the one that is begun (%(default)s)")
    parser.add_argument("--seed", type=int, default=1, metavar="N", help="the seed of speeds and harm (%(default)s)")
    parser.add_argument("--orders", type=int, metavar="N", help="each vehicle goes to so many cells one after another, by a new plan (PLAN's paths)")
    parser.add_argument("--limit", type=amount, default=300.0, metavar="S", help="the longest time of the run (%(default)g seconds)")
    parser.add_argument("--number", type=plan_number, metavar="N", help="the plan's number (it is drawn)")
    parser.add_argument("--keep", type=pathlib.Path, metavar="FOLDER", help="a folder for the plan, tapes, black boxes, events and all messages")
    parser.add_argument("--map", type=pathlib.Path, default=beside.FLEET / "warehouse.map")
    parser.add_argument("--plan", type=pathlib.Path, default=beside.FLEET / "warehouse.plan")
    parser.add_argument("--frame", metavar="MAP.YAML", help="resolution and origin, as ROS has them (a metre, and 0 0 0)")
    parser.add_argument("--program", default=usual_program(), metavar="PATH", help="the program mapf (%(default)s)")
    given = parser.parse_args(words)
    for name in ("vehicles", "orders"):
        if getattr(given, name) is not None and getattr(given, name) < 1:
            parser.error(f"--{name}: a number above 0 is wanted")
    return given


def write_plan(given: argparse.Namespace, folder: pathlib.Path) -> int:
    """Writes the plan of this run, which has a number that no other has, and answers how many agents it has."""
    courses = courses_of(given.plan, given.vehicles)
    number = next(fresh_numbers(given.number))
    text = "\n".join(["mapf-plan 1", f"number {number}", f"agents {len(courses)}", *courses, ""])
    if given.orders:
        text = longer_plan(given, folder, number, [(int(x), int(y)) for _, x, y, *_ in map(str.split, courses)])
    (folder / "run.plan").write_text(text, encoding="ascii")
    check_plan(given, given.plan, folder / "run.plan", folder / "nothing")
    return len(courses)


def longer_plan(given: argparse.Namespace, folder: pathlib.Path, number: int, starts: Sequence[Cell]) -> str:
    """A plan from the same cells, in which each goes to so many others."""
    drafts = folder / "drafts"
    drafts.mkdir()
    orders = Orders(given.program, given.map, drafts, number, starts, random.Random(f"orders {given.seed}"))
    for _ in range(given.orders):
        orders.give_out()
    return orders.plans[-1].read_text(encoding="ascii")


def drive(given: argparse.Namespace, folder: pathlib.Path) -> int:
    vehicles, python = write_plan(given, folder), with_paho()
    # Each vehicle and the master have an address by which they reach the broker.
    place = Loopback(vehicles + 1)
    broker = Broker(place.broker, [], folder)
    try:
        run = Run(given, vehicles, place, broker, folder)
        try:
            counted = run.drive(python)
        finally:
            run.end()
    finally:
        broker.stop()
    counted.update(run.hold())
    print("run", *(f"{name} {value}" for name, value in counted.items()), flush=True)
    return 0 if run.judge.have_arrived else FAILED


def main(words: Sequence[str]) -> int:
    given = read_words(words)
    try:
        with contextlib.ExitStack() as stack:
            folder = given.keep or pathlib.Path(stack.enter_context(tempfile.TemporaryDirectory(prefix="mapf-vehicles-")))
            folder.mkdir(parents=True, exist_ok=True)
            return drive(given, folder)
    except (Wrong, Met) as fault:
        print(f"run: {fault}", file=sys.stderr)
        return WRONG
    except (Failed, NoBroker, NoRoom, NoPath, NoPlan, BadFrame) as fault:
        print(f"run: {fault}", file=sys.stderr)
    except OSError as fault:
        print(f"run: {fault.filename or given.plan}: {fault.strerror or fault}", file=sys.stderr)
    return FAILED


if __name__ == "__main__":
    heed_signals()
    sys.exit(main(sys.argv[1:]))
