#!/usr/bin/env python3
"""Plans anew the agents of a plan that rotate, so that robots can drive it: the starts and ends stay.

Usage: repair.py MAP PLAN -o PLAN [--seconds N] [--seed N] [--number N] [--program PATH]

In a rotation some agents go round in one step, each into the cell that the next one leaves: robots
that wait for each other never begin it. Agents of a rotation are planned anew among the others: one
or two, whichever costs least more, or all of them with some that are near, in the first order in
which all find a walk; until there is no rotation. The result is written once `mapf check --no-rotation` has
accepted it for the same starts and ends, never else. Its number is `--number`, or one that is drawn.

Status 0: written. 1: the plan has a fault, told in the line of `mapf`; or no plan without a rotation
was found within the time, or there is none, as all moves were tried. 2: a bad command line. 3: a
file or a tool failed. Unless it is 0, nothing is written.
"""
import argparse
import pathlib
import sys
import tempfile
import time
from typing import Sequence

sys.dont_write_bytecode = True
from given import plan_number  # noqa: E402
from ground import Ground  # noqa: E402
from leaving import heed_signals  # noqa: E402
from mapf.faults import Failed  # noqa: E402
from mapf.program import Program, usual_program  # noqa: E402
from plan_formats import mapf_plan  # noqa: E402
from plan_formats.walks import Given, Walk, walk_of  # noqa: E402
from progress import Progress  # noqa: E402
from refused import Refused  # noqa: E402
from repairing.exhausting import is_there_none  # noqa: E402
from repairing.searching import Repair  # noqa: E402
from repairing.timetable import Rotation  # noqa: E402
from showing.program import answer, copied, refuse  # noqa: E402
from whole_file import draft  # noqa: E402


def read_words(words: Sequence[str]) -> argparse.Namespace:
    parser = argparse.ArgumentParser(prog="repair.py", description=__doc__, formatter_class=argparse.RawDescriptionHelpFormatter)
    parser.add_argument("map", metavar="MAP", help="the map of the plan")
    parser.add_argument("plan", metavar="PLAN", help="the plan, which has to be valid")
    parser.add_argument("-o", "--output", type=pathlib.Path, metavar="PLAN", required=True, help="where the plan goes")
    parser.add_argument("--seconds", type=float, default=60.0, metavar="N", help="how long it is tried (60)")
    parser.add_argument("--seed", type=int, default=0, metavar="N", help="another one may find other walks (0)")
    parser.add_argument("--number", type=plan_number, metavar="N", help="the number of the plan (one that is drawn)")
    parser.add_argument("--program", type=pathlib.Path, default=usual_program(), metavar="PATH", help="another program mapf than the usual one")
    return parser.parse_args(words)


def cells_of(walk: Walk) -> list[tuple[int, int]]:
    return list(zip(walk.xs, walk.ys))


def scenario_of(ground: Ground, walks: Sequence[Walk]) -> str:
    """A row for each agent, from its start to its end."""
    size = f"0\tmap\t{ground.width}\t{ground.height}"
    rows = [f"{size}\t{x}\t{y}\t{u}\t{v}\t0" for walk in walks for x, y in [walk.start] for u, v in [walk.end]]
    return "\n".join(["version 1", *rows, ""])


def hold_valid(program: Program, file: str, *words: str) -> None:
    """Raises where the program doesn't accept a plan."""
    written, talk = answer(program, "check", *words)
    if talk.told:
        refuse(talk, file)
    if talk.status:
        raise Refused(f"{file}: {written.decode(errors='replace').strip()}")


def resolve(repair: Repair, ground: Ground, until: float, progress: Progress) -> int:
    """Plans agents anew until none rotate, and says how many rotations there were."""
    rotations = repair.rotations()
    count = len(rotations)
    while rotations:
        progress.show(f"{len(rotations)} of {count} rotations left")
        resolve_one(repair, ground, rotations[0], until)
        rotations = repair.rotations()
    return count


def resolve_one(repair: Repair, ground: Ground, rotation: Rotation, until: float) -> None:
    agents = rotation[1]
    for number, is_resolved in enumerate(repair.attempts(rotation)):
        if is_resolved:
            return
        if number == 0 and is_there_none(ground, repair.walks, agents, until):
            raise Refused(f"no plan without a rotation leads these agents to their ends: {' '.join(map(str, sorted(agents)))}")
        if time.monotonic() > until:
            raise Refused("no plan without a rotation was found in time")


def repair_plan(given: argparse.Namespace, folder: pathlib.Path) -> str:
    """Repairs the plan, and says what came of it."""
    program = Program(given.program)
    map_file, plan_file = copied(given.map, folder, "map"), copied(given.plan, folder, "plan")
    hold_valid(program, given.plan, map_file, plan_file)
    ground = Ground(pathlib.Path(map_file).read_text(encoding="latin-1"))
    walks = mapf_plan.read(pathlib.Path(plan_file).read_bytes(), Given(ground.width, ground.height, has_map=True))
    repair = Repair(ground, [cells_of(walk) for walk in walks], given.seed)
    before = sum(len(walk) - 1 for walk in repair.walks)
    progress = Progress()
    try:
        count = resolve(repair, ground, time.monotonic() + given.seconds, progress)
    finally:
        progress.end()
    scenario = folder / "scen"
    scenario.write_text(scenario_of(ground, walks), encoding="ascii")
    with draft(mapf_plan.write([walk_of(walk) for walk in repair.walks], given.number), given.output) as made:
        hold_valid(program, str(given.output), map_file, str(made.path), "--scen", str(scenario), "--no-rotation")
        made.put()
    after = sum(len(walk) - 1 for walk in repair.walks)
    return f"repaired rotations {count} cost {after} was {before}"


def main(words: Sequence[str]) -> int:
    given = read_words(words)
    try:
        with tempfile.TemporaryDirectory(prefix="mapf-repair-") as name:
            print(repair_plan(given, pathlib.Path(name)))
    except Refused as fault:
        print(f"repair: {fault}", file=sys.stderr)
        return fault.status
    except (Failed, OSError) as fault:
        print(f"repair: {fault}", file=sys.stderr)
        return 3
    return 0


if __name__ == "__main__":
    heed_signals()
    sys.exit(main(sys.argv[1:]))
