#!/usr/bin/env python3
"""The texts of examples/planners: one small plan in each format, and what three planners might write of the tasks in a hall.

Usage: example_texts.py      writes them anew, the same each time
"""
import random
import sys

sys.dont_write_bytecode = True
import planner  # noqa: E402
from harness import ROOT  # noqa: E402
from plain_formats import WRITERS, Paths  # noqa: E402

FOLDER = ROOT / "examples" / "planners"
# The plan examples/corner.plan, and how its texts end in each format.
CORNER: Paths = [[(0, 1), (0, 0), (1, 0)], [(0, 0), (1, 0), (2, 0)]]
ENDINGS = {"csv": "csv", "lacam": "lacam", "lorr": "json", "paths": "paths", "schedule": "yaml", "tracker": "tracker"}
AGENTS, SEED = 24, "the hall"


def tasks_and_plans() -> tuple[str, list[Paths]]:
    """The scenario of the hall, and the plans of three planners for it, the last of which has a mistake."""
    free, rng = planner.free_cells((FOLDER / "hall.map").read_text(encoding="ascii")), random.Random(SEED)
    tasks = planner.random_tasks(free, AGENTS, rng)
    lines = ["version 1\n"]
    for (a, b), (c, d) in tasks:
        lines.append(f"0\thall.map\t30\t16\t{a}\t{b}\t{c}\t{d}\t{planner.octile_length(set(free), (a, b), (c, d)):.8f}\n")
    kinds = (planner.Reservations, planner.Reservations, planner.Forgetful)
    return "".join(lines), [planner.plan(free, tasks, rng, kind) for kind in kinds]


def texts() -> dict[str, str]:
    """Each file by its name."""
    scen, (first, second, third) = tasks_and_plans()
    hall = {
        "hall.scen": scen,
        "first.paths": WRITERS["paths"](first),
        "second.lacam": WRITERS["lacam"](second),
        "third.yaml": WRITERS["schedule"](third),
    }
    corner = {f"corner.{ending}": WRITERS[name](CORNER).replace("hall", "corner") for name, ending in ENDINGS.items()}
    return {**hall, **corner}


if __name__ == "__main__":
    for file, text in texts().items():
        (FOLDER / file).write_text(text, encoding="ascii")
