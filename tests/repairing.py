"""`tools/repair.py`: plans in which agents rotate are planned anew, beside a plain model of plans."""
import functools
import itertools
import random
import re
import sys
from typing import Iterator, NamedTuple, Optional, Sequence

from harness import ROOT, Ended, Harness, Outcome, compared, shown, side_by_side
from listing import all_faults, first_rotation
from plan_chains import Plan, read
from random_runs import Cell, random_map, random_plan
from scenarios import Ground
from texts import HALL, LANE, SQUARE, plan

TOOL = ROOT / "tools" / "repair.py"
SHORT_SEEDS, LONG_SEEDS = range(1, 41), range(1, 201)
# Joint moves are tried of so many agents, in so many cells.
MOST_AGENTS, MOST_CELLS = 5, 8
REPAIRED = re.compile(r"repaired rotations (\d+) cost (\d+) was (\d+)\n")
NONE = "repair: no plan without a rotation leads these agents to their ends: "
NOT_FOUND = "repair: no plan without a rotation was found in time\n"
TURNING = plan("0 0 e", "1 0 s", "1 1 w", "0 1 n")


class Case(NamedTuple):
    """A plan on a map, more words of the command, and what is due: the status, and what is said on either output."""

    name: str
    map_text: str
    plan_text: str
    words: str
    status: int
    out: str
    err: str


CASES = (
    Case("none go round", LANE, plan("0 0 e", number=9), "", 0, "repaired rotations 0 cost 1 was 1\n", ""),
    Case("a full ring", SQUARE, TURNING, "", 1, "", f"{NONE}0 1 2 3\n"),
    Case("a plan that is rejected", LANE, plan("0 0 e", "1 0 w"), "", 1, "", "repair: p: rejected Swap 0 1 0\n"),
    Case("a plan that is none", LANE, "mapf-plan 2\n", "", 1, "", "repair: p: mapf: BadHeader 1\n"),
    Case("no map", "", TURNING, "", 1, "", "repair: p: mapf: BadHeader 1\n"),
    Case("a bad number", SQUARE, TURNING, "--number -1", 2, "", ""),
)


def repaired(harness: Harness, map_text: str, plan_text: str, *words: str) -> tuple[str, Ended, Optional[Plan]]:
    """What was run and what came of it, and the plan that was written, if one was."""
    folder = harness.folder({"m": map_text.encode(), "p": plan_text.encode()})
    command = [sys.executable, str(TOOL), "m", "p", "-o", "o", "--program", str(harness.program), *words]
    ended = harness.run(command, folder=folder)
    written = folder / "o"
    return shown(command), ended, read(written.read_text()) if written.exists() else None


def wrong_in(ground: Ground, old: Plan, new: Plan) -> list[str]:
    """What is wrong with a plan in the place of another one."""
    found = [str(fault) for fault in all_faults(ground, new)]
    found += [first_rotation(new) or ""] * (first_rotation(new) is not None)
    last = max(old.longest, new.longest)
    ends = [[(course.start, course.place(last)) for course in it.courses] for it in (old, new)]
    return found + ["other ends"] * (ends[0] != ends[1])


def of_cases(harness: Harness) -> Iterator[Outcome]:
    for case in CASES:
        ran, ended, written = repaired(harness, case.map_text, case.plan_text, *case.words.split())
        if case.status == 2:
            yield compared(case.name, ran, (ended.status, written), (2, None))
        else:
            wrote = (ended.status, ended.out.decode(), ended.err.decode(), written is not None)
            yield compared(case.name, ran, wrote, (case.status, case.out, case.err, case.status == 0))


def of_a_turn(harness: Harness) -> Iterator[Outcome]:
    """Four agents that turn round, beside two free rows of cells."""
    for words, number in (((), None), (("--number", "12"), 12)):
        ran, ended, written = repaired(harness, HALL, TURNING, *words)
        wrong = wrong_in(Ground(tuple(HALL.splitlines()[4:])), read(TURNING), written) if written else ["none was written"]
        yield compared(f"four turn round, {' '.join(words) or 'by themselves'}", ran, (ended.status, wrong), (0, []))
        yield compared("its number", ran, written and (number is None or written.number == number), True)


def is_joined(ground: Ground, starts: Sequence[Cell], goals: Sequence[Cell]) -> bool:
    """Whether all can come to their goals by steps in which none meet, exchange cells or go round: all joint steps are tried."""
    reached, fresh = {tuple(starts)}, [tuple(starts)]
    while fresh:
        now = fresh.pop()
        for to in itertools.product(*([cell, *ground.sides(cell)] for cell in now)):
            if to not in reached and len(set(to)) == len(to) and not goes_round(now, to):
                reached.add(to)
                fresh.append(to)
    return tuple(goals) in reached


def goes_round(now: Sequence[Cell], to: Sequence[Cell]) -> bool:
    follows = {i: now.index(cell) for i, cell in enumerate(to) if cell in now and cell != now[i]}
    for first in follows:
        agent = first
        for _ in follows:
            agent = follows.get(agent, -1)
            if agent == first:
                return True
    return False


def of_seed(harness: Harness, seed: int) -> list[Outcome]:
    """A plan at random in which agents go round: most cells have agents."""
    rng = random.Random(f"repairing {seed}")
    while True:
        map_text, free = random_map(rng)
        old = read(random_plan(rng, free, may_turn=True))
        if first_rotation(old):
            break
    ground = Ground(tuple(map_text.splitlines()[4:]))
    ran, ended, written = repaired(harness, map_text, old.text(), "--seconds", "0.5", "--seed", str(seed))
    name = f"plan {seed}"
    if written:
        return [compared(name, ran, (ended.status, wrong_in(ground, old, written)), (0, []))]
    said = ended.err.decode()
    if said == NOT_FOUND:
        return [compared(name, ran, ended.status, 1)]
    is_told = ended.status == 1 and said.startswith(NONE)
    if len(old.courses) <= MOST_AGENTS and len(free) <= MOST_CELLS:
        starts = [course.start for course in old.courses]
        is_told = is_told and not is_joined(ground, starts, [course.place(old.longest) for course in old.courses])
    return [compared(name, ran, (is_told, said), (True, said))]


def outcomes(harness: Harness) -> Iterator[Outcome]:
    yield from of_cases(harness)
    yield from of_a_turn(harness)
    seeds = LONG_SEEDS if harness.is_long else SHORT_SEEDS
    yield from side_by_side(functools.partial(of_seed, harness, seed) for seed in seeds)
