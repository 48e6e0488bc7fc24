"""`tools/handover.py --blocked`: what is planned anew around a robot that broke down and stays where
it is, beside a plain model."""
import dataclasses
import functools
import pathlib
import random
import subprocess
import sys
from typing import Iterator, NamedTuple, Optional, Sequence

import path_model
from answers import MOVING, OTHER_AGENT, STANDING
from harness import ROOT, Harness, Outcome, compared, shown, side_by_side
from handovers import NEW, TAPES, Fleet, rest_of, stopped
from listing import first_rotation
from one_run import lost_places
from plan_chains import Course, Plan
from random_runs import Cell
from run_model import agents_of
from scenarios import Ground, octile
from texts import BEHIND, LANE, plan

TOOL = ROOT / "tools" / "handover.py"
SHORT_SEEDS, LONG_SEEDS = range(1, 41), range(1, 301)
MAP, PLAN, SCEN = "others.map", "others.plan", "others.scen"
# What is said last.
DRIVEN = "others.plan can be driven"
NOT_WRITTEN = "others.plan isn't written: by it agent {} is in {} {}, which is blocked. Plan anew, by others.scen on others.map"
ROUND = "others.plan can't be driven: {}. repair.py plans it anew"


class Written(NamedTuple):
    """What the tool did: its status, what it wrote on its outputs, and the files that it left."""

    status: int
    out: str
    err: str
    files: dict[str, str]


def gone_around(harness: Harness, folder: pathlib.Path, words: Sequence[str]) -> tuple[str, Written]:
    """Runs the tool on the files of a fleet."""
    command = [sys.executable, str(TOOL), "M", "P", TAPES, "new", "--program", str(harness.program)]
    ended = harness.run([*command, *words], folder=folder)
    new = folder / "new"
    left = {path.name: path.read_text() for path in new.iterdir()} if new.exists() else {}
    told = Written(ended.status, ended.out.decode(), ended.err.decode(), left)
    return shown([*command, *words]), told


# ---- what is due


def with_blocked(map_text: str, cells: Sequence[Cell]) -> str:
    """The text of a map in canonical form with these cells out of bounds."""
    head, rows = map_text.splitlines()[:4], [list(row) for row in map_text.splitlines()[4:]]
    for x, y in cells:
        rows[y][x] = "@"
    return "\n".join([*head, *("".join(row) for row in rows), ""])


def scenario(map_text: str, courses: Sequence[Course], last: int) -> tuple[str, list[int]]:
    """The scenario of what is left on a map, and the agents whose goals no way leads to."""
    rows = map_text.splitlines()[4:]
    ground, lines, unreachable = Ground(tuple(rows)), ["version 1"], []
    for agent, course in enumerate(courses):
        start, goal = course.place(0), course.place(last)
        found = (0, 0) if start == goal else octile(ground, start, goal)
        length = f"{found[0] + found[1] * 2**0.5:.8f}" if found else "0"
        unreachable += [] if found else [agent]
        lines.append("\t".join(map(str, [0, MAP, len(rows[0]), len(rows), *start, *goal, length])))
    return "\n".join([*lines, ""]), unreachable


def last_line(new: Plan, map_text: str) -> tuple[str, bool]:
    """What is said of the plan of the others, and whether it is written."""
    fault = path_model.least_fault(path_model.read_map(map_text), path_model.read_plan(new.text()))
    if fault:
        _, agent, *step = fault.split()
        place = new.courses[int(agent)].place(int(step[0]) + 1 if step else 0)
        return NOT_WRITTEN.format(agent, *place), False
    turn = first_rotation(new)
    return (DRIVEN if turn is None else ROUND.format("Rotation"), True)


def due(fleet: Fleet, gone: int, cells: Sequence[Cell]) -> Written:
    new, map_text = rest_of(fleet, NEW, gone), with_blocked(fleet.map_text, cells)
    scen, unreachable = scenario(map_text, new.courses, new.longest)
    last, is_written = last_line(new, map_text)
    lines = [" ".join(["blocked", *(f"{x} {y}" for x, y in cells)])]
    lines += [f"agent {agent} was {agent + 1}" for agent in range(gone, len(new.courses))]
    for agent in unreachable:
        x, y = new.courses[agent].place(new.longest)
        lines.append(f"unreachable {agent} {x} {y}")
    files = {MAP: map_text, SCEN: scen, **({PLAN: new.text()} if is_written else {})}
    return Written(0, "\n".join([*lines, last, ""]), "", files)


def without_numbers(it: Written) -> Written:
    """A rotation is told by its step and its agents, which `mapf deps` is tested for."""
    head, _, rest = it.out.partition("driven: Rotation")
    return it._replace(out=f"{head}driven: Rotation{rest[rest.index('.') :]}") if rest else it


# ---- what is asked


def of_seed(harness: Harness, seed: int) -> Iterator[Outcome]:
    """A fleet that was stopped anywhere, one of which stays: where it may be by its tape, and where it
    was seen, which may be anywhere on the map."""
    rng = random.Random(f"going around {seed}")
    fleet = stopped(rng, may_turn=seed % 4 == 0)
    gone = rng.randrange(len(fleet.records))
    agents = agents_of(fleet.plan.text())
    for agent, records in enumerate(fleet.records):
        agents[agent].records = records
    places = [cell for cell, _ in lost_places(agents, gone, lambda agent: True)]
    ground = list(path_model.read_map(fleet.map_text))
    lost = dataclasses.replace(fleet, instead={gone: None})
    for name, it, seen in (
        ("where it may be", fleet, None),
        ("where it was seen", fleet, agents[gone].held()),
        ("anywhere, its tape is lost", lost, rng.sample(ground, min(2, len(ground)))),
    ):
        words = ["--without", str(gone), "--number", str(NEW), "--blocked", *(str(number) for cell in seen or () for number in cell)]
        ran, wrote = gone_around(harness, it.folder(harness), words)
        expected = without_numbers(due(fleet, gone, places if seen is None else seen))
        yield compared(f"fleet {seed} around {gone}, {name}", ran, without_numbers(wrote), expected)


def all_of_seed(harness: Harness, seed: int) -> list[Outcome]:
    return list(of_seed(harness, seed))


class Case(NamedTuple):
    """The words of a call, the plan, the tapes, and what is due: the status, the lines, and which of
    the files of the others are there."""

    words: str
    plan_text: str
    tapes: Sequence[Optional[bytes]]
    status: int
    told: str
    files: Sequence[str] = ()


BOTH = (b"", b"")
WAITS_BEHIND = "blocked {}\nagent 0 was 1\n"
CASES = (
    # The one in front stays in its way: between two cells, in the first of them, in the second.
    Case("--without 0 --blocked", BEHIND, (MOVING, b""), 0,
         WAITS_BEHIND.format("1 0 2 0") + "unreachable 0 1 0\n" + NOT_WRITTEN.format(0, 1, 0), (MAP, SCEN)),
    Case("--without 0 --blocked 1 0", BEHIND, (MOVING, b""), 0,
         WAITS_BEHIND.format("1 0") + "unreachable 0 1 0\n" + NOT_WRITTEN.format(0, 1, 0), (MAP, SCEN)),
    Case("--without 0 --blocked 2 0", BEHIND, (MOVING, b""), 0, WAITS_BEHIND.format("2 0") + DRIVEN, (MAP, PLAN, SCEN)),
    Case("--without 0 --blocked 2 0 2 0", BEHIND, (MOVING, b""), 0, WAITS_BEHIND.format("2 0 2 0") + DRIVEN, (MAP, PLAN, SCEN)),
    # Behind its move: the cell behind it is free.
    Case("--without 0 --blocked", BEHIND, (MOVING + STANDING, b""), 0, WAITS_BEHIND.format("2 0") + DRIVEN, (MAP, PLAN, SCEN)),
    # Another robot stands by its tape where this one was seen.
    Case("--without 0 --blocked 0 0", BEHIND, BOTH, 0,
         WAITS_BEHIND.format("0 0") + "unreachable 0 1 0\n" + NOT_WRITTEN.format(0, 0, 0), (MAP, SCEN)),
    Case("--without 1 --blocked", BEHIND, BOTH, 0, "blocked 0 0\n" + DRIVEN, (MAP, PLAN, SCEN)),
    Case("--without 0 --blocked", plan("1 0 e"), (b"",), 0, "blocked 1 0 2 0\n" + DRIVEN, (MAP, PLAN, SCEN)),
    # Where its tape doesn't say where it is, somebody has to have seen it.
    Case("--without 0 --blocked", BEHIND, (None, b""), 1, "handover: 0.tape: NoTape: say behind --blocked in which cells the robot was seen"),
    Case("--without 0 --blocked", BEHIND, (OTHER_AGENT, b""), 1,
         "handover: 0.tape: WrongAgent 0: say behind --blocked in which cells the robot was seen"),
    Case("--without 0 --blocked", BEHIND, (b"", OTHER_AGENT), 1,
         "handover: 0.tape: NotOneRun: say behind --blocked in which cells the robot was seen"),
    Case("--without 0 --blocked 1 0", BEHIND, (None, b""), 0,
         WAITS_BEHIND.format("1 0") + "unreachable 0 1 0\n" + NOT_WRITTEN.format(0, 1, 0), (MAP, SCEN)),
    Case("--without 0 --blocked 1 0", BEHIND, (b"", OTHER_AGENT), 0,
         WAITS_BEHIND.format("1 0") + NOT_WRITTEN.format(0, 1, 0), (MAP, SCEN)),
    Case("--without 0 --blocked 2 0", BEHIND, (b"", OTHER_AGENT), 0, WAITS_BEHIND.format("2 0") + DRIVEN, (MAP, PLAN, SCEN)),
    Case("--without 0 --blocked 3 0", BEHIND, BOTH, 1, "handover: M: mapf: NoSuchCell 3 0"),
    Case("--without 0 --blocked 2 0 0 1", BEHIND, BOTH, 1, "handover: M: mapf: NoSuchCell 0 1"),
    Case("--without 2 --blocked 1 0", BEHIND, BOTH, 1, "handover: P: mapf: NoSuchAgent"),
    Case("--without 0 --blocked 1 0", BEHIND, (b"", None), 1, "handover: 1.tape: NoTape"),
)
# Words that are no call.
BAD_LINES = (
    *("--blocked", "--blocked 1 0", "--without 0 --blocked 1", "--without 0 --blocked 1 0 2", "--without 0 --blocked x 0"),
    *("--without 0 --blocked -1 0", "--without 0 --blocked 65536 0", "--without 0 --blocked 1,0"),
)


def by_hand(harness: Harness) -> Iterator[Outcome]:
    for case in CASES:
        tapes = {f"{agent}.tape": tape for agent, tape in enumerate(case.tapes) if tape is not None}
        folder = harness.folder({"M": LANE.encode(), "P": case.plan_text.encode(), **tapes})
        ran, wrote = gone_around(harness, folder, case.words.split())
        told = (wrote.status, wrote.err if case.status else wrote.out, wrote.out if case.status else wrote.err)
        whole = (told, sorted(wrote.files))
        yield compared(f"{case.words} of {case.plan_text!r}", ran, whole, ((case.status, f"{case.told}\n", ""), sorted(case.files)))


def bad_lines(harness: Harness) -> Iterator[Outcome]:
    for words in BAD_LINES:
        folder = harness.folder({"M": LANE.encode(), "P": BEHIND.encode(), "0.tape": b"", "1.tape": b""})
        ran, it = gone_around(harness, folder, words.split())
        wrote = (it.status, it.out, "handover.py: error: " in it.err, it.files)
        yield compared(words, f"{ran}, which told {it.err!r}", wrote, (2, "", True, {}))


def of_an_earlier_plan(harness: Harness) -> Iterator[Outcome]:
    """A plan of an earlier call that leads into a blocked cell is gone, and the map of the next
    breakdown may be that of the last one."""
    files = {"M": LANE.encode(), "P": BEHIND.encode(), "0.tape": MOVING, "1.tape": b""}
    folder = harness.folder(files)
    _, before = gone_around(harness, folder, ["--without", "0", "--blocked", "2", "0"])
    ran, behind = gone_around(harness, folder, ["--without", "0", "--blocked", "1", "0"])
    yield compared("an earlier plan", ran, (PLAN in before.files, PLAN in behind.files), (True, False))
    blocked = folder / "new" / MAP
    command = [sys.executable, str(TOOL), str(blocked), "P", TAPES, "new", "--program", str(harness.program)]
    blocked.write_text(before.files[MAP])
    (folder / "P").write_text(plan("1 0 =", "0 0 ="))
    (folder / "0.tape").write_bytes(b"")
    ended = subprocess.run([*command, "--without", "0", "--blocked"], cwd=folder, stdout=subprocess.PIPE, check=False)
    wrote = (ended.returncode, ended.stdout.decode(), blocked.read_text())
    twice = with_blocked(LANE, [(2, 0), (1, 0)])
    yield compared("a second one stays", shown(command), wrote, (0, f"blocked 1 0\nagent 0 was 1\n{DRIVEN}\n", twice))


def outcomes(harness: Harness) -> Iterator[Outcome]:
    yield from by_hand(harness)
    yield from bad_lines(harness)
    yield from of_an_earlier_plan(harness)
    seeds = LONG_SEEDS if harness.is_long else SHORT_SEEDS
    yield from side_by_side(functools.partial(all_of_seed, harness, seed) for seed in seeds)
