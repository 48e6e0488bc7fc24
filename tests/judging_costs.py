"""What tools/judge.py says of plans beside a verdict: costs and their bounds, rotations, and how many faults there are."""
import shlex
from typing import Iterator, Sequence

from harness import Outcome, compared
from job_rooms import Room
from judge_jobs import TEXTS, csv_of
from plain_formats import WRITERS
from texts import HALL, NOBODY, TURN, VERTEX, plan

OF_COSTS = ("cost", "cost_bound", "ratio", "makespan", "makespan_bound", "runs")
OF_FAULTS = ("vertex_faults", "swap_faults", "colliding_pairs", "faults_cut")
NO_COSTS, NO_FAULTS, UNCOUNTED = ("",) * len(OF_COSTS), ("0", "0", "0", ""), ("",) * len(OF_FAULTS)
ROTATION = "Rotation 0 0 1 2 3"
# Four that turn round in a square, as cells.
ROUND = [[(0, 0), (1, 0)], [(1, 0), (1, 1)], [(1, 1), (0, 1)], [(0, 1), (0, 0)]]
# The most faults that are counted; so many agents in one cell have more.
MOST, CROWD = "1000000", 1_415
TURNS = ("4", "4", "1.0000", "1", "1", ROTATION)
BEHIND_COSTS = ("2", "2", "1.0000", "1", "1", "yes")
# Plans, and those of TEXTS, with their map, their costs, and how many faults there are of which kind.
PLANS: dict[str, tuple[str, str, Sequence[str], Sequence[str]]] = {
    "behind.plan": ("lane.map", TEXTS["behind.plan"], BEHIND_COSTS, NO_FAULTS),
    "soc.lacam": ("lane.map", TEXTS["behind.lacam"].replace("makespan=", "soc=3\nmakespan="), BEHIND_COSTS, NO_FAULTS),
    "turn.plan": ("square.map", TURN, TURNS, NO_FAULTS),
    "turn.paths": ("square.map", WRITERS["paths"](ROUND), TURNS, NO_FAULTS),
    # One goes three steps round a corner to the cell beside it; the others go straight.
    "round.plan": ("hall.map", plan("0 0 sen", "3 0 w", "3 1 w"), ("5", "3", "1.6667", "3", "1", "yes"), NO_FAULTS),
    # Who comes back needs nothing at least.
    "back.plan": ("lane.map", plan("1 0 ew"), ("2", "0", "", "2", "0", "yes"), NO_FAULTS),
    "stays.plan": ("lane.map", plan("1 0 --"), ("0", "0", "", "0", "0", "yes"), NO_FAULTS),
    "nobody.plan": ("lane.map", NOBODY, ("0", "0", "", "0", "0", "yes"), NO_FAULTS),
    "swap.plan": ("lane.map", TEXTS["swap.plan"], NO_COSTS, ("0", "1", "1", "")),
    "vertex.plan": ("lane.map", VERTEX, NO_COSTS, ("1", "0", "1", "")),
    "wall.plan": ("lane.map", TEXTS["wall.plan"], NO_COSTS, NO_FAULTS),
    # Three that stay together at two times, in three pairs.
    "three.plan": ("lane.map", plan("1 0 -", "1 0 -", "1 0 -"), NO_COSTS, ("6", "0", "3", "")),
    # Two that exchange their cells twice, and a third that meets the one at times 0 and 2, the other at time 1.
    "there.and.back.plan": ("lane.map", plan("0 0 ew", "1 0 we", "0 0 ="), NO_COSTS, ("3", "2", "3", "")),
    # Its faults can't be said as those of a plan.
    "begun.paths": ("lane.map", "Agent 0: (0,1)->\nAgent 1: (0,-1)->(0,0)->\n", NO_COSTS, UNCOUNTED),
    "bad.plan": ("lane.map", TEXTS["bad.plan"], NO_COSTS, UNCOUNTED),
}


def of_columns(room: Room) -> Iterator[Outcome]:
    """The columns of each plan, without a list of all faults and with it."""
    room.file("hall.map", HALL.encode())
    for name, (_, text, _, _) in PLANS.items():
        room.file(name, text.encode())
    # A miss beside the scenario is no fault of the plan.
    jobs = [*((PLANS[name][0], "", name, "") for name in PLANS), ("lane.map", "other.scen", "behind.plan", "2")]
    room.file("costs.csv", csv_of(jobs))
    for output, words in (("costs.out.csv", []), ("counts.out.jsonl", ["--all"])):
        ended = room.run("costs.csv", "-o", output, *words)
        rows = {(row["plan"], row["scenario"]): tuple(row[name] for name in (*OF_COSTS, *OF_FAULTS)) for row in room.rows(output)}
        due = {(name, ""): (*costs, *(faults if words else UNCOUNTED)) for name, (_, _, costs, faults) in PLANS.items()}
        due["behind.plan", "other.scen"] = (*NO_COSTS, *(NO_FAULTS if words else UNCOUNTED))
        for key, columns in due.items():
            ran = f"judge.py costs.csv {' '.join(words)}, which told {ended.err[-300:]!r}"
            yield compared(f"the columns of {key} with {words}", ran, rows.get(key), columns)


def of_calls(room: Room) -> Iterator[Outcome]:
    """A plan is checked by one call, and one that has a rotation alone by two."""
    told = room.folder / "calls"
    program = room.script("counting", f'echo "$@" >>{shlex.quote(str(told))}\nexec {shlex.quote(str(room.harness.program))} "$@"')
    room.file("calls.csv", csv_of([(PLANS[name][0], "", name, "") for name in ("behind.plan", "turn.plan", "swap.plan")]))
    room.run("calls.csv", "-o", "calls.out.csv", program=program)
    checks = [line.split()[-1] for line in told.read_text().splitlines() if line.startswith("check ")]
    yield compared("how often a plan is checked", "judge.py calls.csv", sorted(checks), ["behind.plan", "swap.plan", "turn.plan", "turn.plan"])


TORN = ("failed", "`mapf check` ended with status 1", "", "", "", "")
# Lists that a program of the shell tells, and the verdict, the fault and the counts that are due.
LISTS = (
    ("rejected Swap 0 1 0", TORN),
    ("rejected Swap 0 1 0\\nfaults 2 agents 2", TORN),
    ("faults 0 agents 0", TORN),
    ("rejected Swap 0 1 0\\nfaults 1 agents 2 more", ("rejected", "Swap 0 1 0", "0", "1", "1", "yes")),
)


def of_lists(room: Room) -> Iterator[Outcome]:
    """A list of faults that isn't whole is no verdict, and it is said where it was cut."""
    room.file("list.csv", csv_of([("lane.map", "", "behind.plan", "")]))
    for number, (said, due) in enumerate(LISTS):
        program = room.script(f"list{number}", f"test \"$1\" = --version && exec echo mapf 0\nprintf '{said}\\n'; exit 1")
        room.run("list.csv", "--all", "-o", f"list{number}.csv", program=program)
        found = [tuple(row[name] for name in ("verdict", "fault", *OF_FAULTS)) for row in room.rows(f"list{number}.csv")]
        yield compared(f"the list {said!r}", "judge.py list.csv --all", found, [due])


def of_a_crowd(room: Room) -> Iterator[Outcome]:
    """More faults than are counted."""
    room.file("crowd.plan", plan(*(CROWD * ["1 0 ="])).encode())
    room.file("crowd.csv", csv_of([("lane.map", "", "crowd.plan", "")]))
    room.run("crowd.csv", "--all", "-o", "crowd.out.csv")
    found = [tuple(row[name] for name in OF_FAULTS) for row in room.rows("crowd.out.csv")]
    yield compared("more faults than are counted", "judge.py crowd.csv --all", found, [(MOST, "0", MOST, "yes")])


def outcomes(room: Room) -> Iterator[Outcome]:
    yield from of_columns(room)
    yield from of_calls(room)
    yield from of_lists(room)
    if room.harness.is_long:
        yield from of_a_crowd(room)
