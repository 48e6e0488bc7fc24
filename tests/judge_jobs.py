"""Jobs of tools/judge.py, and what is due of each."""
import json
from typing import Mapping, Sequence

from harness import Harness
from job_rooms import Room
from plain_formats import WRITERS, Paths, plan_text, scen_text
from texts import BEHIND, LANE, SHORT, SQUARE, SWAP, TURN, VERTEX

COLUMNS = ["map", "scenario", "plan", "agents", "verdict", "fault"]
COLUMNS += ["cost", "cost_bound", "ratio", "claimed", "makespan", "makespan_bound", "runs", "agents_found"]
COLUMNS += ["vertex_faults", "swap_faults", "colliding_pairs", "faults_cut"]
COLUMNS += ["proof_verdict", "proof_fault", "proved_cost_bound", "proved_makespan_bound", "bound_verdict"]
COLUMNS += ["seconds", "map_sha256", "scenario_sha256", "plan_sha256", "proof_sha256", "judge"]
# The columns that say what was due.
JUDGED = ["map", "scenario", "plan", "verdict", "fault", "cost", "makespan"]
# Two agents that go one cell east behind one another on the map LANE, and what they are to solve.
PATHS: Paths = [[(1, 0), (2, 0), (2, 0)], [(0, 0), (1, 0)]]
COST_OF_BOTH, MAKESPAN = 2, 1
TASKS = scen_text(PATHS).replace("999\t999", "3\t1")
TEXTS = {
    "lane.map": LANE,
    "square.map": SQUARE,
    "short.map": SHORT,
    "lane.scen": TASKS,
    "other.scen": TASKS.replace("\t2\t0\t1\n", "\t0\t0\t1\n", 1),
    "one.scen": TASKS[: TASKS.index("\n", 12) + 1],
    "behind.plan": BEHIND,
    "square.scen": "version 1\n0 m 2 2 0 0 0 1 1\n0 m 2 2 1 0 1 1 1\n",
    "swap.plan": SWAP,
    "vertex.plan": VERTEX,
    "turn.plan": TURN,
    "wall.plan": plan_text([[(0, 0), (0, 1)]], 7),
    "bad.plan": BEHIND.replace("e-", "ex"),
    "jump.paths": "Agent 0: (0,0)->(0,2)->\n",
    "nothing.plan": "",
    **{f"behind.{name}": write(PATHS) for name, write in WRITERS.items()},
}
ACCEPTED = ("accepted", "", str(COST_OF_BOTH), str(MAKESPAN))
LACAM = TEXTS["behind.lacam"]
# Texts of planners that made a mistake, found no plan, or say another cost than theirs.
MISTAKES = {
    "off.paths": ("", "Agent 0: (0,0)->(0,-1)->\n", ("rejected", "BadMove 0 0", "", "")),
    "below.paths": ("", "Agent 0: (0,0)->(0,1)->(1,1)->\n", ("rejected", "BadMove 0 1", "", "")),
    "begun.paths": ("", "Agent 0: (0,1)->\nAgent 1: (0,-1)->(0,0)->\n", ("rejected", "BadStart 1", "", "")),
    "first.paths": ("", "Agent 0: (0,-1)->(0,0)->\nAgent 1: (0,1)->\n", ("rejected", "BadStart 0", "", "")),
    "before.paths": ("", "Agent 0: (0,9)->\nAgent 1: (0,-1)->(0,0)->\n", ("rejected", "BadStart 0", "", "")),
    "goal.lacam": ("lane.scen", LACAM.replace("goals=(2,0)", "goals=(0,0)"), ACCEPTED),
    "other.lacam": ("other.scen", LACAM, ("rejected", "GoalDiffers 0", "", "")),
    "goal.tracker": ("lane.scen", "r\nw\n", ("rejected", "GoalDiffers 1", "", "")),
    # Which way u leads the other agent settles.
    "up.tracker": ("square.scen", "u\nw\n", ("rejected", "GoalDiffers 1", "", "")),
    "none.lacam": ("", "agents=2\nsolved=0\nsoc=0\nsolution=\n", ("unsolved", "none.lacam:2: ..", "", "")),
    "none.schedule": ("", "statistics:\n  cost: 0\nschedule:\n", ("unsolved", "none.schedule:3: ..", "", "")),
    "none.paths": ("", "Agent 0: \nAgent 1: \n", ("unsolved", "none.paths:2: ..", "", "")),
    "soc.lacam": ("", LACAM.replace("makespan=", "soc=3\nmakespan="), ("CostDiffers", "soc= is '3', 2 was due by its cells", "2", "1")),
    "same.lacam": ("", LACAM.replace("makespan=", "soc=2\nmakespan="), ACCEPTED),
    "late.lacam": ("", LACAM.replace("makespan=2", "makespan=0"), ("CostDiffers", "makespan= is '0', 2 was due by its cells", "2", "1")),
    "cut.lacam": ("", LACAM.replace("makespan=2", "makespan=3"), ("unreadable", "cut.lacam:5: ..", "", "")),
    "cost.yaml": ("", TEXTS["behind.schedule"].replace("cost: 3", "cost: 4"), ("CostDiffers", "cost: is '4', 3 was due by its cells", "2", "1")),
    "cost.swap": ("", "solved=1\nsoc=9\nsolution=\n0:(0,0),(1,0),\n1:(1,0),(0,0),\n", ("rejected", "Swap 0 1 0", "", "")),
}
CLAIMED = {"soc.lacam": "3", "same.lacam": "2", "cost.yaml": "4", "behind.schedule": "3", "cost.swap": "9"}
# A job, and its verdict, fault, cost and makespan; a fault that ends in `..` is the beginning of it.
JOBS: list[tuple[tuple[str, str, str, str], tuple[str, str, str, str]]] = [
    (("lane.map", "", "behind.plan", ""), ACCEPTED),
    (("lane.map", "", "behind.plan", "2"), ACCEPTED),
    (("lane.map", "lane.scen", "behind.plan", "2"), ACCEPTED),
    (("lane.map", "", "behind.plan", "3"), ("rejected", "AgentCount", "", "")),
    (("lane.map", "one.scen", "behind.plan", ""), ("rejected", "TooFewRows", "", "")),
    (("lane.map", "other.scen", "behind.plan", ""), ("rejected", "GoalDiffers 0", "", "")),
    (("square.map", "", "turn.plan", ""), ("accepted", "", "4", "1")),
    (("lane.map", "", "swap.plan", ""), ("rejected", "Swap 0 1 0", "", "")),
    (("lane.map", "", "vertex.plan", ""), ("rejected", "Vertex 0 1 2 0 0", "", "")),
    (("lane.map", "", "wall.plan", ""), ("rejected", "BadMove 0 0", "", "")),
    (("lane.map", "", "bad.plan", ""), ("unreadable", "BadAct 4 12", "", "")),
    (("short.map", "", "behind.plan", ""), ("unreadable", "ShortRow 6", "", "")),
    (("lane.map", "lane.map", "behind.plan", ""), ("unreadable", "NoVersion", "", "")),
    (("lane.map", "", "jump.paths", ""), ("unreadable", "jump.paths:1: ..", "", "")),
    (("lane.map", "", "nothing.plan", ""), ("unreadable", "nothing.plan:1: ..", "", "")),
    (("lane.map", "", "behind.tracker", ""), ("unreadable", "behind.tracker:1: ..", "", "")),
    (("lane.map", "", "no.plan", ""), ("failed", "no.plan: ..", "", "")),
    (("no.map", "", "behind.plan", ""), ("failed", "OpenFailed", "", "")),
    (("lane.map", "no.scen", "behind.plan", ""), ("failed", "OpenFailed", "", "")),
    (("lane.map", "", "folder", ""), ("failed", "folder: ..", "", "")),
    *((("lane.map", "", f"behind.{name}", ""), ACCEPTED) for name in WRITERS if name not in ("tracker", "lorr")),
    *((("lane.map", "lane.scen", f"behind.{name}", "2"), ACCEPTED) for name in WRITERS if name != "lorr"),
    *((("square.map" if scenario == "square.scen" else "lane.map", scenario, name, ""), verdict) for name, (scenario, _, verdict) in MISTAKES.items()),
    # The first robot looks the way that it goes.
    (("lane.map", "lane.scen", "behind.lorr", ""), ACCEPTED),
]


def judge_room(harness: Harness) -> Room:
    """A folder of all these plans."""
    room = Room(harness, "judge", {**TEXTS, **{name: text for name, (_, text, _) in MISTAKES.items()}})
    (room.folder / "folder").mkdir()
    return room


def csv_of(jobs: Sequence[tuple[str, str, str, str]]) -> bytes:
    return "".join(f"{','.join(job)}\n" for job in [("map", "scenario", "plan", "agents"), *jobs]).encode()


def json_of(jobs: Sequence[tuple[str, str, str, str]]) -> bytes:
    names = ("map", "scenario", "plan", "agents")
    return "".join(json.dumps({name: word for name, word in zip(names, job) if word}) + "\n" for job in jobs).encode()


def verdicts(rows: Sequence[Mapping[str, str]]) -> list[tuple[str, ...]]:
    """What was said of each job, in an order of their own."""
    return sorted(tuple(row.get(name, "?") for name in JUDGED) for row in rows)


def due_of(jobs: Sequence[tuple[tuple[str, str, str, str], tuple[str, str, str, str]]]) -> list[tuple[str, ...]]:
    return sorted((*job[:3], *verdict) for job, verdict in jobs)


def is_as_due(row: tuple[str, ...], due: tuple[str, ...]) -> bool:
    fault = due[4][:-2] if due[4].endswith("..") else due[4]
    return row[:4] + row[5:] == due[:4] + due[5:] and (row[4].startswith(fault) if due[4].endswith("..") else row[4] == fault)


def differing(rows: Sequence[Mapping[str, str]], jobs) -> list[tuple[object, object]]:
    """The first results that differ from what is due."""
    pairs = list(zip(verdicts(rows), due_of(jobs)))
    found = [(row, due) for row, due in pairs if not is_as_due(row, due)]
    return found[:3] or ([(len(rows), len(jobs))] if len(rows) != len(jobs) else [])
