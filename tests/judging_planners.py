"""What tools/judge.py says of planners beside one another: who solved how many jobs, and what plans cost where all solved them."""
import re
from typing import Iterator

from harness import Outcome, compared
from job_rooms import Room
from texts import BEHIND, plan

# Jobs of two planners: an instance of two agents that both solve, one that the second has no file for, and one of a single agent.
JOBS = """planner,map,scenario,plan,agents
A,lane.map,lane.scen,behind.plan,2
A,square.map,square.scen,down.plan,2
A,lane.map,lane.scen,alone.plan,1
B,lane.map,lane.scen,late.plan,2
B,square.map,square.scen,never.plan,2
B,lane.map,lane.scen,alone.plan,1
"""
PLANS = {
    "behind.plan": BEHIND,
    "down.plan": plan("0 0 s", "1 0 s"),
    "late.plan": plan("1 0 -e", "0 0 -e"),
    "alone.plan": plan("1 0 e"),
}
ON_BOTH = "on the 2 instances that all 2 planners solved"
COSTS = [
    f"judge: planner A, {ON_BOTH}: cost 3, cost_bound 3, mean ratio 1.0000, makespan 2",
    f"judge: planner B, {ON_BOTH}: cost 5, cost_bound 3, mean ratio 1.5000, makespan 3",
]
OF_A = "judge: planner A, accepted: 1 agents 1 of 1 (100 %), 2 agents 2 of 2 (100 %)"
# Whether a plan that isn't there counts as one that its planner didn't find.
CALLS = (
    ([], "failed", "judge: planner B, accepted: 1 agents 1 of 1 (100 %), 2 agents 1 of 1 (100 %)"),
    (["--missing", "unsolved"], "unsolved", "judge: planner B, accepted: 1 agents 1 of 1 (100 %), 2 agents 1 of 2 (50 %)"),
)


def outcomes(room: Room) -> Iterator[Outcome]:
    room.file("two.planners.csv", JOBS.encode())
    for name, text in PLANS.items():
        room.file(name, text.encode())
    for words, verdict, of_b in CALLS:
        ended = room.run("two.planners.csv", "-o", "two.planners.out.csv", "--page", "two.html", *words)
        ran = f"judge.py two.planners.csv {' '.join(words)}"
        found = {(row["verdict"], row["fault"]) for row in room.rows("two.planners.out.csv") if row["plan"] == "never.plan"}
        yield compared(f"a plan that isn't there, {words}", ran, found, {(verdict, "never.plan: No such file or directory")})
        told = ended.err.decode().splitlines()
        yield compared(f"planners beside one another, {words}", ran, told[-4:], [OF_A, of_b, *COSTS])
    cells = re.findall(r"<td[^>]*>([^<]*)</td>", (room.folder / "two.html").read_text(encoding="utf-8"))
    yield compared("on the page too", ran, ("1 of 2 (50 %)" in cells, "1.5000" in cells), (True, True))
    room.file("lost.csv", b"map,plan\nno.map,behind.plan\n")
    room.run("lost.csv", "-o", "lost.out.csv", "--missing", "unsolved")
    found = [(row["verdict"], row["fault"]) for row in room.rows("lost.out.csv")]
    yield compared("a map that isn't there", "judge.py lost.csv --missing unsolved", found, [("failed", "OpenFailed")])
