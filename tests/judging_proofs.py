"""What tools/judge.py says of proofs and of claimed bounds and costs, beside plans whose least costs are known by hand."""
from typing import Iterator

from harness import ROOT, Outcome, compared
from job_rooms import Room

COLUMNS = ("verdict", "claimed", "proof_verdict", "proof_fault", "proved_cost_bound", "bound_verdict")
# Two agents that exchange places, 2 steps each by themselves and 7 together; and two that need 2 and 1, and 4 together.
PASS, CROSS = "pass.plan", "cross.plan"
MISSING = "there is no such file"
# A plan, its proof, the cost and the bound that are claimed, and what is due of each.
JOBS = (
    (PASS, "pass.proof", "7", "7", ("accepted", "7", "optimal", "", "7", "certified")),
    (PASS, "low.proof", "", "7", ("accepted", "", "refused", "LeafTooLow 5 5", "", "unproved")),
    (PASS, "gone.proof", "6", "4.0", ("CostDiffers", "6", "missing", MISSING, "", "certified")),
    (PASS, "next.proof", "", "7.5", ("accepted", "", "unreadable", "BadHeader 1", "", "wrong")),
    (PASS, "", "", "6", ("accepted", "", "", "", "", "unproved")),
    (CROSS, "lone.proof", "4", "3", ("accepted", "4", "bound", "", "3", "certified")),
    (CROSS, "cross.proof", "", "4", ("accepted", "", "optimal", "", "4", "certified")),
    ("clash.plan", "pass.proof", "", "9", ("rejected", "", "", "", "", "")),
)
TOLD = (
    "judge: all results, proofs: optimal 2, bound 1, refused 1, unreadable 1, missing 1",
    "judge: all results, claimed bounds: certified 4, unproved 2, wrong 1",
)


def outcomes(room: Room) -> Iterator[Outcome]:
    for name in ("pass.map", "pass.plan", "pass.proof", "low.proof", "cross.plan", "cross.proof"):
        room.file(name, (ROOT / "examples" / name).read_bytes())
    room.file("next.proof", b"mapf-proof 2\nobjective cost\nbound 7\nleaf\n")
    room.file("lone.proof", b"mapf-proof 1\nobjective cost\nbound 3\nleaf\n")
    room.file("clash.plan", b"mapf-plan 1\nnumber 7\nagents 2\nagent 0 0 -\nagent 0 0 -\n")
    lines = [f"pass.map,{plan},{proof},{cost},{bound}\n" for plan, proof, cost, bound, _ in JOBS]
    room.file("proofs.csv", "".join(["map,plan,proof,solution cost,bound\n", *lines]).encode())
    ended = room.run("proofs.csv", "-o", "proofs.out.csv")
    found = {(row["plan"], row["proof"]): tuple(row[name] for name in COLUMNS) for row in room.rows("proofs.out.csv")}
    for plan, proof, _, _, due in JOBS:
        yield compared(f"{plan} with {proof}", "judge.py proofs.csv", found.get((plan, proof)), due)
    told = ended.err.decode().splitlines()
    yield compared("what is said of proofs", "judge.py proofs.csv", (ended.status, told[-2:]), (0, list(TOLD)))
    room.file("next.proof", (room.folder / "pass.proof").read_bytes())
    ended = room.run("proofs.csv", "-o", "proofs.out.csv")
    found = [row["proof_verdict"] for row in room.rows("proofs.out.csv") if row["proof"] == "next.proof"]
    wrote = (b"judge: pass.plan: another proof since\n" in ended.err, found)
    yield compared("another proof", "judge.py proofs.csv", wrote, (True, ["optimal"]))
