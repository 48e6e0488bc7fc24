"""The table of judge.py: what stands in a result."""
from typing import Sequence

from judging.comparing import ACCEPTED, comparisons
from judging.proofs import PROOF
from tabling.tables import FAILED, UNREADABLE, Row, Table

COST_DIFFERS, REJECTED, UNSOLVED = "CostDiffers", "rejected", "unsolved"
NAMES = ("map", "scenario", "plan")
OF_COSTS = ("cost", "cost_bound", "ratio", "claimed", "makespan", "makespan_bound", "runs", "agents_found")
OF_FAULTS = ("vertex_faults", "swap_faults", "colliding_pairs", "faults_cut")
FOUND = (
    *OF_COSTS,
    *OF_FAULTS,
    *("proof_verdict", "proof_fault", "proved_cost_bound", "proved_makespan_bound", "bound_verdict"),
)
WORDS = ("runs", "faults_cut", "proof_verdict", "proof_fault", "bound_verdict")
GIVEN = (*NAMES, "agents")
# Tables of former judges, and what these don't say.
OLDER = {
    (*GIVEN, "verdict", "fault", "cost", "makespan", "seconds"): "which files were judged",
    (*GIVEN, "verdict", "fault", "cost", "claimed", "makespan", "agents_found", "seconds"): "what plans cost at least",
    (*GIVEN, "verdict", "fault", *OF_COSTS, *OF_FAULTS, "seconds"): "what proofs show",
}


def costs(rows: Sequence[Row]) -> str:
    """What accepted plans cost together, and what they cost at least."""
    accepted = [row for row in rows if row["verdict"] == ACCEPTED]
    return f"cost {sum(int(row['cost']) for row in accepted)} of {sum(int(row['cost_bound']) for row in accepted)}"


TABLE = Table(
    given=GIVEN,
    files=(*NAMES, PROOF),
    names=NAMES,
    found=FOUND,
    numbers=("agents", *(name for name in FOUND if name not in WORDS), "seconds"),
    verdicts=(ACCEPTED, COST_DIFFERS, REJECTED, UNSOLVED, UNREADABLE, FAILED),
    total=costs,
    comparisons=comparisons,
    older=OLDER,
)
