"""What is to be said of a proof that a planner wrote beside a plan, by `mapf optimal`, and of the bound that it claims."""
import os
from typing import Optional

from mapf.faults import Failed, Fault
from mapf.program import Program
from mapf.verdicts import Optimality, optimal
from tabling.tables import FAILED, UNREADABLE, Row

# The columns of a list that name a proof, and have a bound on the sum of costs.
PROOF, BOUND = "proof", "bound"
# A proof shows that the plan is the best, or a bound; it is refused; there is no such file.
OPTIMAL, BOUNDED, REFUSED, MISSING = "optimal", "bound", "refused", "missing"
PROOF_VERDICTS = (OPTIMAL, BOUNDED, REFUSED, UNREADABLE, MISSING, FAILED)
# A claimed bound isn't above the greatest one that is proved; it is above; it is above the cost of this plan.
CERTIFIED, UNPROVED, WRONG = "certified", "unproved", "wrong"
BOUND_VERDICTS = (CERTIFIED, UNPROVED, WRONG)


def judged_proof(program: Program, map_file: str, plan: str, proof: str) -> Row:
    """What the program says of a proof for an accepted plan."""
    if not os.path.exists(proof):
        return said(MISSING, "there is no such file")
    try:
        found = optimal(map_file, plan, proof, program=program)
    except Fault as fault:
        return said(UNREADABLE, str(fault.words))
    except Failed as fault:
        return said(FAILED, str(fault))
    return said(REFUSED, str(found.fault)) if found.fault else shown_by(found)


def said(verdict: str, fault: str) -> Row:
    return {"proof_verdict": verdict, "proof_fault": fault}


def shown_by(found: Optimality) -> Row:
    return {"proof_verdict": OPTIMAL if found.is_optimal else BOUNDED, f"proved_{found.objective}_bound": str(found.bound)}


def bound_of(word: str) -> Optional[float]:
    """The bound that a column has, and nothing where it is no number from 0 on."""
    try:
        bound = float(word)
    except ValueError:
        return None
    return bound if 0 <= bound < float("inf") else None


def judged_bound(claim: str, cost: int, certified: int) -> str:
    """What is to be said of a claimed bound on the sum of costs."""
    bound = bound_of(claim)
    return CERTIFIED if bound <= certified else WRONG if bound > cost else UNPROVED
