"""How planners compare: how many of their jobs were accepted, by number of agents, and what plans cost on the instances that all of them solved."""
import collections
from typing import Iterator, Sequence

from judging.proofs import BOUND_VERDICTS, PROOF_VERDICTS
from tabling.tables import FAILED, STALE, Comparison, Row

ACCEPTED, PLANNER = "accepted", "planner"
# What tells nothing of a planner.
OF_OURS = (FAILED, STALE)
DECIMALS = 4
Instance = tuple[str, str, str]


def comparisons(rows: Sequence[Row]) -> Sequence[Comparison]:
    """What is to be said of proofs and bounds, and, where jobs name their planners, of these."""
    named = [row for row in rows if row.get(PLANNER)]
    return [
        *counts(rows, "proofs", "proof_verdict", PROOF_VERDICTS),
        *counts(rows, "claimed bounds", "bound_verdict", BOUND_VERDICTS),
        *success_rates(named),
        *costs_of_all(named),
    ]


def counts(rows: Sequence[Row], about: str, column: str, kinds: Sequence[str]) -> Iterator[Comparison]:
    """How many results have which word in a column."""
    found = collections.Counter(row[column] for row in rows if row[column])
    if found:
        yield Comparison(about, ("all", *kinds), (("results", *(str(found[kind] or "") for kind in kinds)),))


def success_rates(rows: Sequence[Row]) -> Iterator[Comparison]:
    """How many jobs of each planner were accepted, by number of agents. A job that failed by a fault of ours counts for nobody."""
    counted = [row for row in rows if row["agents"] and row["verdict"] not in OF_OURS]
    numbers = sorted({int(row["agents"]) for row in counted})
    verdicts: dict[tuple[str, int], list[bool]] = collections.defaultdict(list)
    for row in counted:
        verdicts[row[PLANNER], int(row["agents"])].append(row["verdict"] == ACCEPTED)
    planners = sorted({row[PLANNER] for row in counted})
    lines = tuple((planner, *(rate(verdicts[planner, number]) for number in numbers)) for planner in planners)
    if lines:
        yield Comparison("accepted", (PLANNER, *(f"{number} agents" for number in numbers)), lines)


def rate(verdicts: Sequence[bool]) -> str:
    return f"{sum(verdicts)} of {len(verdicts)} ({100 * sum(verdicts) / len(verdicts):.0f} %)" if verdicts else ""


def costs_of_all(rows: Sequence[Row]) -> Iterator[Comparison]:
    """What the planners' plans cost on the instances that all of them solved: sums over other instances say nothing."""
    best: dict[str, dict[Instance, Row]] = {row[PLANNER]: {} for row in rows}
    for row in rows:
        # Without a scenario nobody knows whether two plans are for the same starts and goals.
        if row["verdict"] != ACCEPTED or not row["scenario"]:
            continue
        known = best[row[PLANNER]]
        key = row["map"], row["scenario"], row["agents_found"]
        # Of several plans for an instance the cheapest one counts.
        if key not in known or int(row["cost"]) < int(known[key]["cost"]):
            known[key] = row
    shared = set.intersection(*(set(known) for known in best.values())) if len(best) > 1 else set()
    if shared:
        about = f"on the {len(shared)} instances that all {len(best)} planners solved"
        lines = tuple((planner, *costs([known[key] for key in shared])) for planner, known in sorted(best.items()))
        yield Comparison(about, (PLANNER, "cost", "cost_bound", "mean ratio", "makespan"), lines)


def costs(rows: Sequence[Row]) -> tuple[str, ...]:
    """The sums of costs, of their bounds and of makespans, and the mean of the ratios that there are."""
    ratios = [int(row["cost"]) / int(row["cost_bound"]) for row in rows if int(row["cost_bound"])]
    cost, bound, makespan = (str(sum(int(row[name]) for row in rows)) for name in ("cost", "cost_bound", "makespan"))
    return cost, bound, f"{sum(ratios) / len(ratios):.{DECIMALS}f}" if ratios else "", makespan
