"""The verdict on one job: what `mapf check` says of the plan, in whichever format a planner wrote it."""
import dataclasses
import pathlib
from typing import Optional, Sequence

import canonical
from judging.checker import Checker, Verdict
from judging.jobs import PlanJob
from judging.proofs import BOUND, PROOF, judged_bound, judged_proof
from judging.table import ACCEPTED, COST_DIFFERS, REJECTED, TABLE, UNSOLVED
from path_check import hold_on_open_map
from plan_formats import HEAD, Format, formats, guess, mapf_plan
from plan_formats.texts import text_of
from plan_formats.walks import Claim, Fault, Given, StartOffMaps, Unsolved, Walk
from refused import Refused
from tabling.tables import FAILED, UNREADABLE, Row
from tabling.work import Work
from whole_file import draft

# The format of the plans that stand in a table.
TRACKER = "tracker"


def claimed(verdict: Verdict, claims: Sequence[Claim]) -> Verdict:
    """The verdict with the cost that the text claims. A plan that is accepted at other costs than its text says is one of its own kind."""
    cost = next((claim.said for claim in claims if claim.is_cost), "")
    wrong = [claim.what for claim in claims if not claim.is_right]
    if wrong and verdict.verdict == ACCEPTED:
        verdict = dataclasses.replace(verdict, verdict=COST_DIFFERS, fault="; ".join(wrong))
    return dataclasses.replace(verdict, claimed=cost)


def beside_list(verdict: Verdict, claim: str) -> Verdict:
    """The verdict beside the cost that a list claims for the plan."""
    counted = int(verdict.cost) if verdict.verdict == ACCEPTED else 0
    return claimed(verdict, [Claim(1, "solution_cost", claim, counted, is_cost=True)]) if claim else verdict


@dataclasses.dataclass(frozen=True)
class Judging(Work):
    """What judge.py does with a plan: it converts it where that is needed, and asks the checker."""

    # The format of all plans, or none where each is told by its beginning.
    source: Optional[str]
    # Whether agents wait at times that a schedule leaves out.
    fills_waits: bool
    # Whether all faults are asked for.
    has_all: bool
    # Whether a planner that wrote no plan found none.
    is_missing_unsolved: bool

    tool = pathlib.Path(__file__).resolve().parent.parent / "judge.py"
    table = TABLE
    readers = ("canonical.py", "path_check.py", "mapf/*.py", "plan_formats/*.py", "judging/verdicts.py", "judging/checker.py", "judging/proofs.py")

    @property
    def options(self) -> list[str]:
        source = ["--from", self.source] if self.source else []
        missing = ["--missing", UNSOLVED] if self.is_missing_unsolved else []
        return [*source, *(["--fill-waits"] if self.fills_waits else []), *(["--all"] if self.has_all else []), *missing]

    def found(self, job: PlanJob) -> Row:
        return self.verdict_on(job).columns

    def verdict_on(self, job: PlanJob) -> Verdict:
        try:
            return self.of_a_row(job) if job.text is not None else self.of_a_file(job)
        except Unsolved as fault:
            return Verdict(UNSOLVED, f"{job.plan}:{fault.line}: {fault.what}")
        except Fault as fault:
            return Verdict(UNREADABLE, f"{job.plan}:{fault.line}: {fault.what}")
        except Refused as fault:
            return Verdict(UNREADABLE, str(fault))
        except OSError as fault:
            is_plan = fault.filename == job.file(job.plan)
            is_missing = is_plan and isinstance(fault, FileNotFoundError) and self.is_missing_unsolved
            named = job.plan if is_plan else fault.filename or job.plan
            return Verdict(UNSOLVED if is_missing else FAILED, f"{named}: {fault.strerror or fault}")

    def of_a_file(self, job: PlanJob) -> Verdict:
        """The verdict on the plan in a file, whose cost the list may claim."""
        data = pathlib.Path(job.file(job.plan)).read_bytes()
        is_plan = not self.source and mapf_plan.begins(data[:HEAD])
        verdict = self.checked(job, job.file(job.plan)) if is_plan else self.converted(job, self.source, data)
        return beside_list(verdict, job.claim)

    def of_a_row(self, job: PlanJob) -> Verdict:
        """The verdict on the plan in a row of the tracker's table, whose cost the row claims."""
        if not job.text.strip():
            return Verdict(UNSOLVED, f"{job.plan}: the row has no plan: the planner found none, one was due", claimed=job.claim)
        # The lines of a cell have line ends between them, and perhaps behind the last: how many agents are due settles it.
        return beside_list(self.converted(job, TRACKER, f"{job.text}\n".encode()), job.claim)

    def converted(self, job: PlanJob, source: Optional[str], data: bytes) -> Verdict:
        """The verdict on a text of another format."""
        text = text_of(data)
        chosen = formats()[source] if source else guess(text, f"a plan or one of {', '.join(formats())}")
        given = self.given_of(job, chosen)
        try:
            walks = chosen.read(text, given)
        except StartOffMaps as fault:
            # No plan says it. The checker names the first agent that starts off the map, so those before it are checked.
            before = self.checked_walks(job, fault.before) if fault.before else Verdict(ACCEPTED)
            return Verdict(REJECTED, before.fault if before.fault.startswith("BadStart ") else f"BadStart {len(fault.before)}")
        return claimed(self.checked_walks(job, walks), given.found.claims)

    def given_of(self, job: PlanJob, chosen: Format) -> Given:
        """What the format needs beside the text. What starts and steps are worth on their map, the checker says."""
        if chosen.needs_tasks and not job.scenario:
            raise Fault(1, f"the format {chosen.name} leaves out where agents start, a job with a scenario was due")
        has_map = chosen.needs_map or chosen.needs_tasks
        size = canonical.map_size(self.program, job.file(job.map)) if has_map else ()
        tasks = canonical.tasks(self.program, job.file(job.scenario)) if chosen.needs_tasks else None
        return Given(*size, has_map=has_map, tasks=tasks, agents=int(job.agents) if job.agents else None, fills_waits=self.fills_waits)

    def checked_walks(self, job: PlanJob, walks: Sequence[Walk]) -> Verdict:
        """What the checker says of the plan of these cells, which is held against each of them."""
        with draft(mapf_plan.write(walks, 0), None) as plan:
            hold_on_open_map(self.program, str(plan.path), walks)
            return self.checked(job, str(plan.path))

    def checked(self, job: PlanJob, plan: str) -> Verdict:
        """What the checker says of a plan in a file."""
        scenario = ["--scen", job.file(job.scenario)] if job.scenario else []
        agents = ["--agents", job.agents] if job.agents else []
        verdict = Checker(self.program, (*scenario, *agents), job.file(job.map), self.has_all).check(plan)
        return self.beside_proofs(job, plan, verdict) if verdict.verdict == ACCEPTED else verdict

    def beside_proofs(self, job: PlanJob, plan: str, verdict: Verdict) -> Verdict:
        """The verdict on an accepted plan with what its proof shows, and with what is to be said of the bound that is claimed."""
        proof, claim = (dict(job.more).get(name, "") for name in (PROOF, BOUND))
        if proof:
            verdict = dataclasses.replace(verdict, **judged_proof(self.program, job.file(job.map), plan, job.file(proof)))
        if claim:
            certified = max(int(it or 0) for it in (verdict.cost_bound, verdict.proved_cost_bound))
            verdict = dataclasses.replace(verdict, bound_verdict=judged_bound(claim, int(verdict.cost), certified))
        return verdict
