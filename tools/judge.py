#!/usr/bin/env python3
"""Judges many plans: what `mapf check` says of each, in whichever format planners wrote them, as one table.

Usage: judge.py JOBS -o RESULTS [OPTIONS]
       judge.py --maps FOLDER [--scens FOLDER] PLANS.. -o RESULTS [OPTIONS]

JOBS is a list with the columns map, plan, and perhaps scenario and agents: CSV with a heading, or JSON lines. Other columns go through. It may be a table
of the MAPF tracker, with a plan in each row. Else each plan is a job, by its name: `random-32-32-20-even-3-50.txt` is for 50 agents of
random-32-32-20-even-3.scen on random-32-32-20.map.

RESULTS, CSV or JSON lines by its name, has a line a job, in the order in which they are judged. The verdict is `accepted`, `CostDiffers` (the plan
would be accepted, but its text states other costs), `rejected`, `unsolved` (the text says that its planner found no plan), `unreadable` (a text has a
fault) or `failed` (a file, a process or a tool failed, or the time was over). Beside it stands what an accepted plan costs, and at least costs, and
whether it can be run; with --all, how many faults others have. A list may also name a `proof`, a `bound` that the planner claims, and its
`solution cost`: what `mapf optimal` says of them stands there too.

A planner that finds no plan often writes no file: `--missing unsolved` counts such a plan as unsolved, and not as a file that failed. Where jobs
have a column planner, the last lines on standard error say how many jobs of each planner were accepted, by number of agents, and compare costs on
the instances that all of them solved.

A judge that was stopped goes on behind what stands. A result whose plan, map, scenario, proof, program, readers or options are others since is made
anew.

Status 0: every job has a result. 1: the list of jobs has a fault. 2: a bad command line. 3: the results can't be written, or the cluster failed.
"""
import argparse
import pathlib
import sys
from typing import Sequence

sys.dont_write_bytecode = True
from judging.jobs import PlanJob, by_names, read_jobs  # noqa: E402
from judging.table import UNSOLVED  # noqa: E402
from judging.uploads import is_upload, read_upload  # noqa: E402
from judging.verdicts import Judging  # noqa: E402
from leaving import heed_signals  # noqa: E402
from mapf.program import Program  # noqa: E402
from plan_formats import formats  # noqa: E402
from tabling.calls import Tool, add_options, hold_options  # noqa: E402
from tabling.tables import FAILED  # noqa: E402

PATTERN = "{map}-{scen}-{number}-{agents}*"
SCEN_PATTERN = "{map}-{scen}-{number}.scen"


class Judge(Tool):
    """Judges plans."""

    name, does, things = "judge", "judges", "plans"
    kind = PlanJob

    def read_words(self, words: Sequence[str]) -> argparse.Namespace:
        parser = argparse.ArgumentParser(prog="judge.py", description=__doc__, formatter_class=argparse.RawDescriptionHelpFormatter)
        parser.add_argument("files", nargs="*", metavar="FILE", help="the list of jobs, or with --maps the plans")
        parser.add_argument("--maps", type=pathlib.Path, metavar="FOLDER", help="the maps; plans are judged by their names")
        parser.add_argument("--scens", type=pathlib.Path, metavar="FOLDER", help="the scenarios that these plans are to solve")
        parser.add_argument("--pattern", default=PATTERN, metavar="PATTERN", help="how the plans are named (%(default)s)")
        parser.add_argument("--scen-pattern", default=SCEN_PATTERN, metavar="PATTERN", help="how their scenarios are (%(default)s)")
        parser.add_argument("--from", dest="source", choices=list(formats()), metavar="FORMAT", help="what the plans are (told by their beginnings)")
        parser.add_argument("--fill-waits", action="store_true", help="an agent waits at times that a schedule leaves out")
        parser.add_argument("--all", action="store_true", help="counts all faults of the plans that are rejected")
        parser.add_argument("--missing", choices=[FAILED, UNSOLVED], default=FAILED, help="the verdict on a plan that isn't there (%(default)s)")
        add_options(parser)
        given = parser.parse_args(words)
        if given.told:
            return given
        if not given.files or (given.maps is None and len(given.files) > 1):
            parser.error("one list of jobs is wanted, or --maps and plans")
        if given.maps is None and given.scens is not None:
            parser.error("--scens goes with --maps")
        hold_options(parser, given)
        return given

    def jobs_of(self, given: argparse.Namespace, _: Program) -> list[PlanJob]:
        if given.maps is None or len(given.files) == 1:
            jobs = pathlib.Path(given.files[0])
            if is_upload(jobs):
                return list(read_upload(jobs, given.maps, given.scens))
        if given.maps is None:
            return read_jobs(jobs)
        return by_names(given.files, given.maps, given.scens, given.pattern, given.scen_pattern)

    def work_of(self, given: argparse.Namespace, program: Program) -> Judging:
        return Judging(program, given.seconds, given.source, given.fill_waits, given.all, given.missing == UNSOLVED)

    def warning(self, jobs: Sequence[PlanJob]) -> str:
        """Who isn't told how many agents are due can't see that a plan lacks one."""
        untold = sum(not job.agents for job in jobs)
        what = "don't say how many agents are due, as a column agents does: a plan that lacks an agent isn't seen there"
        return f"{untold} of {len(jobs)} jobs {what}" if untold else ""


main = Judge().main

if __name__ == "__main__":
    heed_signals()
    sys.exit(main(sys.argv[1:]))
