"""The course of a call of a tool that works on many jobs: its options, its progress, and its statuses."""
import abc
import argparse
import json
import os
import pathlib
import select
import sys
import time
from typing import ClassVar, Iterator, Optional, Sequence

from mapf.program import Program, usual_program
from tabling import clusters, workers
from tabling.clusters import BadCluster, Cluster, Link, NoDask
from tabling.jobs import BadJobs, Job
from tabling.marks import Marker, version_of
from tabling.page import page
from tabling.results import BadResults, Results
from tabling.summary import summary
from tabling.tables import FAILED, Row
from tabling.work import Work
from whole_file import draft

REFUSED, BAD_LINE, NOT_DONE = 1, 2, 3
SECONDS = 600.0
BAR = 30
# For how long a worker's Python waits for another batch, and goes on with one, in seconds.
IDLE, PATIENCE = 60, 0.5
# How many results that don't fit any more are named.
MOST_REASONS = 10


def shard(word: str) -> tuple[int, int]:
    part, _, parts = word.partition("/")
    numbers = [int(it) if it.isascii() and it.isdigit() and len(it) < 10 else 0 for it in (part, parts)]
    if not 1 <= numbers[0] <= numbers[1]:
        raise argparse.ArgumentTypeError(f"'{word[:40]}' is no K/N with K from 1 to N")
    return numbers[0], numbers[1]


def positive(word: str) -> float:
    try:
        value = float(word)
    except ValueError:
        value = 0
    if not 0 < value < 1e9:
        raise argparse.ArgumentTypeError(f"a number above 0 is wanted, and '{word[:40]}' is none")
    return value


def add_options(parser: argparse.ArgumentParser) -> None:
    """What each of these tools takes."""
    parser.add_argument("-o", "--output", type=pathlib.Path, metavar="RESULTS", help="where the results go")
    parser.add_argument("--seconds", type=positive, default=SECONDS, metavar="S", help="the time of one job (%(default)g)")
    usual = len(os.sched_getaffinity(0))
    parser.add_argument("--jobs", "--processes", dest="processes", type=int, default=usual, metavar="N", help="how many jobs at once (one a processor)")
    parser.add_argument("--shard", type=shard, default=(1, 1), metavar="K/N", help="takes every N-th job from the K-th on")
    parser.add_argument("--dask", metavar="ADDRESS", help="hands the jobs to the Dask cluster with this scheduler")
    parser.add_argument("--page", type=pathlib.Path, metavar="FILE.html", help="writes the results as a page too")
    parser.add_argument("--program", type=pathlib.Path, default=usual_program(), metavar="PATH", help="another program mapf than the usual one")
    parser.add_argument("--prune", action="store_true", help="drops the results whose jobs are gone")
    parser.add_argument("--retry", choices=[FAILED], help="judges these results again")
    parser.add_argument("--told", action="store_true", help=argparse.SUPPRESS)


def hold_options(parser: argparse.ArgumentParser, given: argparse.Namespace) -> None:
    """Refuses what doesn't fit together."""
    if given.output is None:
        parser.error("-o RESULTS is wanted")
    if given.processes < 1:
        parser.error("--jobs: a number above 0 is wanted")


def batches_told() -> Iterator[list[str]]:
    """The lines of standard input, each a list of jobs. Who tells one waits for what is answered, so no line lies in between unseen."""
    while select.select([sys.stdin], [], [], IDLE)[0] and (line := sys.stdin.readline()):
        yield json.loads(line)


def in_time(batch: Sequence[str]) -> Iterator[str]:
    """The first jobs of a batch, as many as there is time for."""
    last = time.monotonic() + PATIENCE
    for job in batch:
        yield job
        if time.monotonic() > last:
            return


def show_bar(done: int, count: int, begun: float) -> None:
    """How far the work is, in one line of a terminal."""
    filled = BAR * done // max(count, 1)
    left = (time.monotonic() - begun) * (count - done) / max(done, 1)
    print(f"\r[{'#' * filled}{'.' * (BAR - filled)}] {done} of {count}, {left:.0f} s left \x1b[K", end="", file=sys.stderr, flush=True)


def more_columns(jobs: Sequence[Job]) -> list[str]:
    """The columns that these jobs have beside those of each job."""
    return list(dict.fromkeys(name for job in jobs for name, _ in job.more))


class Tool(abc.ABC):
    """A tool: how it reads its command line, which jobs it has, and what it does with them."""

    # What stands before each line on standard error, what is done, and with what.
    name: ClassVar[str]
    does: ClassVar[str]
    things: ClassVar[str]
    kind: ClassVar[type[Job]]

    @abc.abstractmethod
    def read_words(self, words: Sequence[str]) -> argparse.Namespace:
        """The command line."""

    @abc.abstractmethod
    def jobs_of(self, given: argparse.Namespace, program: Program) -> list[Job]:
        """All jobs that are told."""

    @abc.abstractmethod
    def work_of(self, given: argparse.Namespace, program: Program) -> Work:
        """What is done with each."""

    def warning(self, jobs: Sequence[Job]) -> str:
        """What to know of these jobs, if there is something."""
        return ""

    def say(self, text: str) -> None:
        print(f"{self.name}: {text}", file=sys.stderr)

    def main(self, words: Sequence[str]) -> int:
        """A call, and its status."""
        given = self.read_words(words)
        try:
            (self.do_as_told if given.told else self.do_all)(given)
        except (BadJobs, UnicodeError) as fault:
            self.say(str(fault))
            return REFUSED
        except NoDask:
            self.say("--dask needs the Python package `distributed`, as Debian's python3-distributed")
            return BAD_LINE
        except BadResults as fault:
            self.say(str(fault))
            return NOT_DONE
        except BadCluster as fault:
            self.say(f"the Dask cluster {given.dask} failed, {fault}; the same call judges what is left")
            return NOT_DONE
        except OSError as fault:
            self.say(f"{fault.filename or given.output}: {fault.strerror or fault}")
            return NOT_DONE
        return 0

    def do_as_told(self, given: argparse.Namespace) -> None:
        """For a worker of a cluster: a line a batch on standard input, and each time a line a result on standard output, and an empty one."""
        work = self.work_of(given, Program(given.program))
        # Found here once, and not by each job's process.
        _ = work.judge
        for batch in batches_told():
            for row in workers.on_this_machine(map(self.kind.unpacked, in_time(batch)), work, 1):
                print(json.dumps(row), flush=True)
            print(flush=True)

    def do_all(self, given: argparse.Namespace) -> None:
        work = self.work_of(given, Program(given.program))
        with clusters.linked(given.dask, work) as link:
            results = self.do_listed(self.jobs_of(given, work.program), work, given, link)
        for line in summary(work.table, results.rows):
            self.say(line.text)
        for comparison in work.table.comparisons(results.rows):
            for text in comparison.texts:
                self.say(text)
        if given.page:
            with draft(page(work.table, results.rows, f"Results of {results.path.name}"), given.page) as made:
                made.put()

    def do_listed(self, listed: Sequence[Job], work: Work, given: argparse.Namespace, link: Optional[Link]) -> Results:
        """Sees to it that each job of this call has a result."""
        k, n = given.shard
        jobs = listed[k - 1 :: n]
        self.say(f"{version_of(work.program)} {self.does} {len(jobs)} {self.things}")
        warning = self.warning(jobs)
        if warning:
            self.say(warning)
        results = Results(given.output, work.table, more_columns(listed), given.retry)
        try:
            if given.prune:
                self.say(f"{results.prune(listed)} results are dropped, since their jobs are gone")
            left = self.still_to_do(jobs, listed, results, work)
            self.put(Cluster(link, left, work).results() if link else workers.on_this_machine(left, work, given.processes), len(left), results)
        finally:
            results.close()
        return results

    def still_to_do(self, jobs: Sequence[Job], listed: Sequence[Job], results: Results, work: Work) -> list[Job]:
        """The jobs without a result that fits. What is wrong with those that stand is said."""
        left, reasons = results.left(jobs, listed, Marker(work.table, work.judge))
        if len(left) < len(jobs):
            self.say(f"{len(jobs) - len(left)} of {len(jobs)} jobs have a result")
        if reasons:
            self.say(f"{len(reasons)} results that stood don't fit any more, and their jobs are done anew:")
        for reason in reasons[:MOST_REASONS]:
            self.say(reason)
        if len(reasons) > MOST_REASONS:
            self.say(f"and {len(reasons) - MOST_REASONS} more")
        return left

    def put(self, answers: Iterator[Row], count: int, results: Results) -> None:
        """Puts down each result as soon as it is there."""
        begun, is_shown = time.monotonic(), sys.stderr.isatty()
        for done, row in enumerate(answers, 1):
            results.put(row)
            if is_shown:
                show_bar(done, count, begun)
        if is_shown and count:
            print(file=sys.stderr)
