"""The workers of a Dask cluster, which find this tool, the program and all files under the same names as this process does.

A worker gets jobs in batches, and keeps one Python for all batches of a call. What fails of the cluster is no result of a job."""
import collections
import contextlib
import itertools
import json
import os
import pathlib
import subprocess
import sys
from typing import Any, Deque, Iterator, Optional, Sequence

from tabling.jobs import Job
from tabling.tables import Row
from tabling.work import Work

# What talks with the cluster.
LINK = pathlib.Path(__file__).resolve().with_name("dask_link.py")
# The most jobs of a batch, and how many batches wait for each thread of a worker.
MOST_OF_A_BATCH, AHEAD = 32, 2
# How often a job is handed out that gets no answer, and how many batches without one show that the cluster can't work.
TRIES, MOST_SILENT = 3, 20


class NoDask(Exception):
    """This Python has no Dask."""


class BadCluster(Exception):
    """What failed of a cluster."""


def read_answer(line: str, job: Job, work: Work) -> Optional[Row]:
    """The result of a job that a line is, or none where it is something else."""
    try:
        row = json.loads(line)
    except ValueError:
        return None
    if not isinstance(row, dict) or not set(work.table.columns) <= set(row) or not all(isinstance(it, str) for it in row.values()):
        return None
    return row if row["verdict"] in work.table.verdicts and job.columns.items() <= row.items() else None


class Link:
    """The process that talks with the cluster."""

    def __init__(self, process: "subprocess.Popen[str]"):
        self.process = process

    def told(self) -> dict[str, Any]:
        """What it says next, as soon as it does: first that the cluster is there, and then of each batch how it ended."""
        line = self.process.stdout.readline()
        told = json.loads(line) if line else {"bad": "the process that is linked to it has ended"}
        if "lacks" in told:
            raise NoDask
        if "bad" in told:
            raise BadCluster(told["bad"])
        return told

    def hand_out(self, batch: int, jobs: Sequence[Job]) -> None:
        # Where it has ended, that is said by what it tells.
        with contextlib.suppress(BrokenPipeError):
            print(json.dumps({"batch": batch, "jobs": [job.packed() for job in jobs]}), file=self.process.stdin, flush=True)


class Cluster:
    """The jobs of a call, and the batches of them that workers have."""

    def __init__(self, link: Link, jobs: Sequence[Job], work: Work):
        self.link, self.work = link, work
        self.threads = 0
        self.waiting: Deque[Job] = collections.deque(jobs)
        self.batches: dict[int, list[Job]] = {}
        self.numbers = itertools.count()
        self.tries: collections.Counter[int] = collections.Counter()
        # Jobs that get no answer, why, and how many batches got none since the last result.
        self.given_up: list[Job] = []
        self.why = ""
        self.silent = 0

    def results(self) -> Iterator[Row]:
        if self.waiting:
            self.threads = self.link.told()["threads"]
        while self.waiting or self.batches:
            self.hand_on()
            told = self.link.told()
            self.threads = told["threads"]
            yield from self.taken(told["lines"], told["fault"], self.batches.pop(told["batch"]))
        if self.given_up:
            raise BadCluster(f"{len(self.given_up)} jobs have no result: {self.why}")

    def hand_on(self) -> None:
        """Sees to it that each worker has batches, which are the smaller the fewer jobs are left: so all come to their end together."""
        due = AHEAD * max(1, self.threads)
        while self.waiting and len(self.batches) < due:
            size = min(MOST_OF_A_BATCH, 1 + len(self.waiting) // due, len(self.waiting))
            batch = next(self.numbers)
            self.batches[batch] = [self.waiting.popleft() for _ in range(size)]
            self.link.hand_out(batch, self.batches[batch])

    def taken(self, lines: Sequence[str], fault: str, jobs: list[Job]) -> Iterator[Row]:
        """The results of a batch. Jobs without one wait again."""
        answers = (read_answer(line, job, self.work) for line, job in zip(lines, jobs))
        rows = list(itertools.takewhile(bool, answers))
        self.silent = 0 if rows else self.silent + 1
        if not rows:
            self.why = fault or "a worker's Python gave no answer"
            self.tries[id(jobs[0])] += 1
        if self.silent >= MOST_SILENT:
            raise BadCluster(self.why)
        left = jobs[len(rows) :]
        if left and self.tries[id(left[0])] >= TRIES:
            self.given_up.append(left.pop(0))
        self.waiting.extendleft(reversed(left))
        yield from rows


@contextlib.contextmanager
def linked(address: Optional[str], work: Work) -> Iterator[Optional[Link]]:
    """The link to the cluster with this scheduler, where one is named. It comes up while this process looks for jobs."""
    if address is None:
        yield None
        return
    program = str(work.program.path.resolve())
    words = [sys.executable, str(work.tool), "--told", "--program", program, "--seconds", str(work.seconds), *work.options]
    command = [sys.executable, str(LINK), address, f"mapf-{os.urandom(16).hex()}", *words]
    # In a session of its own: whoever stops this call by its terminal stops the link by its end alone, which says nothing.
    process = subprocess.Popen(command, stdin=subprocess.PIPE, stdout=subprocess.PIPE, text=True, start_new_session=True)
    try:
        yield Link(process)
    finally:
        process.kill()
        process.communicate()
