"""Processes of this machine that work on jobs, one a job.

A job that crashes, is killed or takes too long harms no other: its process is gone, and that is its result."""
import dataclasses
import os
import signal
import sys
import time
from multiprocessing import connection
from typing import Iterable, Iterator

from leaving import SIGNALS
from tabling.jobs import Job
from tabling.tables import Row
from tabling.work import Work

# No process of this tool opens more files.
MOST_FILES = 1024


@dataclasses.dataclass
class Running:
    """A job, its process, and what came from it so far."""

    job: Job
    process: int
    end: connection.Connection
    begun: float


def work_in_child(job: Job, work: Work, end: connection.Connection) -> None:
    """What the process of a job does. Whoever kills it kills the programs that it started too: they are a group."""
    status = 1
    try:
        os.setpgid(0, 0)
        # The file of results is locked for as long as somebody has it open.
        os.closerange(3, end.fileno())
        os.closerange(end.fileno() + 1, MOST_FILES)
        for number in SIGNALS:
            signal.signal(number, signal.SIG_DFL)
        end.send(work.result(job))
        status = 0
    finally:
        os._exit(status)


def start(job: Job, work: Work) -> Running:
    end, other = connection.Pipe(duplex=False)
    sys.stderr.flush()
    process = os.fork()
    if process == 0:
        end.close()
        work_in_child(job, work, other)
    other.close()
    return Running(job, process, end, time.monotonic())


def kill(running: Running) -> None:
    for target in (os.killpg, os.kill):
        try:
            target(running.process, signal.SIGKILL)
        except ProcessLookupError:
            continue


def ended(running: Running, work: Work) -> Row:
    """The result of a job whose process has said it, has died, or has had its time."""
    result, fault = None, ""
    if running.end.poll():
        try:
            result = running.end.recv()
        except EOFError:
            pass
    else:
        fault = f"time limit of {work.seconds:g} seconds"
    if result is None:
        kill(running)
    _, status = os.waitpid(running.process, 0)
    running.end.close()
    if result is not None:
        return result
    died = f"ended by signal {os.WTERMSIG(status)}" if os.WIFSIGNALED(status) else "ended without a verdict"
    return work.failed(running.job, fault or died, time.monotonic() - running.begun)


def on_this_machine(jobs: Iterable[Job], work: Work, processes: int) -> Iterator[Row]:
    """The results of jobs, each as soon as it is there."""
    waiting, running = iter(jobs), []
    try:
        while True:
            while len(running) < processes and (job := next(waiting, None)) is not None:
                running.append(start(job, work))
            if not running:
                return
            left = min(it.begun for it in running) + work.seconds - time.monotonic()
            ready = connection.wait([it.end for it in running], max(left, 0))
            now = time.monotonic()
            for it in [it for it in running if it.end in ready or it.begun + work.seconds <= now]:
                running.remove(it)
                yield ended(it, work)
    finally:
        for it in running:
            kill(it)
            os.waitpid(it.process, 0)
