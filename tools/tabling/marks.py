"""What a result depends on: the files of its job, by their SHA-256, and who judged them. A result that has other marks is of something else."""
import functools
import hashlib
import os
import pathlib
import stat
from typing import Sequence

from mapf.program import Program
from tabling.jobs import Job
from tabling.tables import JUDGE, Row, Table

TOOLS = pathlib.Path(__file__).resolve().parent.parent
# How much of a sum names a program.
SHORT = 12
BLOCK = 1 << 20


def sha256_of(path: str) -> str:
    """The sum of a file, and nothing where there is none, or something else that may never end."""
    total = hashlib.sha256()
    try:
        # A pipe is not opened to be read: that might wait for ever.
        with open(os.open(path, os.O_RDONLY | os.O_NONBLOCK), "rb") as file:
            if not stat.S_ISREG(os.fstat(file.fileno()).st_mode):
                return ""
            for block in iter(functools.partial(file.read, BLOCK), b""):
                total.update(block)
    except OSError:
        return ""
    return total.hexdigest()


def version_of(program: Program) -> str:
    """What the program says of itself, as `mapf 0.1.0`. Where it says nothing of the kind, its name."""
    return program.version() or program.path.name


def sum_of_readers(patterns: Sequence[str]) -> str:
    """The sum of the files of a tool that have a say in its results."""
    total = hashlib.sha256()
    for path in sorted(path for pattern in patterns for path in TOOLS.glob(pattern)):
        total.update(path.read_bytes())
    return total.hexdigest()


def judge_of(program: Program, readers: Sequence[str], options: Sequence[str]) -> str:
    """Who judges: the program, the readers, and what was asked of them."""
    named = f"{version_of(program)} {sha256_of(str(program.path))[:SHORT]} readers {sum_of_readers(readers)[:SHORT]}"
    return " ".join([named, *options])


class Marker:
    """Gives the marks of jobs. The sum of a file is made once."""

    def __init__(self, table: Table, judge: str):
        self.table = table
        self.judge = judge
        self.sum_of = functools.lru_cache(maxsize=None)(sha256_of)

    def of(self, job: Job) -> Row:
        sums = (self.sum_in(job, name) for name in self.table.files)
        return {**dict(zip(self.table.sums, sums)), JUDGE: self.judge}

    def sum_in(self, job: Job, name: str) -> str:
        """The sum of what a column of a job names."""
        if name in job.texts:
            return hashlib.sha256(job.texts[name].encode()).hexdigest()
        word = job.columns.get(name, "")
        return self.sum_of(job.file(word)) if word else ""


def what_differs(row: Row, marks: Row) -> str:
    """Which of its marks a result doesn't have, in words."""
    return " and ".join(name.partition("_")[0] for name, mark in marks.items() if row[name] != mark)
