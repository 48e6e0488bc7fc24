"""The file of results: a line a job, written as soon as it is there. Whoever is stopped goes on behind what stands."""
import collections
import csv
import fcntl
import io
import json
import os
import pathlib
from typing import BinaryIO, Counter, Iterator, Optional, Sequence

from tabling.jobs import Job
from tabling.marks import Marker, what_differs
from tabling.tables import STALE, Row, Table
from whole_file import draft

# What a job is about, and all that its list says of it.
Name = tuple[str, ...]
Key = frozenset[tuple[str, str]]


class BadResults(Exception):
    """The file is another's, or is written by another call."""


class Results:
    """The open file, CSV or JSON lines by its name."""

    def __init__(self, path: pathlib.Path, table: Table, more: Sequence[str], retried: Optional[str] = None):
        self.path = path
        self.table = table
        # Results with this verdict hold no more.
        self.retried = retried
        self.is_json = path.suffix in (".json", ".jsonl", ".ndjson")
        self.file = locked(path)
        # All columns: those of each table, and behind them those that jobs have beside.
        self.columns = table.columns
        self.rows: list[Row] = []
        # How many jobs about one thing this call has still to do.
        self.open: Counter[Name] = collections.Counter()
        self._take_what_stands()
        wider = (*self.columns, *(name for name in more if name not in self.columns))
        if not self.is_json and wider != self.columns:
            self.columns = wider
            self._write_anew(self.rows)

    def _take_what_stands(self) -> None:
        """Reads the lines that stand, and cuts off one that was not written to its end."""
        self.file.seek(0)
        data = self.file.read()
        whole = data[: data.rfind(b"\n") + 1]
        lines = whole.decode(errors="surrogateescape").split("\n")[:-1]
        if not self.is_json and lines:
            self._take_heading(lines[0])
        first = 0 if self.is_json else 1
        for number, line in enumerate(lines[first:], first + 1):
            self.rows.append(self._row(line, number))
        if len(whole) < len(data):
            self.file.truncate(len(whole))
        if not lines and not self.is_json:
            self.file.write(f"{csv_line(self.columns)}\n".encode())

    def _take_heading(self, line: str) -> None:
        try:
            self.columns = tuple(next(csv.reader([line], strict=True)))
        except (csv.Error, StopIteration):
            self.columns = ()
        self._refuse_older(self.columns, 1)
        if not self._fits(self.columns) or len(set(self.columns)) < len(self.columns):
            raise BadResults(f"{self.path}:1: another heading, {csv_line(self.table.columns)} was due")

    def _fits(self, columns: Sequence[str]) -> bool:
        return columns[: len(self.table.columns)] == self.table.columns

    def _refuse_older(self, columns: Sequence[str], number: int) -> None:
        """Refuses the columns of a former table."""
        for former, lack in self.table.older.items():
            if columns[: len(former)] == former:
                what = f"the {'line' if self.is_json else 'heading'} is of an older judge, and doesn't say {lack}"
                raise BadResults(f"{self.path}:{number}: {what}; another file was due, or this one moved away")

    def _row(self, line: str, number: int) -> Row:
        """The result in a line."""
        values = self._values(line)
        columns = tuple(values or ())
        if self.is_json:
            self._refuse_older(columns, number)
        if values is None or not self._fits(columns) or values["verdict"] not in (*self.table.verdicts, STALE):
            raise BadResults(f"{self.path}:{number}: the line is no result, one of this tool's was due")
        return values

    def _values(self, line: str) -> Optional[Row]:
        try:
            if self.is_json:
                values = json.loads(line)
                return values if isinstance(values, dict) and all(isinstance(value, str) for value in values.values()) else None
            fields = next(csv.reader([line], strict=True))
            return dict(zip(self.columns, fields)) if len(fields) == len(self.columns) else None
        except (ValueError, csv.Error, StopIteration, RecursionError):
            return None

    def prune(self, listed: Sequence[Job]) -> int:
        """Drops the results of jobs that no list has any more, and says how many there were."""
        due = set(map(self._key_of_job, listed))
        kept = [row for row in self.rows if self._key_of(row) in due]
        dropped = len(self.rows) - len(kept)
        if dropped:
            self._write_anew(kept)
        return dropped

    def left(self, jobs: Sequence[Job], listed: Sequence[Job], marker: Marker) -> tuple[list[Job], list[str]]:
        """The jobs without a result that still fits, and why others don't. What fits no more is marked as stale until its job is done anew:
        so whoever is stopped meanwhile has lost nothing. Lines of other lists and of other parts of this one stay."""
        due = collections.Counter(map(self._key_of_job, listed))
        jobs_by_key = {self._key_of_job(job): job for job in jobs}
        names = {self._name_of(job.columns) for job in jobs}
        standing, stale = collections.Counter(), {}
        for place, row in enumerate(self.rows):
            key = self._key_of(row)
            why = self._why_it_goes(row, jobs_by_key.get(key), due[key] > 0, names, marker)
            if why:
                stale[place] = why
                continue
            due[key] -= 1
            if key in jobs_by_key:
                standing[key] += 1
        left = list(self._without(jobs, standing))
        reasons = [f"{self._name_of(self.rows[place])[-1]}: {why}" for place, why in stale.items()]
        self.open = collections.Counter(self._name_of(job.columns) for job in left)
        if stale:
            self._mark(set(stale))
        return left, reasons

    def _mark(self, stale: set[int]) -> None:
        """Marks the lines in these places, and leaves out those whose jobs have others."""
        rows = [(place in stale, row) for place, row in enumerate(self.rows)]
        self._write_anew([marked(row) if is_stale else row for is_stale, row in rows if not is_stale or self.open[self._name_of(row)]])

    def _why_it_goes(self, row: Row, job: Optional[Job], is_due: bool, names: set[Name], marker: Marker) -> str:
        """Why a line doesn't hold any more; empty where it does, or is none of these jobs'."""
        if row["verdict"] == STALE and self._name_of(row) in names:
            return "stale since a call before"
        if job is not None and is_due:
            differs = what_differs(row, marker.of(job))
            return f"another {differs} since" if differs else "to be judged again" if row["verdict"] == self.retried else ""
        return "the list says something else of it" if not is_due and self._name_of(row) in names else ""

    def _name_of(self, columns: Row) -> Name:
        return tuple(columns[name] for name in self.table.names)

    def _key_of(self, row: Row) -> Key:
        """What a list says of a job, by what stands in a result. An empty column and none are the same."""
        return frozenset((name, word) for name, word in row.items() if word and name not in self.table.own)

    def _key_of_job(self, job: Job) -> Key:
        return self._key_of(job.columns)

    def _without(self, jobs: Sequence[Job], standing: Counter[Key]) -> Iterator[Job]:
        """The jobs that have no result: each that stands is that of one job."""
        for job in jobs:
            if standing[self._key_of_job(job)] > 0:
                standing[self._key_of_job(job)] -= 1
            else:
                yield job

    def _write_anew(self, rows: Sequence[Row]) -> None:
        """Replaces the file as a whole. The new one is locked before anybody can see it."""
        lines = [] if self.is_json else [csv_line(self.columns)]
        lines += map(self._line, rows)
        with draft((f"{line}\n".encode(errors="surrogateescape") for line in lines), self.path) as made:
            fresh = open(made.path, "a+b", buffering=0)
            fcntl.flock(fresh, fcntl.LOCK_EX | fcntl.LOCK_NB)
            made.put()
        self.file.close()
        self.file, self.rows = fresh, list(rows)

    def _line(self, row: Row) -> str:
        return json.dumps(row) if self.is_json else csv_line([row.get(name, "") for name in self.columns])

    def put(self, row: Row) -> None:
        """Writes a line, whole, by one call."""
        self.file.write(f"{self._line(row)}\n".encode(errors="surrogateescape"))
        self.rows.append(row)
        self.open[self._name_of(row)] -= 1

    def close(self) -> None:
        """Takes out what was stale and is done anew, and sees to it that all is stored."""
        rows = [row for row in self.rows if row["verdict"] != STALE or self.open.get(self._name_of(row), 1)]
        if len(rows) < len(self.rows):
            self._write_anew(rows)
        os.fsync(self.file.fileno())
        self.file.close()


def locked(path: pathlib.Path) -> BinaryIO:
    """The file of this name, for nobody else to write."""
    while True:
        file = open(path, "a+b", buffering=0)
        try:
            fcntl.flock(file, fcntl.LOCK_EX | fcntl.LOCK_NB)
        except OSError:
            file.close()
            raise BadResults(f"{path}: another call writes it") from None
        # Another call may have replaced it in between.
        if os.path.exists(path) and os.path.samestat(os.fstat(file.fileno()), os.stat(path)):
            return file
        file.close()


def marked(row: Row) -> Row:
    """A line that fits no more. What it said is kept behind its new verdict."""
    return row if row["verdict"] == STALE else {**row, "verdict": STALE, "fault": f"was {row['verdict']} {row['fault']}".rstrip()}


def csv_line(values: Sequence[str]) -> str:
    text = io.StringIO()
    csv.writer(text, lineterminator="").writerow(values)
    return text.getvalue()
