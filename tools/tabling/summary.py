"""What results come to: over all, by map and by planner."""
import collections
import dataclasses
from typing import Iterator, Sequence

from tabling.tables import STALE, Row, Table

# The columns by which results are summed up; the second one is a job's own.
BY = ("map", "planner")


@dataclasses.dataclass(frozen=True)
class Line:
    """A number of results: how many verdicts of each kind, in the order of their table, and what they come to together."""

    # What the results have in common: a column and its value, or nothing where they are all.
    column: str
    value: str
    counts: dict[str, int]
    total: str

    @property
    def text(self) -> str:
        what = f"{self.column} {self.value}" if self.column else f"{sum(self.counts.values())} results"
        counts = ", ".join(f"{count} {verdict}" for verdict, count in self.counts.items() if count)
        return f"{what}: {counts or 'none'}; {self.total}"


def line_of(table: Table, column: str, value: str, rows: Sequence[Row]) -> Line:
    counts = collections.Counter(row["verdict"] for row in rows)
    return Line(column, value, {verdict: counts[verdict] for verdict in (*table.verdicts, STALE)}, table.total(rows))


def summary(table: Table, rows: Sequence[Row]) -> Iterator[Line]:
    """A line over all results, one for each map, and one for each planner where jobs name one."""
    yield line_of(table, "", "", rows)
    for column in BY:
        groups: dict[str, list[Row]] = collections.defaultdict(list)
        for row in rows:
            groups[row.get(column, "")].append(row)
        for value, own in sorted(groups.items()):
            if value:
                yield line_of(table, column, value, own)
