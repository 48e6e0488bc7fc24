"""The table of rows.py: what stands in a result."""
from typing import Sequence

from tabling.tables import FAILED, UNREADABLE, Row, Table

AGREE, DIFFER = "agree", "differ"
# Rows that don't agree, by kind.
BAD = ("differ", "unreachable", "size")
COUNTS = ("rows", "agree", *BAD, "sum", "greatest")
FILES = ("map", "scenario")


def bad_rows(rows: Sequence[Row]) -> str:
    """How many rows there are together, and how many of them don't agree."""
    counted = [row for row in rows if row["verdict"] in (AGREE, DIFFER)]
    sums = {name: sum(int(row[name] or 0) for row in counted) for name in ("rows", *BAD)}
    return f"rows {sums['rows']}, of which {sum(sums[name] for name in BAD)} bad"


TABLE = Table(
    given=FILES,
    files=FILES,
    names=("scenario",),
    found=COUNTS,
    numbers=(*COUNTS, "seconds"),
    verdicts=(AGREE, DIFFER, UNREADABLE, FAILED),
    total=bad_rows,
)
