"""The results as a page: one file that needs no other. Many results are folded in pieces, each of which a script makes when it is opened: a browser
takes minutes for a table of all."""
import html
import itertools
import pathlib
from typing import Iterator, Sequence

from in_scripts import as_json
from tabling.summary import line_of, summary
from tabling.tables import STALE, Comparison, Row, Table

STYLE = """body { font: 15px/1.4 sans-serif; margin: 2em; color: #222; background: #fff }
table { border-collapse: collapse; margin: 1em 0 }
th, td { border: 1px solid #ccc; padding: .2em .6em; text-align: left; vertical-align: top }
th { background: #eee; position: sticky; top: 0 }
td.number { text-align: right }
tr.accepted .verdict, tr.agree .verdict { background: #d9f2d9 }
tr.CostDiffers .verdict, tr.unsolved .verdict { background: #fff2cc }
tr.rejected .verdict, tr.differ .verdict, tr.unreadable .verdict, tr.failed .verdict { background: #f9d6d5 }
"""
# Sums are for programs: a page shows their beginning.
SHORT = 12
# How many results are in a piece. No more of them than this need neither pieces nor a script.
PIECE = 200
SCRIPT = pathlib.Path(__file__).resolve().with_name("results.js")


def table_of(heading: Sequence[str], rows: Iterator[str]) -> Iterator[str]:
    yield f"<table>\n<tr>{''.join(f'<th>{html.escape(name)}</th>' for name in heading)}</tr>\n"
    yield from rows
    yield "</table>\n"


def cell(text: str, kind: str = "") -> str:
    name = f' class="{kind}"' if kind else ""
    return f"<td{name}>{html.escape(text)}</td>"


def summary_rows(table: Table, rows: Sequence[Row], verdicts: Sequence[str]) -> Iterator[str]:
    for line in summary(table, rows):
        counts = "".join(cell(str(line.counts[it]), "number") for it in verdicts)
        what = f"{line.column} {line.value}" if line.column else "all results"
        yield f"<tr>{cell(what)}{counts}{cell(line.total, 'number')}</tr>\n"


def compared(comparison: Comparison) -> Iterator[str]:
    yield f"<h2>{html.escape(comparison.about)}</h2>\n"
    yield from table_of(comparison.heading, (f"<tr>{cell(line[0])}{''.join(cell(it, 'number') for it in line[1:])}</tr>\n" for line in comparison.lines))


def kind_of(table: Table, column: str) -> str:
    return "number" if column in table.numbers else "verdict" if column == "verdict" else ""


def texts_of(table: Table, row: Row, columns: Sequence[str]) -> list[str]:
    return [row.get(name, "")[:SHORT] if name in table.sums else row.get(name, "") for name in columns]


def result_rows(table: Table, rows: Sequence[Row], columns: Sequence[str]) -> Iterator[str]:
    kinds = [kind_of(table, name) for name in columns]
    for row in rows:
        yield f'<tr class="{row["verdict"]}">{"".join(map(cell, texts_of(table, row, columns), kinds))}</tr>\n'


def pieces_of(table: Table, rows: Sequence[Row], columns: Sequence[str]) -> Iterator[str]:
    """All results, a piece behind another, and what unfolds them."""
    for begin in range(0, len(rows), PIECE):
        own = rows[begin : begin + PIECE]
        told = html.escape(line_of(table, "", "", own).text.partition(": ")[2])
        packed = as_json([[row["verdict"], *texts_of(table, row, columns)] for row in own])
        yield f"<details><summary>results {begin + 1} to {begin + len(own)}: {told}</summary>"
        yield f'<script type="application/json">{packed}</script></details>\n'
    yield f'<script type="application/json" id="columns">{as_json([(name, kind_of(table, name)) for name in columns])}</script>\n'
    yield f"<script>\n{SCRIPT.read_text(encoding='ascii')}</script>\n"


def page(table: Table, rows: Sequence[Row], title: str) -> Iterator[bytes]:
    """The page, in pieces. The marks of a result stand last."""
    verdicts = [it for it in (*table.verdicts, STALE) if any(row["verdict"] == it for row in rows)]
    more = dict.fromkeys(name for row in rows for name in row if name not in table.columns)
    columns = [*(name for name in table.columns if name not in table.marks), *more, *table.marks]
    is_short = len(rows) <= PIECE
    pieces = itertools.chain(
        [f'<!DOCTYPE html>\n<html lang="en">\n<head>\n<meta charset="utf-8">\n<title>{html.escape(title)}</title>\n'],
        [f"<style>\n{STYLE}</style>\n</head>\n"],
        [f"<body>\n<h1>{html.escape(title)}</h1>\n"],
        table_of(["", *verdicts, "together"], summary_rows(table, rows, verdicts)),
        (piece for comparison in table.comparisons(rows) for piece in compared(comparison)),
        table_of(columns, result_rows(table, rows, columns)) if is_short else pieces_of(table, rows, columns),
        ["</body>\n</html>\n"],
    )
    return (piece.encode(errors="replace") for piece in pieces)
