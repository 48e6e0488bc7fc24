"""Pages of many results: they are folded, and a browser makes a piece of them when it is opened."""
import csv
import io
from typing import Iterator

import chromium
from harness import Outcome, compared
from job_rooms import Room
from judge_jobs import COLUMNS

MANY, PIECE = 20_000, 200
# Of a planner whose name would end a script.
PLANNER = "</script><b>A&B"
# The cells of a page that shows results; those of the summary are a few.
CELLS = "document.querySelectorAll('td').length"
OPENED = """(() => {
  const piece = [...document.querySelectorAll('details')].at(-1);
  piece.open = true;
  return new Promise((go) => setTimeout(go)).then(() => {
    const rows = piece.querySelectorAll('tr');
    return [rows.length - 1, [...rows[rows.length - 1].cells].slice(2, 7).map((it) => it.textContent), rows[1].cells[4].className];
  });
})()"""


def results() -> bytes:
    """Results as a call before would have left them."""
    text = io.StringIO()
    lines = csv.DictWriter(text, [*COLUMNS, "planner"], restval="", lineterminator="\n")
    lines.writeheader()
    for number in range(MANY):
        found = {"verdict": "accepted", "cost": "2", "cost_bound": "2", "makespan": "1", "agents": "2", "agents_found": "2", "planner": PLANNER}
        sums = {f"{name}_sha256": f"{number:064x}" for name in ("map", "scenario", "plan")}
        lines.writerow({"map": "lane.map", "scenario": "lane.scen", "plan": f"{number}.plan", **found, **sums, "seconds": "0.010", "judge": "mapf 0"})
    return text.getvalue().encode()


def outcomes(room: Room) -> Iterator[Outcome]:
    room.file("paged.csv", b"map,plan\nlane.map,behind.plan\n")
    room.file("paged.out.csv", results())
    ended = room.run("paged.csv", "-o", "paged.out.csv", "--page", "paged.html")
    page = room.folder / "paged.html"
    ran = "judge.py paged.csv --page paged.html"
    yield compared("a page of many results", ran, (ended.status, page.stat().st_size < 9_000_000), (0, True))
    if not chromium.found():
        yield Outcome("a page of many results in a browser", lacks="Chromium")
        return
    with chromium.Chromium(room.folder) as browser:
        browser.ask("Page.navigate", url=page.absolute().as_uri())
        pieces = browser.when("document.readyState === 'complete' && document.querySelector('details')", "document.querySelectorAll('details').length")
        yield compared("its pieces are folded", ran, (pieces, browser.value(CELLS) < 100), (MANY // PIECE + 1, True))
        opened = browser.value(OPENED)
        yield compared("a piece that is opened", ran, opened, [1, ["behind.plan", "", "accepted", "", "2"], "verdict"])
        yield compared("what goes wrong in it", ran, (browser.faults, [it for it in browser.requests if it != page.absolute().as_uri()]), ([], []))
