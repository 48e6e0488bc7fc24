"""Pages of plans with faults, of one and of many: where they open, what they mark, and how each fault is gone to."""
import dataclasses
from typing import Iterator

from chromium import Chromium
from harness import Outcome, compared
from show_pages import EXCHANGE, FAULT, OTHER_GOAL, PHONE, Page, pixel, quiet, text_of


@dataclasses.dataclass(frozen=True)
class Faulty:
    """A page with faults: its files, the time at which it opens, what it says, the cells that are marked then, some that aren't, and who has them."""

    name: str
    files: list[str]
    time: int
    words: str
    marked: list[tuple[int, int]]
    others: list[tuple[int, int]]
    agents: list[int]


NO_STEP = "that is no legal step."
TOGETHER = "Agents 0 and 1 both stand in column 1, row 0 at time 1."
LATER = f"In step 2 agent 0 is to go west, from column 0, row 0 (land) to column -1, row 0 (off the map): {NO_STEP}"
# Of the plan again.plan: its faults in their order, and the moments in words.
AGAIN = (
    "Agents 0 and 2 both stand in column 0, row 0 at time 0.",
    "Agents 1 and 2 both stand in column 0, row 0 at time 1.",
    EXCHANGE,
    "Agents 0 and 2 both stand in column 0, row 0 at time 2.",
    "In step 1 agents 0 and 1 exchange their cells, column 1, row 0 and column 0, row 0.",
)
MOMENTS = (
    f"Time 0 of 2: 2 agents move in this step, 0 wait, 1 at the end. {AGAIN[0]} {AGAIN[2]}",
    f"Time 1 of 2: 2 agents move in this step, 0 wait, 1 at the end. {AGAIN[1]} {AGAIN[4]}",
    f"Time 2 of 2: 0 agents move in this step, 0 wait, 3 at the end. {AGAIN[3]}",
)
# The list of faults behind the first.
LISTED = "[...document.querySelectorAll('#faults li button')]"
# Of crowd.plan: 1,035 pairs of 46 agents meet, of which 1,000 are listed, and another agent leaves the map.
CROWD = "Agents 0 and 1 both stand in column 1, row 0 at time 0."
CROWD_NOW = f"{CROWD} Agents 0 and 2 both stand in column 1, row 0 at time 0. 999 more faults are marked."
LEAVES = f"In step 0 agent 46 is to go west, from column 0, row 0 (land) to column -1, row 0 (off the map): {NO_STEP}"
INTO_TREES = f"In step 2 agent 0 is to go south, from column 1, row 1 (land) to column 1, row 2 (trees): {NO_STEP}"
OFF = f"In step 0 agent 0 is to go east, from column 7, row 3 (land) to column 8, row 3 (off the map): {NO_STEP}"
OTHER_START = "Agent 0 starts in column 1, row 0, and the start of row 0 of start.scen is column 0, row 0."
OTHER_SIZE = "In row 0 of size.scen the map has 4 columns and 1 rows, and this one has 3 and 1."
FIRST_OF_TWO = "It is the first of 2 faults."
OFF_START = f"Agent 1 starts in column 3, row 2: out of bounds. {FIRST_OF_TWO}"
TOO_FEW = "The plan has 2 agents, and one.scen has 1 rows."
FAULTS = (
    Faulty("vertex", ["lane.map", "vertex.plan"], 2, "Agents 0 and 1 both stand in column 0, row 0 at time 2.", [(0, 0)], [(1, 0), (2, 0)], [0, 1]),
    Faulty("swap", ["lane.map", "swap.plan"], 0, EXCHANGE, [(0, 0), (1, 0)], [(2, 0)], [0, 1]),
    Faulty("trees", ["terrain.map", "trees.plan"], 2, INTO_TREES, [(1, 2)], [(1, 1), (0, 0)], [0]),
    # Beside the map each step is wrong, and so is one out of a wall.
    Faulty("off the map", ["terrain.map", "beside.plan"], 0, f"{OFF} {FIRST_OF_TWO}", [(8, 3)], [(7, 3), (9, 3)], [0, 0]),
    Faulty("a bad start", ["terrain.map", "start.plan"], 0, OFF_START, [(3, 2), (3, 1)], [(0, 0)], [1, 1]),
    Faulty("a fault and a later step", ["lane.map", "both.plan"], 1, f"{TOGETHER} {FIRST_OF_TWO}", [(1, 0)], [(-1, 0), (0, 0), (2, 0)], [0, 1, 0]),
    Faulty("a start that isn't the row's", ["lane.map", "behind.plan", "--scen", "start.scen"], 0, OTHER_START, [(1, 0), (0, 0)], [(2, 0)], [0]),
    Faulty("a goal that is missed", ["lane.map", "behind.plan", "--scen", "goal.scen"], 1, OTHER_GOAL, [(1, 0), (2, 0)], [(0, 0)], [1]),
    Faulty("a row of another map", ["lane.map", "behind.plan", "--scen", "size.scen"], 0, OTHER_SIZE, [], [(0, 0)], []),
    Faulty("too few rows", ["lane.map", "behind.plan", "--scen", "one.scen"], 0, TOO_FEW, [], [(0, 0)], []),
    Faulty("a start far off", ["terrain.map", "far.plan"], 0, "Agent 0 starts in column 60000, row 2: off the map.", [], [(0, 0)], [0]),
)


def faults(page: Page, browser: Chromium) -> Iterator[Outcome]:
    for it in FAULTS:
        file, ran = page("fault.html", *it.files), " ".join(it.files)
        browser.open(file)
        yield from quiet(browser, it.name, file)
        yield compared(f"it opens at the fault: {it.name}", ran, browser.value("page.time"), it.time)
        yield compared(f"the fault in words: {it.name}", ran, browser.value(text_of("verdict")), it.words)
        # Cells have their mark just inside their sides; the upper left corner is free of agents.
        found = [pixel(browser, x - 0.48, y - 0.4) == FAULT for x, y in [*it.marked, *it.others]]
        yield compared(f"the cells of the fault: {it.name}", ran, found, [True] * len(it.marked) + [False] * len(it.others))
        yield compared(f"who has the fault: {it.name}", ran, browser.value("page.faults.flatMap((it) => it.agents)"), it.agents)


def many(page: Page, browser: Chromium) -> Iterator[Outcome]:
    """All faults of a plan are listed, gone to and marked at their times."""
    file = page("again.html", "lane.map", "again.plan")
    browser.open(file)
    yield from quiet(browser, "many faults", file)
    told = [browser.value(it) for it in ("page.time", text_of("verdict"), "document.querySelector('#faults p').textContent")]
    yield compared("it opens at the first of many faults", file.name, told, [0, f"{AGAIN[0]} It is the first of 5 faults.", AGAIN[0]])
    yield compared("the others in a list", file.name, browser.value(f"{LISTED}.map((it) => it.textContent)"), list(AGAIN[1:]))
    for number, due in enumerate((1, 0, 2, 1)):
        browser.value(f"{LISTED}[{number}].click()")
        yield compared(f"fault {number + 1} is gone to", file.name, browser.value("page.time"), due)
    for time, due in enumerate(([True, True, False], [True, True, False], [True, False, False])):
        browser.value(f"page.seek({time})")
        found = [pixel(browser, x - 0.48, -0.4) == FAULT for x in range(3)]
        yield compared(f"the cells of faults at time {time}", file.name, found, due)
        yield compared(f"the faults at time {time} in words", file.name, browser.value(text_of("now")), MOMENTS[time])
    for due in (0, 1, 2, 0):
        browser.key("x")
        yield compared(f"the key x goes to {due}", file.name, browser.value("page.time"), due)
    browser.open(page("both.html", "lane.map", "both.plan"))
    browser.key("x")
    yield compared("the fault behind the first", "both.plan", (browser.value("page.time"), browser.value(f"{LISTED}[0].textContent")), (2, LATER))
    # The knob of the slider is 16 wide, and the plan has three steps.
    marks = """[0, 1, 2, 3].map((time) => { const strip = document.getElementById("strip"), dots = window.devicePixelRatio || 1;
      const x = 8 + (strip.clientWidth - 16) * time / 3;
      return strip.getContext("2d").getImageData(Math.round(x * dots), Math.round(dots), 1, 1).data[3] > 0; })"""
    yield compared("where faults are beside the slider", "both.plan", browser.value(marks), [False, True, True, False])


def crowd(page: Page, browser: Chromium) -> Iterator[Outcome]:
    """More faults than are listed."""
    file = page("crowd.html", "lane.map", "crowd.plan")
    browser.open(file)
    yield from quiet(browser, "more faults than are listed", file)
    yield compared("more faults in words", file.name, browser.value(text_of("verdict")), f"{CROWD} It is the first of more than 1,000 faults.")
    more = "There are more faults than are listed here."
    wrote = browser.value(f"[{LISTED}.length, {LISTED}.pop().textContent, {text_of('faults')}.includes('{more}')]")
    # The one for which no path is answered is told in any case.
    yield compared("the list that is cut", file.name, wrote, [1000, LEAVES, True])
    now = browser.value(text_of("now")).partition(": ")[2].partition(". ")[2]
    yield compared("the moment of many faults", file.name, now, CROWD_NOW)
    browser.open(file, PHONE, 844)
    yield compared("no list of faults is wider than a phone", file.name, browser.value("document.documentElement.scrollWidth"), PHONE)


def outcomes(page: Page, browser: Chromium) -> Iterator[Outcome]:
    for test in (faults, many, crowd):
        yield from test(page, browser)
