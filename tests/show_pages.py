"""What pages of tools/show.py do in a browser: what they draw and where, what they say, and what each key does."""
import os
import pathlib
from typing import Callable, Iterator, Sequence

from chromium import Chromium
from harness import Outcome, compared

# A run of two agents behind one another: the first one's writes are torn twice, and its first message is lost.
RUN = (
    "start 1",
    "tear 0 4",
    "start 0",
    "start 0",
    "restart 0",
    "start 0",
    "tear 0 3",
    "finish 0",
    "restart 0",
    "finish 0",
    "say 0",
    "say 0",
    "deliver 1 1",
    "start 1",
    "restart 1",
    "finish 1",
    "start 7",
    "deliver 1 9",
)
# Behind so many of these events: the cells that each agent holds and what is seen of it, and the messages on their way and lost.
SEEN = (
    ("1,0", "0,0", 0, 0),
    ("1,0", "0,0 waits for 0", 0, 0),
    ("1,0 armed", "0,0 waits for 0", 0, 0),
    ("1,0 broken", "0,0 waits for 0", 0, 0),
    ("1,0 broken", "0,0 waits for 0", 0, 0),
    ("1,0 restarted", "0,0 waits for 0", 0, 0),
    ("1,0 2,0 restarted", "0,0 waits for 0", 0, 0),
    ("1,0 2,0 armed restarted", "0,0 waits for 0", 0, 0),
    ("1,0 2,0 broken", "0,0 waits for 0", 0, 0),
    ("1,0 2,0 restarted", "0,0 waits for 0", 0, 0),
    ("2,0 home restarted", "0,0 waits for 0", 0, 0),
    ("2,0 home restarted", "0,0 waits for 0", 0, 1),
    ("2,0 home", "0,0 waits for 0", 1, 1),
    ("2,0 home", "0,0", 0, 1),
    ("2,0 home", "0,0 1,0", 0, 0),
    ("2,0 home", "0,0 1,0 restarted", 0, 0),
    ("2,0 home", "1,0 home restarted", 0, 0),
    ("2,0 home", "1,0 home restarted", 0, 0),
    ("2,0 home", "1,0 home", 0, 0),
)
LOOK = """((count) => { page.seek(count); const { moment } = page.world;
  const said = (agent) => [...moment.held(agent).map((it) => it.join(",")),
    ...[["broken", 4], ["home", 8], ["armed", 16]].filter(([, bit]) => moment.look[agent] & bit).map(([word]) => word),
    ...(moment.waitsFor[agent] >= 0 ? [`waits for ${moment.waitsFor[agent]}`] : []), ...(moment.fresh[agent] > 0 ? ["restarted"] : [])].join(" ");
  const letters = page.world.letters();
  return [said(0), said(1), letters.filter((it) => it.receiver >= 0).length, letters.filter((it) => it.receiver < 0).length]; })"""
# The colours of faults, rings, plain ground, walls, and what lies beside the map.
FAULT, RING, LAND, WALL, BESIDE = [213, 94, 0], [142, 63, 134], [255, 255, 255], [74, 81, 92], [233, 231, 225]
DARK_LAND = [34, 38, 45]
# The largest page has to be drawn so often in a second, for so many seconds.
LEAST_FRAMES, SECONDS, TRIES = 30.0, 3, 3
PHONE = 390
Page = Callable[..., pathlib.Path]


def text_of(name: str) -> str:
    """A script that comes to the text of an element."""
    return f"document.getElementById('{name}').textContent"


def pixel(browser: Chromium, x: object, y: object) -> list[int]:
    """The colour of the page at a place between cells: whole numbers are the middles of cells."""
    script = f"""(() => {{ page.draw(); const [x, y] = page.view.pixel({x}, {y}).map(Math.round);
      const copy = new OffscreenCanvas(1, 1).getContext("2d", {{ willReadFrequently: true }});
      copy.drawImage(page.canvas, -x, -y);
      return [...copy.getImageData(0, 0, 1, 1).data].slice(0, 3); }})()"""
    return browser.value(script)


def pixel_at(browser: Chromium, x: str, y: str) -> list[int]:
    """The colour of the page at a pixel, which scripts tell."""
    return pixel(browser, f"page.view.place({x}, {y})[0]", f"page.view.place({x}, {y})[1]")


def quiet(browser: Chromium, name: str, page: pathlib.Path) -> Iterator[Outcome]:
    """A page has no error, and asks for nothing but itself."""
    yield compared(f"no error in the console: {name}", str(page.name), browser.faults, [])
    yield compared(f"nothing of the network: {name}", str(page.name), set(browser.requests) - {page.absolute().as_uri(), "about:blank"}, set())
    yield compared(f"no trouble is told: {name}", str(page.name), browser.value("document.getElementById('trouble').hidden"), True)


EXCHANGE = "In step 0 agents 0 and 1 exchange their cells, column 0, row 0 and column 1, row 0."
OTHER_GOAL = "Agent 1 ends in column 1, row 0, and the goal of row 1 of goal.scen is column 2, row 0."


def scenarios(page: Page, browser: Chromium) -> Iterator[Outcome]:
    """A plan that solves a scenario, and a run of one that doesn't: it is valid, so its run is shown."""
    browser.open(page("tasks.html", "lane.map", "behind.plan", "--scen", "tasks.scen"))
    told = browser.value(text_of("verdict"))
    yield compared("a scenario that is solved", "--scen tasks.scen", told, "The plan is accepted, and solves tasks.scen: 2 agents, sum of costs 2, makespan 1.")
    file = page("goal.html", "lane.map", "behind.plan", "run.events", "--scen", "goal.scen")
    browser.open(file)
    yield from quiet(browser, "a run of a plan that misses a goal", file)
    found = [browser.value(it) for it in (text_of("verdict"), "document.getElementById('verdict').className", "page.time", text_of("ending"))]
    yield compared("a run of a plan that misses a goal", file.name, found, [OTHER_GOAL, "verdict bad", 0, ALL_ARRIVED])
    browser.open(page("goal.html", "lane.map", "behind.plan", "--scen", "goal.scen"))
    about = browser.value(f"(page.choose(1), page.seek(0), page.draw(), {text_of('about')})")
    yield compared("who waits for whom, where a goal is missed", file.name, "waits until agent 0 has finished 1 move" in about, True)


def beside(page: Page, browser: Chromium) -> Iterator[Outcome]:
    """Two plans side by side, at the same times."""
    file = page("two.html", "lane.map", "behind.plan", "--beside", "swap.plan")
    browser.open(file)
    yield from quiet(browser, "two plans", file)
    told = [browser.value(text_of(name)) for name in ("verdict", "other", "caption", "other-caption")]
    accepted = "behind.plan: The plan is accepted: 2 agents, sum of costs 2, makespan 1."
    yield compared("the verdicts of two plans", file.name, told, [accepted, f"swap.plan: {EXCHANGE}", "behind.plan", "swap.plan"])
    yield compared("which of them is rejected", file.name, browser.value("page.sides.map((it) => it.faults.all.length)"), [0, 1])
    file = page("two.html", "hall.map", "keys.plan", "--beside", "train.plan")
    browser.open(file)
    browser.value("page.seek(3)")
    browser.settle()
    cells = browser.value("page.sides.map((it) => [0, 1].map((agent) => it.world.moment.held(agent).join(';')))")
    yield compared("a plan that has ended stays at its end", file.name, cells, [["3,0", "2,1"], ["3,0", "2,0"]])
    due = "keys.plan: Time 3 of 4: 1 agent moves in this step, 0 wait, 1 at the end.\ntrain.plan: Time 2 of 2: 0 agents move in this step, 0 wait, 2 at the end."
    yield compared("the moment of two plans in words", file.name, browser.value(text_of("now")), due)
    x, y = browser.value("[page.sides[1].canvas.getBoundingClientRect()].flatMap((it) => [it.left, it.top])")
    across, down = browser.value("page.view.pixel(2, 0)")
    browser.click(x + across, y + down)
    about = browser.value(text_of("about"))
    yield compared("a click on the other plan", file.name, (browser.value("page.wishes.agent"), "keys.plan" in about, "train.plan" in about), (1, True, True))
    boxes = "page.sides.flatMap((it) => [it.canvas.getBoundingClientRect()].map((box) => [box.width, box.height, box.left, box.top].map(Math.round)))"
    (wide, high, left, top), other = browser.value(boxes)
    yield compared("both are equally large, one beside the other", file.name, other, [wide, high, left + wide, top])
    browser.open(page("two.html", "hall.map", "keys.plan", "--beside", "nobody.plan"), PHONE, 844)
    (wide, high, left, top), other = browser.value(boxes)
    is_below = other[:3] == [wide, high, left] and abs(other[3] - top - high) <= 1
    yield compared("on a phone one is below the other", file.name, is_below or (wide, high, left, top, other), True)
    about = browser.value(f"(page.choose(1), page.draw(), {text_of('about')})")
    yield compared("an agent that one plan lacks", file.name, about.endswith("nobody.planhas no such agent"), True)
    yield compared("nothing of two plans is wider than a phone", file.name, browser.value("document.documentElement.scrollWidth"), PHONE)


def accepted(page: Page, browser: Chromium) -> Iterator[Outcome]:
    file = page("behind.html", "lane.map", "behind.plan")
    browser.open(file)
    yield from quiet(browser, "an accepted plan", file)
    told = browser.value(text_of("verdict"))
    yield compared("the verdict in words", file.name, told, "The plan is accepted: 2 agents, sum of costs 2, makespan 1.")
    cells = browser.value("[0, 1, 2].map((time) => { page.seek(time); return [0, 1].map((agent) => page.world.moment.held(agent).join(';')); })")
    yield compared("where agents are", file.name, cells, [["1,0", "0,0"], ["2,0", "1,0"], ["2,0", "1,0"]])
    told = [browser.value(f"(page.seek({moment}), page.draw(), document.getElementById('now').textContent)") for moment in (0, 1)]
    due = ["Time 0 of 2: 2 agents move in this step, 0 wait, 0 at the end.", "Time 1 of 2: 0 agents move in this step, 0 wait, 2 at the end."]
    yield compared("the moments in words", file.name, told, due)
    # Both agents are drawn where they are: no ground is seen there, but it is where nobody is.
    browser.value("page.seek(0), page.wish('goals')")
    ground = [pixel(browser, x, 0.3) == LAND for x in (0, 1, 2)]
    yield compared("agents are drawn in their cells", file.name, ground, [False, False, True])
    left, top = browser.value("[page.canvas.getBoundingClientRect()].flatMap((it) => [it.left, it.top])")
    x, y = (edge + place for edge, place in zip((left, top), browser.value("page.view.pixel(0, 0)")))
    browser.click(x, y)
    about = browser.value(text_of("about"))
    yield compared("a click chooses an agent", file.name, browser.value("page.wishes.agent"), 1)
    due = "move 0, in step 0, to column 1, row 0: waits until agent 0 has finished 1 move"
    yield compared("for whom it waits", file.name, due in about, True)
    browser.value("document.querySelector('#about button').click()")
    yield compared("who is waited for can be chosen", file.name, browser.value("page.wishes.agent"), 0)
    browser.click(x + 500, y + 200)
    yield compared("a click beside all chooses none", file.name, browser.value("page.wishes.agent"), -1)


def terrain(page: Page, browser: Chromium) -> Iterator[Outcome]:
    """A plan without agents: the map alone, every kind of terrain in its place."""
    file = page("nobody.html", "terrain.map", "nobody.plan")
    browser.open(file)
    yield from quiet(browser, "no agents", file)
    # Land of both spellings, out of bounds of both, and a place beside the map.
    found = [pixel(browser, x + 0.4, y + 0.4) for x, y in ((0, 0), (1, 1), (3, 2), (5, 2), (8, 2))]
    yield compared("the ground", file.name, found, [LAND, LAND, WALL, WALL, BESIDE])
    kinds = [pixel(browser, x + 0.4, y + 0.4) for x, y in ((0, 0), (3, 1), (5, 1), (1, 2), (3, 2))]
    yield compared("five grounds differ", file.name, len({tuple(it) for it in kinds}), 5)
    yield compared("nothing to play", file.name, browser.value("['play', 'on', 'slider'].every((it) => document.getElementById(it).disabled)"), True)
    browser.key(" ")
    browser.key("n")
    yield compared("keys do no harm", file.name, browser.value("[page.time, page.playing, page.wishes.agent]"), [0, False, -1])
    yield from quiet(browser, "no agents, after keys", file)


def turning(page: Page, browser: Chromium) -> Iterator[Outcome]:
    for name, words in (("plan", ["square.map", "turn.plan"]), ("run", ["square.map", "turn.plan", "none.events"])):
        file = page("turn.html", *words)
        browser.open(file)
        yield from quiet(browser, f"a rotation in a {name}", file)
        heads = [pixel(browser, x, y) for x, y in ((0.52, 0), (1, 0.52), (0.48, 1), (0, 0.48))]
        yield compared(f"a rotation is a ring with a head on each step: {name}", " ".join(words), heads, [RING] * 4)
        text = browser.value(text_of("turns"))
        yield compared(f"a rotation in words: {name}", " ".join(words), "Step 0: agents 0, 1, 2, 3" in text, True)
    told = browser.value(text_of("ending"))
    yield compared("how a blocked run ends", file.name, told, "Blocked: rotation 0 can never begin, so no events bring this run to its end.")


MOVES_LEFT = "Behind the last event 2 moves are left, and nothing blocks them."
LAST_MOVE = "Behind the last event 1 move is left, and nothing blocks it."
ALL_ARRIVED = "Behind the last event every agent has arrived."
# The events of a run, and what is told of how it ends: the moves that are left, whatever events bring them about.
ENDINGS: Sequence[tuple[str, str]] = (
    ("none.events", MOVES_LEFT),
    ("hang.events", MOVES_LEFT),
    ("half.events", LAST_MOVE),
    ("stored.events", "Behind the last event no move is left: a restart will show that every agent has arrived."),
    # Both are told to tear a write, which none of them makes any more.
    ("armed.events", ALL_ARRIVED),
)


def endings(page: Page, browser: Chromium) -> Iterator[Outcome]:
    for events, due in ENDINGS:
        browser.open(page("ending.html", "lane.map", "behind.plan", events))
        yield compared(f"how a run ends: {events}", events, browser.value(text_of("ending")), due)


def running(page: Page, browser: Chromium) -> Iterator[Outcome]:
    file = page("run.html", "lane.map", "behind.plan", "run.events")
    browser.open(file)
    yield from quiet(browser, "a run", file)
    counts = list(range(len(SEEN)))
    for order in (counts, counts[::-1]):
        found = {count: browser.value(f"{LOOK}({count})") for count in order}
        for count in counts:
            name = f"behind {count} events, {'onwards' if order is counts else 'backwards'}"
            yield compared(name, RUN[count - 1] if count else "nothing", found[count], list(SEEN[count]))
    browser.value("page.seek(8), page.draw()")
    box = browser.value(text_of("event"))
    yield compared("an event with its reply", file.name, box, "8. finish 0refused StoreFailed")
    rows = browser.value("[...document.querySelectorAll('#rows button')].map((it) => [...it.children].map((part) => part.textContent).join(' '))")
    yield compared("the events around it", file.name, rows[3:6], ["7 tear 0 3 armed", "8 finish 0 refused StoreFailed", "9 restart 0 between 1 0 2 0 done 0"])
    browser.value("document.querySelectorAll('#rows button')[5].click()")
    yield compared("a row can be clicked", file.name, browser.value("page.time"), 9)
    browser.value("page.seek(11), page.draw()")
    yield compared("who hears a message", file.name, "heard by nobody" in browser.value(text_of("event")), True)
    told = browser.value(text_of("ending"))
    yield compared("how the run ends", file.name, told, ALL_ARRIVED)
    # A moving agent holds both cells, and is drawn in both; a broken one has the colour of faults, and form besides.
    browser.value("page.wish('goals'), page.seek(6)")
    yield compared("a moving agent is in both cells", file.name, [pixel(browser, x, 0.3) == LAND for x in (1, 1.5, 2)], [False] * 3)
    browser.value("page.seek(3)")
    radius = browser.value("page.drawing.radius / page.view.scale")
    yield compared("a broken agent is a square", file.name, pixel(browser, 1 - 0.86 * radius, 0.5 * radius), FAULT)


# So that it still plays when it is looked at.
SLOWLY = "page.setSpeed(0.25)"
# Where the first agent is, from the middle of the drawing on.
FROM_THE_MIDDLE = """page.view.pixel(page.world.moment.x[0], page.world.moment.y[0])
  .map((it, side) => Math.round(it - [page.width, page.height][side] / 2))"""
# Keys on a plan of four steps, one after another: the key, with Shift or not, what is looked at, and what is due of before and after.
KEYS: Sequence[tuple[str, bool, str, Callable[[object, object], bool]]] = (
    ("ArrowRight", False, "page.time", lambda before, after: (before, after) == (0, 1)),
    ("ArrowRight", False, "page.time", lambda before, after: after == 2),
    ("ArrowLeft", False, "page.time", lambda before, after: after == 1),
    ("End", False, "page.time", lambda before, after: after == 4),
    ("ArrowRight", False, "page.time", lambda before, after: after == 4),
    ("Home", False, "page.time", lambda before, after: after == 0),
    ("ArrowLeft", False, "page.time", lambda before, after: after == 0),
    (" ", False, "page.playing", lambda before, after: (before, after) == (False, True)),
    (" ", False, "page.playing", lambda before, after: (before, after) == (True, False)),
    ("ArrowUp", False, "page.speed", lambda before, after: after == 2 * before),
    ("ArrowDown", False, "page.speed", lambda before, after: after == before / 2),
    ("+", False, "page.view.scale", lambda before, after: after > before),
    ("-", False, "page.view.scale", lambda before, after: after < before),
    ("-", False, "page.view.scale", lambda before, after: after < before),
    ("0", False, "page.view.scale", lambda before, after: after > before),
    ("ArrowRight", True, "[page.view.x, page.view.y]", lambda before, after: after == [before[0] - 60, before[1]]),
    ("ArrowLeft", True, "[page.view.x, page.view.y]", lambda before, after: after == [before[0] + 60, before[1]]),
    ("ArrowDown", True, "[page.view.x, page.view.y]", lambda before, after: after == [before[0], before[1] - 60]),
    ("ArrowUp", True, "[page.view.x, page.view.y]", lambda before, after: after == [before[0], before[1] + 60]),
    ("n", False, "page.wishes.agent", lambda before, after: (before, after) == (-1, 0)),
    ("n", False, "page.wishes.agent", lambda before, after: after == 1),
    ("p", False, "page.wishes.agent", lambda before, after: after == 0),
    ("c", False, FROM_THE_MIDDLE, lambda before, after: after == [0, 0] != before),
    ("Escape", False, "page.wishes.agent", lambda before, after: after == -1),
    ("g", False, "page.wishes.goals", lambda before, after: (before, after) == (True, False)),
    ("m", False, "page.wishes.letters", lambda before, after: (before, after) == (True, False)),
    ("d", False, "document.documentElement.dataset.theme + page.theme", lambda before, after: (before, after) == ("lightauto", "lightlight")),
    ("d", False, "document.documentElement.dataset.theme + page.theme", lambda before, after: after == "darkdark"),
    ("?", True, "document.getElementById('keys').open", lambda before, after: (before, after) == (False, True)),
    ("/", False, "document.activeElement.id", lambda before, after: after == "number"),
)


def press_all(browser: Chromium, ran: str, keys: Sequence[tuple[str, bool, str, Callable[[object, object], bool]]]) -> Iterator[Outcome]:
    for number, (key, shift, look, is_due) in enumerate(keys):
        before = browser.value(look)
        browser.key(key, shift)
        after = browser.value(look)
        yield compared(f"key {number}, {key!r}", ran, is_due(before, after) or f"{look} went from {before} to {after}", True)


def keys(page: Page, browser: Chromium) -> Iterator[Outcome]:
    file = page("keys.html", "hall.map", "keys.plan")
    browser.open(file)
    browser.value(SLOWLY)
    yield from press_all(browser, "the plan keys.plan", KEYS)
    for letter in "1":
        browser.key(letter)
    browser.key("Enter")
    yield compared("a number that is typed", file.name, browser.value("page.wishes.agent"), 1)
    yield from quiet(browser, "after all keys", file)
    browser.open(page("fault.html", "lane.map", "vertex.plan"))
    browser.value("page.seek(0)")
    yield from press_all(browser, "a fault", (("x", False, "page.time", lambda before, after: (before, after) == (0, 2)),))
    browser.open(page("turn.html", "square.map", "turn.plan"))
    browser.value("page.seek(1)")
    yield from press_all(browser, "a rotation", (("r", False, "page.time", lambda before, after: (before, after) == (1, 0)),))
    browser.open(page("run.html", "lane.map", "behind.plan", "run.events"))
    # Writes fail in events 3 and 8, restarts are 5, 9 and 15.
    onwards = [(".", False, "page.time", lambda before, after, due=due: after == due) for due in (3, 5, 8, 9, 15, 15)]
    backwards = [(",", False, "page.time", lambda before, after, due=due: after == due) for due in (9, 8)]
    yield from press_all(browser, "a run", [*onwards, *backwards])


def fingers(page: Page, browser: Chromium) -> Iterator[Outcome]:
    """Buttons, the slider, dragging and the wheel."""
    file = page("keys.html", "hall.map", "keys.plan")
    browser.open(file)
    browser.value(SLOWLY)
    moves = (("last", "page.time", 4), ("back", "page.time", 3), ("on", "page.time", 4), ("first", "page.time", 0))
    for name, look, due in (*moves, ("play", "page.playing", True), ("play", "page.playing", False)):
        browser.value(f"document.getElementById('{name}').click()")
        yield compared(f"the button {name}", file.name, browser.value(look), due)
    browser.value("(() => { const it = document.getElementById('slider'); it.value = 2.5; it.dispatchEvent(new Event('input')); })()")
    yield compared("the slider", file.name, browser.value("page.time"), 2.5)
    browser.value("(() => { const it = document.getElementById('speed'); it.value = 8; it.dispatchEvent(new Event('change')); })()")
    yield compared("the speed", file.name, browser.value("page.speed"), 8)
    before = browser.value("[page.view.x, page.view.y]")
    browser.press("mousePressed", 300, 300)
    for step in range(1, 5):
        browser.press("mouseMoved", 300 + 10 * step, 300 + 5 * step)
    browser.press("mouseReleased", 340, 320)
    browser.settle()
    yield compared("dragging moves the map", file.name, browser.value("[page.view.x, page.view.y]"), [before[0] + 40, before[1] + 20])
    yield compared("dragging chooses nobody", file.name, browser.value("page.wishes.agent"), -1)
    scale = browser.value("page.view.scale")
    browser.ask("Input.dispatchMouseEvent", type="mouseWheel", x=300, y=300, deltaX=0, deltaY=-200)
    yield compared("the wheel zooms", file.name, browser.when(f"page.view.scale !== {scale}", "page.view.scale") > scale, True)
    for name, grows in (("closer", True), ("farther", False)):
        scale = browser.value("page.view.scale")
        browser.value(f"document.getElementById('{name}').click()")
        yield compared(f"the button {name}", file.name, (browser.value("page.view.scale") > scale), grows)


# What makes the space bar play again: an agent's number that was typed, and clicks.
WAYS_BACK: Sequence[tuple[str, Callable[[Chromium], None]]] = (
    ("a number that was typed", lambda browser: [browser.key(it) for it in ("/", "1", "Enter")] and None),
    ("a click that zooms", lambda browser: click_on(browser, "closer")),
    ("a click on what is drawn", lambda browser: click_on(browser, "legend")),
    ("a click on the theme", lambda browser: click_on(browser, "theme")),
)


def click_on(browser: Chromium, name: str) -> None:
    """A click near the upper left corner of an element."""
    x, y = browser.value(f"[document.getElementById('{name}').getBoundingClientRect()].flatMap((it) => [it.left, it.top])")
    browser.click(x + 16, y + 16)


def focus(page: Page, browser: Chromium) -> Iterator[Outcome]:
    """Behind whatever was done by hand the space bar plays; but who went to a button by a key stays there."""
    file = page("keys.html", "hall.map", "keys.plan")
    for name, act in WAYS_BACK:
        browser.open(file)
        browser.value(SLOWLY)
        act(browser)
        before = browser.value("page.playing")
        browser.key(" ")
        yield compared(f"the space bar plays behind {name}", file.name, (before, browser.value("page.playing")), (False, True))
    browser.open(file)
    browser.value("document.getElementById('closer').focus()")
    browser.key("Enter")
    yield compared("a button that was pressed by a key keeps the focus", file.name, browser.value("document.activeElement.id"), "closer")


# What is written behind the address of an open page, one after another, and the time, the agent and the theme that are seen then.
ADDRESSES = (
    ("time=2&agent=1", [2, 1, "auto"]),
    ("time=3", [3, 1, "auto"]),
    ("agent=0&theme=dark", [3, 0, "dark"]),
    ("time=9&agent=9", [4, 0, "dark"]),
    ("time=x&theme=red", [4, 0, "dark"]),
)


def addresses(page: Page, browser: Chromium) -> Iterator[Outcome]:
    """What stands behind the address of a page is obeyed when it opens, and when it changes."""
    file = page("keys.html", "hall.map", "keys.plan")
    browser.open(file)
    for address, due in ADDRESSES:
        browser.value(f"location.hash = '{address}'")
        browser.settle()
        yield compared(f"#{address} in an open page", file.name, browser.value("[page.time, page.wishes.agent, page.theme]"), due)


def numbers(page: Page, browser: Chromium) -> Iterator[Outcome]:
    """Numbers have one form, and those of columns and rows stand over no cell."""
    file = page("keys.html", "hall.map", "keys.plan")
    browser.open(file)
    told = [browser.value(f"(page.seek({moment}), page.draw(), {text_of('now')}.split(':')[0])") for moment in (2.02, 2.5)]
    yield compared("a time between two times", file.name, told, ["Time 2 of 4", "Time 2.5 of 4"])
    told = browser.value("[counted(1000, 'agent', 'agents'), shownNumber(2510), shownNumber(68.04), shownNumber(0.25, 2)]")
    yield compared("amounts", file.name, told, ["1,000 agents", "2,510", "68", "0.25"])
    # The map goes on above the picture and to its left; there is ground, and nobody is there.
    browser.value("page.wish('goals'), page.seek(0), page.zoom(2), page.view.x = page.view.y = -0.4 * page.view.scale")
    above, beside, inside = (pixel_at(browser, x, y) for x, y in (("page.view.pixel(2.2, 0)[0]", "5"), ("2", "page.view.pixel(0, 1.2)[1]"), ("40", "40")))
    yield compared("numbers stand beside cells", file.name, (above, beside, inside == BESIDE), (BESIDE, BESIDE, False))


def lists(page: Page, browser: Chromium) -> Iterator[Outcome]:
    """The list of events has room for each refusal, also on a phone."""
    file = page("many.html", "wide.map", "twelve.plan", "waits.events")
    for width in (1280, PHONE):
        browser.open(file, width, 844)
        browser.value("page.seek(1009), page.draw()")
        cut = "[...document.querySelectorAll('#rows span')].filter((it) => it.scrollWidth > it.clientWidth).map((it) => it.textContent)"
        yield compared(f"nothing in the list is cut, {width} wide", file.name, browser.value(cut), [])
        rows = browser.value("[...document.querySelectorAll('#rows button')].map((it) => it.innerText.replace(/\\s+/g, ' ')).pop()")
        yield compared(f"a refusal in the list, {width} wide", file.name, rows, "1,010 start 11 refused Waits 10 12")


def playing(page: Page, browser: Chromium) -> Iterator[Outcome]:
    file = page("keys.html", "hall.map", "keys.plan")
    browser.open(file)
    browser.value("page.setSpeed(2), page.play()")
    yield compared("it plays", file.name, browser.when("page.time > 0.5", "[page.playing, page.time < 3.5]"), [True, True])
    browser.value("page.setSpeed(8)")
    yield compared("it ends at the end", file.name, browser.when("!page.playing", "page.time"), 4)
    browser.value(SLOWLY)
    browser.key(" ")
    yield compared("and begins again", file.name, browser.value("page.playing && page.time < 4"), True)


def readers(page: Page, browser: Chromium) -> Iterator[Outcome]:
    """What is there for screen readers, for small screens, and in the dark."""
    file = page("run.html", "lane.map", "behind.plan", "run.events")
    browser.open(file, PHONE, 844, dark=True)
    yield from quiet(browser, "on a phone", file)
    browser.value("page.seek(8)")
    browser.settle()
    told = browser.value(text_of("now"))
    due = "8 of 18 events: 1 on the way, 1 waiting, 0 at the end, 1 broken. Last: finish 0: refused StoreFailed."
    yield compared("the moment in words", file.name, told, due)
    live = "[document.getElementById('now').getAttribute('aria-live'), page.canvas.getAttribute('role'), page.canvas.getAttribute('aria-describedby')]"
    yield compared("it is read aloud", file.name, browser.value(live), ["polite", "img", "now"])
    # The words come again some frames later.
    browser.value("page.play()")
    aloud = "document.getElementById('now').getAttribute('aria-live')"
    yield compared("but not while it plays", file.name, browser.when(f"!page.playing || {aloud} === 'off'", aloud), "off")
    browser.value("page.pause()")
    nameless = """[...document.querySelectorAll('button, input, select')]
      .filter((it) => !it.textContent.trim() && !it.ariaLabel && !(it.labels && it.labels.length)).length"""
    yield compared("every control has a name", file.name, browser.value(nameless), 0)
    yield compared("nothing is wider than a phone", file.name, browser.value("document.documentElement.scrollWidth"), PHONE)
    small = "[...document.querySelectorAll('#buttons button, #zoom button')].filter((it) => it.offsetWidth < 44 || it.offsetHeight < 44).length"
    yield compared("buttons are as large as a finger", file.name, browser.value(small), 0)
    browser.value("page.wish('goals'), page.seek(0)")
    yield compared("it is dark where the system is", file.name, pixel(browser, 2.2, 0.3), DARK_LAND)


def frames(browser: Chromium, page: pathlib.Path, name: str) -> Iterator[Outcome]:
    """How often the largest page of a plan or a run is drawn in a second while it plays, at several sizes of a cell. It wants two processors: where
    others keep all of them busy, too few frames say nothing."""
    browser.open(page)
    yield from quiet(browser, f"the largest {name}", page)
    script = f"""new Promise((go) => {{ const begin = performance.now(), first = page.frames;
      setTimeout(() => go((page.frames - first) / (performance.now() - begin) * 1000), {1000 * SECONDS}); }})"""
    for scale in (0, 4, 8, 16, 32):
        found: list[float] = []
        while len(found) < TRIES and max(found, default=0.0) < LEAST_FRAMES:
            closer = f"page.view.scale = {scale}, page.view.centre(256, 256, page.width, page.height), " if scale else ""
            browser.value(f"page.fit(), page.seek(0), {closer}page.play()")
            found.append(float(str(browser.value(script))))
        test = f"frames a second of a {name}, {scale or 'all'} pixels a cell"
        if max(found) < LEAST_FRAMES and os.getloadavg()[0] > (os.cpu_count() or 1):
            yield Outcome(test, lacks="pair of free processors")
        else:
            yield compared(test, page.name, max(found) >= LEAST_FRAMES or found, True)


def outcomes(page: Page, browser: Chromium) -> Iterator[Outcome]:
    for test in (accepted, scenarios, beside, terrain, turning, running, endings, focus, addresses, numbers, lists, keys, fingers, playing, readers):
        yield from test(page, browser)
