"""tools/show.py: pages and pictures of plans and runs. Pages are opened in a browser, where there is one."""
import base64
import functools
import json
import os
import pathlib
import random
import re
import shutil
import signal
import struct
import subprocess
import sys
import time
import zlib
from typing import Iterator, Mapping, Optional

import chromium
import show_faults
import show_pages
import show_pictures
import show_replays
from harness import ROOT, Ended, Harness, Outcome, compared, ended_as, shown, side_by_side
from processes import processes_of
from texts import BEHIND, HALL, LANE, NOBODY, SHORT, SQUARE, SWAP, TASKS, TURN, VERTEX, WALL, events, plan, scen

TOOL = ROOT / "tools" / "show.py"
TERRAIN = "type octile\nheight 4\nwidth 8\nmap\n........\n.GGSSWW.\n.TT@@OO.\n..S.W.T.\n"
OLD = b"old"
MOST_PAGE = 10_000_000
# Agent 0 goes, and agent 1 behind it up to its last record.
WENT = ("start 0", "finish 0", "say 0", "deliver 1 0", "start 1")
TEXTS = {
    "lane.map": LANE,
    "wall.map": WALL,
    "square.map": SQUARE,
    "hall.map": HALL,
    "terrain.map": TERRAIN,
    "short.map": SHORT,
    "behind.plan": BEHIND,
    "swap.plan": SWAP,
    "vertex.plan": VERTEX,
    "turn.plan": TURN,
    "nobody.plan": NOBODY,
    "trees.plan": plan("0 0 ess", "7 0 -"),
    "beside.plan": plan("7 3 ee", "0 0 e"),
    "start.plan": plan("0 0 e", "3 2 n"),
    "far.plan": plan("60000 2 =", "0 0 e"),
    "train.plan": plan("1 0 ee", "0 0 ee"),
    "both.plan": plan("0 0 eww", "1 0 ="),
    # Two that exchange their cells and come back, and one that stays in one of these.
    "again.plan": plan("0 0 ew", "1 0 we", "0 0 ="),
    "crowd.plan": plan(*(46 * ["1 0 ="]), "0 0 w"),
    "pairs.plan": plan("0 0 e", "1 0 =", "0 1 e", "1 1 ="),
    "bad.plan": BEHIND.replace("e-", "ex"),
    "old.plan": BEHIND.replace("mapf-plan 1", "mapf-plan 0"),
    "tasks.scen": TASKS,
    "start.scen": scen("m.map 3 1 0 0 2 0 2", "m.map 3 1 0 0 1 0 1"),
    "goal.scen": scen("m.map 3 1 1 0 2 0 1", "m.map 3 1 0 0 2 0 2"),
    "size.scen": scen("m.map 4 1 1 0 2 0 1", "m.map 3 1 0 0 1 0 1"),
    "one.scen": scen("m.map 3 1 1 0 2 0 1"),
    "keys.plan": plan("0 0 eee-", "0 1 -eee"),
    "run.events": events(*show_pages.RUN),
    "none.events": events(),
    "bad.events": events("start 0", "stop 0"),
    "wide.map": "type octile\nheight 2\nwidth 12\nmap\n............\n............\n",
    # Agent 11 comes into the cell that agent 10 leaves for good by its twelfth move.
    "twelve.plan": plan(*(f"{2 + agent} 0 =" for agent in range(10)), f"1 1 {6 * 'ns'}", f"0 0 {12 * '-'}e"),
    "waits.events": events(*1009 * ["start 0"], "start 11"),
    "hang.events": events("start 0"),
    "half.events": events("start 0", "finish 0"),
    "stored.events": events(*WENT, "tear 1 10", "finish 1"),
    "armed.events": events(*WENT, "finish 1", "tear 1 0", "restart 0", "tear 0 3"),
}


class Room:
    """A folder of texts, and calls of the tool in it. A page that was made before is there still."""

    def __init__(self, harness: Harness):
        self.harness = harness
        self.folder = harness.folder({name: text.encode() for name, text in TEXTS.items()})
        self.made: dict[tuple[str, ...], pathlib.Path] = {}

    def words(self, *words: str) -> list[str]:
        return [sys.executable, str(TOOL), *words, "--program", str(self.harness.program)]

    def show(self, *words: str, more: Mapping[str, str] = {}) -> Ended:
        return self.harness.run(self.words(*words), folder=self.folder, more=more)

    def opened(self, name: str, *words: str) -> pathlib.Path:
        """A page that is only looked at: one of the same files will do."""
        if words not in self.made:
            self.made[words] = self.page(f"{len(self.made)}-{name}", *words)
        return self.made[words]

    def page(self, name: str, *words: str) -> pathlib.Path:
        """A page, which has to come without a word."""
        ended = self.show(*words, "-o", name)
        if ended != Ended(0, b"", b""):
            raise ValueError(f"{shown(['tools/show.py', *words])}: {ended}")
        return self.folder / name


def sections(page: bytes) -> tuple[dict, dict[str, bytes]]:
    """What a page holds: its facts, and its packed parts."""
    facts = json.loads(re.search(rb'<script id="facts"[^>]*>(.*?)</script>', page, re.DOTALL)[1])
    data = re.search(rb'<script id="data"[^>]*>(.*?)</script>', page, re.DOTALL)[1]
    whole, parts, at = zlib.decompress(base64.b64decode(data), -15), {}, 0
    for name, size in facts["sizes"].items():
        parts[name] = whole[at : at + size]
        at += (size + 3) // 4 * 4
    return facts, parts


def held(room: Room) -> Iterator[Outcome]:
    """What stands in a page, read without a browser."""
    file = room.page("held.html", "lane.map", "behind.plan", "run.events")
    page = file.read_bytes()
    file.unlink()
    facts, parts = sections(page)
    ran = "tools/show.py lane.map behind.plan run.events"
    yield compared("a page is ASCII", ran, page.isascii(), True)
    yield compared("a page names no other place", ran, re.findall(rb"https?:|//[a-z]+\.|src=|@import|url\(", page), [])
    yield compared("its verdict", ran, facts["verdict"], {"accepted": True, "agents": 2, "cost": 2, "makespan": 1})
    yield compared("its files", ran, facts["names"], {"map": "lane.map", "plan": "behind.plan", "events": "run.events"})
    yield compared("its map", ran, (facts["width"], facts["height"], parts["terrain"]), (3, 1, b"..."))
    yield compared("its paths", ran, (struct.unpack("<4i", parts["starts"]), parts["acts"]), ((1, 0, 0, 0), b"ee"))
    yield compared("its waits", ran, struct.unpack("<2H2H", parts["needs"] + parts["more"]), (65535, 0, 0, 1))
    yield compared("its events", ran, parts["events"].decode().split("\n"), list(show_pages.RUN))
    train = sections(room.page("train.html", "hall.map", "train.plan").read_bytes())[1]
    (room.folder / "train.html").unlink()
    # Each move of the second agent waits for the same move of the first.
    waits = struct.unpack("<4H4H", train["needs"] + train["more"])
    yield compared("the waits of a train", "tools/show.py hall.map train.plan", waits, (65535, 65535, 0, 0, 0, 0, 1, 1))
    yield compared("its replies", ran, len(parts["replies"].split(b"\n")), len(show_pages.RUN))
    again = sections(room.show("lane.map", "again.plan").out)[0]
    due = [("Vertex 0 2 0 0 0", 0), ("Vertex 1 2 1 0 0", 1), ("Swap 0 1 0", 0), ("Vertex 0 2 2 0 0", 2), ("Swap 0 1 1", 1)]
    yield compared("all faults of a plan", "tools/show.py lane.map again.plan", [(it["said"], it["time"]) for it in again["faults"]], due)
    yield compared("its verdict without them", "tools/show.py lane.map again.plan", again["verdict"], {"accepted": False, "agents": 3, "more": False})
    crowd = sections(room.show("lane.map", "crowd.plan").out)[0]
    wrote = (len(crowd["faults"]), crowd["faults"][-1]["said"], crowd["verdict"])
    # The first thousand, and the fault for which no path is answered.
    yield compared("more faults than are listed", "tools/show.py lane.map crowd.plan", wrote[:2], (1001, "BadMove 46 0"))
    yield compared("that there are more", "tools/show.py lane.map crowd.plan", wrote[2]["more"], True)


NEEDED = "a picture needs one, and --browser PATH says where it is"
# Calls that write nothing: their words, what they tell, and their status.
REFUSED: list[tuple[list[str], str, int]] = [
    (["short.map", "behind.plan"], "short.map: mapf: ShortRow 6", 1),
    (["no.map", "behind.plan"], "no.map: mapf: OpenFailed", 3),
    (["lane.map", "bad.plan"], "bad.plan: mapf: BadAct 4 12", 1),
    (["lane.map", "no.plan"], "no.plan: mapf: OpenFailed", 3),
    (["lane.map", "behind.plan", "--beside", "bad.plan"], "bad.plan: mapf: BadAct 4 12", 1),
    (["lane.map", "old.plan"], "old.plan: mapf: BadHeader 1", 1),
    (["lane.map", "behind.plan", "--scen", "lane.map"], "lane.map: mapf: NoVersion", 1),
    (["lane.map", "behind.plan", "--scen", "no.scen"], "no.scen: mapf: OpenFailed", 3),
    (["lane.map", "behind.plan", "bad.events"], "bad.events: mapf: BadEvent 3", 1),
    (["lane.map", "behind.plan", "behind.plan"], "behind.plan: mapf: NoHeader", 1),
    (["lane.map", "behind.plan", "no.events"], "no.events: mapf: OpenFailed", 3),
    (["lane.map", "behind.plan", "--png", "1", "--browser", "no-browser"], f"show: no-browser is no program; {NEEDED}", 3),
]
# What is told where a browser ends at once.
GIF = ["lane.map", "behind.plan", "--gif", "0", "1"]
ENDS = ([*GIF, "--browser", "/bin/false"], "show: /bin/false has ended", 3)
BAD_LINES = (
    ["lane.map"],
    ["lane.map", "behind.plan", "--png", "x", "-o", "a"],
    ["lane.map", "behind.plan", "--png", "-1", "-o", "a"],
    ["lane.map", "behind.plan", "--png", "1"],
    ["lane.map", "behind.plan", "--gif", "1", "0", "-o", "a"],
    ["lane.map", "behind.plan", "--gif", "1", "-o", "a"],
    ["lane.map", "behind.plan", "--png", "1", "--gif", "0", "1", "-o", "a"],
    ["lane.map", "behind.plan", "--width", "10", "-o", "a"],
    ["lane.map", "behind.plan", "run.events", "run.events"],
    ["lane.map", "behind.plan", "run.events", "--beside", "swap.plan"],
    ["lane.map", "behind.plan", "--from", "bees"],
)


def refuses(harness: Harness, words: list[str], told: str, status: int) -> list[Outcome]:
    """A call that leaves the file of a page as it was, and nothing else."""
    room = Room(harness)
    target = room.folder / "old.html"
    target.write_bytes(OLD)
    ended = room.show(*words, "-o", "old.html")
    ran = shown(["tools/show.py", *words, "-o", "old.html"])
    left = sorted(it.name for it in room.folder.iterdir() if it.name not in TEXTS)
    return [
        ended_as(f"refused: {' '.join(words)}", ran, ended, Ended(status, b"", f"{told}\n".encode())),
        compared(f"nothing is written: {' '.join(words)}", ran, (target.read_bytes(), left), (OLD, ["old.html"])),
    ]


def bad_line(room: Room, words: list[str]) -> list[Outcome]:
    ended = room.show(*words)
    return [compared(f"a bad command line: {' '.join(words)}", shown(words), (ended.status, ended.out, ended.err[:6]), (2, b"", b"usage:"))]


def without_browser(room: Room) -> list[Outcome]:
    ended = room.show("lane.map", "behind.plan", "--png", "1", "-o", "a.png", more={"PATH": ""})
    names = "chromium, chromium-browser, google-chrome, google-chrome-stable, chrome"
    due = Ended(3, b"", f"show: there is no Chromium on the path ({names}); {NEEDED}\n".encode())
    return [ended_as("a picture without a browser", "PATH= tools/show.py lane.map behind.plan --png 1 -o a.png", ended, due)]


def without_pillow(room: Room) -> list[Outcome]:
    """Pages need no Pillow. What a picture needs is said before any file is looked at."""
    (room.folder / "none" / "PIL").mkdir(parents=True)
    (room.folder / "none" / "PIL" / "__init__.py").write_text("raise ImportError\n")
    more = {"PYTHONPATH": str(room.folder / "none")}
    words = ["no.map", "behind.plan", "--png", "1", "--browser", "/bin/false", "-o", "a.png"]
    picture, page = room.show(*words, more=more), room.show("lane.map", "behind.plan", more=more)
    wrote = (page.status, page.err, len(page.out) > 1000)
    shutil.rmtree(room.folder / "none")
    needed = "`apt install python3-pil`, or `pip install pillow`"
    told = f"show: there is no Pillow here, and a picture needs it: {needed}\n"
    due = Ended(3, b"", told.encode())
    return [
        ended_as("a picture without Pillow", shown(["tools/show.py", *words]), picture, due),
        compared("a page without Pillow", "lane.map behind.plan", wrote, (0, b"", True)),
    ]


def refused(room: Room) -> Iterator[Outcome]:
    ends = [ENDS] if show_pictures.has_pillow() else []
    tests = [functools.partial(refuses, room.harness, *it) for it in (*REFUSED, *ends)]
    lines = [functools.partial(bad_line, room, it) for it in BAD_LINES]
    without = [functools.partial(it, room) for it in (without_browser, without_pillow)]
    yield from side_by_side([*tests, *lines, *without])


EXAMPLES = ROOT / "examples"
# What planners wrote, all of the same plan; whether the starts are those of a scenario; and what each is.
PLANNERS = (("corner.paths", False, "paths"), ("corner.lacam", False, "lacam"), ("corner.tracker", True, "tracker"))


def converted(room: Room, name: str, has_scen: bool, source: str) -> list[Outcome]:
    """The page of what a planner wrote is that of the plan, and it is said what it was read as."""
    scen = ["--scen", str(EXAMPLES / "corner.scen")] if has_scen else []
    words = [str(EXAMPLES / "corner.map"), str(EXAMPLES / "planners" / name), *scen]
    ended = room.show(*words)
    own, due = (sections(page)[1] for page in (ended.out, room.show(str(EXAMPLES / "corner.map"), str(EXAMPLES / "corner.plan")).out))
    told = f"convert: {EXAMPLES / 'planners' / name} is read as {source}\n".encode()
    wrote = (ended.status, own, sections(ended.out)[0]["source"], ended.err.startswith(told))
    return [compared(f"what a planner wrote: {name}", f"{shown(words)}, which told {ended.err!r}", wrote, (0, due, source, True))]


def not_converted(room: Room, words: list[str], told: str, status: int) -> list[Outcome]:
    """What can't be converted is told in the line of the converter."""
    ended = room.show(*words)
    wrote = (ended.status, ended.out, ended.err.startswith(told.encode()), ended.err.count(b"\n"))
    return [compared(f"no planner's text: {' '.join(words)}", f"{shown(words)}, which told {ended.err!r}", wrote, (status, b"", True, 1))]


def planners(room: Room) -> Iterator[Outcome]:
    bad = (
        (["lane.map", "lane.map"], "lane.map:1: the text is a map, a plan was due", 1),
        (["lane.map", "lane.map", "--from", "paths"], "lane.map:1: ", 1),
        ([str(EXAMPLES / "corner.map"), str(EXAMPLES / "planners" / "corner.tracker")], "convert: the format tracker leaves out where agents start", 2),
    )
    tests = [functools.partial(converted, room, *it) for it in PLANNERS]
    yield from side_by_side([*tests, *(functools.partial(not_converted, room, *it) for it in bad)])


def written(room: Room) -> Iterator[Outcome]:
    """Where the page goes."""
    page = room.page("page.html", "lane.map", "behind.plan").read_bytes()
    ended = room.show("lane.map", "behind.plan")
    yield compared("a page on standard output", "tools/show.py lane.map behind.plan", (ended.status, ended.out == page, ended.err), (0, True, b""))
    (room.folder / "folder").mkdir()
    ended = room.show("lane.map", "behind.plan", "-o", "folder")
    ran = "tools/show.py lane.map behind.plan -o folder"
    yield compared("a folder is no page", ran, (ended.status, ended.out, ended.err.count(b"\n")), (3, b"", 1))
    (room.folder / "link.html").symlink_to("page.html")
    room.page("link.html", "lane.map", "swap.plan", "-o", "other.html")
    yield compared("the last -o counts", "-o other.html -o link.html", (room.folder / "link.html").is_symlink(), True)
    ended = room.show("lane.map", "swap.plan", "run.events", "-o", "rejected.html")
    told = Ended(0, b"", b"show: run.events: not shown, since a plan that is rejected has no runs\n")
    yield ended_as("a run of a rejected plan", "tools/show.py lane.map swap.plan run.events", ended, told)
    for it in ("page.html", "link.html", "rejected.html"):
        (room.folder / it).unlink()
    shutil.rmtree(room.folder / "folder")


def stopped(room: Room) -> Iterator[Outcome]:
    """A call that is ended while a picture is drawn leaves no file, no folder and no browser."""
    away = room.harness.folder()
    call = room.words("square.map", "turn.plan", "--gif", "0", "1", "-o", "stopped.gif")
    started = subprocess.Popen(call, cwd=room.folder, env={**os.environ, "TMPDIR": str(away)}, stderr=subprocess.PIPE)
    end = time.monotonic() + 30
    while not any(away.glob("*/browser/*")) and time.monotonic() < end:
        time.sleep(0.05)
    started.terminate()
    told = started.communicate()[1]
    left = [it.name for it in away.iterdir()] + [it.name for it in room.folder.glob("stopped*")]
    running = processes_of(away)
    ran = "tools/show.py square.map turn.plan --gif 0 1, ended while it draws"
    yield compared("a call that is ended leaves nothing", ran, (started.returncode, told, left, running), (128 + signal.SIGTERM, b"", [], []))


def large_texts() -> tuple[bytes, bytes]:
    """A thousand agents for a thousand steps on 512 x 512 cells: each goes at random, and into no cell that anybody holds or takes."""
    rng, side, agents, steps = random.Random(5), 512, 1000, 1000
    free = [1] * (side * side)
    for _ in range(side * side // 40):
        free[rng.randrange(side * side)] = 0
    cells = rng.sample([it for it in range(side * side) if free[it]], agents)
    taken = set(cells)
    acts, ways = [bytearray() for _ in cells], [(b"e"[0], 1), (b"w"[0], -1), (b"s"[0], side), (b"n"[0], -side)]
    heading = [rng.choice(ways) for _ in cells]
    for _ in range(steps):
        left = set()
        for agent, cell in enumerate(cells):
            act, by = heading[agent]
            to = cell + by
            isin = 0 <= to < side * side and (abs(by) == side or to // side == cell // side)
            if isin and free[to] and to not in taken and rng.random() < 0.9:
                acts[agent].append(act)
                left.add(cell)
                cells[agent] = to
                taken.add(to)
            else:
                acts[agent].append(b"-"[0])
                heading[agent] = rng.choice(ways)
        # Who left a cell holds it up to the end of the step.
        taken -= left
    starts = []
    for agent, cell in enumerate(cells):
        back = sum({101: 1, 119: -1, 115: side, 110: -side}.get(act, 0) for act in acts[agent])
        starts.append(cell - back)
    rows = "".join("".join("@."[it] for it in free[row * side : (row + 1) * side]) + "\n" for row in range(side))
    lines = "".join(f"agent {start % side} {start // side} {course.decode()}\n" for start, course in zip(starts, acts))
    return f"type octile\nheight {side}\nwidth {side}\nmap\n{rows}".encode(), f"mapf-plan 1\nnumber 7\nagents {agents}\n{lines}".encode()


def many_events() -> list[str]:
    """A hundred thousand events of a thousand agents, at random."""
    rng, lines, said = random.Random(6), [], 0
    for word in rng.choices(("start", "finish", "say", "deliver", "restart", "tear"), (60, 60, 30, 60, 1, 1), k=100_000):
        more = f" {max(0, said - 1 - rng.randrange(40))}" if word == "deliver" else f" {rng.randrange(10)}" if word == "tear" else ""
        lines.append(f"{word} {rng.randrange(1000)}{more}")
        said += word == "say"
    return lines


def largest(room: Room, browser: Optional[chromium.Chromium]) -> Iterator[Outcome]:
    for name, text in zip(("large.map", "large.plan"), large_texts()):
        (room.folder / name).write_bytes(text)
    (room.folder / "large.events").write_text(events(*many_events()))
    ran = "tools/show.py with 1,000 agents for 1,000 steps on 512 x 512 cells"
    for name, more in (("plan", []), ("run", ["large.events"])):
        page = room.page(f"large-{name}.html", "large.map", "large.plan", *more)
        yield compared(f"the size of the largest {name}", ran, page.stat().st_size <= MOST_PAGE, True)
        if browser:
            yield from show_pages.frames(browser, page, name)
        else:
            yield Outcome(f"frames of the largest {name}", lacks="Chromium")


def of_texts(room: Room) -> list[Outcome]:
    """What is written, refused and drawn."""
    found = [outcome for test in (held, refused, planners, written) for outcome in test(room)]
    if chromium.found() and show_pictures.has_pillow():
        found += [*show_pictures.outcomes(room.show, room.folder), *stopped(room)]
    elif chromium.found():
        found.append(Outcome("pictures", lacks="Pillow"))
    return found


def of_pages(room: Room, browser: chromium.Chromium) -> list[Outcome]:
    """What pages do in a browser."""
    pages = [*show_pages.outcomes(room.opened, browser), *show_faults.outcomes(room.opened, browser)]
    return [*pages, *show_replays.outcomes(room.harness, room.folder, room.page, browser)]


def outcomes(harness: Harness) -> Iterator[Outcome]:
    room = Room(harness)
    if not chromium.found():
        yield from of_texts(room)
        yield Outcome("pages in a browser, and pictures", lacks="Chromium")
        if harness.is_long:
            yield from largest(room, None)
        return
    with chromium.Chromium(room.folder) as browser:
        yield from side_by_side([functools.partial(of_pages, room, browser), functools.partial(of_texts, Room(harness))])
        if harness.is_long:
            yield from largest(room, browser)
