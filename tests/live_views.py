"""How tools/watch.py shows a fleet: on a terminal that is drawn anew, and on a page, also in a
browser."""
import fcntl
import os
import pathlib
import pty
import re
import select
import struct
import termios
from typing import Iterator

import chromium
from harness import Harness, Outcome, compared, has_terminals
from live_gauges import fleet_of
from showing import sections
from watched_fleets import LATEST, LIVE, ONCE, PATIENT, Watched, held_until, put, words_of

PAGE = f"{ONCE} --page page.html"
# How wide a terminal is, whose last column stays free, and what is on it in each state of a fleet.
WIDTH = 40
ON_TERMINAL = (
    ["4 agents: 1 arrived, 0 moving, 2 ready,", "root 0 keeps 1: ready at 1 0, done 0 of"],
    ["4 agents: 1 arrived, 1 moving, 1 ready,", "root 0 keeps 1: moving 1 0 to 2 0, done"],
    ["4 agents: all arrived"],
)
# Scripts of a page: where each agent is drawn, and for whom it waits; what is told; what was
# chosen; and what is hidden.
PLACES = """[...page.world.moment.x].map((x, agent) =>
  [x, page.world.moment.y[agent], page.world.moment.waitsFor[agent]])"""
TOLD = """[...document.querySelectorAll('#told li')].map((it) => it.textContent.split(':')[0])"""
CHOSEN = "[page.wishes.agent, page.view.scale, document.getElementById('legend').open]"
CHOOSE = """history.replaceState(null, '', '#agent=3'), page.choose(1), page.zoom(2),
  document.getElementById('legend').open = true"""
HIDDEN = "['buttons', 'line', 'pace', 'fleet'].map((it) => document.getElementById(it).hidden)"


def page_of(file: pathlib.Path) -> tuple[dict, dict[str, bytes]]:
    """The facts of a page, and its packed parts."""
    return sections(file.read_bytes())


class Screen:
    """What is seen on a terminal, by the few signs that move its cursor."""

    SIGN = re.compile(r"\x1b\[(\d+)A|(\x1b\[J)|(\r?\n)|(\r)|([^\x1b\r\n]+)")

    def __init__(self, near: int) -> None:
        self.near, self.lines, self.row, self.column = near, [""], 0, 0

    def take(self, text: str) -> None:
        for up, clears, ends, returns, letters in self.SIGN.findall(text):
            if up:
                self.row -= int(up)
            elif clears:
                self.lines[self.row :] = [self.lines[self.row][: self.column]]
            elif ends:
                self.row, self.column = self.row + 1, 0
                self.lines += [""] * (self.row + 1 - len(self.lines))
            elif returns:
                self.column = 0
            else:
                line, self.column = self.lines[self.row], self.column + len(letters)
                self.lines[self.row] = (
                    line[: self.column - len(letters)] + letters + line[self.column :]
                )

    def seen(self) -> list[str]:
        """The lines below the title, when all that was written is read."""
        while select.select([self.near], [], [], 0)[0]:
            self.take(os.read(self.near, 65536).decode())
        return [line.rstrip() for line in self.lines[1:] if line]


def terminal(harness: Harness) -> Iterator[Outcome]:
    """Each look takes the place of the one before, in lines that are narrower than the terminal."""
    if not has_terminals():
        yield Outcome("a terminal", lacks="terminal")
        return
    _, folder = fleet_of(harness, 0, 0, 0, 0)
    put(folder, 2, 0)
    near, far = pty.openpty()
    fcntl.ioctl(far, termios.TIOCSWINSZ, struct.pack("4H", 20, WIDTH, 0, 0))
    screen, wrote = Screen(near), []
    with Watched(harness, folder, *PATIENT, out=far) as watched:
        for records, due in zip(((0, 0, 0), (1, 0, 0), (6, 6, 4)), ON_TERMINAL):
            for agent, count in enumerate(records):
                put(folder, agent, count)
            wrote.append(held_until(screen.seen, due))
        status = watched.process.wait(LATEST)
    for end in (near, far):
        os.close(end)
    yield compared("a terminal", LIVE, wrote, list(ON_TERMINAL))
    is_title = bool(re.fullmatch(r"m p at \d\d:\d\d:\d\d", screen.lines[0]))
    yield compared("its title, and its end", f"{screen.lines}", (is_title, status), (True, 0))


def page(harness: Harness) -> Iterator[Outcome]:
    """What stands in a page, read without a browser."""
    fleet, folder = fleet_of(harness, 3, 1, 0, 0)
    harness.run(words_of(harness, "--page", "page.html"), folder=folder)
    text = (folder / "page.html").read_bytes()
    facts, parts = page_of(folder / "page.html")
    agents = facts["live"]["agents"]
    cells = [[(it["x"], it["y"]), (it["to_x"], it["to_y"])] for it in agents]
    due = [[it.held()[0], it.held()[-1]] for it in fleet.agents]
    yield compared("where all are", PAGE, cells, due)
    kinds = [(it["keeping"], it["done"], it["fault"]) for it in agents]
    due = [("moving", 1, ""), ("moving", 0, ""), ("unknown", 0, "NoTape"), ("arrived", 0, "")]
    yield compared("what they do", PAGE, kinds, due)
    due = (8 * b"e", {"map": "m", "plan": "p"}, 0.0)
    wrote = (parts["acts"], facts["names"], facts["live"]["every"])
    yield compared("the plan, and that no page follows", PAGE, wrote, due)
    places = re.findall(rb"https?:|src=|@import|url\(", text)
    yield compared("a page names no other place", PAGE, places, [])


def waiting(harness: Harness) -> Iterator[Outcome]:
    """A page says who waits for whom, and which rotation blocks."""
    _, folder = fleet_of(harness, 0, 0, 0, 0)
    harness.run(words_of(harness, "--page", "page.html"), folder=folder)
    agents = page_of(folder / "page.html")[0]["live"]["agents"]
    waits = [(it["keeping"], it["waits_for"], it["until"]) for it in agents[:2]]
    yield compared("who waits for whom", PAGE, waits, [("ready", None, None), ("waits", 0, 1)])


def browser(harness: Harness) -> Iterator[Outcome]:
    """A page that comes anew by itself, and is seen then as it was left."""
    if not chromium.found():
        yield Outcome("a page in a browser", lacks="Chromium")
        return
    _, folder = fleet_of(harness, 0, 0, 0, 0)
    file = folder / "page.html"
    # A page takes a while until it is drawn.
    words = (*PATIENT, "--page", "page.html", "--every", "0.4")
    with Watched(harness, folder, *words), chromium.Chromium(folder) as seen:
        held_until(file.exists, True)
        seen.open(file)

        def found(script: str, name: str, due: object) -> Outcome:
            return compared(
                name, f"{LIVE} --page", held_until(lambda: seen.value(script), due), due
            )

        yield found(PLACES, "where all are drawn", [[1, 0, -1], [0, 0, 0], [0, 1, -1], [7, 1, -1]])
        chosen = seen.value(f"({CHOOSE}, {CHOSEN})")
        put(folder, 0, 1)
        due = [[1.5, 0, -1], [0, 0, 0], [0, 1, -1], [7, 1, -1]]
        yield found(PLACES, "where all are drawn then", due)
        yield found(CHOSEN, "what was chosen", chosen)
        yield found(TOLD, "what is told", ["4 agents", "root 0 keeps 1", "unknown 2"])
        yield found(HIDDEN, "what there is no use for", [True, True, True, False])
        asked = {it.partition("#")[0] for it in seen.requests} - {file.as_uri(), "about:blank"}
        yield compared(
            "no error, and nothing of the network", PAGE, (seen.faults, asked), ([], set())
        )


PARTS = (terminal, page, waiting, browser)
