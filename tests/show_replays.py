"""Pages of random plans and long runs, held against plain readings of the same: a planner's own paths, and the replies one after another."""
import json
import pathlib
import random
from typing import Callable, Iterator, Sequence

import planner
from chromium import Chromium
from harness import Harness, Outcome, compared
from plain_formats import plan_text
from texts import events

Cells = tuple[tuple[int, int], ...]
FREE = [(x, y) for y in range(7) for x in range(9) if (x, y) not in {(2, 1), (2, 2), (5, 4), (6, 4), (3, 5)}]
MAP = "type octile\nheight 7\nwidth 9\nmap\n" + "".join("".join(".@"[(x, y) not in FREE] for x in range(9)) + "\n" for y in range(7))
AGENTS, EVENTS, MOMENTS = 6, 4_000, 150
# How often each event comes.
WEIGHTS = {"start": 8, "finish": 8, "say": 3, "deliver": 8, "restart": 1, "tear": 1}
HELD = "JSON.stringify({}.map((time) => {{ page.world.seek(time); return Array.from({{ length: {} }}, (_, agent) => page.world.moment.held(agent)); }}))"


def random_events(rng: random.Random) -> list[str]:
    """Events at random. Which messages there are isn't known yet: each that is delivered is the first."""
    lines = []
    for word in rng.choices(list(WEIGHTS), list(WEIGHTS.values()), k=EVENTS):
        more = " 0" if word == "deliver" else f" {rng.randrange(10)}" if word == "tear" else ""
        lines.append(f"{word} {rng.randrange(AGENTS)}{more}")
    return lines


def addressed(rng: random.Random, lines: Sequence[str], replies: Sequence[str]) -> list[str]:
    """The same events, but late messages are delivered. Whether a message can be said doesn't depend on it."""
    found, said = [], 0
    for line, reply in zip(lines, replies):
        found.append(f"{line[:-1]}{max(0, said - 1 - rng.randrange(9))}" if line.startswith("deliver") else line)
        said += reply.startswith("said ")
    return found


def followed(starts: Sequence[tuple[int, int]], lines: Sequence[str], replies: Sequence[str]) -> list[list[Cells]]:
    """Which cells each agent holds behind each number of events, read plainly from the replies."""
    held: list[Cells] = [(start,) for start in starts]
    found = [list(held)]
    for line, reply in zip(lines, replies):
        agent, (word, *rest) = int(line.split()[1]), reply.split()
        numbers = [int(it) for it in rest if it.isdigit()]
        if word == "moving":
            held[agent] = (held[agent][0], (numbers[0], numbers[1]))
        elif word in ("arrived", "at"):
            held[agent] = ((numbers[0], numbers[1]),)
        elif word == "between":
            held[agent] = ((numbers[0], numbers[1]), (numbers[2], numbers[3]))
        found.append(list(held))
    return found


def under_way(lines: Sequence[str], replies: Sequence[str]) -> list[int]:
    """How many messages are on their way behind each number of events: said, and to be delivered yet."""
    said = [event for event, reply in enumerate(replies) if reply.startswith("said ")]
    counts = [0] * (len(lines) + 1)
    for event, line in enumerate(lines):
        word, *numbers = line.split()
        if word == "deliver" and int(numbers[1]) < len(said) and said[int(numbers[1])] < event:
            for count in range(said[int(numbers[1])] + 1, event + 1):
                counts[count] += 1
    return counts


def seen(browser: Chromium, moments: Sequence[int]) -> list[list[Cells]]:
    """The cells that the page shows as held at these moments, one after another."""
    found = json.loads(str(browser.value(HELD.format(list(moments), AGENTS))))
    return [[tuple((cell[0], cell[1]) for cell in agent) for agent in moment] for moment in found]


def outcomes(harness: Harness, folder: pathlib.Path, page: Callable[..., pathlib.Path], browser: Chromium) -> Iterator[Outcome]:
    rng = random.Random(3)
    paths = planner.plan(FREE, planner.random_tasks(FREE, AGENTS, rng), rng)

    def answers(lines: Sequence[str]) -> list[str]:
        (folder / "random.events").write_text(events(*lines))
        return harness.mapf(["run", "random.map", "random.plan", "random.events"], folder=folder).out.decode().splitlines()

    for name, text in (("random.map", MAP), ("random.plan", plan_text(paths, 7))):
        (folder / name).write_text(text)
    browser.open(page("random.html", "random.map", "random.plan"))
    times = range(max(map(len, paths)))
    due = [[(path[min(time, len(path) - 1)],) for path in paths] for time in times]
    yield compared("a random plan, time by time", "tools/show.py random.map random.plan", seen(browser, times), due)
    blank = random_events(rng)
    lines = addressed(rng, blank, answers(blank))
    replies = answers(lines)
    due = followed([path[0] for path in paths], lines, replies)
    browser.open(page("random.html", "random.map", "random.plan", "random.events"))
    for name, moments in (("in order", range(0, EVENTS + 1, 7)), ("in any order", rng.sample(range(EVENTS + 1), MOMENTS))):
        differing = [moment for moment, cells in zip(moments, seen(browser, moments)) if cells != due[moment]]
        yield compared(f"a long run, {name}", "tools/show.py random.map random.plan random.events", differing, [])
    script = f"""Array.from({{ length: {EVENTS + 1} }}, (_, time) => {{
      page.world.seek(time);
      return page.world.letters().filter((it) => it.receiver >= 0).length; }})"""
    counts = under_way(lines, replies)
    yield compared("messages on their way", "random.events", browser.value(script), counts)
    yield compared("there are some, and not too many to be drawn", "random.events", (sum(counts) > EVENTS, max(counts) < 300), (True, True))
    yield compared("agents move in it", "random.events", len({str(it) for it in due}) > 20, True)
