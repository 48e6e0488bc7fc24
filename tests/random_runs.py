"""Plans and events made at random, the same for the same seed: agents that walk close together on a small map, and robots that lose
messages, tear records and restart."""
import random
from typing import Optional

Cell = tuple[int, int]

STEPS = {"n": (0, -1), "e": (1, 0), "s": (0, 1), "w": (-1, 0)}
# The upper left cell of a block of four, and the acts by which agents in it turn round in a circle.
TURNING = (((0, 0), "e"), ((1, 0), "s"), ((1, 1), "w"), ((0, 1), "n"))
# How often each event comes.
EVENTS = {"start": 9, "finish": 7, "say": 5, "deliver": 8, "restart": 2, "tear": 1}


def random_map(rng: random.Random) -> tuple[str, list[Cell]]:
    """A small map with few blocked cells, and its free cells: its upper left one is free."""
    width, height = rng.randint(2, 6), rng.randint(1, 4)
    blocked = {(rng.randrange(width), rng.randrange(height)) for _ in range(rng.randrange(3))} - {(0, 0)}
    free = [(x, y) for y in range(height) for x in range(width) if (x, y) not in blocked]
    rows = ["".join("." if (x, y) in free else "@" for x in range(width)) for y in range(height)]
    return "\n".join(["type octile", f"height {height}", f"width {width}", "map", *rows, ""]), free


def moved(cell: Cell, act: Optional[str]) -> Cell:
    dx, dy = STEPS[act] if act else (0, 0)
    return cell[0] + dx, cell[1] + dy


def turn(rng: random.Random, now: list[Cell], acts: list[Optional[str]]) -> None:
    """Lets four agents that stand in a block turn round, if there are four."""
    agents = {cell: agent for agent, cell in enumerate(now)}
    corners = [c for c in now if all((c[0] + dx, c[1] + dy) in agents for (dx, dy), _ in TURNING)]
    if corners:
        x, y = rng.choice(corners)
        for (dx, dy), act in TURNING:
            acts[agents[x + dx, y + dy]] = act


def one_in_a_circle(now: list[Cell], to: list[Cell]) -> Optional[int]:
    """An agent of a circle in which each goes where the next one is, if there is one."""
    agents = {cell: agent for agent, cell in enumerate(now)}
    for first in range(len(now)):
        agent = first
        for _ in now:
            if to[agent] == now[agent] or to[agent] not in agents:
                break
            agent = agents[to[agent]]
            if agent == first:
                return first
    return None


def settle(now: list[Cell], acts: list[Optional[str]], may_turn: bool) -> None:
    """Lets agents wait until no two come into one cell and no two exchange cells, and, unless they may, none turn round in a circle."""
    agents = {cell: agent for agent, cell in enumerate(now)}
    while True:
        to = [moved(cell, act) for cell, act in zip(now, acts)]
        stuck = []
        for agent, cell in enumerate(to):
            other = agents.get(cell, agent)
            if acts[agent] and (to.count(cell) > 1 or (other != agent and to[other] == now[agent])):
                stuck.append(agent)
        first = None if stuck or may_turn else one_in_a_circle(now, to)
        if first is not None:
            stuck.append(first)
        if not stuck:
            return
        for agent in stuck:
            acts[agent] = None


def random_plan(rng: random.Random, free: list[Cell], may_turn: bool) -> str:
    """A valid plan on these cells, most of which somebody is in where agents may turn round in a circle."""
    least, most = (len(free) + 1) // 2 if may_turn else 1, len(free) if may_turn else max(1, len(free) - 1)
    count, steps = rng.randint(least, most), rng.randint(1, 12)
    starts = rng.sample(free, count)
    now, courses = list(starts), [[] for _ in starts]
    for _ in range(steps):
        acts = [rng.choice([act for act in STEPS if moved(cell, act) in free] + [None]) for cell in now]
        if may_turn and rng.random() < 0.3:
            turn(rng, now, acts)
        settle(now, acts, may_turn)
        now = [moved(cell, act) for cell, act in zip(now, acts)]
        for course, act in zip(courses, acts):
            course.append(act or "-")
    lines = [f"agent {x} {y} {''.join(course)}" for (x, y), course in zip(starts, courses)]
    return "\n".join(["mapf-plan 1", "number 7", f"agents {count}", *lines, ""])


def random_message(rng: random.Random, said: int) -> int:
    """One of so many messages, mostly of the last ones, or the next one, that there is not."""
    return max(said - rng.randrange(6) - 1, 0) if rng.random() < 0.7 else rng.randrange(said + 1)


def random_events(rng: random.Random, agents: int, version: int, count: Optional[int] = None) -> str:
    """So many events of such a run, or less than a hundred. Most name agents and messages that there are."""
    lines, said = [f"mapf-events {version}"], 0
    for word in rng.choices(list(EVENTS), list(EVENTS.values()), k=rng.randrange(100) if count is None else count):
        agent = rng.randrange(agents) if rng.random() < 0.98 else agents
        more = f" {random_message(rng, said)}" if word == "deliver" else f" {rng.randrange(12)}" if word == "tear" else ""
        lines.append(f"{word} {agent}{more}")
        said += word == "say"
    return "\n".join([*lines, ""])
