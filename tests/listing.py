"""All faults of plans: `check --all` beside a list that compares each pair at each time, and rotations that aren't wanted."""
import functools
import itertools
import json
import random
from typing import Iterator, Optional, Sequence

from answers import answer
from harness import Ended, Harness, Outcome, side_by_side
from plan_chains import Course, Plan, read, rested
from random_runs import Cell, moved, random_map, random_plan
from scenarios import Call, Ground, outcomes_of

SHORT_SEEDS, LONG_SEEDS = range(1, 1_001), range(1, 10_001)
# A kind of fault with its numbers, in the order in which they are told.
Fault = tuple[str, tuple[int, ...]]
USUAL_MOST = 1_000
BACK = {"n": "s", "s": "n", "e": "w", "w": "e"}
# What the numbers are called, and which of them are agents that stand together.
NAMES = {"BadStart": ("agent",), "BadMove": ("agent", "step"), "Vertex": ("agents", "time", "x", "y"), "Swap": ("agents", "step")}


def all_faults(ground: Ground, plan: Plan) -> Iterator[Fault]:
    """The faults of a plan up to its most acts: by time, then kind, then agents."""
    for time in range(plan.longest + 1):
        now = [course.place(time) for course in plan.courses]
        before = [course.place(max(time - 1, 0)) for course in plan.courses]
        for agent, cell in enumerate(now):
            if time == 0 and not ground.are_joined(cell, cell):
                yield "BadStart", (agent,)
            if cell != before[agent] and not ground.are_joined(before[agent], cell):
                yield "BadMove", (agent, time - 1)
        pairs = list(itertools.combinations(range(len(now)), 2))
        for i, j in pairs:
            if now[i] == now[j] and all(0 <= number < 65_536 for number in now[i]):
                yield "Vertex", (i, j, time, *now[i])
        for i, j in pairs:
            if now[i] == before[j] and now[j] == before[i] and now[i] != before[i]:
                yield "Swap", (i, j, time - 1)


def named(fault: Fault) -> tuple[int, ...]:
    kind, numbers = fault
    return numbers[: 2 if kind in ("Vertex", "Swap") else 1]


def as_json(fault: Fault) -> dict[str, object]:
    kind, numbers = fault
    agents = named(fault)
    values = [agents if len(agents) > 1 else agents[0], *numbers[len(agents) :]]
    return {"kind": kind, **dict(zip(NAMES[kind], values))}


def due(faults: Sequence[Fault], most: int, is_json: bool) -> Ended:
    """The answer for a plan with these faults, of which there is one."""
    listed, more = faults[:most], len(faults) > most
    agents = len({agent for fault in listed for agent in named(fault)})
    if is_json:
        whole = {"accepted": False, "faults": [as_json(fault) for fault in listed], "agents": agents, "more": more}
        return answer(1, json.dumps(whole, separators=(",", ":")) + "\n")
    lines = [f"rejected {kind} {' '.join(str(number) for number in numbers)}\n" for kind, numbers in listed]
    return answer(1, "".join([*lines, f"faults {len(listed)} agents {agents}{' more' if more else ''}\n"]))


def exchanging(rng: random.Random, plan: Plan) -> Plan:
    """The plan in which two that stand side by side at a time enter each other's cells, if there are two."""
    time = rng.randrange(plan.longest + 1)
    places = {course.place(time): agent for agent, course in enumerate(plan.courses)}
    beside = [(agent, places[moved(cell, act)], act) for cell, agent in places.items() for act in BACK if moved(cell, act) in places]
    for agent, other, act in rng.sample(beside, min(len(beside), 1)):
        for one, own in ((agent, act), (other, BACK[act])):
            course = plan.courses[one]
            plan = plan.with_course(one, Course(course.start, course.acts[:time].ljust(time, "-") + own + course.acts[time + 1 :]))
    return plan


def spoiled(rng: random.Random, plan: Plan) -> Plan:
    """The plan with some acts and starts changed at random, also to cells off the map and at its greatest numbers."""
    if rng.random() < 0.5:
        plan = exchanging(rng, plan)
    for _ in range(rng.randrange(4)):
        agent = rng.randrange(len(plan.courses))
        course = plan.courses[agent]
        start: Cell = rng.choice((course.start, course.start, rng.choice(plan.courses).start, (0, 0), (65_535, rng.randrange(3)), (rng.randrange(8), 65_535)))
        acts = "".join(rng.choice("nesw-") if rng.random() < 0.3 else act for act in course.acts)
        plan = plan.with_course(agent, Course(start, acts[: rng.choice((None, rng.randrange(len(acts) + 1)))]))
    return plan


def rotations(plan: Plan) -> Iterator[tuple[int, list[int]]]:
    """The steps in which agents go round, and these agents, the least of them first."""
    for step in range(plan.longest):
        now, after = ([course.place(time) for course in plan.courses] for time in (step, step + 1))
        follows = {i: now.index(cell) for i, cell in enumerate(after) if cell in now and cell != now[i]}
        for first in sorted(follows):
            circle = [first]
            while circle[-1] in follows and follows[circle[-1]] not in circle:
                circle.append(follows[circle[-1]])
            if follows.get(circle[-1]) == first == min(circle):
                yield step, circle


def first_rotation(plan: Plan) -> Optional[str]:
    """The words of the first of them."""
    step, circle = next(rotations(plan), (0, []))
    return f"Rotation {step} {' '.join(str(agent) for agent in circle)}" if circle else None


def accepted(plan: Plan) -> Ended:
    costs = [len(course.acts.rstrip("-")) for course in plan.courses]
    return answer(0, f"accepted agents {len(costs)} cost {sum(costs)} makespan {max(costs, default=0)}\n")


def calls(seed: int) -> Iterator[Call]:
    """Those on a plan at random, with faults as a rule, and on another without."""
    rng = random.Random(f"listing {seed}")
    map_text, free = random_map(rng)
    ground = Ground(tuple(map_text.splitlines()[4:]))
    valid = rested(rng, read(random_plan(rng, free, may_turn=seed % 2 == 0)))
    for plan in (spoiled(rng, valid), valid):
        files = {"m": map_text, "p": plan.text()}
        faults = list(all_faults(ground, plan))
        most = max(rng.choice((1, 2, len(faults), len(faults) + 1, 4_294_967_295)), 1)
        if faults:
            yield ["check", "m", "p", "--all"], files, due(faults, USUAL_MOST, False)
            yield ["check", "m", "p", f"--all={most}"], files, due(faults, most, False)
            yield ["check", "m", "p", "--json", f"--all={most}"], files, due(faults, most, True)
        else:
            turn = first_rotation(plan)
            yield ["check", "m", "p", "--all"], files, accepted(plan)
            yield ["check", "m", "p", "--no-rotation"], files, answer(1, f"rejected {turn}\n") if turn else accepted(plan)
            if turn:
                last = f"faults 1 agents {len(turn.split()) - 2}"
                yield ["check", "m", "p", "--all", "--no-rotation"], files, answer(1, f"rejected {turn}\n{last}\n")


def outcomes(harness: Harness) -> Iterator[Outcome]:
    seeds = LONG_SEEDS if harness.is_long else SHORT_SEEDS
    yield from side_by_side([functools.partial(outcomes_of, harness, calls, seed) for seed in seeds])
