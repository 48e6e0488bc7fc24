"""Plans that go on from plans: chains of random plans, each beside a plain model of `mapf continues`."""
import dataclasses
import functools
import random
import shutil
from typing import Callable, Iterator, Sequence

from answers import answer
from harness import Ended, Harness, Outcome, ended_as, side_by_side
from plan_chains import Course, Plan, difference, extended, read, rested
from random_runs import Cell, random_map, random_plan

ACTS = "nesw-"
SHORT_SEEDS, LONG_SEEDS = range(1, 301), range(1, 3_001)
# Of so many pairs of each chain an answer is asked for in the usual run.
SHORT_PAIRS = 6


# ---- the model


def least_fault(free: Sequence[Cell], plan: Plan) -> str:
    """The first fault of a plan by time, then kind, then agents; nothing where it is valid."""
    tracks = [[course.place(time) for time in range(plan.longest + 1)] for course in plan.courses]
    for time in range(plan.longest + 1):
        now = [track[time] for track in tracks]
        for agent, cell in enumerate(now):
            if cell not in free:
                return f"BadMove {agent} {time - 1}" if time else f"BadStart {agent}"
        pairs = [(i, j) for i in range(len(now)) for j in range(i + 1, len(now))]
        for i, j in pairs:
            if now[i] == now[j]:
                return f"Vertex {i} {j} {time} {now[i][0]} {now[i][1]}"
        before = [track[time - 1] for track in tracks] if time else now
        for i, j in pairs:
            if now[i] == before[j] and now[j] == before[i] and now[i] != before[i]:
                return f"Swap {i} {j} {time - 1}"
    return ""


def due(free: Sequence[Cell], old: Plan, new: Plan) -> Ended:
    fault = least_fault(free, old) or least_fault(free, new) or difference(old, new)
    return answer(1, fault) if fault else answer(0, f"continues from {old.longest}, adds {new.moves - old.moves} moves\n")


# ---- plans and what is made of them


def other_act(rng: random.Random, plan: Plan, agent: int, step: int) -> Plan:
    """The plan in which the agent does something else in the step, which may be behind its last one."""
    course = plan.courses[agent]
    acts = course.acts.ljust(step + 1, "-")
    act = rng.choice([act for act in ACTS if act != acts[step]])
    return plan.with_course(agent, Course(course.start, f"{acts[:step]}{act}{acts[step + 1:]}"))


def side_step(rng: random.Random, plan: Plan, agent: int, step: int) -> Plan:
    """The plan in which the agent does something else in a step and the contrary in the next one."""
    there, back = rng.choice(("ns", "sn", "ew", "we"))
    course = plan.courses[agent]
    acts = course.acts.ljust(step, "-")
    return plan.with_course(agent, Course(course.start, f"{acts[:step]}{there}{back}{acts[step:]}"))


def other_start(rng: random.Random, free: Sequence[Cell], plan: Plan, agent: int) -> Plan:
    return plan.with_course(agent, Course(rng.choice(free), plan.courses[agent].acts))


def at_end(plan: Plan, agent: int) -> int:
    """The first step after the agent's last move."""
    return len(plan.courses[agent].acts.rstrip("-"))


def departures(rng: random.Random, free: Sequence[Cell], plan: Plan) -> Iterator[tuple[str, Plan]]:
    """What is like the plan but for one agent, at each kind of place. Some of them are no valid plans."""
    last_step, last_agent = max(plan.longest - 1, 0), len(plan.courses) - 1
    agent, step = rng.randrange(last_agent + 1), rng.randint(0, last_step)
    yield "another start", other_start(rng, free, plan, agent)
    yield "another act", other_act(rng, plan, agent, step)
    yield "another act of the last agent", other_act(rng, plan, last_agent, step)
    yield "another act in the last step", other_act(rng, plan, agent, last_step)
    yield "an act behind the last step", other_act(rng, plan, agent, last_step + 1)
    yield "an act in the waits at the end", other_act(rng, plan, agent, min(at_end(plan, agent), last_step))
    yield "a side step", side_step(rng, plan, agent, step)


def counted_otherwise(rng: random.Random, free: Sequence[Cell], plan: Plan) -> Iterator[tuple[str, Plan]]:
    yield "another number", dataclasses.replace(plan, number=rng.choice((0, plan.number + 1, 4_294_967_295)))
    yield "an agent less", dataclasses.replace(plan, courses=plan.courses[:-1])
    yield "an agent more", dataclasses.replace(plan, courses=(*plan.courses, Course(rng.choice(free), "")))
    yield "nobody", dataclasses.replace(plan, courses=())
    yield "agents in another order", dataclasses.replace(plan, courses=plan.courses[::-1])


def pairs(rng: random.Random, free: Sequence[Cell], plan: Plan) -> Iterator[tuple[str, Plan, Plan]]:
    """An old plan and a new one, and what is told of them."""
    second = rested(rng, extended(rng, free, plan, rng.randrange(5), True))
    third = rested(rng, extended(rng, free, second, rng.randrange(5), True))
    for name, old, new in (("A to B", plan, second), ("B to C", second, third), ("A to C", plan, third), ("A to A", plan, plan)):
        yield name, old, new
        yield f"{name}, exchanged", new, old
    time = rng.randint(0, second.longest + 1)
    yield f"cut at {time}", second.cut(time), second
    yield f"to what is left where it is cut at {time}", second, second.cut(time)
    for name, other in (*rng.sample(list(departures(rng, free, plan)), 3), rng.choice(list(counted_otherwise(rng, free, plan)))):
        yield f"to {name}", plan, other
        yield f"to {name}, which goes on", plan, extended(rng, free, other, 2, True) if not least_fault(free, other) else other
        yield f"from {name}", other, second
    spoiled = other_act(rng, second, rng.randrange(len(plan.courses)), rng.randrange(second.longest + 1))
    yield "both spoiled", spoiled, other_act(rng, spoiled, 0, 0)


# ---- what is run


def judged(harness: Harness, name: str, map_text: str, free: Sequence[Cell], plans: tuple[Plan, Plan]) -> Outcome:
    old, new = plans
    folder = harness.folder({"M": map_text.encode(), "P": old.text().encode(), "Q": new.text().encode()})
    ended = harness.mapf(["continues", "M", "P", "Q"], folder=folder)
    shutil.rmtree(folder)
    return ended_as(name, f"mapf continues M P Q  with the plans {old.text()!r} and {new.text()!r} on {map_text!r}", ended, due(free, old, new))


def of_a_chain(harness: Harness, seed: int) -> list[Outcome]:
    """A plan at random, and what goes on from it and what doesn't."""
    rng = random.Random(f"continuations {seed}")
    map_text, free = random_map(rng)
    first = rested(rng, read(random_plan(rng, free, may_turn=seed % 4 == 0)))
    chosen = list(pairs(rng, free, first))
    chosen = chosen if harness.is_long else rng.sample(chosen, SHORT_PAIRS)
    return [judged(harness, f"seed {seed}, {name}", map_text, free, (old, new)) for name, old, new in chosen]


def of_each_time(harness: Harness, seed: int) -> list[Outcome]:
    """A plan that is cut at each time goes on from what is left, and what is left from it where it lacks waits alone."""
    rng = random.Random(f"cuts {seed}")
    map_text, free = random_map(rng)
    plan = rested(rng, read(random_plan(rng, free, may_turn=True)))
    kept = [(time, plan.cut(time)) for time in range(plan.longest + 2)]
    found = [judged(harness, f"seed {seed}, cut at {time}", map_text, free, (left, plan)) for time, left in kept]
    return found + [judged(harness, f"seed {seed}, to what is left at {time}", map_text, free, (plan, left)) for time, left in kept]


def outcomes(harness: Harness) -> Iterator[Outcome]:
    seeds: Sequence[int] = LONG_SEEDS if harness.is_long else SHORT_SEEDS
    tests: list[Callable[[], list[Outcome]]] = [functools.partial(of_a_chain, harness, seed) for seed in seeds]
    yield from side_by_side([*tests, *(functools.partial(of_each_time, harness, seed) for seed in seeds[: len(seeds) // 30])])
