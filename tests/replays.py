"""Runs of `mapf run` beside a plain model of them: events at random, and a run that is stopped at each of its writes."""
import functools
import random
import shutil
from typing import Iterator, Optional, Sequence

from answers import answer
from completing import summary
from harness import Ended, Harness, Outcome, side_by_side
from random_runs import random_events, random_map, random_plan
from run_model import Run
from texts import BEHIND, LANE, events, plan

# Three by three free cells, and plans on them.
FIELD = "type octile\nheight 3\nwidth 3\nmap\n...\n...\n...\n"
NAMED = {
    "one behind another round the middle": plan("1 0 essw", "2 0 ssww", "0 0 eess", "0 1 nees"),
    # Agent 3 comes back with nobody at its start in between.
    "agents that cross": plan("1 1 e--wn", "1 0 -sse", "1 2 -w---e", "0 0 --ew"),
    # Two go round into each other's starts, and one between them steps aside and back.
    "agents that go round": plan("0 0 eess", "2 2 wwnn", "0 1 -e--w"),
    # It is in the way of every run, behind a first move of agent 2.
    "a rotation": plan("0 0 -e", "1 0 -s", "2 1 ww", "0 1 -n"),
}
# How many events bring all agents to their ends, where anything does.
MANY = 10_000
VERSIONS = (1, 2)
SHORT_SEEDS, LONG_SEEDS = range(1, 61), range(1, 501)
NAMED_SEEDS, LONG_NAMED_SEEDS = range(1, 4), range(1, 17)

# A run of two agents: each event, and its reply. Those whose agent writes a record can be torn.
ROW_RUN = [
    ("start 0", "moving 2 0"),
    ("finish 0", "arrived 2 0"),
    ("say 0", "said 0 460100000000000700000001"),
    ("deliver 1 0", "heard 0 1"),
    ("start 1", "moving 1 0"),
    ("finish 1", "arrived 1 0"),
]
# What a restart says before and behind each of these writes.
WRITES = {
    "start 0": ("at 1 0 done 0", "between 1 0 2 0 done 0"),
    "finish 0": ("between 1 0 2 0 done 0", "at 2 0 done 1"),
    "start 1": ("at 0 0 done 0", "between 0 0 1 0 done 0"),
    "finish 1": ("between 0 0 1 0 done 0", "at 1 0 done 1"),
}


def walk_fault(run: Run, lines: Sequence[str], replies: Sequence[str]) -> str:
    """What is wrong with the cells that agents were told to enter: each walks along its path."""
    walks = [agent.path[:1] for agent in run.agents]
    for line, reply in zip(lines, replies):
        word, *numbers = reply.split(" ")
        if word not in ("moving", "between"):
            continue
        walk = walks[int(line.split(" ")[1])]
        # An agent that goes on between two cells is told of the second one, unless it was before.
        if word == "moving" or len(walk) == int(numbers[-1]) + 1:
            x, y = numbers[:2] if word == "moving" else numbers[2:4]
            walk.append((int(x), int(y)))
    for agent, walk in zip(run.agents, walks):
        if walk != agent.path[: len(walk)]:
            return f"the walk {walk}, and the path {agent.path}"
    return ""


def fault_in(run: Run, lines: Sequence[str], ended: Ended) -> str:
    """What is wrong with the replies to events: each is the model's, and behind each event no two agents hold a cell."""
    replies = ended.out.decode("latin-1").splitlines()
    for number, (line, reply) in enumerate(zip(lines, replies)):
        due = run.reply(line)
        if reply != due:
            return f"the event {number}, {line!r}, is answered by {reply!r}, and due is {due!r}"
        if run.shared():
            return f"behind the event {number}, {line!r}, two agents hold the cell {run.shared()}"
    due = answer(0, "".join(f"{reply}\n" for reply in replies[: len(lines)]))
    return walk_fault(run, lines, replies) if ended == due and len(replies) == len(lines) else f"{summary(ended)} to {len(lines)} events"


def judged(harness: Harness, name: str, map_text: str, plan_text: str, text: str, is_over: Optional[bool] = None) -> Outcome:
    """The outcome of a run, behind which all agents have come to their ends, or not, where that is known."""
    folder = harness.folder({"M": map_text.encode(), "P": plan_text.encode(), "E": text.encode()})
    ended = harness.mapf(["run", "M", "P", "E"], folder=folder)
    shutil.rmtree(folder)
    header, *lines = text.splitlines()
    run = Run(plan_text, int(header.split(" ")[1]))
    fault = fault_in(run, lines, ended)
    if not fault and is_over not in (None, run.is_over()):
        fault = f"all agents are at their ends: {run.is_over()}, and due is {is_over}"
    return Outcome(name, fault and f"ran    mapf run M P E  with the plan {plan_text!r} and the events {text[:300]!r}\n    found  {fault}")


def of_random_runs(harness: Harness, seed: int) -> list[Outcome]:
    rng = random.Random(f"replays {seed}")
    map_text, free = random_map(rng)
    plan_text = random_plan(rng, free, may_turn=seed % 4 == 0)
    agents = plan_text.count("\nagent ")
    texts = [(version, random_events(rng, agents, version, rng.randrange(600))) for version in VERSIONS]
    return [judged(harness, f"seed {seed}, version {version}", map_text, plan_text, text) for version, text in texts]


def of_named_runs(harness: Harness, name: str, version: int, seed: int) -> list[Outcome]:
    """Every one of these runs comes to its end, however its events come; a rotation never begins."""
    plan_text = NAMED[name]
    rng = random.Random(f"replays {name} {version} {seed}")
    text = random_events(rng, plan_text.count("\nagent "), version, MANY)
    return [judged(harness, f"{name}, version {version}, seed {seed}", FIELD, plan_text, text, name != "a rotation")]


def stopped(torn: str, count: int) -> list[tuple[str, str]]:
    """The run in which a write is torn behind so many bytes, and made again unless it was whole: its events and their replies."""
    turns = []
    for event, reply in ROW_RUN:
        if event != torn:
            turns.append((event, reply))
            continue
        agent = event.split(" ")[1]
        before, behind = WRITES[event]
        turns += [(f"tear {agent} {count}", "armed"), (event, "refused StoreFailed")]
        turns.append((f"restart {agent}", behind if count == 10 else before))
        if count < 10 and event == "start 1":
            # What was heard is forgotten, and heard again.
            turns.append(("deliver 1 0", "heard 0 1"))
        turns += [(event, reply)] if count < 10 else []
    return turns


def of_stops(harness: Harness) -> Iterator[Outcome]:
    for torn in WRITES:
        for count in range(11):
            lines, replies = zip(*stopped(torn, count))
            name = f"{torn!r} torn after {count} bytes"
            run = Run(BEHIND, 1)
            known = [run.reply(line) for line in lines]
            yield Outcome(name) if known == list(replies) else Outcome(name, f"the model has {known}, and due is {replies}")
            yield judged(harness, name, LANE, BEHIND, events(*lines), is_over=True)


def outcomes(harness: Harness) -> Iterator[Outcome]:
    yield from of_stops(harness)
    seeds, named_seeds = (LONG_SEEDS, LONG_NAMED_SEEDS) if harness.is_long else (SHORT_SEEDS, NAMED_SEEDS)
    yield from side_by_side(functools.partial(of_random_runs, harness, seed) for seed in seeds)
    named = [(name, version, seed) for name in NAMED for version in VERSIONS for seed in named_seeds]
    yield from side_by_side(functools.partial(of_named_runs, harness, *it) for it in named)
