"""`mapf status` and `mapf lost` beside a plain model: fleets that were stopped anywhere, tapes that are lost or damaged, and rotations that block."""
import functools
import json
import os
import random
from typing import Iterator, Optional

from answers import answer
from harness import Ended, Harness, Outcome, compared, shown as shown_words, side_by_side
from one_run import faults_of, lost_places, turns_of
from random_runs import random_map, random_plan
from run_model import Agent, agents_of, courses_of
from texts import LANE, BEHIND, beside, plan

SHORT_SEEDS, LONG_SEEDS = range(1, 121), range(1, 1001)
NUMBER = 7
# What is written over a tape, and the fault that its line names then.
DAMAGES = {"NoTape": None, "Damaged 0": b"\x51" * 10, "WrongPlan 0": bytes.fromhex("50010000000800000000")}
SQUARE = "type octile\nheight 2\nwidth 2\nmap\n..\n..\n"
# Agents in a ring that turn twice, and one that comes into it.
TURNING = plan("0 0 es", "1 0 sw", "1 1 wn", "0 1 ne")


def tape_of(agent: int, records: int) -> bytes:
    """So many records of an agent's tape."""
    return b"".join(b"P" + bytes([1 + at % 2]) + NUMBER.to_bytes(4, "big") + agent.to_bytes(2, "big") + ((at + 1) // 2).to_bytes(2, "big") for at in range(records))


def reach(rng: random.Random, agents: list[Agent]) -> None:
    """Lets agents drive, each as soon as it may, and stops them somewhere."""
    for _ in range(rng.randrange(6 * len(agents) + 1)):
        agent = rng.choice(agents)
        if agent.is_moving:
            agent.records += 1
        elif agent.done < len(agent.needs):
            need = agent.needs[agent.done]
            if not need or agents[need[0]].done >= need[1]:
                agent.records += 1


class Fleet:
    """What is known of all agents, of whom some have a fault in place of a tape."""

    def __init__(self, plan_text: str, agents: list[Agent], faults: dict[int, str]):
        self.agents, self.faults = agents, faults
        self.plan_text, self.courses = plan_text, courses_of(plan_text)

    def done(self, agent: int) -> int:
        return 0 if agent in self.faults else self.agents[agent].done

    def waits(self, agent: int) -> Optional[tuple[int, int]]:
        """For whom an agent waits, and how many moves that one has to have finished."""
        it = self.agents[agent]
        if agent in self.faults or it.is_moving or it.done == len(it.needs):
            return None
        need = it.needs[it.done]
        return need if need and self.done(need[0]) < need[1] else None

    def line(self, agent: int) -> str:
        it = self.agents[agent]
        if agent in self.faults:
            # There is no room for a record where there is no move.
            is_too_long = not it.needs and DAMAGES[self.faults[agent]] is not None
            return f"{agent} {'TooLong' if is_too_long else self.faults[agent]}"
        cells = " ".join(f"{x} {y}" for x, y in it.held())
        need = self.waits(agent)
        keeps = "" if it.is_moving else " arrived" if it.done == len(it.needs) else f" waits {need[0]} {need[1]}" if need else " ready"
        return f"{agent} {'between' if it.is_moving else 'at'} {cells} done {it.done} of {len(it.needs)}{keeps}"

    def thing(self, agent: int) -> dict[str, object]:
        """The same as an object."""
        if agent in self.faults:
            return {"agent": agent, "fault": self.line(agent).partition(" ")[2]}
        it, need = self.agents[agent], self.waits(agent)
        state = "moving" if it.is_moving else "arrived" if it.done == len(it.needs) else "waits" if need else "ready"
        held = [number for cell in it.held() for number in cell]
        of_need = {"for": need[0], "until": need[1]} if need else {}
        return {"agent": agent, "between" if it.is_moving else "at": held, "done": it.done, "of": len(it.needs), "state": state, **of_need}

    def end(self, agent: int) -> int:
        """Who keeps an agent in the end: one that waits for nobody, or the least of those that wait in a circle."""
        seen = [agent]
        while need := self.waits(seen[-1]):
            if need[0] in seen:
                return min(seen[seen.index(need[0]) :])
            seen.append(need[0])
        return seen[-1]

    def stands_before(self, agent: int, step: int) -> bool:
        """Whether an agent is known to stand, with its next move planned in a step."""
        times = [time for time, _ in self.courses[agent]]
        it = self.agents[agent]
        return agent not in self.faults and not it.is_moving and it.done < len(it.needs) and times[it.done + 1] == step + 1

    def keepers(self) -> list[tuple[str, int, int]]:
        """Who keeps others: its kind, its number, and how many."""
        count = len(self.agents)
        ends = [self.end(agent) for agent in range(count)]
        roots = [(root, sum(end == root for end in ends) - 1) for root in range(count) if self.waits(root) is None]
        circles = [
            (at, sum(end in turn.agents for end in ends))
            for at, turn in enumerate(turns_of(self.plan_text))
            if all(self.stands_before(agent, turn.step) for agent in turn.agents)
        ]
        return [*(("root", root, keeps) for root, keeps in roots if keeps), *(("rotation", at, keeps) for at, keeps in circles)]

    def run_faults(self) -> list[tuple[int, ...]]:
        """What shows that the tapes are not those of one run."""
        return faults_of(self.plan_text, self.agents, lambda agent: agent not in self.faults)

    def lost(self, agent: int) -> Ended:
        """How `mapf lost` ends of an agent."""
        if self.run_faults():
            return answer(1, "NotOneRun")
        places = lost_places(self.agents, agent, lambda other: other not in self.faults)
        return answer(0, "".join(f"at {x} {y} done {count}\n" for (x, y), count in places))

    @property
    def status(self) -> int:
        return 1 if self.faults or self.run_faults() else 0

    def text(self) -> str:
        lines = [self.line(agent) for agent in range(len(self.agents))]
        lines += [f"{kind} {number} keeps {keeps}" for kind, number, keeps in self.keepers()]
        lines += [f"NotOneRun {' '.join(str(number) for number in numbers)}" for numbers in self.run_faults()]
        return "".join(f"{line}\n" for line in lines)

    def json(self) -> str:
        """An object in a line, for each of these lines."""
        things = [self.thing(agent) for agent in range(len(self.agents))]
        things += [{kind: number, "keeps": keeps} for kind, number, keeps in self.keepers()]
        things += [run_fault(*numbers) for numbers in self.run_faults()]
        return "".join(json.dumps(thing, separators=(",", ":")) + "\n" for thing in things)


def run_fault(first: int, *others: int) -> dict[str, object]:
    """A line `NotOneRun` as an object."""
    if not others:
        return {"fault": "NotOneRun", "rotation": first}
    return {"fault": "NotOneRun", "agents": [first, others[0]], "until": others[1]}


def tapes_of(fleet: Fleet) -> dict[str, bytes]:
    """The tapes of a fleet, by the names of their files."""
    files = {}
    for agent, it in enumerate(fleet.agents):
        content = DAMAGES[fleet.faults[agent]] if agent in fleet.faults else tape_of(agent, it.records)
        if content is not None:
            files[f"{agent}.tape"] = content
    return files


def shown(harness: Harness, name: str, texts: tuple[str, str], fleet: Fleet) -> Outcome:
    """The outcome of a call over the tapes of a fleet."""
    folder = harness.folder({"M": texts[0].encode(), "P": texts[1].encode(), **tapes_of(fleet)})
    for words, text in (([], fleet.text()), (["--json"], fleet.json())):
        ended = harness.mapf(["status", "M", "P", "%.tape", *words], folder=folder)
        due = Ended(fleet.status, text.encode(), b"")
        if ended != due:
            return Outcome(name, f"ran    {' '.join(['mapf status M P %.tape', *words])}\n    wrote  {ended}\n    due    {due}")
    for agent in range(len(fleet.agents)):
        ended = harness.mapf(["lost", "M", "P", "%.tape", str(agent)], folder=folder)
        if ended != fleet.lost(agent):
            return Outcome(name, f"ran    mapf lost M P %.tape {agent}\n    wrote  {ended}\n    due    {fleet.lost(agent)}")
    return Outcome(name, "")


def random_fleet(rng: random.Random, may_turn: bool) -> tuple[str, str, Fleet]:
    """A map, a plan, and a fleet that was stopped somewhere, some of whose tapes have a fault."""
    map_text, free = random_map(rng)
    plan_text = random_plan(rng, free, may_turn)
    agents = agents_of(plan_text)
    reach(rng, agents)
    faults = {agent: rng.choice(list(DAMAGES)) for agent in range(len(agents)) if rng.random() < 0.1}
    return map_text, plan_text, Fleet(plan_text, agents, faults)


def ahead_of_tapes(harness: Harness, seed: int) -> Outcome:
    """Each drive goes on as far as its way is free by the tapes, and stops anywhere: `mapf lost` names the cell, whether its own tape is lost or not."""
    rng = random.Random(f"ahead {seed}")
    map_text, plan_text, fleet = random_fleet(rng, may_turn=False)
    folder = harness.folder({"M": map_text.encode(), "P": plan_text.encode(), **tapes_of(Fleet(plan_text, fleet.agents, {}))})
    for agent, it in enumerate(fleet.agents):
        furthest = lost_places(fleet.agents, agent, lambda other: True)[-1][1]
        x, y = it.path[rng.randint(it.done, furthest)]
        for is_lost in (False, True):
            if is_lost:
                (folder / f"{agent}.tape").unlink()
            found = harness.mapf(["lost", "M", "P", "%.tape", str(agent)], folder=folder)
            if f"at {x} {y} done " not in found.out.decode():
                return Outcome(f"drives ahead, seed {seed}", f"robot {agent} is in {x} {y}\n    wrote  {found}")
        (folder / f"{agent}.tape").write_bytes(tape_of(agent, it.records))
    return Outcome(f"drives ahead, seed {seed}", "")


def with_any_tapes(rng: random.Random, plan_text: str) -> Fleet:
    """Tapes that were hardly ever so at one time."""
    agents = agents_of(plan_text)
    for agent in agents:
        agent.records = rng.randint(0, 2 * len(agent.needs))
    return Fleet(plan_text, agents, {agent: rng.choice(list(DAMAGES)) for agent in range(len(agents)) if rng.random() < 0.1})


def of_random_fleets(harness: Harness, seed: int) -> list[Outcome]:
    rng = random.Random(seed)
    map_text, plan_text, fleet = random_fleet(rng, seed % 2 == 0)
    # A fleet that drives never comes to such a line.
    assert not fleet.run_faults()
    mixed = with_any_tapes(rng, plan_text)
    return [
        shown(harness, f"a fleet that was stopped, seed {seed}", (map_text, plan_text), fleet),
        shown(harness, f"tapes of no one run, seed {seed}", (map_text, plan_text), mixed),
        ahead_of_tapes(harness, seed),
    ]


def with_records(plan_text: str, *records: int) -> Fleet:
    agents = agents_of(plan_text)
    for agent, count in zip(agents, records):
        agent.records = count
    return Fleet(plan_text, agents, {})


# Each of the two follows on from what they have in common, and agent 1 goes another way by each.
COMMON = plan("0 0 e", "0 1 -")
ONE, OTHER = plan("0 0 e-", "0 1 --e"), plan("0 0 e-", "0 1 -n")
# What is beside the tapes of the two agents, which lines come of it behind those of the agents, and the status.
PLANS_BESIDE = {
    "none": ((None, None), "", 0),
    "one plan": ((ONE, ONE), "", 0),
    "one plan, and none": ((None, OTHER), "", 0),
    "a plan and one that goes on from it": ((COMMON, OTHER), "", 0),
    "the same the other way round": ((OTHER, COMMON), "", 0),
    "two plans that go on from one": ((ONE, OTHER), "PlansPart 0 1 2\n", 1),
    "another number": ((ONE, ONE.replace("number 7", "number 8")), "PlansPart 0 1 0\n", 1),
    "more agents": ((COMMON, plan("0 0 e", "0 1 -", "1 1 =")), "PlansPart 0 1 0\n", 1),
    "no plan": ((ONE, "mapf-plan 2\n"), "beside 1 PlanDamaged\n", 1),
    "what ends early": ((ONE[:-1], ONE), "beside 0 PlanDamaged\n", 1),
}
BESIDE_AS_JSON = {
    "PlansPart 0 1 2\n": '{"fault":"PlansPart","agents":[0,1],"time":2}\n',
    "PlansPart 0 1 0\n": '{"fault":"PlansPart","agents":[0,1],"time":0}\n',
    "beside 1 PlanDamaged\n": '{"beside":1,"fault":"PlanDamaged"}\n',
    "beside 0 PlanDamaged\n": '{"beside":0,"fault":"PlanDamaged"}\n',
    "": "",
}


def plans_beside(harness: Harness) -> Iterator[Outcome]:
    """Plans beside tapes that belong together, that part, and that are none."""
    fleet = with_records(COMMON, 0, 0)
    for name, (plans, more, status) in PLANS_BESIDE.items():
        files = {"M": SQUARE.encode(), "P": COMMON.encode(), **tapes_of(fleet)}
        files.update({f"{agent}.tape.plan": beside("-", text) for agent, text in enumerate(plans) if text is not None})
        folder = harness.folder(files)
        for words, text in (([], fleet.text() + more), (["--json"], fleet.json() + BESIDE_AS_JSON[more])):
            called = ["status", "M", "P", "%.tape", *words]
            due = Ended(status, text.encode(), b"")
            yield compared(f"plans beside tapes: {name}", shown_words(["mapf", *called]), harness.mapf(called, folder=folder), due)


def third_plan(harness: Harness) -> Iterator[Outcome]:
    """Of three plans the one that goes furthest so far, and last where several do, is the one with which the next is compared."""
    start = plan("0 0 =", "1 0 =", "0 1 =")
    further, other = plan("0 0 =", "1 0 =", "0 1 e"), plan("0 0 =", "1 0 s", "0 1 =")
    for name, first in (("that goes further", start), ("and the same again", further)):
        fleet = with_records(start, 0, 0, 0)
        files = {"M": SQUARE.encode(), "P": start.encode(), **tapes_of(fleet)}
        files.update({f"{agent}.tape.plan": beside("-", text) for agent, text in enumerate((first, further, other))})
        called = ["status", "M", "P", "%.tape"]
        due = Ended(1, f"{fleet.text()}PlansPart 1 2 1\n".encode(), b"")
        yield compared(f"three plans beside tapes, one {name}", shown_words(["mapf", *called]), harness.mapf(called, folder=harness.folder(files)), due)


def no_files(harness: Harness) -> Iterator[Outcome]:
    """What is no file of bytes is never opened: to open a pipe would wait for who writes it."""
    fleet = Fleet(BEHIND, agents_of(BEHIND), {})
    for name in ("1.tape", "1.tape.plan"):
        for kind, make in (("pipe", os.mkfifo), ("folder", os.mkdir)):
            files = {"M": LANE.encode(), "P": BEHIND.encode(), **tapes_of(fleet)}
            files.pop(name, None)
            folder = harness.folder(files)
            make(folder / name)
            called = ["status", "M", "P", "%.tape"]
            lines = fleet.text().splitlines()
            if name == "1.tape":
                lines = [lines[0], "1 OpenFailed"]
            else:
                lines.append("beside 1 OpenFailed")
            due = Ended(1, "".join(f"{line}\n" for line in lines).encode(), b"")
            yield compared(f"a {kind} as {name}", shown_words(["mapf", *called]), harness.mapf(called, folder=folder), due)


def outcomes(harness: Harness) -> Iterator[Outcome]:
    yield shown(harness, "a fleet that has not begun", (LANE, BEHIND), Fleet(BEHIND, agents_of(BEHIND), {}))
    yield shown(harness, "a ring that turns twice", (SQUARE, TURNING), Fleet(TURNING, agents_of(TURNING), {}))
    yield shown(harness, "a ring in which one has begun", (SQUARE, TURNING), with_records(TURNING, 1, 0, 0, 0))
    yield shown(harness, "a ring that has turned", (SQUARE, TURNING), with_records(TURNING, 2, 2, 2, 2))
    yield shown(harness, "one that has entered a cell that is not left", (LANE, BEHIND), with_records(BEHIND, 0, 1))
    yield from plans_beside(harness)
    yield from third_plan(harness)
    yield from no_files(harness)
    seeds = LONG_SEEDS if harness.is_long else SHORT_SEEDS
    yield from side_by_side(functools.partial(of_random_fleets, harness, seed) for seed in seeds)
