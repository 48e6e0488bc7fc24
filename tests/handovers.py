"""`mapf handover` and `mapf anew` beside a plain model: fleets that were stopped anywhere, tapes that are lost, damaged or of another run, and what
comes out put to use."""
import dataclasses
import functools
import itertools
import os
import pathlib
import random
from typing import Iterator, Mapping, NamedTuple, Optional, Sequence

from answers import ARRIVED_AS_OTHER, OTHER_AGENT, answer, lines
from harness import Ended, Harness, Outcome, compared, ended_as, shown, side_by_side
from listing import first_rotation
from one_run import is_one_run
from plan_chains import Course, Plan, read
from random_runs import Cell, moved, random_map, random_plan
from run_model import agents_of
from statuses import TURNING, reach, tape_of
from texts import BEHIND, LANE, NOBODY, ONWARD, SQUARE, SWAP, WALL, beside, plan

SHORT_SEEDS, LONG_SEEDS = range(1, 61), range(1, 601)
# The number of the new plan, and the greatest that there is.
NEW, GREATEST = 9, 4_294_967_295
# Where the tapes are, and that of an agent; and what may stand there that is no file.
TAPES, TAPE = "%.tape", "{}.tape"
FOLDER, LOOP = b"a folder", b"a link to itself"
NOISE = b"\x51" * 10


@dataclasses.dataclass(frozen=True)
class Fleet:
    """A plan on a map, how many records each tape has, and what stands in place of some tapes."""

    map_text: str
    plan: Plan
    records: tuple[int, ...]
    instead: Mapping[int, Optional[bytes]] = dataclasses.field(default_factory=dict)
    # A part of a record behind each tape, which counts as nothing.
    torn: bytes = b""

    def begun(self, agent: int) -> int:
        """How many moves an agent has begun: a record is stored where one begins, and one where it ends."""
        return 0 if agent in self.instead else (self.records[agent] + 1) // 2

    def folder(self, harness: Harness) -> pathlib.Path:
        """A folder with the map `M`, the plan `P` and the tapes."""
        folder = harness.folder({"M": self.map_text.encode(), "P": self.plan.text().encode()})
        for agent, count in enumerate(self.records):
            put(folder / TAPE.format(agent), self.instead.get(agent, tape_of(agent, count) + self.torn))
        return folder

    def bad_tape(self, without: Optional[int] = None) -> str:
        """The fault of the first tape that has one, of those that count."""
        faulty = sorted(agent for agent in self.instead if agent != without)
        return f"BadTape {faulty[0]}" if faulty else ""

    def no_run(self, without: Optional[int] = None) -> str:
        """The fault of tapes that are not those of one run."""
        return "" if is_one_run(self.plan.text(), self.records, lambda agent: agent != without and agent not in self.instead) else "NotOneRun"


def put(path: pathlib.Path, content: Optional[bytes]) -> None:
    """Makes a file, or what stands in its place."""
    if content == FOLDER:
        path.mkdir()
    elif content == LOOP:
        os.symlink(path.name, path)
    elif content is not None:
        path.write_bytes(content)


# ---- what is due


def cut_at(fleet: Fleet) -> int:
    """The least time before which each agent has so many moves as it has begun."""
    courses = fleet.plan.courses
    return next(time for time in itertools.count() if all(Course(it.start, it.acts[:time]).moves >= fleet.begun(agent) for agent, it in enumerate(courses)))


def handed_over(fleet: Fleet) -> Ended:
    fault = fleet.bad_tape() or fleet.no_run()
    return answer(1, fault) if fault else answer(0, fleet.plan.cut(cut_at(fleet)).text())


def left_of(course: Course, begun: int) -> Course:
    """From where the begun moves end an agent waits at the times of these."""
    start, acts = course.start, ""
    for act in course.acts:
        if act != "-" and begun:
            start, begun, act = moved(start, act), begun - 1, "-"
        acts += act
    return Course(start, acts)


def first_move(course: Course) -> int:
    return len(course.acts) - len(course.acts.lstrip("-"))


def rest_of(fleet: Fleet, number: int, without: Optional[int]) -> Plan:
    """What is left of the plan, perhaps without an agent, from the first move on that somebody has left."""
    left = [left_of(it, fleet.begun(agent)) for agent, it in enumerate(fleet.plan.courses) if agent != without]
    first = min((first_move(it) for it in left if it.moves), default=0)
    return Plan(number, tuple(Course(it.start, it.acts[first:] if it.moves else "") for it in left))


def has_conflict(it: Plan) -> bool:
    """Whether two agents are in one cell at some time, or exchange their cells."""
    before: list[Cell] = []
    for time in range(it.longest + 1):
        now = [course.place(time) for course in it.courses]
        steps = {step for step in zip(before, now) if step[0] != step[1]}
        if len(set(now)) < len(now) or any((to, since) in steps for since, to in steps):
            return True
        before = now
    return False


def begun_anew(fleet: Fleet, number: int = NEW, without: Optional[int] = None) -> Ended:
    if without is not None and without >= len(fleet.plan.courses):
        return answer(1, "NoSuchAgent")
    if number == fleet.plan.number:
        return answer(1, "SameNumber")
    fault = fleet.bad_tape(without) or fleet.no_run(without)
    if fault:
        return answer(1, fault)
    new = rest_of(fleet, number, without)
    return answer(1, "NotOneRun") if has_conflict(new) else answer(0, new.text())


# ---- what is asked


def asked(harness: Harness, name: str, fleet: Fleet, agents: Sequence[int]) -> list[Outcome]:
    """Both commands on the files of a fleet, and the second one without each of some agents too."""
    folder = fleet.folder(harness)
    calls = [(["handover", "M", "P", TAPES], handed_over(fleet)), (["anew", "M", "P", TAPES, str(NEW)], begun_anew(fleet))]
    calls += [(["anew", "M", "P", TAPES, str(NEW), "--without", str(agent)], begun_anew(fleet, without=agent)) for agent in agents]
    outcomes = []
    for words, due in calls:
        ran = f"{shown(['mapf', *words])}  with the plan {fleet.plan.text()!r} and so many records: {fleet.records}, but {fleet.instead}"
        outcomes.append(ended_as(f"{name}: {words[0]} {' '.join(words[4:])}", ran, harness.mapf(words, folder=folder), due))
    return outcomes


def cut_is_taken(harness: Harness, name: str, fleet: Fleet) -> Iterator[Outcome]:
    """Each agent is started again by the cut, over the tape that it has kept; and the plan goes on from the cut."""
    folder, due = fleet.folder(harness), handed_over(fleet)
    written = harness.mapf(["handover", "M", "P", TAPES], folder=folder).out
    (folder / "C").write_bytes(written)
    for agent, it in enumerate(agents_of(fleet.plan.text())):
        it.records = fleet.records[agent]
        tape = TAPE.format(agent)
        (folder / f"{tape}.plan").write_bytes(beside("+" if it.records else "-", fleet.plan.text()))
        words = ["agent", "M", "C", str(agent), tape, "--tape", "kept"]
        ended = harness.mapf(words, folder=folder)
        wrote = (ended, (folder / f"{tape}.plan").read_bytes())
        cells = " ".join(f"{x} {y}" for x, y in it.held())
        state = Ended(0, lines(f"{'between' if it.is_moving else 'at'} {cells} done {it.done}"), b"")
        kept = beside("+" if it.records else "-", due.out.decode())
        yield compared(f"{name}: agent {agent} by the cut", shown(["mapf", *words]), wrote, (state, kept))
    cut = fleet.plan.cut(cut_at(fleet))
    words = ["continues", "M", "C", "P"]
    goes_on = answer(0, f"continues from {cut.longest}, adds {fleet.plan.moves - cut.moves} moves\n")
    yield ended_as(f"{name}: the plan goes on from the cut", shown(["mapf", *words]), harness.mapf(words, folder=folder), goes_on)


def new_plan_is_good(harness: Harness, name: str, fleet: Fleet, without: Optional[int]) -> Iterator[Outcome]:
    """What is left of each path stays to be driven, to the same ends, and where nobody went round nobody does."""
    folder, option = fleet.folder(harness), [] if without is None else ["--without", str(without)]
    words = ["anew", "M", "P", TAPES, str(NEW), *option]
    written = harness.mapf(words, folder=folder).out
    (folder / "N").write_bytes(written)
    paths = [it.path[fleet.begun(agent) :] for agent, it in enumerate(agents_of(fleet.plan.text())) if agent != without]
    yield compared(f"{name}: paths", shown(["mapf", *words]), [it.path for it in agents_of(written.decode())], paths)
    may_turn = first_rotation(fleet.plan) is not None
    check = ["check", "M", "N", *([] if may_turn else ["--no-rotation"])]
    ended = harness.mapf(check, folder=folder)
    wrote = (ended.status, ended.out.startswith(f"accepted agents {len(paths)} cost ".encode()), ended.err)
    yield compared(f"{name}: {' '.join(check)}", shown(["mapf", *check]), wrote, (0, True, b""))


# ---- fleets


def stopped(rng: random.Random, may_turn: bool) -> Fleet:
    """A fleet that drives a plan, and is stopped anywhere."""
    map_text, free = random_map(rng)
    text = random_plan(rng, free, may_turn)
    agents = agents_of(text)
    reach(rng, agents)
    return Fleet(map_text, read(text), tuple(it.records for it in agents), torn=NOISE[: rng.choice((0, 0, 1, 9))])


def with_older(rng: random.Random, fleet: Fleet) -> Fleet:
    """An older copy stands in place of one tape."""
    agent = max(range(len(fleet.records)), key=lambda it: (fleet.records[it] > 0, rng.random()))
    older = rng.randrange(fleet.records[agent]) if fleet.records[agent] else 0
    return dataclasses.replace(fleet, records=(*fleet.records[:agent], older, *fleet.records[agent + 1 :]))


def with_any(rng: random.Random, fleet: Fleet) -> Fleet:
    """Tapes that were never so at one time."""
    return dataclasses.replace(fleet, records=tuple(rng.randint(0, 2 * it.moves) for it in fleet.plan.courses))


def with_faulty(rng: random.Random, fleet: Fleet) -> Fleet:
    """What stands in place of some tapes is none."""
    count = len(fleet.records)
    agents = rng.sample(range(count), min(count, rng.randint(1, 2)))
    return dataclasses.replace(fleet, instead={agent: rng.choice((None, NOISE, FOLDER, LOOP)) for agent in agents})


def of_seed(harness: Harness, seed: int) -> list[Outcome]:
    rng = random.Random(f"handing over {seed}")
    fleet = stopped(rng, may_turn=seed % 3 == 0)
    agents = range(len(fleet.records))
    name = f"fleet {seed}"
    outcomes = asked(harness, name, fleet, agents)
    outcomes += cut_is_taken(harness, name, fleet)
    outcomes += itertools.chain(*(new_plan_is_good(harness, name, fleet, without) for without in (None, rng.choice(agents))))
    for change, what in ((with_older, "an older tape"), (with_any, "any tapes"), (with_faulty, "no tapes")):
        outcomes += asked(harness, f"{name}, {what}", change(rng, fleet), rng.sample(agents, min(2, len(agents))))
    return outcomes


# ---- what is known by hand


class Case(NamedTuple):
    """A plan on a map, its tapes, the words of a call behind those of the files, and what is due."""

    words: str
    plan_text: str
    records: tuple[int, ...]
    status: int
    text: str
    map_text: str = LANE


ON_BOTH = ("handover M P %.tape", "anew M P %.tape 9")
# Two that are to pass the middle cell, the second behind the first.
PASSING = plan("1 0 e---", "0 0 -e-w")
CASES = (
    Case(ON_BOTH[0], BEHIND, (0, 0), 0, plan("1 0 =", "0 0 =")),
    Case(ON_BOTH[0], BEHIND, (1, 0), 0, plan("1 0 e", "0 0 e")),
    Case(ON_BOTH[0], ONWARD, (2, 2), 0, plan("1 0 e", "0 0 e")),
    Case(ON_BOTH[0], ONWARD, (3, 4), 0, ONWARD),
    Case(ON_BOTH[0], PASSING, (1, 0), 0, plan("1 0 e", "0 0 -")),
    Case(ON_BOTH[0], PASSING, (2, 1), 0, plan("1 0 e-", "0 0 -e")),
    Case(ON_BOTH[0], NOBODY, (), 0, NOBODY),
    Case(ON_BOTH[1], BEHIND, (0, 0), 0, plan("1 0 e-", "0 0 e", number=9)),
    Case(ON_BOTH[1], BEHIND, (1, 0), 0, plan("2 0 =", "0 0 e", number=9)),
    Case(ON_BOTH[1], BEHIND, (2, 2), 0, plan("2 0 =", "1 0 =", number=9)),
    Case(ON_BOTH[1], ONWARD, (2, 1), 0, plan("2 0 w", "1 0 w", number=9)),
    Case(ON_BOTH[1], PASSING, (1, 0), 0, plan("2 0 =", "0 0 e-w", number=9)),
    Case(ON_BOTH[1], PASSING, (0, 0), 0, plan("1 0 e---", "0 0 -e-w", number=9)),
    Case(ON_BOTH[1], NOBODY, (), 0, plan(number=9)),
    Case("anew M P %.tape 0", BEHIND, (0, 0), 0, plan("1 0 e-", "0 0 e", number=0)),
    Case(f"anew M P %.tape {GREATEST}", BEHIND, (1, 0), 0, plan("2 0 =", "0 0 e", number=GREATEST)),
    # The other one has gone where nobody has left yet.
    *(Case(words, BEHIND, (0, 1), 1, "NotOneRun") for words in ON_BOTH),
    # It has gone through the middle cell and back, where the other one should have been before.
    *(Case(words, ONWARD, (0, 4), 1, "NotOneRun") for words in ON_BOTH),
    Case(f"{ON_BOTH[1]} --without 0", BEHIND, (0, 1), 0, plan("1 0 =", number=9)),
    Case(f"{ON_BOTH[1]} --without 1", BEHIND, (0, 1), 0, plan("1 0 e-", number=9)),
    Case(f"{ON_BOTH[1]} --without 1", PASSING, (0, 0), 0, plan("1 0 e---", number=9)),
    Case(f"{ON_BOTH[1]} --without 0", PASSING, (0, 0), 0, plan("0 0 e-w", number=9)),
    Case(f"{ON_BOTH[1]} --without 0", plan("0 0 e"), (0,), 0, plan(number=9)),
    Case("anew M P %.tape 7", BEHIND, (1, 0), 1, "SameNumber"),
    Case("anew M P %.tape 7", NOBODY, (), 1, "SameNumber"),
    Case("anew M P %.tape 7 --without 2", BEHIND, (0, 1), 1, "NoSuchAgent"),
    Case(f"{ON_BOTH[1]} --without 65535", BEHIND, (0, 1), 1, "NoSuchAgent"),
    Case(f"{ON_BOTH[1]} --without 0", NOBODY, (), 1, "NoSuchAgent"),
    # A plan's fault comes before all that.
    *(Case(f"{words}{more}", SWAP, (0, 0), 1, "Swap 0 1 0") for words, more in zip(ON_BOTH, ("", " --without 2"))),
    *(Case(words, "mapf-plan 2\n", (), 1, "BadHeader 1") for words in ON_BOTH),
    *(Case(words, plan("1 0 e"), (0,), 1, "BadStart 0", WALL) for words in ON_BOTH),
    # All turn at once, and none has begun; and one that has begun all, which no run does.
    Case(ON_BOTH[0], TURNING, (0, 0, 0, 0), 0, plan("0 0 =", "1 0 =", "1 1 =", "0 1 ="), SQUARE),
    *(Case(words, TURNING, (1, 0, 0, 0), 1, "NotOneRun", SQUARE) for words in ON_BOTH),
    *(Case(words, TURNING, (2, 2, 2, 2), 1, "NotOneRun", SQUARE) for words in ON_BOTH),
    Case(f"{ON_BOTH[1]} --without 1", TURNING, (1, 0, 0, 0), 1, "NotOneRun", SQUARE),
    Case(f"{ON_BOTH[1]} --without 0", TURNING, (1, 0, 0, 0), 0, plan("1 0 sw", "1 1 wn", "0 1 ne", number=9), SQUARE),
)

# What stands in place of the tape of agent 1 of BEHIND, whom nothing hinders to begin its one move.
NO_TAPES = {
    "none": None,
    "a folder": FOLDER,
    "a link to itself": LOOP,
    "no record": NOISE,
    "a record that ends a move": ARRIVED_AS_OTHER,
    "two that begin one": OTHER_AGENT * 2,
    "a record, and none": OTHER_AGENT + NOISE,
    "of another plan": OTHER_AGENT.replace(b"\7", b"\x08"),
    "of another agent": tape_of(0, 1),
    "a record too many": OTHER_AGENT + ARRIVED_AS_OTHER + NOISE,
    "many too many": NOISE * 100_000,
}


def by_hand(harness: Harness) -> Iterator[Outcome]:
    for case in CASES:
        folder = harness.folder({"M": case.map_text.encode(), "P": case.plan_text.encode()})
        for agent, count in enumerate(case.records):
            put(folder / TAPE.format(agent), tape_of(agent, count))
        ran = f"{shown(['mapf', *case.words.split()])}  with the plan {case.plan_text!r} and so many records: {case.records}"
        name = f"{case.words}, {case.records} of {case.plan_text!r}"
        yield ended_as(name, ran, harness.mapf(case.words.split(), folder=folder), answer(case.status, case.text))


def faulty_tapes(harness: Harness) -> Iterator[Outcome]:
    """Of each kind; two at once; and where the one that is left out is the faulty one."""
    for kind, content in NO_TAPES.items():
        fleet = Fleet(LANE, read(BEHIND), (1, 0), {1: content})
        yield from asked(harness, f"a tape that is {kind}", fleet, (0, 1))
        both = dataclasses.replace(fleet, instead={0: NOISE, 1: content})
        yield from asked(harness, f"two tapes, one that is {kind}", both, (0, 1))


def named_otherwise(harness: Harness) -> Iterator[Outcome]:
    """An agent's number stands in place of each `%`."""
    for name, text, paths, due in (
        ("%", BEHIND, ("0", "1"), plan("2 0 =", "0 0 e", number=NEW)),
        ("%/%.%", BEHIND, ("0/0.0", "1/1.1"), plan("2 0 =", "0 0 e", number=NEW)),
        ("%%", BEHIND, ("00", "11"), plan("2 0 =", "0 0 e", number=NEW)),
    ):
        folder = harness.folder({"M": LANE.encode(), "P": text.encode()})
        for agent, path in enumerate(paths):
            (folder / path).parent.mkdir(exist_ok=True)
            (folder / path).write_bytes(tape_of(agent, 1 - agent))
        words = ["anew", "M", "P", name, str(NEW)]
        due = answer(0 if due.endswith("\n") else 1, due)
        yield ended_as(f"tapes {name} of {len(paths)}", shown(["mapf", *words]), harness.mapf(words, folder=folder), due)


def outcomes(harness: Harness) -> Iterator[Outcome]:
    yield from by_hand(harness)
    yield from faulty_tapes(harness)
    yield from named_otherwise(harness)
    seeds = LONG_SEEDS if harness.is_long else SHORT_SEEDS
    yield from side_by_side(functools.partial(of_seed, harness, seed) for seed in seeds)
