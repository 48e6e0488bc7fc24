"""The Python package of tools/mapf: what it answers beside plain models of plans and runs, and as the documents show it; what it raises where a text
has a fault, a tape is an older one, or a program fails; and which program it finds."""
import functools
import os
import pathlib
import random
import shutil
import sys
from typing import Any, Callable, Iterator, Sequence

from harness import ROOT, Harness, Outcome, compared, put_program, side_by_side
from listing import all_faults, first_rotation, named, rotations, spoiled
from plan_chains import Plan, difference, extended, read, rested
from random_runs import random_events, random_map, random_plan
from run_model import Run, agents_of, courses_of
from scenarios import Ground, numbers_of, random_ground, random_row, row_line, straight_steps
from statuses import Fleet, random_fleet, tapes_of
from texts import BEHIND, LANE, SWAP, plan

TOOLS = ROOT / "tools"
sys.path.append(str(TOOLS))
import mapf  # noqa: E402
from mapf.faults import read_words  # noqa: E402

SHORT_SEEDS, LONG_SEEDS = range(1, 41), range(1, 401)
EXAMPLES = ROOT / "examples"
# The most faults that are listed.
MOST = 7
Test = tuple[str, object, object]


def example(name: str) -> str:
    return str(EXAMPLES / name)


def words(text: str) -> mapf.FaultWords:
    """The words of a fault, as a model tells them."""
    name, *numbers = text.split()
    return mapf.FaultWords(name, tuple(map(int, numbers)))


def raised(call: Callable[[], object]) -> tuple[object, ...]:
    """What a call raises, and what that says."""
    try:
        return ("nothing", call())
    except (mapf.Fault, mapf.Failed) as fault:
        return (type(fault).__name__, fault.line, fault.name, fault.status)


# ---- beside plain models


def verdicts(call: dict[str, Any], ground: Ground, of: Plan) -> Iterator[Test]:
    """Verdicts on a plan, and what it costs."""
    faults = [words(" ".join(map(str, (kind, *numbers)))) for kind, numbers in all_faults(ground, of)]
    found = mapf.check(**call, all=MOST)
    if faults:
        agents = len({agent for fault in list(all_faults(ground, of))[:MOST] for agent in named(fault)})
        due = mapf.Verdict(False, faults=tuple(faults[:MOST]), faulty_agents=agents, has_more=len(faults) > MOST)
        yield "check, all", found, due
        yield "check", mapf.check(**call), mapf.Verdict(False, faults=(faults[0],))
        return
    cost, cost_bound, makespan, makespan_bound = numbers_of(ground, of)
    accepted = mapf.Verdict(True, len(of.courses), cost, makespan)
    yield "check, all", found, accepted
    yield "check, bound", mapf.check(**call, bound=True), mapf.Verdict(True, len(of.courses), cost, makespan, cost_bound, makespan_bound)
    rotation = first_rotation(of)
    yield "check, no_rotation", mapf.check(**call, no_rotation=True), mapf.Verdict(False, faults=(words(rotation),)) if rotation else accepted
    yield "check, agents", mapf.check(**call, agents=len(of.courses) + 1), mapf.Verdict(False, faults=(words("AgentCount"),))
    own = [
        mapf.Bound(len(course.acts.rstrip("-")), straight_steps(ground, course.start, course.place(of.longest)) or 0) for course in of.courses
    ]
    bounds = mapf.Bounds(mapf.Bound(cost, cost_bound), mapf.Bound(makespan, makespan_bound), tuple(own))
    yield "bound", mapf.bound(**call, agents=True), bounds


def walks(call: dict[str, Any], of: Plan) -> Iterator[Test]:
    """Where the agents of a valid plan are, who waits for whom, and its beginning."""
    times = [tuple(course.place(time) for course in of.courses) for time in range(of.longest + 1)]
    yield "path", mapf.path(**call), tuple(times)
    alone = [(of.courses[0].place(time),) for time in range(len(of.courses[0].acts) + 1)]
    yield "path, agent", mapf.path(**call, agent=0), tuple(alone)
    whole = ((agent, move, need) for agent, it in enumerate(agents_of(of.text())) for move, need in enumerate(it.needs) if need)
    needs = tuple(mapf.Need(agent, move, *need) for agent, move, need in whole)
    turning = tuple(mapf.Rotation(step, tuple(circle)) for step, circle in rotations(of))
    yield "deps", mapf.deps(**call), mapf.Dependencies(len(of.courses), of.moves, needs, turning)
    x, y = of.courses[0].start
    courses = enumerate(courses_of(of.text()))
    visits = [mapf.Visit(agent, place, time) for agent, course in courses for place, (time, cell) in enumerate(course) if cell == (x, y)]
    yield "visits", mapf.visits(**call, x=x, y=y), tuple(sorted(visits, key=lambda it: it.time))
    yield "cut", mapf.cut(**call, time=1), of.cut(1).text()


def chains(harness: Harness, folder: pathlib.Path, old: Plan, new: Plan) -> Iterator[Test]:
    """Whether valid plans go on from one another."""
    names = {"old": old, "new": new}
    for name, it in names.items():
        (folder / name).write_text(it.text())
    for one, other in (("old", "new"), ("new", "old")):
        found = mapf.continues(folder / "m", folder / one, folder / other, program=harness.program)
        first, second = names[one], names[other]
        reason = difference(first, second)
        due = mapf.Continuation(False, fault=words(reason)) if reason else mapf.Continuation(True, first.longest, second.moves - first.moves)
        yield f"continues from {one}", found, due


def typed(reply: str) -> mapf.Reply:
    """A reply of the model of runs."""
    word, *rest = reply.split()
    if word == "said":
        return mapf.Said(bytes.fromhex(rest[1]), int(rest[0]))
    if word == "refused":
        return mapf.Refused(words(" ".join(rest)))
    numbers = [int(it) for it in rest if it != "done"]
    kinds = {"moving": mapf.Moving, "arrived": mapf.Arrived, "heard": mapf.Heard, "at": mapf.At, "between": mapf.Between, "armed": mapf.Armed}
    return kinds[word](*numbers)


def of_plans(harness: Harness, seed: int) -> list[Outcome]:
    """A plan at random, valid or not, and a run of it."""
    rng = random.Random(f"python {seed}")
    map_text, free = random_map(rng)
    ground = Ground(tuple(map_text.splitlines()[4:]))
    valid = rested(rng, read(random_plan(rng, free, may_turn=seed % 3 == 0)))
    events = random_events(rng, len(valid.courses), 1)
    folder = harness.folder({"m": map_text.encode(), "p": valid.text().encode(), "e": events.encode()})
    call = {"map": folder / "m", "plan": folder / "p", "program": harness.program}
    tests = [*verdicts(call, ground, valid), *walks(call, valid)]
    model = Run(valid.text(), 1)
    tests.append(("run", mapf.run(**call, events=folder / "e"), [typed(model.reply(line)) for line in events.splitlines()[1:]]))
    tests += chains(harness, folder, valid, extended(rng, free, valid, 3, may_turn=False))
    bad = spoiled(rng, valid)
    (folder / "q").write_text(bad.text())
    tests += verdicts({**call, "plan": folder / "q"}, ground, bad)
    shutil.rmtree(folder)
    return [compared(f"seed {seed}: {name}", f"mapf.{name}, of {map_text!r}, {valid.text()!r}, {bad.text()!r}", *it) for name, *it in tests]


def of_scenarios(harness: Harness, seed: int) -> list[Outcome]:
    """The rows of a scenario at random."""
    rng = random.Random(f"python rows {seed}")
    ground = random_ground(rng)
    listed = [random_row(rng, ground) for _ in range(rng.randint(1, 6))]
    scen = "".join(["version 1\n", *(f"{row.text()}\n" for row in listed)])
    folder = harness.folder({"m": ground.text().encode(), "s": scen.encode()})
    lines = [row_line(ground, row).split() for row in listed]
    due = [mapf.Row(it[-1], int(it[1]), int(it[2]), it[4]) if len(it) > 1 else mapf.Row(it[0]) for it in lines]
    steps = [None if row.size != ground.size else straight_steps(ground, row.start, row.goal) for row in listed]
    least = [mapf.Row(it.verdict, None) if it.verdict in ("unreachable", "SizeDiffers") else mapf.Row("least", step) for it, step in zip(due, steps)]
    call = {"map": folder / "m", "scen": folder / "s", "program": harness.program}
    kinds = [it.verdict for it in due]
    counts = {"rows": len(kinds), "agree": kinds.count("agrees"), "differ": kinds.count("differs")}
    others = {"unreachable": kinds.count("unreachable"), "size": kinds.count("SizeDiffers")}
    tests = [("rows", mapf.rows(**call), mapf.Rows(dict(enumerate(due)), {**counts, **others}))]
    found = mapf.rows(**call, first=1, straight=True)
    tests.append(("rows, straight", found.rows, dict(list(enumerate(least))[1:])))
    known = [it.straight for it in least[1:] if it.straight is not None]
    tests.append(("their sum", (found.counts["sum"], found.counts["greatest"]), (sum(known), max(known, default=0))))
    if due[0].verdict != "SizeDiffers":
        tests.append(("row", mapf.row(**call, number=0), due[0]))
    shutil.rmtree(folder)
    return [compared(f"scenario {seed}: {name}", f"mapf.{name}, of {ground!r}, {scen!r}", *it) for name, *it in tests]


def standing(fleet: Fleet, agent: int) -> mapf.AgentStatus:
    """What is said of an agent of a fleet."""
    it, need = fleet.agents[agent], fleet.waits(agent)
    if agent in fleet.faults:
        return mapf.AgentStatus("unknown", fault=words(fleet.line(agent).partition(" ")[2]))
    (x, y), moves = it.held()[0], len(it.needs)
    if it.is_moving:
        return mapf.AgentStatus("moving", mapf.Between(x, y, *it.held()[1], it.done), moves)
    state = mapf.At(x, y, it.done)
    if need:
        return mapf.AgentStatus("waits", state, moves, *need)
    return mapf.AgentStatus("arrived" if it.done == moves else "ready", state, moves)


def of_fleets(harness: Harness, seed: int) -> list[Outcome]:
    """The tapes of a fleet that was stopped somewhere."""
    map_text, plan_text, fleet = random_fleet(random.Random(f"python fleet {seed}"), seed % 2 == 0)
    folder = harness.folder({"m": map_text.encode(), "p": plan_text.encode(), **tapes_of(fleet)})
    found = mapf.status(folder / "m", folder / "p", folder / "%.tape", program=harness.program)
    agents = tuple(standing(fleet, agent) for agent in range(len(fleet.agents)))
    lines = [line.split() for line in fleet.text().splitlines()[len(agents) :]]
    roots, circles = ({int(it[1]): int(it[3]) for it in lines if it[0] == kind} for kind in ("root", "rotation"))
    shutil.rmtree(folder)
    name = f"fleet {seed}: status"
    return [compared(name, f"mapf.status, of {map_text!r}, {plan_text!r}", found, mapf.Status(agents, roots, circles))]


def of_faulty_fleets(harness: Harness) -> Iterator[Outcome]:
    """Why tapes aren't of one run, by a program that says so."""
    for lines in (("PlansPart 0 1 4",), ("NotOneRun 1 0 3", "NotOneRun 65535"), ("NotOneRun 1 0",), ("PlansPart 0 1",), ("Unknown 1",)):
        folder = harness.folder()
        answer = "".join(f"{line}\n" for line in ("0 at 1 0 done 0 of 1 ready", "1 NoTape", "root 0 keeps 1", "rotation 2 keeps 1", *lines))
        put_program(folder / "mapf", f"#!/bin/sh\ncat <<END\n{answer}END\nexit 1\n")
        found = raised(lambda: mapf.status("m", "p", "%.tape", program=folder / "mapf"))
        agents = (mapf.AgentStatus("ready", mapf.At(1, 0, 0), 1), mapf.AgentStatus("unknown", fault=words("NoTape")))
        due: tuple[object, ...] = ("nothing", mapf.Status(agents, {0: 1}, {2: 1}, tuple(map(words, lines))))
        if lines[0] in ("NotOneRun 1 0", "PlansPart 0 1", "Unknown 1"):
            due = ("Failed", f"'{lines[0]}' is no answer of mapf", f"'{lines[0]}' is no answer of mapf", 3)
        yield compared(f"a fleet whose tapes have {lines}", "mapf.status", found, due)


# ---- as the documents show it


def shown(harness: Harness) -> Iterator[Test]:
    """Answers that FORMATS.md and OPERATING.md show."""
    program = {"program": harness.program}
    corner, plain, turn, gone = (example(f"{name}.map") for name in ("corner", "plain", "turn", "pass"))
    behind, best = example("behind.plan"), example("pass.plan")
    solved = mapf.check(corner, example("corner.plan"), scen=example("corner.scen"), **program)
    yield "a plan that solves a scenario", solved, mapf.Verdict(True, 2, 4, 2)
    proved = mapf.optimal(gone, best, example("pass.proof"), **program)
    yield "a plan that is the best", proved, mapf.Optimality(True, "cost", 7, 7, 13)
    low = mapf.optimal(gone, best, example("low.proof"), **program)
    yield "a leaf that is too low", low, mapf.Optimality(fault=words("LeafTooLow 5 5"))
    blocked = mapf.complete(turn, example("turn.plan"), example("none.events"), **program)
    yield "a run that is blocked", (blocked, blocked.can_be_driven), (mapf.Ending((), rotation=0), False)
    ending = mapf.complete(plain, example("onward.plan"), example("none.events"), **program)
    yield "a run that can be driven", (len(ending.events), ending.can_be_driven), (12, True)
    replies = [typed(it) for it in ("refused Waits 0 1", "moving 2 0", "arrived 2 0", "said 0 460100000000000900000001", "heard 0 1")]
    replies += [typed(it) for it in ("moving 1 0", "between 0 0 1 0 done 0", "arrived 1 0")]
    yield "a run", mapf.run(plain, behind, example("behind.events"), **program), replies
    ended = mapf.complete(plain, behind, example("behind.events"), **program)
    yield "a run that has ended", ended, mapf.Ending(tuple(replies))


def dialogue(harness: Harness) -> Iterator[Test]:
    """The dialogue of FORMATS.md, and how agents end."""
    files, program = (example("plain.map"), example("behind.plan")), {"program": harness.program}
    tape = harness.folder() / "tape0"
    with mapf.Agent(*files, 0, tape, kind="new", **program) as agent:
        free = [agent.may(5)]
        found = [agent.state, agent.start(), agent.held(), agent.say(), agent.finish(), agent.tell(), agent.start()]
        free.append(agent.may(0))
    due = [mapf.At(1, 0, 0), mapf.Moving(2, 0), mapf.Between(1, 0, 2, 0, 0), bytes.fromhex("460100000000000900000000"), mapf.Arrived(2, 0)]
    due += [bytes.fromhex("46020000000000090001000000000001"), mapf.Refused(words("AtEnd"))]
    yield "a dialogue", found, due
    yield "how it ended", agent.process.returncode, 0
    yield "its tape", mapf.tape(*files, 0, tape, **program), mapf.Tape(mapf.At(2, 0, 1), 2, 0)
    with mapf.Agent(*files, 1, tape.with_name("tape1"), kind="new", **program) as other:
        free.append(other.may(1))
        heard = [other.start(), other.hear(b"\x46"), other.hear(found[5]), other.ask("what")]
        free.append(other.may(999_999_999))
        heard += [other.start(), raised(lambda: other.may(-1))[0]]
    due = [mapf.Refused(words("Waits 0 1")), mapf.Refused(words("BadLength")), mapf.Heard(0, 1), mapf.Refused(words("BadLine")), mapf.Moving(1, 0)]
    yield "what another one hears", heard, [*due, "Failed"]
    yield "how many moves are free", free, [1, 0, 0, 1]


def stopped(harness: Harness) -> Iterator[Test]:
    """What follows from the tapes of a fleet, one of which is on its way, and what of another run's."""
    folder = harness.folder({"m": LANE.encode(), "p": BEHIND.encode(), "0.tape": b"P\1\0\0\0\7\0\0\0\0", "1.tape": b""})
    files, program = (folder / "m", folder / "p", folder / "%.tape"), {"program": harness.program}
    yield "places", mapf.lost(*files, 0, **program), (mapf.At(1, 0, 0), mapf.At(2, 0, 1))
    yield "no such agent", raised(lambda: mapf.lost(*files, 2, **program)), ("Fault", "mapf: NoSuchAgent", "NoSuchAgent", 1)
    yield "a handover", mapf.handover(*files, **program), plan("1 0 e", "0 0 e")
    yield "a new plan", mapf.anew(*files, 9, **program), plan("2 0 =", "0 0 e", number=9)
    yield "a new plan without one", mapf.anew(*files, 9, without=0, **program), plan("0 0 e", number=9)
    yield "a number that is used", raised(lambda: mapf.anew(*files, 7, **program)), ("Fault", "mapf: SameNumber", "SameNumber", 1)
    (folder / "0.tape").unlink()
    bad = ("Fault", "mapf: BadTape 0", "BadTape", 1)
    yield "a tape that is lost", (raised(lambda: mapf.handover(*files, **program)), raised(lambda: mapf.anew(*files, 9, without=1, **program))), (bad, bad)


def stale(harness: Harness) -> tuple[object, ...]:
    """An agent on an older tape is told of a move that it doesn't know."""
    files, tape = (example("plain.map"), example("behind.plan"), 1), harness.folder() / "tape1"
    with mapf.Agent(*files, tape, kind="new", program=harness.program):
        pass
    with mapf.Agent(*files, tape, kind="kept", program=harness.program) as agent:
        try:
            return ("answered", agent.hear(bytes.fromhex("46020000000000090001000100000001")))
        except mapf.StaleTape as fault:
            return (fault.name, fault.agent, fault.moves, agent.close())


def moved(harness: Harness) -> tuple[object, ...]:
    """A tape is moved while its agent lives, which stores nothing any more."""
    tape = harness.folder() / "tape0"
    with mapf.Agent(example("plain.map"), example("behind.plan"), 0, tape, kind="new", program=harness.program) as agent:
        tape.rename(tape.with_name("elsewhere"))
        return (*raised(agent.start), raised(agent.held)[0], agent.close())


def opened(harness: Harness, **how: Any) -> tuple[object, ...]:
    def call() -> object:
        with mapf.Agent(example("plain.map"), example("behind.plan"), program=harness.program, **how) as agent:
            return agent.state

    return raised(call)


def ends(harness: Harness) -> Iterator[Test]:
    """How agents end that can't go on, or don't begin."""
    yield "an older tape", stale(harness), ("StaleTape", 0, 1, 3)
    yield "a tape that was moved", moved(harness), ("StoreFailed", "StoreFailed", "StoreFailed", 3, "Failed", 3)
    tape = harness.folder() / "tape"
    yield "no tape", opened(harness, agent=0, tape=tape, kind="kept"), ("Fault", "mapf: NoTape", "NoTape", 1)
    yield "no agent", opened(harness, agent=2, tape=tape), ("Fault", "mapf: NoSuchAgent", "NoSuchAgent", 1)
    with mapf.Agent(example("plain.map"), example("behind.plan"), 0, tape, program=harness.program):
        yield "a tape in use", opened(harness, agent=0, tape=tape), ("Failed", "mapf: TapeInUse", "TapeInUse", 3)


# ---- faults, and programs that fail


def faults(harness: Harness) -> Iterator[Test]:
    """What is raised for texts with faults, and for files that aren't there."""
    folder = harness.folder({"m": LANE.encode(), "p": BEHIND.encode(), "x": SWAP.encode(), "e": b"mapf-events 1\nstart 1\nstart 0\nhm\n", "-": b""})
    program = {"program": harness.program}
    wrong = raised(lambda: mapf.check(example("short.map"), folder / "p", **program))
    yield "a map with a fault", wrong, ("Fault", "mapf: ShortRow 6", "ShortRow", 1)
    yield "a plan that isn't there", raised(lambda: mapf.deps(folder / "m", folder / "no", **program)), ("Failed", "mapf: OpenFailed", "OpenFailed", 3)
    swap = raised(lambda: mapf.deps(folder / "m", folder / "x", **program))
    yield "a plan that isn't valid", swap, ("Fault", "mapf: Swap 0 1 0", "Swap", 1)
    try:
        mapf.run(folder / "m", folder / "p", folder / "e", **program)
        found: object = "nothing"
    except mapf.Fault as fault:
        found = (fault.words, fault.numbers, fault.answer)
    yield "events with a fault", found, (words("BadEvent 4"), (4,), "refused Waits 0 1\nmoving 2 0\n")
    yield from unopened(folder, program)
    for name, call in NO_NUMBERS.items():
        yield f"no number: {name}", refused(functools.partial(call, *(folder / it for it in "mpe"), **program)), "ValueError"
    for text, due in (("BadMove 3 4", words("BadMove 3 4")), ("mapf: AtEnd", words("AtEnd")), ("of another kind", mapf.FaultWords("of another kind"))):
        yield f"the words {text}", read_words(text), due


# Calls with numbers that are none, on a map, a plan and a third file.
NO_NUMBERS: dict[str, Callable[..., object]] = {
    "agents -1": lambda m, p, _, **it: mapf.check(m, p, agents=-1, **it),
    "all 0": lambda m, p, _, **it: mapf.check(m, p, all=0, **it),
    "all -1": lambda m, p, _, **it: mapf.check(m, p, all=-1, **it),
    "agent -1": lambda m, p, _, **it: mapf.path(m, p, agent=-1, **it),
    "x -1": lambda m, p, _, **it: mapf.visits(m, p, -1, 0, **it),
    "time 1.5": lambda m, p, _, **it: mapf.cut(m, p, 1.5, **it),
    "number -1": lambda m, _, s, **it: mapf.row(m, s, -1, **it),
    "first -1": lambda m, _, s, **it: mapf.rows(m, s, first=-1, **it),
    "without -1": lambda m, p, t, **it: mapf.anew(m, p, t, 9, without=-1, **it),
    "an agent that is None": lambda m, p, t, **it: mapf.tape(m, p, None, t, **it),
    "an agent -1": lambda m, p, t, **it: mapf.Agent(m, p, -1, t, **it).__enter__(),
}


def refused(call: Callable[[], object]) -> str:
    try:
        call()
    except (ValueError, mapf.Failed) as fault:
        return type(fault).__name__
    return "nothing"


def unopened(folder: pathlib.Path, program: dict[str, Any]) -> Iterator[Test]:
    """A file that can't be opened is named."""
    why = "No such file or directory"
    calls = {
        "map": (folder / "no", lambda it: mapf.check(it, folder / "p", **program)),
        "plan": (folder / "none", lambda it: mapf.path(folder / "m", it, **program)),
        "scenario": (folder / "no.scen", lambda it: mapf.check(folder / "m", folder / "p", scen=it, **program)),
        "events": (folder / "no.events", lambda it: mapf.run(folder / "m", folder / "p", it, **program)),
        "agent's plan": (folder / "gone", lambda it: mapf.Agent(folder / "m", it, 0, folder / "t", **program).__enter__()),
        "row's map": (folder / "lost", lambda it: mapf.row(it, folder / "p", 0, **program)),
    }
    for name, (file, call) in calls.items():
        try:
            call(file)
            found: tuple[object, ...] = ("nothing",)
        except mapf.Failed as fault:
            found = (fault.name, fault.file, str(fault))
        yield f"a file that can't be opened, the {name}", found, ("OpenFailed", str(file), f"mapf: OpenFailed {file}: {why}")


# Programs in place of mapf: what they do, and what is raised.
FAILING = (
    ("exit 5", "`mapf check` ended with status 5, and without a word", 5),
    ("kill -9 $$", "`mapf check` ended with status -9, and without a word", -9),
    ("echo mapf: OutOfMemory >&2; exit 3", "mapf: OutOfMemory", 3),
    ("echo accepted", "'accepted' is no answer of mapf", 3),
    ("exit 0", "'' is no answer of mapf", 3),
)
# The same, asked for a status.
ODD = (
    ("echo 1 at 0 0 done 0 of 0 arrived", "'1 at 0 0 done 0 of 0 arrived' is no answer of mapf", 3),
    ("echo 0 at 0 0 done 0 of 1", "'at 0 0 done 0 of 1' is no answer of mapf", 3),
    ("echo root 1 keeps", "'root 1 keeps' is no answer of mapf", 3),
    ("echo 0 NoTape; exit 3", "`mapf status` ended with status 3, and without a word", 3),
)


def failing(harness: Harness) -> Iterator[Test]:
    folder = harness.folder()
    calls = [("check", *it) for it in FAILING] + [("status", *it) for it in ODD]
    for number, (name, script, line, status) in enumerate(calls):
        program = folder / str(number)
        put_program(program, f"#!/bin/sh\n{script}\n")
        more = ("%",) if name == "status" else ()
        found = raised(lambda: getattr(mapf, name)("m", "p", *more, program=program))
        yield f"a program, asked for {name}: {script}", (found[0], *found[1::2]), ("Failed", line, status)
    gone = raised(lambda: mapf.check("m", "p", program=folder / "no"))
    yield "a program that isn't there", gone[:2], ("Failed", f"{folder / 'no'} can't be started: No such file or directory")


# What `mapf deps` and `mapf path` may not answer.
TORN = (
    ("deps", "agents 1 moves 2 needs 1 rotations 0"),
    ("deps", "agents 1 moves 2 needs 1 rotations 0\nneed 0 0 1"),
    ("deps", "agents 1 moves 2 needs 2 rotations 0\nneed 0 0 1 1"),
    ("deps", "agents 1 moves 2 needs 0 rotations 1\nneed 0 0 1 1"),
    ("deps", "agents 1 moves 2 needs 1 rotations 0\nseed 0 0 1 1"),
    ("path", "0 0 1\n1 0"),
    ("path", "0 0 1\n1 0 -1"),
)


def torn(harness: Harness) -> Iterator[Test]:
    """An answer of another form is none, also where its lines are looked at one by one."""
    folder = harness.folder()
    for number, (name, text) in enumerate(TORN):
        program = folder / str(number)
        put_program(program, f"#!/bin/sh\nprintf '%b\\n' '{text}'\n")

        def read() -> object:
            found = getattr(mapf, name)("m", "p", program=program)
            return [*found] if name == "path" else [*found.needs, *found.rotations]

        yield f"an answer that is none: {text!r}", raised(read)[0], "Failed"
    corner = mapf.path(example("corner.map"), example("corner.plan"), program=harness.program)
    yield "a time of a path", (corner[-1], corner[0:2], len(corner)), (((1, 0), (2, 0)), (((0, 1), (0, 0)), ((0, 0), (1, 0))), 3)


def checkout(harness: Harness) -> pathlib.Path:
    """A folder with a copy of the package, where a checkout has it."""
    folder = harness.folder()
    shutil.copytree(TOOLS / "mapf", folder / "tools" / "mapf", ignore=shutil.ignore_patterns("__pycache__"))
    return folder


def started(folder: pathlib.Path, script: str, harness: Harness) -> Iterator[Test]:
    """A call starts the program of a checkout once."""
    shipped, told = folder / "dist" / "x86_64-linux" / "mapf", folder / "told"
    shipped.parent.mkdir(parents=True)
    shutil.copy(ROOT / "mapf", folder)
    answer = '{"cost":4,"cost_bound":3,"makespan":2,"makespan_bound":2}'
    put_program(shipped, f"#!/bin/sh\necho $1 >>{told}\ntest $1 = bound && echo '{answer}' || echo mapf 0\n")
    ended = harness.run([sys.executable, "-c", script, str(folder / "tools")])
    yield "how often calls start the program", (ended.out, told.read_text().split()), (b"[4, 4, 4]\n", ["bound"] * 3)


def finding(harness: Harness) -> Iterator[Test]:
    """Which program is the usual one."""
    folder, elsewhere = checkout(harness), harness.folder()
    script = "import sys; sys.path.insert(0, sys.argv[1]); import mapf; print(mapf.usual_program())"
    beside, other = folder / "mapf", elsewhere / "mapf"

    def found(named: str = "") -> str:
        variables = {"PATH": str(elsewhere), "MAPF": named}
        return harness.run([sys.executable, "-c", script, str(folder / "tools")], more=variables).out.decode().strip()

    yield "no program anywhere", found(), str(beside)
    os.symlink(harness.program, other)
    yield "the program on the path", found(), str(other)
    yield from started(checkout(harness), script.replace("mapf.usual_program()", "[mapf.bound('m', 'p').cost.cost for _ in range(3)]"), harness)
    os.symlink(harness.program, beside)
    yield "the program beside the tools", found(), str(beside)
    yield "the program of the environment", found("/opt/mapf"), "/opt/mapf"


def tested(part: Callable[[Harness], Iterator[Test]], harness: Harness) -> list[Outcome]:
    return [compared(name, f"the package of tools/mapf: {name}", found, due) for name, found, due in part(harness)]


def outcomes(harness: Harness) -> Iterator[Outcome]:
    seeds: Sequence[int] = LONG_SEEDS if harness.is_long else SHORT_SEEDS
    parts = (shown, dialogue, stopped, ends, faults, failing, torn, finding)
    tests = [functools.partial(tested, part, harness) for part in parts]
    tests.append(lambda: list(of_faulty_fleets(harness)))
    yield from side_by_side([*tests, *(functools.partial(of, harness, seed) for of in (of_plans, of_scenarios, of_fleets) for seed in seeds)])
