"""`tools/handover.py`: what is to be planned anew for a fleet that was stopped anywhere, beside a plain model; and that what a planner makes of it
goes on from it."""
import dataclasses
import functools
import pathlib
import random
import re
import shlex
import subprocess
import sys
from typing import Iterator, NamedTuple, Optional, Sequence

import going_around
from answers import MOVING, OTHER_AGENT, STANDING
from harness import ROOT, Harness, Outcome, compared, shown, side_by_side
from handovers import NEW, TAPES, Fleet, begun_anew, cut_at, handed_over, rest_of, stopped
from listing import first_rotation
from one_run import lost_places
from plan_chains import Plan, read
from run_model import agents_of
from texts import BEHIND, HALL, LANE, SQUARE, SWAP, TURN, plan

TOOL = ROOT / "tools" / "handover.py"
SHORT_SEEDS, LONG_SEEDS = range(1, 25), range(1, 201)
CUT, OTHERS = ("cut.plan", "cut.scen"), ("others.plan", "others.scen")
DRIVEN = "others.plan can be driven\n"
# A length with its eight decimals.
LENGTH = re.compile(r"[0-9]+\.[0-9]{8}")


@dataclasses.dataclass(frozen=True)
class Written:
    """What the tool did: its status, what it wrote on its outputs, and the files that it left."""

    ran: str
    status: int
    out: str
    err: str
    files: dict[str, str]
    folder: pathlib.Path


def handed(harness: Harness, folder: pathlib.Path, *words: str) -> Written:
    """Runs the tool on the files of a fleet."""
    command = [sys.executable, str(TOOL), "M", "P", TAPES, "new", "--program", str(harness.program), *words]
    ended = harness.run(command, folder=folder)
    new = folder / "new"
    left = {path.name: path.read_text() for path in new.iterdir()} if new.exists() else {}
    return Written(shown(command), ended.status, ended.out.decode(), ended.err.decode(), left, folder)


def tasks_in(scenario: str) -> list[str]:
    """The rows of a scenario without their lengths, which have to have eight decimals."""
    head, *rows = scenario.splitlines()
    whole = [row.rpartition("\t") for row in rows]
    return [head, *(task if LENGTH.fullmatch(length) else f"{task}, {length}" for task, _, length in whole)]


def tasks_due(fleet: Fleet, starts: Plan, ends: Plan) -> list[str]:
    """From where each agent of the one plan ends to where that of the other does."""
    _, height, width, *_ = (line.split()[-1] for line in fleet.map_text.splitlines())
    last = max(starts.longest, ends.longest)
    rows = ([*one.place(last), *other.place(last)] for one, other in zip(starts.courses, ends.courses))
    return ["version 1", *("\t".join(map(str, [0, "M", width, height, *row])) for row in rows)]


def lengths_agree(harness: Harness, name: str, it: Written, scenario: str) -> Outcome:
    words = ["rows", "M", f"new/{scenario}"]
    ended = harness.mapf(words, folder=it.folder)
    counts = ended.out.decode().splitlines()[-1:]
    count = len(it.files.get(scenario, "").splitlines()) - 1
    return compared(name, shown(["mapf", *words]), (ended.status, counts), (0, [f"rows {count} agree {count} differ 0 unreachable 0 size 0"]))


def of_cut(harness: Harness, name: str, fleet: Fleet) -> Iterator[Outcome]:
    it, due = handed(harness, fleet.folder(harness)), handed_over(fleet)
    cut = fleet.plan.cut(cut_at(fleet))
    wrote = (it.status, it.out, it.err, sorted(it.files), it.files.get(CUT[0]), tasks_in(it.files.get(CUT[1], "")))
    whole = (0, f"cut at {cut_at(fleet)}\n", "", sorted(CUT), due.out.decode(), tasks_due(fleet, cut, fleet.plan))
    yield compared(name, it.ran, wrote, whole)
    yield lengths_agree(harness, f"{name}: lengths", it, CUT[1])


def told_of(fleet: Fleet, gone: int) -> str:
    """The cells that an agent held, those in which its robot may be, and who has another number without it."""
    agents = agents_of(fleet.plan.text())
    agents[gone].records = fleet.records[gone]
    cells = "unknown NoTape" if gone in fleet.instead else " ".join(f"{x} {y}" for x, y in agents[gone].held())
    for agent, records in enumerate(fleet.records):
        agents[agent].records = records
    places = lost_places(agents, gone, lambda agent: agent not in fleet.instead)
    look = " ".join(f"{x} {y}" for (x, y), _ in places)
    return "".join([f"freed {cells}\nlook {look}\n", *(f"agent {number} was {number + 1}\n" for number in range(gone, len(agents) - 1))])


def of_others(harness: Harness, name: str, fleet: Fleet, gone: int) -> Iterator[Outcome]:
    it, due = handed(harness, fleet.folder(harness), "--without", str(gone), "--number", str(NEW)), begun_anew(fleet, without=gone)
    new = rest_of(fleet, NEW, gone)
    starts = new.cut(0)
    is_driven = first_rotation(new) is None
    out = it.out if is_driven else re.sub(r"(others\.plan) can't be driven: Rotation [0-9 ]+\. repair\.py plans it anew", r"\1 can be driven", it.out)
    wrote = (it.status, out, is_driven == (it.out == out), it.err, sorted(it.files), it.files.get(OTHERS[0]), tasks_in(it.files.get(OTHERS[1], "")))
    whole = (0, told_of(fleet, gone) + DRIVEN, True, "", sorted(OTHERS), due.out.decode(), tasks_due(fleet, starts, new))
    yield compared(name, it.ran, wrote, whole)
    yield lengths_agree(harness, f"{name}: lengths", it, OTHERS[1])
    words = ["check", "M", "new/others.plan", "--scen", "new/others.scen"]
    ended = harness.mapf(words, folder=it.folder)
    yield compared(f"{name}: the plan solves the scenario", shown(["mapf", *words]), (ended.status, ended.err), (0, b""))


def of_seed(harness: Harness, seed: int) -> list[Outcome]:
    rng = random.Random(f"planning anew {seed}")
    fleet = stopped(rng, may_turn=seed % 4 == 0)
    gone = rng.randrange(len(fleet.records))
    lost = dataclasses.replace(fleet, instead={gone: None})
    outcomes = [*of_cut(harness, f"fleet {seed}, cut", fleet), *of_others(harness, f"fleet {seed} without {gone}", fleet, gone)]
    return outcomes + list(of_others(harness, f"fleet {seed} without {gone}, whose tape is lost", lost, gone))


class Case(NamedTuple):
    """The words of a call, the map, the plan, the tapes, and what is due: the status, and what is said on either output."""

    words: str
    map_text: str
    plan_text: str
    tapes: Sequence[Optional[bytes]]
    status: int
    out: str
    err: str


BOTH = (b"", b"")
CASES = (
    Case("", LANE, BEHIND, (MOVING, b""), 0, "cut at 1\n", ""),
    Case("", LANE, plan(), (), 0, "cut at 0\n", ""),
    Case("--without 0", LANE, plan("1 0 e"), (MOVING,), 0, f"freed 1 0 2 0\nlook 1 0 2 0\n{DRIVEN}", ""),
    Case("--without 0", LANE, BEHIND, (MOVING + STANDING, b""), 0, f"freed 2 0\nlook 2 0\nagent 0 was 1\n{DRIVEN}", ""),
    Case("--without 1", LANE, BEHIND, (MOVING, b"\x51" * 10), 0, f"freed unknown Damaged 0\nlook 0 0\n{DRIVEN}", ""),
    Case("--without 0", LANE, BEHIND, (b"", OTHER_AGENT), 0, f"freed 1 0\nlook unknown NotOneRun\nagent 0 was 1\n{DRIVEN}", ""),
    Case("--without 1", SQUARE, TURN, (b"",) * 4, 0, f"freed 1 0\nlook 1 0\nagent 1 was 2\nagent 2 was 3\n{DRIVEN}", ""),
    Case("", LANE, BEHIND, (MOVING, None), 1, "", "handover: 1.tape: NoTape\n"),
    Case("", LANE, BEHIND, (OTHER_AGENT, None), 1, "", "handover: 0.tape: WrongAgent 0\n"),
    Case("--without 0", LANE, BEHIND, (MOVING, MOVING), 1, "", "handover: 1.tape: WrongAgent 0\n"),
    Case("--without 2", LANE, BEHIND, BOTH, 1, "", "handover: P: mapf: NoSuchAgent\n"),
    Case("--without 0 --number 7", LANE, BEHIND, BOTH, 1, "", "handover: P: mapf: SameNumber\n"),
    Case("--without 2", HALL, plan("1 0 e-", "0 0 e", "3 1 ="), (b"", OTHER_AGENT, b""), 1, "", "handover: P: mapf: NotOneRun\n"),
    Case("", LANE, SWAP, BOTH, 1, "", "handover: P: mapf: Swap 0 1 0\n"),
    Case("", LANE, "mapf-plan 2\n", (), 1, "", "handover: P: mapf: BadHeader 1\n"),
    Case("", "no map", BEHIND, BOTH, 1, "", "handover: M: mapf: BadHeader 1\n"),
)
# Words that are no call.
BAD_LINES = (
    *("--number 8", "--number 8 --without", "--without 0 --number new", "--without -1", "--without 65536", "--without x"),
    *("--without 0 --number 4294967296", "--without 0 --number -1", f"--without 0 --number {0:020}4294967296"),
)


def by_hand(harness: Harness) -> Iterator[Outcome]:
    for case in CASES:
        tapes = {f"{agent}.tape": tape for agent, tape in enumerate(case.tapes) if tape is not None}
        folder = harness.folder({"M": case.map_text.encode(), "P": case.plan_text.encode(), **tapes})
        it = handed(harness, folder, *case.words.split())
        written = () if case.status else OTHERS if case.words else CUT
        due = (case.status, case.out, case.err, sorted(written))
        yield compared(f"{case.words or 'a cut'} of {case.plan_text!r}", it.ran, (it.status, it.out, it.err, sorted(it.files)), due)


def of_a_rotation(harness: Harness) -> Iterator[Outcome]:
    """A plan in which the others go round is written, and it is said that it can't be driven."""
    whole = TURN.replace("agents 4", "agents 5") + "agent 2 0 =\n"
    files = {"M": HALL.encode(), "P": whole.encode(), **{f"{agent}.tape": b"" for agent in range(5)}}
    it = handed(harness, harness.folder(files), "--without", "4")
    due = (0, "freed 2 0\nlook 2 0\nothers.plan can't be driven: Rotation 0 0 1 2 3. repair.py plans it anew\n", sorted(OTHERS))
    yield compared("the others go round", it.ran, (it.status, it.out, sorted(it.files)), due)


def of_lengths(harness: Harness) -> Iterator[Outcome]:
    """Straight steps and diagonal ones, and none, in digits."""
    files = {"M": HALL.encode(), "P": plan("0 0 eese", "0 1 =", "3 0 ----ww").encode(), **{f"{agent}.tape": b"" for agent in range(3)}}
    for words, name, rows in (
        ((), CUT[1], ("0 0 3 1 3.41421356", "0 1 0 1 0.00000000", "3 0 1 0 2.00000000")),
        (("--without", "2"), OTHERS[1], ("0 0 3 1 3.41421356", "0 1 0 1 0.00000000")),
    ):
        it = handed(harness, harness.folder(files), *words)
        due = "".join(["version 1\n", *("\t".join(["0", "M", "4", "2", *row.split()]) + "\n" for row in rows)])
        yield compared(f"lengths in {name}", it.ran, (it.status, it.files.get(name)), (0, due))


def bad_lines(harness: Harness) -> Iterator[Outcome]:
    for words in BAD_LINES:
        folder = harness.folder({"M": LANE.encode(), "P": BEHIND.encode(), "0.tape": b"", "1.tape": b""})
        it = handed(harness, folder, *words.split())
        wrote = (it.status, it.out, "handover.py: error: " in it.err, it.files)
        yield compared(words, f"{it.ran}, which told {it.err!r}", wrote, (2, "", True, {}))


def in_use(harness: Harness) -> Iterator[Outcome]:
    """Nothing is made while an agent may still store."""
    folder = harness.folder({"M": LANE.encode(), "P": BEHIND.encode(), "0.tape": b"", "1.tape": b""})
    words = [str(harness.program), "agent", "M", "P", "1", "1.tape"]
    with subprocess.Popen(words, cwd=folder, stdin=subprocess.PIPE, stdout=subprocess.PIPE) as process:
        process.stdout.readline()
        for words in ((), ("--without", "0"), ("--without", "1")):
            it = handed(harness, folder, *words)
            due = (1, "", "handover: 1.tape: it is in use, and all agents have to be stopped\n", {})
            yield compared(f"{' '.join(words) or 'a cut'} while agent 1 lives", it.ran, (it.status, it.out, it.err, it.files), due)
        process.stdin.close()
    it = handed(harness, folder, "--without", "0")
    yield compared("when it has ended", it.ran, (it.status, it.out), (0, f"freed 1 0\nlook 1 0 2 0\nagent 0 was 1\n{DRIVEN}"))


# Answers as the program does, and then ends a process that holds a tape.
ENDS_ONE = """#!/bin/sh
{program} "$@"
status=$?
case $1 in handover|anew) kill -9 {process}; flock 1.tape true;; esac
exit $status
"""


def in_use_before(harness: Harness) -> Iterator[Outcome]:
    """What an agent stores behind what was read of its tape counts too, where it has ended by the end of the call."""
    for words in ((), ("--without", "0")):
        folder = harness.folder({"M": LANE.encode(), "P": BEHIND.encode(), "0.tape": b"", "1.tape": b""})
        agent = [str(harness.program), "agent", "M", "P", "1", "1.tape"]
        with subprocess.Popen(agent, cwd=folder, stdin=subprocess.PIPE, stdout=subprocess.PIPE) as process:
            process.stdout.readline()
            program = folder / "ends_one"
            program.write_text(ENDS_ONE.format(program=shlex.quote(str(harness.program)), process=process.pid))
            program.chmod(0o755)
            it = handed(harness, folder, *words, "--program", str(program))
            process.kill()
        due = (1, "", "handover: 1.tape: it is in use, and all agents have to be stopped\n", {})
        yield compared(f"{' '.join(words) or 'a cut'} while agent 1 ends", it.ran, (it.status, it.out, it.err, it.files), due)


def of_files(harness: Harness) -> Iterator[Outcome]:
    """Files that are there are replaced, others are left alone, and what fails leaves all as it was."""
    files = {"M": LANE.encode(), "P": BEHIND.encode(), "0.tape": MOVING, "1.tape": b""}
    folder = harness.folder(files)
    (folder / "new").mkdir()
    for name in (CUT[0], "mine"):
        (folder / "new" / name).write_text("before")
    it = handed(harness, folder)
    yield compared("a folder that is there", it.ran, (it.status, sorted(it.files), it.files["mine"], it.files[CUT[0]]), (0, sorted((*CUT, "mine")), "before", plan("1 0 e", "0 0 e")))
    for name, words in ((CUT[1], []), (OTHERS[1], ["--without", "1"])):
        folder = harness.folder(files)
        (folder / "new" / name).mkdir(parents=True)
        command = [sys.executable, str(TOOL), "M", "P", TAPES, "new", "--program", str(harness.program), *words]
        ended = harness.run(command, folder=folder)
        wrote = (ended.status, ended.out, f"new/{name}" in ended.err.decode(), [path.name for path in (folder / "new").iterdir()])
        yield compared(f"{name} is a folder", f"{shown(command)}, which told {ended.err!r}", wrote, (3, b"", True, [name]))
    ended = harness.run([sys.executable, str(TOOL), "M", "P", TAPES, "no/new", "--program", str(harness.program)], folder=harness.folder(files))
    yield compared("a folder in none", str(TOOL), (ended.status, ended.out, b"no/new" in ended.err), (3, b"", True))


def of_names(harness: Harness) -> Iterator[Outcome]:
    """The map's name is that of its file, with blanks and beyond ASCII too, and without its folders."""
    for name in ("my map.map", "h\u00f6f.map"):
        folder = harness.folder({"P": BEHIND.encode(), "0.tape": b"", "1.tape": b""})
        (folder / "maps").mkdir()
        (folder / "maps" / name).write_text(LANE)
        command = [sys.executable, str(TOOL), f"maps/{name}", "P", TAPES, "new", "--program", str(harness.program)]
        ended = harness.run(command, folder=folder)
        rows = (folder / "new" / CUT[1]).read_text(encoding="utf-8").splitlines()[1:] if not ended.status else []
        yield compared(f"a map {name!r}", f"{shown(command)}, which told {ended.err!r}", [row.split("\t")[1] for row in rows], [name] * 2)


def outcomes(harness: Harness) -> Iterator[Outcome]:
    yield from by_hand(harness)
    yield from of_a_rotation(harness)
    yield from of_lengths(harness)
    yield from bad_lines(harness)
    yield from in_use(harness)
    yield from in_use_before(harness)
    yield from of_files(harness)
    yield from of_names(harness)
    seeds = LONG_SEEDS if harness.is_long else SHORT_SEEDS
    yield from side_by_side(functools.partial(of_seed, harness, seed) for seed in seeds)
    yield from going_around.outcomes(harness)
