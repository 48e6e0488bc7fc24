"""The fleet of examples/fleet: robots as processes, over links that lose messages, killed at random. Each run is watched from outside. And what a fleet says that can't be driven."""
import functools
import re
import sys
from typing import Iterator

import boxes
from failing_agents import Chances, failing_program
from harness import ROOT, Harness, Outcome, compared, shown, side_by_side

# The seeds of a long test, how often a message is lost, and how often a question ends in a kill. A short test has each rate and each version of messages twice.
LONG = range(1, 21)
FLEET = ROOT / "examples" / "fleet" / "fleet.py"
RATES = ((0.2, 0.02), (0.5, 0.1))
# How many robots drive, of which one is carried off.
ROBOTS = 12
# Orders, and how many robots carry them out.
SHORT_ORDERS, LONG_ORDERS, DRIVERS = 24, 60, 6
SHORT = ((1, *RATES[0], ["--tell"]), (2, *RATES[1], []), (3, *RATES[0], []), (4, *RATES[1], ["--tell"]))


def drive(harness: Harness, seed: int, loss: float, kills: float, more: list[str]) -> list[Outcome]:
    words = [*more, "--seed", str(seed), "--loss", str(loss), "--kills", str(kills), "--quiet", "--program", str(harness.program)]
    folder = harness.folder() / "boxes"
    command = [sys.executable, str(FLEET), *words, "--boxes", str(folder)]
    ended = harness.run(command)
    arrived = ended.status == 0 and ended.out.startswith(f"seed {seed}: 12 robots arrived".encode())
    wrote = (ended.status, ended.out[-2000:], ended.err[-2000:])
    due = wrote if arrived else f"status 0, and a line that all 12 robots of seed {seed} arrived"
    name = " ".join([f"seed {seed}, {loss} lost, {kills} killed", *more])
    # As many as the fleet has killed itself.
    kills = re.search(r"; (\d+) kills;", ended.out.decode())
    agreed = (0, f" {int(kills[1]):,} kills, " if kills else "agreed: ")
    return [compared(name, shown(command), wrote, due), boxes.held(harness, name, str(boxes.WAREHOUSE), folder, agreed)]


def bad_calls(harness: Harness) -> Iterator[Outcome]:
    """One clear line and a status, whatever is wrong."""
    turn = ["--map", str(ROOT / "examples" / "turn.map"), "--plan", str(ROOT / "examples" / "turn.plan")]
    torn = harness.folder({"plan": b"\xff\n"}) / "plan"
    for name, words, status, told in (
        ("no agents", ["--agents", "0"], 2, "a number from 1 to 65535 is wanted, and '0' is none"),
        ("too many agents", ["--agents", f"{0:020}65536"], 2, "a number from 1 to 65535 is wanted, and '0000000000000000000065536' is none"),
        ("fewer than no agents", ["--agents", "-1"], 2, "a number from 1 to 65535 is wanted, and '-1' is none"),
        ("all is lost", ["--loss", "1"], 2, "a rate from 0 to below 1 is wanted, and '1' is none"),
        ("all are killed", ["--kills", "nan"], 2, "a rate from 0 to below 1 is wanted, and 'nan' is none"),
        ("no map", ["--map", "no"], 3, "fleet: no: No such file or directory"),
        ("no plan", ["--plan", "no"], 3, "fleet: no: No such file or directory"),
        ("no program", ["--program", "./no"], 3, "fleet: ./no: No such file or directory"),
        ("no folder", ["--folder", "no"], 3, "No such file or directory"),
        ("no order", ["--orders", "0"], 2, "a number from 1 to 65535 is wanted, and '0' is none"),
        ("boxes of orders", ["--orders", "1", "--boxes", "new"], 2, "argument --boxes: not allowed with argument --orders"),
        ("a robot of none", ["--take", "-1"], 2, "'-1' is no number up to 65535"),
        ("taken from boxes", ["--take", "0", "--boxes", "new"], 2, "argument --boxes: not allowed with argument --take"),
        ("taken from orders", ["--take", "0", "--orders"], 2, "argument --orders: not allowed with argument --take"),
        ("one too many is taken", ["--take", "12"], 1, "fleet: there is no robot 12 to be carried off"),
        ("boxes that were there before", ["--boxes", "."], 3, "fleet: .: File exists"),
        ("a plan that is none", ["--plan", str(torn)], 1, "`mapf run --complete` says 'mapf: BadHeader 1'"),
        ("a rotation", turn, 1, "`mapf run --complete` says 'blocked 0'"),
    ):
        command = [sys.executable, str(FLEET), "--program", str(harness.program), *words, "--quiet"]
        ended = harness.run(command, folder=harness.folder())
        last = ended.err.decode(errors="replace").splitlines()[-1:]
        wrote = (ended.status, told in "".join(last), b"Traceback" in ended.err, ended.out)
        yield compared(name, f"{shown(command)}, which told {ended.err[-500:]!r}", wrote, (status, True, False, b""))


def carry_out(harness: Harness, seed: int, loss: float, kills: float, more: list[str]) -> list[Outcome]:
    """Plan after plan, without a stop."""
    wanted = LONG_ORDERS if harness.is_long else SHORT_ORDERS
    words = [*more, "--seed", str(seed), "--loss", str(loss), "--kills", str(kills), "--quiet", "--program", str(harness.program)]
    command = [sys.executable, str(FLEET), "--agents", str(DRIVERS), "--orders", str(wanted), *words]
    ended = harness.run(command)
    told = ended.out.decode(errors="replace").splitlines()
    due = f"{wanted} of {wanted} orders carried out, by {wanted // DRIVERS} plans without a stop", f"seed {seed}: {DRIVERS} robots arrived"
    wrote = (ended.status, told[:1] == [due[0]], told[1:2] and told[1].startswith(due[1]))
    name = " ".join([f"{wanted} orders, seed {seed}, {loss} lost, {kills} killed", *more])
    return [compared(name, f"{shown(command)}, which told {ended.out[-500:]!r} {ended.err[-500:]!r}", wrote, (0, True, True))]


def carried_off(harness: Harness, seed: int, loss: float, kills: float, more: list[str]) -> list[Outcome]:
    """One is lifted off in the middle of the run, and the others arrive by a plan of what is left."""
    gone = seed % ROBOTS
    words = [*more, "--seed", str(seed), "--loss", str(loss), "--kills", str(kills), "--quiet", "--program", str(harness.program)]
    command = [sys.executable, str(FLEET), "--agents", str(ROBOTS), "--take", str(gone), *words]
    ended = harness.run(command)
    due = rf"robot {gone} was carried off at step \d+, and the others were stopped at step \d+\nseed {seed}: {ROBOTS - 1} robots arrived after .*\n"
    wrote = (ended.status, bool(re.fullmatch(due, ended.out.decode(errors="replace"))))
    name = " ".join([f"robot {gone} is carried off, seed {seed}, {loss} lost, {kills} killed", *more])
    return [compared(name, f"{shown(command)}, which told {ended.out[-500:]!r} {ended.err[-500:]!r}", wrote, (0, True))]


def the_only_one(harness: Harness) -> Iterator[Outcome]:
    """Nobody is left, who has arrived."""
    command = [sys.executable, str(FLEET), "--agents", "1", "--take", "0", "--quiet", "--program", str(harness.program)]
    ended = harness.run(command)
    yield compared("the only robot is carried off", shown(command), (ended.status, b"seed 1: 0 robots arrived" in ended.out, ended.err), (0, True, b""))


def full_disk(harness: Harness) -> Iterator[Outcome]:
    """Whatever isn't stored is waited out, and then all arrive."""
    program = failing_program(harness, Chances(unopened=0.2, lost=0.1, stored=0.1))
    folder = harness.folder() / "boxes"
    command = [sys.executable, str(FLEET), "--agents", "3", "--kills", "0", "--quiet", "--program", str(program), "--boxes", str(folder)]
    ended = harness.run(command)
    wrote = (ended.status, ended.out.startswith(b"seed 1: 3 robots arrived"), b": failed, and is started again\n" in ended.err)
    yield compared("a disk that fails at times", f"{shown(command)}, which told {ended.err[-500:]!r}", wrote, (0, True, True))
    yield boxes.held(harness, "a disk that fails at times", str(boxes.WAREHOUSE), folder)


def outcomes(harness: Harness) -> Iterator[Outcome]:
    yield from bad_calls(harness)
    yield from full_disk(harness)
    runs = [(seed, *rates, more) for seed in LONG for rates in RATES for more in ([], ["--tell"])] if harness.is_long else SHORT
    yield from side_by_side(functools.partial(drive, harness, *run) for run in runs)
    ordered = [(seed, *rates, more) for seed in (1, 2, 3) for rates in RATES for more in ([], ["--tell"])] if harness.is_long else SHORT[:2]
    yield from side_by_side(functools.partial(carry_out, harness, *run) for run in ordered)
    yield from the_only_one(harness)
    taken = [(seed, *rates, more) for seed in LONG for rates in RATES for more in ([], ["--tell"])] if harness.is_long else SHORT
    yield from side_by_side(functools.partial(carried_off, harness, *run) for run in taken)
