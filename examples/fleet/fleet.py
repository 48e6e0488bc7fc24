#!/usr/bin/env python3
"""Drives a fleet: one process `mapf agent` for each agent of a plan.

Usage: fleet.py [--agents N] [--seed N] [--loss RATE] [--kills RATE] [--tell] [--quiet] [--program PATH] [--plan FILE --map FILE]
       [--orders [N] | --take I | --boxes FOLDER]

Each robot asks its own process when it may go on, and says to the others what it has finished, or with `--tell` all that it knows of
anyone. The link between them loses messages, repeats them and lets them overtake one another; drives take their time; and at any moment
a process may be killed (`kill -9`) and started again on its tape, which is a new one until the process has said its first line, and was kept
from then on. Where a tape fails, as on a full disk, the process is started again until it doesn't. What the robots hold is watched from outside.
The same seed gives the same run, but for what a kill interrupts.

With `--orders` the robots begin where the plan begins, and carry out N orders, or as many as there is time for until this is interrupted. Each order sends a
robot to some cell. They are given out in plans, each of which goes on from the one before; the robots take them one by one while they drive, and who hasn't
got the last one yet drives by an older one.

With `--take I` robot I is lifted off the floor at some moment, and its process is gone. The others go on for a while, as far as they may without it, and
are stopped: each comes to the end of the move that it has begun. Then they begin anew, by a plan of what is left, with its own number and new tapes.

Status 0: all have arrived, and each tape, opened once more, says so. 1: two robots held a common cell, the plan can't be driven to its end, or a
process doesn't start. 2: a bad command line. 3: a file is not there.
"""
import argparse
import contextlib
import pathlib
import random
import secrets
import subprocess
import sys
import tempfile
from typing import Optional, Sequence, Union

sys.dont_write_bytecode = True
from black_box import note_of  # noqa: E402
from carried_off import CarriedOff, NoNewPlan, Unanswered, plan_of_others  # noqa: E402
from given import NUMBERS, number_in, number_up_to  # noqa: E402
from lossy_link import Link  # noqa: E402
from orders import NoPlan, Orders  # noqa: E402
from planning import Cell  # noqa: E402
from program import usual_program  # noqa: E402
from simulated_robot import FAILED, Robot, Unfit, cell_of  # noqa: E402

HERE = pathlib.Path(__file__).resolve().parent
STEP_OF = {"n": (0, -1), "s": (0, 1), "e": (1, 0), "w": (-1, 0), "-": (0, 0)}
NAMES = "0123456789abcdefghijklmnopqrstuvwxyz"
# The greatest number of an agent, and of orders.
MOST = 65_535
SAY_EACH = 5
# In so many moments a robot takes a newer plan that is there.
TAKES = 0.05
# A robot is carried off after so many moments at the most, and the others are stopped so many later.
LATEST_TAKE, LONGEST_WITHOUT = 120, 60
# What stands in a robot's place.
Seat = Union[Robot, CarriedOff]


def read_courses(plan: pathlib.Path) -> tuple[str, list[str]]:
    """The first line of a plan, and each agent's line."""
    lines = plan.read_text(encoding="ascii", errors="replace").splitlines()
    return lines[0] if lines else "", lines[3:]


def plan_text(head: str, courses: Sequence[str]) -> str:
    """A plan with these lines of agents, and a number that is drawn for this run alone."""
    return "\n".join([head, f"number {secrets.randbelow(NUMBERS)}", f"agents {len(courses)}", *courses, ""])


def goal_of(line: str) -> Cell:
    """The cell in which an agent's course ends."""
    _, x, y, acts = line.split()
    steps = [STEP_OF[act] for act in acts if act in STEP_OF]
    return int(x) + sum(dx for dx, _ in steps), int(y) + sum(dy for _, dy in steps)


def start_of(line: str) -> Cell:
    """The cell in which an agent's course begins."""
    return cell_of(line.split()[1:3])


def meeting(robots: Sequence[Seat]) -> Optional[tuple[int, int, Cell]]:
    """Two robots that hold a common cell, if there are such."""
    holders: dict[Cell, int] = {}
    for number, robot in enumerate(robots):
        for cell in robot.held:
            if cell in holders:
                return holders[cell], number, cell
            holders[cell] = number
    return None


def picture(rows: Sequence[str], robots: Sequence[Seat], step: int) -> str:
    """The map with the robots: a robot that drives is in both of its cells."""
    shown = [list(row) for row in rows]
    for number, robot in enumerate(robots):
        for x, y in robot.held:
            shown[y][x] = NAMES[number % len(NAMES)]
    return "\n".join([f"step {step}", *("".join(row) for row in shown), ""])


class Fleet:
    """Robots and the link between them, moment by moment."""

    def __init__(self, given: argparse.Namespace, robots: Sequence[Robot], rows: Sequence[str], rng: random.Random):
        self.given, self.rows, self.rng = given, rows, rng
        self.seats: list[Seat] = [*robots]
        self.link = Link(given.loss, rng)
        self.step = 0
        self.arrived: set[int] = set()

    @property
    def robots(self) -> list[Robot]:
        """Those that weren't carried off."""
        return [seat for seat in self.seats if isinstance(seat, Robot)]

    def is_safe_for(self, moments: int) -> bool:
        """Whether no two robots hold a common cell for so many moments."""
        return all(self.is_safe_after_a_moment() for _ in range(moments))

    def is_safe_after_a_moment(self) -> bool:
        """Whether no two robots hold a common cell, while each lives on for a moment."""
        self.step += 1
        for to, message in self.link.arrived(self.step):
            with contextlib.suppress(Unanswered):
                self.seats[to].ask(f"hear {message}")
        for number in self.rng.sample(range(len(self.seats)), len(self.seats)):
            with contextlib.suppress(Unanswered):
                self._live(number)
            if self.has_met():
                return False
        if not self.given.quiet:
            print(picture(self.rows, self.seats, self.step))
        return True

    def _live(self, number: int) -> None:
        """A moment of one robot, and what it says to the others."""
        seat = self.seats[number]
        if number not in self.arrived and seat.go_on():
            self.arrived.add(number)
        if (self.step + number) % SAY_EACH == 0:
            message = seat.ask("tell" if self.given.tell else "say")[1]
            for other in range(len(self.seats)):
                if other != number:
                    self.link.send(self.step, other, message)

    def has_met(self) -> bool:
        """Whether two robots hold a common cell, which is told."""
        met = meeting(self.seats)
        if met:
            print(picture(self.rows, self.seats, self.step))
            print(f"step {self.step}: the robots {met[0]} and {met[1]} hold {met[2]} both")
        return met is not None


def check_plan(given: argparse.Namespace, plan: pathlib.Path, nothing: pathlib.Path) -> None:
    """A plan that can't be driven to its end is not driven at all."""
    nothing.write_text("mapf-events 1\n")
    words = [given.program, "run", str(given.map), str(plan), str(nothing), "--complete"]
    ended = subprocess.run(words, stdin=subprocess.DEVNULL, stdout=subprocess.PIPE, stderr=subprocess.PIPE, text=True, check=False)
    said = (ended.stdout or ended.stderr).partition("\n")[0]
    if not said.startswith("complete "):
        raise Unfit(f"{given.plan}: `mapf run --complete` says '{said}'")


def robots_of(given: argparse.Namespace, folder: pathlib.Path, rng: random.Random) -> list[Robot]:
    """The robots of the plan's first agents, each with a box of its own where these are wanted, beside the plan that it is driven by."""
    head, courses = read_courses(given.plan)
    courses = courses[:given.agents]
    plan = (given.boxes or folder) / "fleet.plan"
    if given.boxes:
        # A box that was there before is of another run.
        given.boxes.mkdir()
    plan.write_text(plan_text(head, courses))
    check_plan(given, plan, folder / "none.events")
    files = [str(given.map), str(plan)]
    notes = [note_of(str(given.boxes / f"{n}.box") if given.boxes else "", n, files) for n in range(len(courses))]
    words = [[given.program, "agent", *files, str(n), str(folder / f"{n}.tape")] for n in range(len(courses))]
    return [Robot(words[n], goal_of(line), given.kills, rng, notes[n]) for n, line in enumerate(courses)]


def run(given: argparse.Namespace, folder: pathlib.Path) -> int:
    rng = random.Random(given.seed)
    rows = given.map.read_text(encoding="ascii", errors="replace").splitlines()[4:]
    if given.orders is not None:
        return run_orders(given, folder, rows, rng)
    fleet = Fleet(given, robots_of(given, folder, rng), rows, rng)
    if given.take is not None and not is_safe_while_taken(fleet, given.take):
        return 1
    if given.take is not None:
        begin_anew(fleet, given.take, folder)
    while len(fleet.arrived) < len(fleet.seats):
        if not fleet.is_safe_after_a_moment():
            return 1
    return told_at_the_end(given.seed, fleet)


def is_safe_while_taken(fleet: Fleet, taken: int) -> bool:
    """Whether no two robots hold a common cell until one is carried off, and the others, who go on without it, are stopped."""
    if taken >= len(fleet.seats):
        raise Unfit(f"there is no robot {taken} to be carried off")
    before, without = fleet.rng.randint(1, LATEST_TAKE), fleet.rng.randint(1, LONGEST_WITHOUT)
    if not fleet.is_safe_for(before):
        return False
    fleet.seats[taken] = fleet.robots[taken].be_carried_off()
    print(f"robot {taken} was carried off at step {fleet.step}", end=", ")
    if not fleet.is_safe_for(without):
        return False
    print(f"and the others were stopped at step {fleet.step}")
    for robot in fleet.rng.sample(fleet.robots, len(fleet.robots)):
        robot.come_to_stand()
        if fleet.has_met():
            return False
    return True


def begin_anew(fleet: Fleet, taken: int, folder: pathlib.Path) -> None:
    """The others drive what is left. Each stands where its new agent starts, with a new tape."""
    given, old = fleet.given, fleet.robots
    plan, tapes = folder / "others.plan", folder / "others"
    files = [str(given.map), str(folder / "fleet.plan"), str(folder / "%.tape")]
    plan.write_text(plan_of_others(given.program, files, secrets.randbelow(NUMBERS), taken))
    check_plan(given, plan, folder / "none.events")
    tapes.mkdir()
    files = [str(given.map), str(plan)]
    words = [[given.program, "agent", *files, str(n), str(tapes / f"{n}.tape")] for n in range(len(old))]
    goals = [goal_of(line) for line in read_courses(plan)[1]]
    new = [Robot(words[n], goals[n], given.kills, fleet.rng, note_of("", n, files)) for n in range(len(old))]
    for number, (one, other) in enumerate(zip(old, new)):
        if one.held != other.held or one.goal != other.goal:
            raise Unfit(f"robot {number} of the others holds {one.held} on its way to {one.goal}, and its new agent {other.held} on its way to {other.goal}")
        other.deaths = one.deaths
    fleet.link.leave_out(taken)
    fleet.seats, fleet.arrived = [*new], set()


def run_orders(given: argparse.Namespace, folder: pathlib.Path, rows: Sequence[str], rng: random.Random) -> int:
    """The robots drive for as long as there are orders."""
    orders, robots = ordered_robots(given, folder, rng)
    fleet = Fleet(given, robots, rows, rng)
    # Which of the plans each robot drives by.
    has = [0] * len(robots)
    try:
        while len(fleet.arrived) < len(robots) or is_more_due(given, orders):
            if fleet.arrived and is_more_due(given, orders) and has[min(fleet.arrived)] == len(orders.plans) - 1:
                orders.give_out()
            for number in range(len(robots)):
                if has[number] < len(orders.plans) - 1 and (number in fleet.arrived or rng.random() < TAKES):
                    has[number] = rng.randint(has[number] + 1, len(orders.plans) - 1)
                    robots[number].take(orders.plans[has[number]])
                    fleet.arrived.discard(number)
            fleet.arrived -= {number for number in fleet.arrived if has[number] < len(orders.plans) - 1}
            if not fleet.is_safe_after_a_moment():
                return 1
    except KeyboardInterrupt:
        print(f"interrupted: {told_of_orders(orders, robots)}, no two robots in one cell")
        return 0
    for number, robot in enumerate(robots):
        robot.goal = orders.walks[number][-1]
    print(told_of_orders(orders, robots))
    return told_at_the_end(given.seed, fleet)


def is_more_due(given: argparse.Namespace, orders: Orders) -> bool:
    return not given.orders or orders.given < given.orders


def told_of_orders(orders: Orders, robots: Sequence[Robot]) -> str:
    done = sum(orders.carried_out(number, robot.done) for number, robot in enumerate(robots))
    return f"{done} of {orders.given} orders carried out, by {len(orders.plans)} plans without a stop"


def ordered_robots(given: argparse.Namespace, folder: pathlib.Path, rng: random.Random) -> tuple[Orders, list[Robot]]:
    """The first orders, and the robots that drive by them, from where the plan has them begin."""
    _, courses = read_courses(given.plan)
    starts = [start_of(line) for line in courses[:given.agents]]
    orders = Orders(given.program, given.map, folder, secrets.randbelow(NUMBERS), starts, rng)
    orders.give_out()
    files = [str(given.map), str(orders.plans[0])]
    words = [[given.program, "agent", *files, str(n), str(folder / f"{n}.tape")] for n in range(len(starts))]
    return orders, [Robot(words[n], None, given.kills, rng, note_of("", n, files)) for n in range(len(starts))]


def told_at_the_end(seed: int, fleet: Fleet) -> int:
    """Whether each tape says that its robot has arrived, and what was counted."""
    robots, step, link = fleet.robots, fleet.step, fleet.link
    for number, robot in enumerate(robots):
        if not robot.is_home():
            print(f"the tape of robot {number} says that it holds {robot.held}")
            return 1
    kills = sum(robot.deaths for robot in robots)
    print(f"seed {seed}: {len(robots)} robots arrived after {step} steps; {kills} kills; {link.sent} messages, {link.lost} lost, {link.repeated} repeated")
    return 0


def count(word: str) -> int:
    found = number_in(word, MOST)
    if not found:
        raise argparse.ArgumentTypeError(f"a number from 1 to {MOST} is wanted, and '{word[:40]}' is none")
    return found


def agent(word: str) -> int:
    return number_up_to(word, MOST)


def rate(word: str) -> float:
    """With a rate of 1 nothing would ever come through."""
    with contextlib.suppress(ValueError):
        if 0 <= float(word) < 1:
            return float(word)
    raise argparse.ArgumentTypeError(f"a rate from 0 to below 1 is wanted, and '{word[:40]}' is none")


def main() -> int:
    parser = argparse.ArgumentParser(description="Drives a fleet: one process `mapf agent` for each agent of a plan.")
    parser.add_argument("--agents", type=count, default=12, help="how many of the plan's agents drive (12)")
    parser.add_argument("--seed", type=int, default=1, help="the seed of all chances (1)")
    parser.add_argument("--loss", type=rate, default=0.2, help="how many messages are lost, and how many come twice (0.2)")
    parser.add_argument("--kills", type=rate, default=0.02, help="how many questions end in a kill of the process (0.02)")
    parser.add_argument("--tell", action="store_true", help="each message has all that its sender knows, and not only what it has finished itself")
    parser.add_argument("--quiet", action="store_true", help="shows no map, only how it ended")
    what = parser.add_mutually_exclusive_group()
    what.add_argument("--orders", type=count, nargs="?", const=0, metavar="N", help="the robots carry out N orders, or as many as there is time for, without a stop")
    what.add_argument("--take", type=agent, metavar="I", help="robot I is carried off, and the others begin anew")
    what.add_argument("--boxes", type=pathlib.Path, help="a new folder, for the plan and the robots' boxes")
    parser.add_argument("--program", default=usual_program(), help="the program mapf (%(default)s)")
    parser.add_argument("--map", type=pathlib.Path, default=HERE / "warehouse.map")
    parser.add_argument("--plan", type=pathlib.Path, default=HERE / "warehouse.plan")
    parser.add_argument("--folder", type=pathlib.Path, help="where a folder for the tapes is made, as on a disk that is full (where temporary files are)")
    given = parser.parse_args()
    try:
        with tempfile.TemporaryDirectory(dir=given.folder) as folder:
            return run(given, pathlib.Path(folder))
    except (Unfit, NoPlan, NoNewPlan) as fault:
        print(f"fleet: {fault}", file=sys.stderr)
        return 1
    except OSError as fault:
        print(f"fleet: {fault.filename}: {fault.strerror}", file=sys.stderr)
        return FAILED


if __name__ == "__main__":
    sys.exit(main())
