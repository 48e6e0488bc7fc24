"""A simulated fleet of real agents, to which adversities happen: it stops, plans are taken back,
robots are lost and break down."""
import pathlib
import random
import re
import shutil
import sys
from typing import Callable, Optional, Sequence

from adverse_robots import Robot, Run, World
from bad_networks import Network, earlier_run
from floors import Drive, Unsafe
from harness import ROOT, Ended, Harness
from plan_chains import Course, Plan, extended, read, rested
from random_runs import Cell

TOOL = ROOT / "tools" / "handover.py"
# How many robots a fleet has, how many steps a plan has, and how many more each later plan.
ROBOTS, STEPS, MORE_STEPS = (4, 8), (50, 90), (10, 30)
# How many moments pass before a happening, and in how many all must have arrived.
BETWEEN, MANY = (8, 60), 3_000
# In each of so many fleets agents are killed while they store.
RACING = 4
# The greatest number of a plan.
GREATEST = 4_294_967_295
PLACE = re.compile(r"at (\d+) (\d+) done \d+")
DRIVEN = "others.plan can be driven"


def random_floor(rng: random.Random, robots: int) -> tuple[str, list[Cell]]:
    """A map with few blocked cells and little room for so many robots, and its free cells."""
    width, height = rng.randint(4, 6), rng.randint(3, 5)
    cells = [(x, y) for y in range(height) for x in range(width)]
    blocked = rng.sample(cells, min(rng.randint(0, 3), len(cells) - robots - 3))
    return map_of(width, height, blocked), [cell for cell in cells if cell not in blocked]


def map_of(width: int, height: int, blocked: Sequence[Cell]) -> str:
    rows = ["".join("@" if (x, y) in blocked else "." for x in range(width)) for y in range(height)]
    return "\n".join(["type octile", f"height {height}", f"width {width}", "map", *rows, ""])


def free_in(map_text: str) -> list[Cell]:
    rows = map_text.splitlines()[4:]
    return [(x, y) for y, row in enumerate(rows) for x, sign in enumerate(row) if sign == "."]


def with_blocked(map_text: str, cells: Sequence[Cell]) -> str:
    """The map, in which these cells are out of bounds."""
    lines = map_text.splitlines()
    for x, y in cells:
        row = lines[4 + y]
        lines[4 + y] = f"{row[:x]}@{row[x + 1:]}"
    return "\n".join([*lines, ""])


def starts_of(scenario: str) -> list[Course]:
    """Where the agents of a scenario start."""
    rows = [line.split("\t") for line in scenario.splitlines()[1:]]
    return [Course((int(row[4]), int(row[5])), "") for row in rows]


class Fleet:
    """A fleet. Each of its runs has a folder with boxes, which are judged when all is over."""

    def __init__(self, harness: Harness, room: pathlib.Path, seed: int, drives: type[Drive]):
        self.harness, self.room = harness, room
        self.rng = random.Random(f"adversities {seed}")
        is_racing = seed % RACING == 0
        self.world = World(harness, self.rng, Network(self.rng), is_racing, drives)
        self.counts = self.world.counts
        self.numbers: set[int] = set()
        count = self.rng.randint(*ROBOTS)
        map_text, free = random_floor(self.rng, count)
        starts = [Course(cell, "") for cell in self.rng.sample(free, count)]
        # All that there were, and those that drive.
        self.all_robots = [Robot(name, self.world) for name in range(count)]
        self.robots = self.all_robots
        # A robot that is lost, if one is: its drive goes on as far as it was told.
        self.gone: Optional[Robot] = None
        self.runs: list[Run] = []
        self.happened: list[str] = []
        self.first = map_text, self.planned(map_text, starts, self.fresh_number())
        self.keep_earlier_run(self.first[1])

    def leave(self) -> None:
        """Whatever happened, no process is left."""
        for robot in self.all_robots:
            robot.leave()

    def fresh_number(self) -> int:
        number = self.rng.randint(0, GREATEST)
        while number in self.numbers:
            number = self.rng.randint(0, GREATEST)
        return number

    def keep_earlier_run(self, plan: Plan) -> None:
        """A broker kept what an earlier run of the very same plan said, under another number."""
        number = self.fresh_number()
        while number == plan.number:
            number = self.fresh_number()
        self.numbers.add(number)
        self.world.network.old += earlier_run(number, [it.moves for it in plan.courses])

    def planned(self, map_text: str, courses: Sequence[Course], number: int) -> Plan:
        """A plan that goes on from these courses, in which nobody goes round."""
        steps = MORE_STEPS if any(it.acts for it in courses) else STEPS
        plan = Plan(number, tuple(courses))
        longer = extended(self.rng, free_in(map_text), plan, self.rng.randint(*steps), False)
        return rested(self.rng, longer)

    def hold(self, holds: bool, what: str) -> None:
        if not holds:
            raise Unsafe(what)

    def answered(self, *words: object) -> Ended:
        """What the program answers to a command that has to succeed."""
        ended = self.harness.mapf([str(word) for word in words])
        self.hold(ended.status == 0, f"mapf {words} ends with {ended}")
        return ended

    # Runs

    @property
    def run(self) -> Run:
        return self.runs[-1]

    def begin(self, map_text: str, plan: Plan) -> None:
        """Begins a run: new tapes, new boxes, and a number that no run had before."""
        self.hold(plan.number not in self.numbers, f"the number {plan.number} isn't fresh")
        self.numbers.add(plan.number)
        run = Run(self.room / str(len(self.runs) + 1), map_text)
        (run.folder / "tapes").mkdir(parents=True)
        run.map.write_text(map_text, encoding="ascii")
        run.add(plan)
        self.answered("check", run.map, run.plan_file(0), "--no-rotation")
        self.runs.append(run)
        self.world.network.begin_run()
        for number, robot in enumerate(self.robots):
            robot.begin(run, number)

    def end_run(self) -> None:
        for robot in self.robots:
            robot.end()
            robot.box.close()

    # Time

    def live(self, moments: int, until: Optional[Callable[[], bool]] = None) -> None:
        """So many moments, or less, if something is so before."""
        for _ in range(moments):
            if until and until():
                return
            self.world.network.now += 1
            for robot in self.rng.sample(self.robots, len(self.robots)):
                if robot is self.gone:
                    robot.drive.go(self.rng)
                else:
                    robot.live()
        is_over = until is None or until()
        self.hold(is_over, f"it isn't over after {moments} moments: {self.shown()}")

    def shown(self) -> list[tuple[int, int, int, bool]]:
        """Of each robot: its name, how many moves its tape and its drive have, and if it stands."""
        return [(it.name, it.done, it.drive.done, not it.is_moving) for it in self.robots]

    def others(self) -> list[Robot]:
        return [it for it in self.robots if it is not self.gone]

    def arrive(self) -> None:
        """All come to the ends of their plans."""
        self.live(MANY, lambda: all(it.has_arrived for it in self.robots))
        self.end_run()

    def drive(self, happenings: Sequence[str]) -> None:
        """Drives, and these things happen in order."""
        self.begin(*self.first)
        for happening in happenings:
            self.live(self.rng.randint(*BETWEEN))
            self.happened.append(f"{happening} at {self.world.network.now}")
            getattr(self, happening)()
        self.arrive()

    # What happens

    def stop(self) -> None:
        """All drives stop in a cell or between two, agents end, and all go on as before."""
        self.counts["stops"] += 1
        for robot in self.robots:
            robot.drive.is_frozen = True
        self.live(self.rng.randint(0, 4))
        for robot in self.robots:
            if robot.agent and self.rng.random() < 0.5:
                robot.be_killed_in_a_call()
            robot.end()
            robot.down_until = self.world.network.now + self.rng.randint(0, 4)
        for robot in self.robots:
            robot.drive.is_frozen = False

    def halt(self, may_freeze: bool) -> None:
        """No drive begins a move that neither its tape nor it has begun. Some stop at once."""
        self.counts["stops"] += 1
        for robot in self.others():
            robot.is_halted = True
            robot.drive.is_frozen = may_freeze and self.rng.random() < 0.5
            self.counts["cells taken back"] += robot.drive.recall(robot.begun)

    def take_back(self) -> None:
        """Tapes come up to the drives, all go on by a cut, and then by another plan."""
        self.halt(may_freeze=True)
        self.live(MANY, lambda: all(it.agent and it.begun >= it.drive.begun for it in self.robots))
        for robot in self.robots:
            robot.end()
        words = [self.run.map, self.run.last_file, self.run.tapes]
        self.run.add(read(self.answered("handover", *words).out.decode()))
        for robot in self.robots:
            robot.is_halted = robot.drive.is_frozen = False
            robot.go_over(len(self.run.plans) - 1)
        # No other plan may follow before all run by the cut.
        self.live(MANY, lambda: all(it.runs_by == it.place for it in self.robots))
        self.counts["taken back"] += 1
        if self.rng.random() < 0.5:
            self.live(MANY, lambda: all(it.has_arrived for it in self.robots))
        else:
            self.live(self.rng.randint(0, BETWEEN[0]))
        self.extend()

    def extend(self) -> None:
        """All go over to a plan that goes on from theirs, one after another, while others drive."""
        run, last, file = self.run, self.run.plans[-1], self.run.last_file
        run.add(self.planned(run.map_text, last.courses, last.number))
        self.answered("continues", run.map, file, run.last_file)
        self.answered("check", run.map, run.last_file, "--no-rotation")
        for robot in self.rng.sample(self.robots, len(self.robots)):
            robot.go_over(len(run.plans) - 1)
            self.live(self.rng.randint(0, 5))

    def lose(self) -> None:
        """A robot is lost, perhaps with its tape, and carried off. The others go on without it."""
        gone = self.stopped_without_one()
        tapes = self.gathered(gone)
        self.look_for(gone, tapes)
        plan = self.others_plan(gone, tapes)
        self.world.referee.takes_off(gone.name)
        self.counts["lost"] += 1
        self.begin(self.run.map_text, plan)
        if self.rng.random() < 0.5:
            self.extend()

    def break_down(self) -> None:
        """A robot breaks down and stays. The others go on around the cells that it holds."""
        gone = self.stopped_without_one()
        tapes = self.gathered(gone)
        map_text, plan = self.plan_around(gone, tapes, self.look_for(gone, tapes))
        self.world.referee.breaks(gone.name)
        self.counts["blocked"] += 1
        self.begin(map_text, plan)

    # A robot less

    def stopped_without_one(self) -> Robot:
        """One robot is lost: its drive goes on as far as it was told, perhaps until all others
        stand. Then the run is stopped: each other robot comes to the end of its move."""
        gone = self.gone = self.rng.choice(self.robots)
        if gone.agent:
            gone.be_killed_in_a_call()
        self.live(self.rng.randint(0, BETWEEN[1]))
        gone.drive.is_frozen = self.rng.random() < 0.5
        self.halt(may_freeze=False)
        self.live(MANY, lambda: all(self.stands(it) for it in self.others()))
        self.end_run()
        self.robots, self.gone = self.others(), None
        return gone

    def stands(self, robot: Robot) -> bool:
        """Whether a robot stands where the last move that its tape has begun ends."""
        drive = robot.drive
        return robot.agent is not None and drive.done == drive.begun == robot.begun

    def gathered(self, gone: Robot) -> str:
        """Copies of all tapes, perhaps without that of the lost robot."""
        folder = self.run.folder / "copies"
        folder.mkdir()
        has_tape = self.rng.random() < 0.7
        for robot in [*self.robots, *([gone] if has_tape else [])]:
            shutil.copy(self.run.tapes.replace("%", str(robot.number)), folder)
        self.counts["tapes gone"] += not has_tape
        return str(folder / "%.tape")

    def look_for(self, gone: Robot, tapes: str) -> list[Cell]:
        """The cells in which `mapf lost` looks for the lost robot, which has to be in them."""
        files = [self.run.map, self.run.last_file, tapes]
        lines = self.answered("lost", *files, gone.number).out.decode().splitlines()
        cells = [f"at {x} {y}" for x, y in gone.drive.cells]
        due = [f"{cell} done {done}" for done, cell in enumerate(cells, gone.drive.done)]
        self.hold(set(due) <= set(lines), f"robot {gone.name} is at {due}, and not in {lines}")
        self.counts["lost ahead"] += gone.drive.begun > gone.begun
        found = [PLACE.fullmatch(line) for line in lines]
        return [(int(it[1]), int(it[2])) for it in found if it]

    def handed_over(self, gone: Robot, tapes: str, *more: str) -> tuple[pathlib.Path, list[str]]:
        """Runs tools/handover.py. Gives its folder, and what it said."""
        folder, run = self.run.folder / "next", self.run
        files = [run.map, run.last_file, tapes, folder]
        words = ["--without", gone.number, "--number", self.fresh_number(), *more]
        words += ["--program", self.harness.program]
        ended = self.harness.run([sys.executable, *map(str, [TOOL, *files, *words])])
        self.hold(ended.status == 0, f"handover.py {words} ends with {ended}")
        told = ended.out.decode().splitlines()
        due = [f"agent {it} was {it + 1}" for it in range(gone.number, len(self.robots))]
        self.hold([it for it in told if it.startswith("agent ")] == due, f"{due} isn't in {told}")
        return folder, told

    def others_plan(self, gone: Robot, tapes: str) -> Plan:
        """The plan of what is left for the others."""
        folder, told = self.handed_over(gone, tapes)
        self.hold(told[-1] == DRIVEN, f"handover.py says {told}")
        return read((folder / "others.plan").read_text(encoding="ascii"))

    def plan_around(self, gone: Robot, tapes: str, places: Sequence[Cell]) -> tuple[str, Plan]:
        """The map in which the cells of a robot are out of bounds, and a plan of the others on it:
        what is left of theirs where that keeps out of these cells. Somebody sees the robot, or all
        places in which it may be are out of bounds."""
        has_tape = pathlib.Path(tapes.replace("%", str(gone.number))).exists()
        is_seen = not has_tape or self.rng.random() < 0.5
        cells = gone.drive.cells if is_seen else places
        numbers = [str(number) for cell in cells for number in cell]
        folder, told = self.handed_over(gone, tapes, "--blocked", *(numbers if is_seen else []))
        is_right = told[0] == " ".join(["blocked", *numbers])
        self.hold(is_right, f"handover.py says {told}, and {cells} were due")
        map_text = (folder / "others.map").read_text(encoding="ascii")
        self.hold(map_text == with_blocked(self.run.map_text, cells), f"others.map is {map_text!r}")
        self.counts["blocked, and not seen"] += not is_seen
        return map_text, self.plan_on(map_text, folder, told)

    def plan_on(self, map_text: str, folder: pathlib.Path, told: Sequence[str]) -> Plan:
        """What handover.py has written for a map with blocked cells, or another plan."""
        plan = folder / "others.plan"
        is_right = plan.exists() == (told[-1] == DRIVEN)
        self.hold(is_right, f"handover.py says {told}, and others.plan is there: {plan.exists()}")
        self.counts["blocked, and driven"] += plan.exists()
        if plan.exists():
            return read(plan.read_text(encoding="ascii"))
        starts = starts_of((folder / "others.scen").read_text(encoding="ascii"))
        return self.planned(map_text, starts, self.fresh_number())
