#!/usr/bin/env python3
"""Writes what is to be planned anew for a fleet that was stopped, by the tapes of its agents.

Usage: handover.py MAP PLAN TAPES FOLDER [--program PATH]
       handover.py MAP PLAN TAPES FOLDER --without I [--blocked [X Y ..]] [--number N] [--program PATH]

TAPES is the name of the agents' tapes, with % for an agent's number, as for `mapf status`. All agents
have to be stopped: a tape that is in use is refused. In FOLDER, which is made where it isn't there,
are then:

  cut.plan    the plan behind which all that was begun has ended, by `mapf handover`: agents go on by
              it, and then by any plan that goes on from it
  cut.scen    a row for each agent, from where the cut leaves it to where the plan ends

With --without agent I is taken off the floor, and its tape may be lost. In FOLDER are then:

  others.plan what is left of the plan for the others, by `mapf anew`, under a new number
  others.scen a row for each of them, from where it stands to where the plan ends

With --blocked agent I stays where it broke down: in the cells X Y .. that somebody saw, else in
those in which its robot may be, by `mapf lost`. A robot whose tape doesn't say where it is has to be
seen. In FOLDER is then also:

  others.map  the map with these cells out of bounds, for the planner, and for all checks from now on

`others.plan` is there only where what is left of the plan keeps out of these cells.

All lengths in the scenarios are right, as `mapf rows` certifies. Standard output says at which time
the plan is cut (`cut at T`). With --without it says which cells are free now (`freed X Y`, `freed
X Y U V` where the agent was between two, `freed unknown FAULT` where its tape doesn't say); in which
cells its robot may be, by `mapf lost` (`look X Y U V ..`, or `look unknown NotOneRun` where its tape
is an older copy); which number each agent behind it had (`agent 4 was 5`); and whether `others.plan`
can be driven. With --blocked it says which cells are out of bounds (`blocked X Y U V ..`) in place
of those that are free or to be looked at; and to which goals no way leads any more (`unreachable A
X Y`, where the row lists the length 0).

Status 0: written. 1: a text, a plan or a tape has a fault, told in one line. 2: a bad command line.
3: a file or a tool failed. Unless it is 0, nothing is written.
"""
import argparse
import contextlib
import decimal
import fcntl
import os
import pathlib
import sys
import tempfile
from typing import Iterator, Sequence

sys.dont_write_bytecode = True
import mapf  # noqa: E402
from given import number_up_to, plan_number  # noqa: E402
from leaving import heed_signals  # noqa: E402
from mapf.program import Program, files, usual_program  # noqa: E402
from refused import Refused  # noqa: E402
from showing.program import copied  # noqa: E402
from whole_file import Draft, draft  # noqa: E402

Cell = tuple[int, int]
# A start and a goal.
Task = tuple[Cell, Cell]
MOST_AGENT = MOST_COORDINATE = 65_535
# How a listed length is written, and that of a row whose goal can't be reached.
DECIMALS, NO_LENGTH = 8, "0"
OTHERS_MAP, OTHERS_PLAN = "others.map", "others.plan"
# Where a plan enters a cell that is blocked; and where its agents go round, which another plan mends.
BAD_START, BAD_MOVE, ROTATION = "BadStart", "BadMove", "Rotation"


def agent(word: str) -> int:
    return number_up_to(word, MOST_AGENT)


def coordinate(word: str) -> int:
    return number_up_to(word, MOST_COORDINATE)


def read_words(words: Sequence[str]) -> argparse.Namespace:
    parser = argparse.ArgumentParser(prog="handover.py", description=__doc__, formatter_class=argparse.RawDescriptionHelpFormatter)
    parser.add_argument("map", metavar="MAP", help="the map of the plan")
    parser.add_argument("plan", metavar="PLAN", help="the plan that the agents drive")
    parser.add_argument("tapes", metavar="TAPES", help="the files of their tapes, with %% for an agent's number")
    parser.add_argument("folder", type=pathlib.Path, metavar="FOLDER", help="where the files go")
    parser.add_argument("--without", type=agent, metavar="I", help="this agent is taken off the floor")
    parser.add_argument(
        "--blocked", type=coordinate, nargs="*", metavar="X Y", help="it stays, in these cells (in those where it may be)"
    )
    parser.add_argument("--number", type=plan_number, metavar="N", help="the number of the plan of the others (one that is drawn)")
    parser.add_argument("--program", type=pathlib.Path, default=usual_program(), metavar="PATH", help="another program mapf than the usual one")
    given = parser.parse_args(words)
    if given.number is not None and given.without is None:
        parser.error("--number goes with --without: a cut keeps the number of its plan")
    if given.blocked is not None and given.without is None:
        parser.error("--blocked goes with --without: it says where that robot stays")
    if len(given.blocked or ()) % 2:
        parser.error("--blocked: a column and a row are wanted for each cell")
    return given


# ---- what the program is asked


@contextlib.contextmanager
def blaming(file: str) -> Iterator[None]:
    """Passes on what the program tells of a file."""
    try:
        yield
    except mapf.Fault as fault:
        raise Refused(f"{file}: {fault.line}", fault.status) from None


class Stopped:
    """A fleet that was stopped: its map and its plan, of which all answers are, since they are of copies, and its tapes."""

    def __init__(self, given: argparse.Namespace, room: pathlib.Path):
        self.given, self.program = given, Program(given.program)
        self.map, self.plan = copied(given.map, room, "map"), copied(given.plan, room, "plan")
        # The map of the plan to come, and its name.
        self.room, self.next_map, self.next_name = room, self.map, pathlib.Path(given.map).name
        with blaming(given.map):
            _, height, width, _ = self.program.answer("map", *files(self.map)).split("\n", 3)
        self.size = f"{width.split()[1]}\t{height.split()[1]}"

    @contextlib.contextmanager
    def blamed(self) -> Iterator[None]:
        """Passes on what the program tells of the plan, or of a tape: which one, and what is wrong with it."""
        with blaming(self.given.plan):
            try:
                yield
            except mapf.Fault as fault:
                if fault.name != "BadTape":
                    raise
                bad = fault.numbers[0]
                raise Refused(f"{self.given.tapes.replace('%', str(bad))}: {self.status_of(bad).fault}") from None

    def status_of(self, agent: int) -> mapf.AgentStatus:
        return mapf.status(self.map, self.plan, self.given.tapes, program=self.program).agents[agent]

    def cut(self) -> str:
        with self.blamed(), self.held_stopped():
            return mapf.handover(self.map, self.plan, self.given.tapes, program=self.program)

    def others(self) -> str:
        """The plan of all but one."""
        with self.blamed(), self.held_stopped():
            return mapf.anew(self.map, self.plan, self.given.tapes, self.given.number, without=self.given.without, program=self.program)

    def places_of(self, agent: int) -> list[Cell]:
        """The cells in which the robot of an agent may be."""
        with self.held_stopped():
            places = mapf.lost(self.map, self.plan, self.given.tapes, agent, program=self.program)
        return [(it.x, it.y) for it in places]

    def blocked(self, agent: int) -> list[Cell]:
        """The cells in which the robot of an agent stays: those that somebody saw, else those in which it may be by its tape."""
        seen = self.given.blocked
        if seen:
            return list(zip(seen[::2], seen[1::2]))
        fault, places = self.status_of(agent).fault, []
        try:
            places = self.places_of(agent)
        except mapf.Fault as other:
            fault = fault or other.words
        if fault:
            tape = self.given.tapes.replace("%", str(agent))
            raise Refused(f"{tape}: {fault}: say behind --blocked in which cells the robot was seen")
        return places

    def block(self, cells: Sequence[Cell]) -> str:
        """The map with these cells out of bounds, on which the plan to come is planned and judged."""
        target, text = self.room / "blocked", ""
        for x, y in cells:
            with blaming(self.given.map):
                text = self.program.answer("map", "--block", str(x), str(y), *files(self.next_map))
            target.write_text(text, encoding="ascii")
            self.next_map, self.next_name = str(target), OTHERS_MAP
        return text

    @contextlib.contextmanager
    def held_stopped(self) -> Iterator[None]:
        """Refuses a tape that an agent holds before tapes are read, or behind it: by what it stores meanwhile, or next, all that is written would
        be false."""
        agents = mapf.check(self.map, self.plan, program=self.program).agents or 0
        self.hold_stopped(agents)
        yield
        self.hold_stopped(agents)

    def hold_stopped(self, agents: int) -> None:
        for agent in range(agents):
            tape = self.given.tapes.replace("%", str(agent))
            if is_in_use(tape):
                raise Refused(f"{tape}: it is in use, and all agents have to be stopped")

    def scenario(self, tasks: Sequence[Task], lengths: Sequence[str]) -> bytes:
        """A row for each task, with its length."""
        head = b"0\t" + os.fsencode(self.next_name) + f"\t{self.size}\t".encode()
        rows = (head + f"{x}\t{y}\t{u}\t{v}\t{length}\n".encode() for ((x, y), (u, v)), length in zip(tasks, lengths))
        return b"version 1\n" + b"".join(rows)

    @contextlib.contextmanager
    def scenario_draft(self, tasks: Sequence[Task], target: pathlib.Path) -> Iterator[tuple[Draft, list[int]]]:
        """A scenario whose lengths are right, and the rows that have none: those of a first draft are none, and tell what is due."""
        with blaming(str(target)):
            with draft([self.scenario(tasks, ["0"] * len(tasks))], None) as first:
                found = mapf.rows(self.next_map, first.path, program=self.program).rows
            lengths = [self.length_of(found[number]) for number in range(len(tasks))]
            with draft([self.scenario(tasks, lengths)], target) as made:
                counts = mapf.rows(self.next_map, made.path, program=self.program).counts
                if counts["agree"] + lengths.count(NO_LENGTH) != len(tasks):
                    raise mapf.Failed(f"{target}: `mapf rows` doesn't agree with its lengths")
                yield made, [number for number, length in enumerate(lengths) if length == NO_LENGTH]

    def length_of(self, row: mapf.Row) -> str:
        """The shortest length of a row in digits; none where blocked cells leave no way."""
        if row.straight is not None and row.diagonal is not None:
            return f"{row.straight + row.diagonal * decimal.Decimal(2).sqrt():.{DECIMALS}f}"
        if self.next_map == self.map:
            raise mapf.Failed(f"`mapf rows` says '{row.verdict}' of a row that a plan solves")
        return NO_LENGTH


def is_in_use(tape: str) -> bool:
    """Whether an agent has locked a file. Of one that can't be opened the program says what is wrong."""
    try:
        file = os.open(tape, os.O_RDONLY | os.O_NONBLOCK)
    except OSError:
        return False
    try:
        fcntl.flock(file, fcntl.LOCK_SH | fcntl.LOCK_NB)
    except BlockingIOError:
        return True
    finally:
        os.close(file)
    return False


def tasks_of(plan: str) -> list[Task]:
    """Where each agent of a plan starts and ends."""
    tasks = []
    for line in plan.splitlines()[3:]:
        _, column, row, acts = line.split(" ")
        x, y = int(column), int(row)
        tasks.append(((x, y), (x + acts.count("e") - acts.count("w"), y + acts.count("s") - acts.count("n"))))
    return tasks


# ---- what is written and said


def hand_over(fleet: Stopped, folder: pathlib.Path) -> list[str]:
    """The cut, and what is left of it to be planned."""
    cut = fleet.cut()
    ends = tasks_of(pathlib.Path(fleet.plan).read_text(encoding="ascii"))
    tasks = [(start, end) for (_, start), (_, end) in zip(tasks_of(cut), ends)]
    folder.mkdir(exist_ok=True)
    with draft([cut], folder / "cut.plan") as plan, fleet.scenario_draft(tasks, folder / "cut.scen") as (scenario, _):
        plan.put()
        scenario.put()
    # In the last step before it a begun move ends.
    return [f"cut at {max((len(line.split()[3].strip('=')) for line in cut.splitlines()[3:]), default=0)}"]


def go_on_without(fleet: Stopped, gone: int, folder: pathlib.Path) -> list[str]:
    """The plan of the others, and what is left of it to be planned."""
    others = fleet.others()
    tasks = tasks_of(others)
    lines = [freed(fleet.status_of(gone)), looked_for(fleet, gone)]
    lines += [f"agent {agent} was {agent + 1}" for agent in range(gone, len(tasks))]
    folder.mkdir(exist_ok=True)
    with draft([others], folder / OTHERS_PLAN) as plan, fleet.scenario_draft(tasks, folder / "others.scen") as (scenario, _):
        verdict = mapf.check(fleet.map, plan.path, no_rotation=True, program=fleet.program)
        plan.put()
        scenario.put()
    return [*lines, can_be_driven(verdict)]


def go_on_around(fleet: Stopped, gone: int, folder: pathlib.Path) -> list[str]:
    """The same where the agent stays: the map with its cells out of bounds, and the plan only where it keeps out of them."""
    others = fleet.others()
    tasks, cells = tasks_of(others), fleet.blocked(gone)
    blocked = fleet.block(cells)
    folder.mkdir(exist_ok=True)
    with contextlib.ExitStack() as drafts:
        map_draft = drafts.enter_context(draft([blocked], folder / OTHERS_MAP))
        plan = drafts.enter_context(draft([others], folder / OTHERS_PLAN))
        scenario, unreachable = drafts.enter_context(fleet.scenario_draft(tasks, folder / "others.scen"))
        verdict = mapf.check(fleet.next_map, plan.path, no_rotation=True, program=fleet.program)
        map_draft.put()
        scenario.put()
        if verdict.accepted or (verdict.fault and verdict.fault.name == ROTATION):
            plan.put()
        else:
            # One of an earlier call would pass for it.
            plan.target.unlink(missing_ok=True)
    lines = [" ".join(["blocked", *(f"{x} {y}" for x, y in cells)])]
    lines += [f"agent {agent} was {agent + 1}" for agent in range(gone, len(tasks))]
    lines += [f"unreachable {agent} {tasks[agent][1][0]} {tasks[agent][1][1]}" for agent in unreachable]
    return [*lines, not_written(others, verdict) or can_be_driven(verdict)]


def can_be_driven(verdict: mapf.Verdict) -> str:
    return f"{OTHERS_PLAN} can be driven" if verdict.accepted else f"{OTHERS_PLAN} can't be driven: {verdict.fault}. repair.py plans it anew"


def not_written(plan: str, verdict: mapf.Verdict) -> str:
    """Why a plan isn't written, if it isn't: who comes into a cell that is blocked, since a plan of the old map has no other bad start or move."""
    fault = verdict.fault
    if verdict.accepted or (fault and fault.name == ROTATION):
        return ""
    if not fault or fault.name not in (BAD_START, BAD_MOVE):
        return f"{OTHERS_PLAN} isn't written: {fault}"
    agent = fault.numbers[0]
    _, x, y, acts = plan.splitlines()[3 + agent].split(" ")
    made = acts[: fault.numbers[1] + 1] if fault.name == BAD_MOVE else ""
    column, row = int(x) + made.count("e") - made.count("w"), int(y) + made.count("s") - made.count("n")
    return f"{OTHERS_PLAN} isn't written: by it agent {agent} is in {column} {row}, which is blocked. Plan anew, by others.scen on {OTHERS_MAP}"


def looked_for(fleet: Stopped, gone: int) -> str:
    """The cells in which the robot of an agent may be."""
    try:
        places = fleet.places_of(gone)
    except mapf.Fault as fault:
        # The tape of this agent is an older copy: the others have moved as if it had finished more.
        return f"look unknown {fault.words}"
    return " ".join(["look", *(f"{x} {y}" for x, y in places)])


def freed(status: mapf.AgentStatus) -> str:
    """The cells that an agent held, by its tape."""
    held = status.state
    if isinstance(held, mapf.Between):
        return f"freed {held.x} {held.y} {held.to_x} {held.to_y}"
    return f"freed {held.x} {held.y}" if held else f"freed unknown {status.fault}"


def main(words: Sequence[str]) -> int:
    given = read_words(words)
    try:
        with tempfile.TemporaryDirectory(prefix="mapf-handover-") as name:
            fleet = Stopped(given, pathlib.Path(name))
            if given.without is None:
                lines = hand_over(fleet, given.folder)
            else:
                go_on = go_on_without if given.blocked is None else go_on_around
                lines = go_on(fleet, given.without, given.folder)
        print("\n".join(lines))
    except Refused as fault:
        print(f"handover: {fault}", file=sys.stderr)
        return fault.status
    except (mapf.Failed, OSError) as fault:
        print(f"handover: {fault}", file=sys.stderr)
        return 3
    return 0


if __name__ == "__main__":
    heed_signals()
    sys.exit(main(sys.argv[1:]))
