"""What `mapf check` says of a plan, and a fault in words, with the cells in which it is seen."""
import dataclasses
import json
from typing import Any, Optional, Sequence

from mapf.program import Program
from mapf.verdicts import listed_words
from showing.courses import STEPS, Cell, Courses
from showing.program import answer, refuse

TERRAIN = {".": "land", "G": "land", "S": "swamp", "W": "water", "@": "out of bounds", "O": "out of bounds", "T": "trees"}
# What the program says of a plan: whether it is accepted, and its numbers or its faults.
Verdict = dict[str, Any]
TOWARDS = {"n": "north", "e": "east", "s": "south", "w": "west"}
# What a plan can have that is valid, but doesn't solve a scenario.
OF_A_SCENARIO = ("TooFewRows", "SizeDiffers", "StartDiffers", "GoalDiffers")


@dataclasses.dataclass(frozen=True)
class Ground:
    """The map in canonical form."""

    width: int
    height: int
    rows: bytes

    def name(self, cell: Cell) -> str:
        """What stands in a cell."""
        x, y = cell
        if not (0 <= x < self.width and 0 <= y < self.height):
            return "off the map"
        return TERRAIN[chr(self.rows[y * self.width + x])]


@dataclasses.dataclass(frozen=True)
class Row:
    """A row of a scenario: the size of its map, the start and the goal."""

    size: tuple[int, int]
    start: Cell
    goal: Cell


@dataclasses.dataclass(frozen=True)
class Scenario:
    """A scenario by its name, the copy of its file, and its rows."""

    name: str
    file: str
    rows: Sequence[Row]


@dataclasses.dataclass(frozen=True)
class Fault:
    """A fault as the program says it and in words, the time at which it is shown, who has it, its cells, and the steps from cell to cell that it
    speaks of."""

    said: str
    words: str
    time: int
    agents: list[int]
    cells: list[Cell]
    steps: list[tuple[Cell, Cell]]


def shown(cell: Cell) -> str:
    return f"column {cell[0]}, row {cell[1]}"


def bad_start(said: str, agent: int, courses: Courses, ground: Ground) -> Fault:
    cell = courses.starts[agent]
    return Fault(said, f"Agent {agent} starts in {shown(cell)}: {ground.name(cell)}.", 0, [agent], [cell], [])


def bad_move(said: str, agent: int, step: int, courses: Courses, ground: Ground) -> Fault:
    one = courses.cell(agent, step)
    act = chr(courses.acts[agent][step])
    other = one[0] + STEPS[act][0], one[1] + STEPS[act][1]
    here, there = (f"{shown(cell)} ({ground.name(cell)})" for cell in (one, other))
    words = f"In step {step:,} agent {agent} is to go {TOWARDS[act]}, from {here} to {there}: that is no legal step."
    return Fault(said, words, step, [agent], [other], [(one, other)])


def vertex(said: str, one: int, other: int, time: int, cell: Cell) -> Fault:
    return Fault(said, f"Agents {one} and {other} both stand in {shown(cell)} at time {time:,}.", time, [one, other], [cell], [])


def swap(said: str, one: int, other: int, step: int, courses: Courses) -> Fault:
    cells = [courses.cell(agent, step) for agent in (one, other)]
    words = f"In step {step:,} agents {one} and {other} exchange their cells, {shown(cells[0])} and {shown(cells[1])}."
    return Fault(said, words, step, [one, other], cells, [(cells[0], cells[1]), (cells[1], cells[0])])


def of_a_row(said: str, agent: int, courses: Courses, ground: Ground, scenario: Scenario) -> Fault:
    """A start or a goal that isn't that of the agent's row, or a row that is for another map."""
    kind, row, last = said.split()[0], scenario.rows[agent], len(courses.acts[agent])
    where = f"row {agent} of {scenario.name}"
    if kind == "SizeDiffers":
        words = f"In {where} the map has {row.size[0]:,} columns and {row.size[1]:,} rows, and this one has {ground.width:,} and {ground.height:,}."
        return Fault(said, words, 0, [], [], [])
    is_goal = kind == "GoalDiffers"
    cell, due = (courses.cell(agent, last), row.goal) if is_goal else (courses.starts[agent], row.start)
    verb, what = ("ends", "goal") if is_goal else ("starts", "start")
    words = f"Agent {agent} {verb} in {shown(cell)}, and the {what} of {where} is {shown(due)}."
    return Fault(said, words, last if is_goal else 0, [agent], [cell, due], [])


def of_the_scenario(said: str, courses: Courses, ground: Ground, scenario: Scenario) -> Fault:
    kind, *numbers = said.split()
    if kind == "TooFewRows":
        words = f"The plan has {len(courses.starts):,} agents, and {scenario.name} has {len(scenario.rows):,} rows."
        return Fault(said, words, 0, [], [], [])
    return of_a_row(said, int(numbers[0]), courses, ground, scenario)


def fault_of(said: str, courses: Courses, ground: Ground) -> Fault:
    """A fault of the program, as it can be shown."""
    kind, *rest = said.split()
    numbers = list(map(int, rest))
    if kind == "BadStart":
        return bad_start(said, *numbers, courses, ground)
    if kind == "BadMove":
        return bad_move(said, *numbers, courses, ground)
    if kind == "Vertex":
        return vertex(said, *numbers[:3], (numbers[3], numbers[4]))
    return swap(said, *numbers, courses)


def is_of_the_scenario(verdict: Verdict) -> bool:
    """Whether a plan is valid, and doesn't solve its scenario."""
    return not verdict["accepted"] and verdict["faults"][0]["kind"] in OF_A_SCENARIO


def faults_of(verdict: Verdict, courses: Courses, ground: Ground, scenario: Optional[Scenario]) -> list[Fault]:
    """The listed faults of a rejected plan, and the one for which its courses are those of its text."""
    said = [str(listed_words(fault)) for fault in verdict.get("faults", [])]
    if scenario and is_of_the_scenario(verdict):
        return [of_the_scenario(it, courses, ground, scenario) for it in said]
    if courses.told and courses.told not in said:
        said.append(courses.told)
    return [fault_of(it, courses, ground) for it in said]


def read_verdict(program: Program, files: Sequence[str], plan: str, scenario: Optional[Scenario]) -> Verdict:
    scen = ["--scen", scenario.file] if scenario else []
    text, call = answer(program, "check", "--json", "--all", *scen, "--", *files)
    if not text:
        refuse(call, plan)
    return json.loads(text)


def read_scenario(program: Program, file: str, name: str) -> Scenario:
    """The scenario of a file, which is a copy."""
    text, call = answer(program, "scen", "--", file)
    if call.status:
        refuse(call, name)
    rows = [list(map(int, line.split(b"\t")[2:8])) for line in text.splitlines()[1:]]
    return Scenario(name.rpartition("/")[2], file, [Row((it[0], it[1]), (it[2], it[3]), (it[4], it[5])) for it in rows])


def read_ground(program: Program, file: str, map_name: str) -> tuple[Ground, bytes]:
    """The map, and its text in canonical form."""
    text, call = answer(program, "map", "--", file)
    if call.status:
        refuse(call, map_name)
    _, height, width, _, rows = text.split(b"\n", 4)
    return Ground(int(width.split()[1]), int(height.split()[1]), rows.replace(b"\n", b"")), text


def in_words(verdict: Verdict, faults: Sequence[Fault], scen: str = "") -> str:
    """What the page says of the plan, before anything is drawn."""
    if faults:
        count = len(verdict["faults"])
        return faults[0].words + (f" It is the first of {'more than ' if verdict['more'] else ''}{count:,} faults." if count > 1 else "")
    agents, cost, makespan = (verdict[name] for name in ("agents", "cost", "makespan"))
    solves = f", and solves {scen}" if scen else ""
    return f"The plan is accepted{solves}: {agents:,} {'agent' if agents == 1 else 'agents'}, sum of costs {cost:,}, makespan {makespan:,}."
