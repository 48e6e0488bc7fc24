#!/usr/bin/env python3
"""A plain model of `mapf path`, written from docs/FORMATS.md, and the vectors that it makes.

Usage: path_model.py > vectors/path.jsonl
The same vectors come each time.
"""
import dataclasses
import json
import random
import re
import sys
from typing import Optional, Sequence

sys.dont_write_bytecode = True

Cell = tuple[int, int]
STEPS = {"n": (0, -1), "e": (1, 0), "s": (0, 1), "w": (-1, 0), "-": (0, 0)}
# Straight steps: from which terrain to which.
LEGAL = {(one, other) for group in (".GS", "W") for one in group for other in group}
BLOCKED = "@OT"
MOST_AGENTS, MOST_ACTS, MOST_ACTS_IN_ALL, MOST_LINE = 10_000, 65_535, 16_777_216, 65_553
NUMBER = re.compile(r"0|[1-9][0-9]*")


class Fault(Exception):
    """The words of a fault, as the program tells them."""


@dataclasses.dataclass(frozen=True)
class Agent:
    start: Cell
    acts: str

    def cells(self) -> list[Cell]:
        """The agent's cells by time."""
        cells = [self.start]
        for act in self.acts:
            dx, dy = STEPS[act]
            cells.append((cells[-1][0] + dx, cells[-1][1] + dy))
        return cells


def read_map(text: str) -> dict[Cell, str]:
    """The terrain of a map whose text has no fault but a short one."""
    lines = [line.removesuffix("\r") for line in text.split("\n")]
    height, width = int(lines[1].split()[1]), int(lines[2].split()[1])
    for number, row in enumerate((lines[4:] + [""] * height)[:height], 5):
        if len(row) < width:
            raise Fault(f"MissingRows {number}" if number > len(lines) or number == len(lines) and not row else f"ShortRow {number}")
    return {(x, y): lines[4 + y][x] for y in range(height) for x in range(width)}


def is_number(text: str, most: Optional[int] = None) -> bool:
    return bool(NUMBER.fullmatch(text)) and (most is None or int(text) <= most)


def head_line(line: str, number: int) -> int:
    """What line 2 or 3 of a plan says."""
    word = ("number ", "agents ")[number - 2]
    if not line.startswith(word):
        raise Fault(f"BadHeader {number}")
    if not is_number(line[7:], 4_294_967_295 if number == 2 else None):
        raise Fault(f"BadNumber {number}")
    if number == 3 and int(line[7:]) > MOST_AGENTS:
        raise Fault("TooMany 3")
    return int(line[7:])


def agent_line(line: str, number: int, before: int) -> Agent:
    """An agent's line, behind so many acts of others."""
    parts = line.split(" ")
    if len(parts) != 4 or "" in parts or parts[0] != "agent":
        raise Fault(f"BadAgent {number}")
    if not is_number(parts[1], 65_535) or not is_number(parts[2], 65_535):
        raise Fault(f"BadNumber {number}")
    acts = "" if parts[3] == "=" else parts[3]
    for place, act in enumerate(acts):
        if act not in STEPS:
            raise Fault(f"BadAct {number} {len(' '.join(parts[:3])) + 2 + place}")
    if len(acts) > MOST_ACTS or before + len(acts) > MOST_ACTS_IN_ALL:
        raise Fault(f"TooMany {number}")
    return Agent((int(parts[1]), int(parts[2])), acts)


def read_plan(text: str) -> list[Agent]:
    lines, agents, due = text.split("\n"), [], 3
    for number, line in enumerate(lines, 1):
        if number > due:
            if number < len(lines) or line:
                raise Fault(f"TextAfter {number}")
            return agents
        if len(line) > MOST_LINE:
            raise Fault(f"TooMany {number}")
        if number == len(lines):
            raise Fault(f"Unfinished {number}")
        if number == 1 and line != "mapf-plan 1":
            raise Fault("BadHeader 1")
        if number in (2, 3):
            said = head_line(line, number)
            due += said if number == 3 else 0
        if number > 3:
            agents.append(agent_line(line, number, sum(len(agent.acts) for agent in agents)))
    return agents


def least_fault(terrain: dict[Cell, str], agents: Sequence[Agent]) -> Optional[str]:
    """The least fault of an agent alone: by time, starts before acts, then by agent."""
    for number, agent in enumerate(agents):
        if terrain.get(agent.start, "@") in BLOCKED:
            return f"BadStart {number}"
    courses = [agent.cells() for agent in agents]
    for step in range(max((len(agent.acts) for agent in agents), default=0)):
        for number, (agent, cells) in enumerate(zip(agents, courses)):
            if step < len(agent.acts) and agent.acts[step] != "-":
                if (terrain[cells[step]], terrain.get(cells[step + 1], "@")) not in LEGAL:
                    return f"BadMove {number} {step}"
    return None


def path_lines(agents: Sequence[Agent], chosen: Optional[int]) -> list[str]:
    """A line for each time: of all agents, or of one."""
    if chosen is not None:
        if chosen >= len(agents):
            raise Fault("NoSuchAgent")
        agents = [agents[chosen]]
    courses = [agent.cells() for agent in agents]
    lines = []
    for time in range(max(map(len, courses), default=0)):
        cells = [cells[min(time, len(cells) - 1)] for cells in courses]
        lines.append(" ".join(map(str, [time, *(number for cell in cells for number in cell)])))
    return lines


def answer(map_text: str, plan_text: str, chosen: Optional[int] = None) -> tuple[int, str, str]:
    """The status, standard output and standard error of `mapf path`."""
    try:
        terrain, agents = read_map(map_text), read_plan(plan_text)
        fault = least_fault(terrain, agents)
        if fault:
            raise Fault(fault)
        return 0, "".join(f"{line}\n" for line in path_lines(agents, chosen)), ""
    except Fault as fault:
        return 1, "", f"mapf: {fault}\n"


class Making:
    """Makes calls of `mapf path` at random, the same each time."""

    def __init__(self, seed: str):
        self.rng = random.Random(seed)

    def map_rows(self) -> list[str]:
        width, height = self.rng.randint(1, 9), self.rng.randint(1, 7)
        terrains = self.rng.choice([".", ".", "...@", ".G.S@T", "..SW", "W", "....O"])
        return ["".join(self.rng.choice(terrains) for _ in range(width)) for _ in range(height)]

    def acts(self, rows: Sequence[str], start: Cell, count: int, share_of_faults: float) -> str:
        """Acts that are legal on the map, but for some."""
        acts, (x, y) = "", start
        for _ in range(count):
            legal = [act for act, (dx, dy) in STEPS.items() if act == "-" or (at(rows, x, y), at(rows, x + dx, y + dy)) in LEGAL]
            act = self.rng.choice("nesw" if self.rng.random() < share_of_faults else legal)
            acts, x, y = acts + act, x + STEPS[act][0], y + STEPS[act][1]
        return acts

    def agents(self, rows: Sequence[str], share_of_faults: float) -> list[Agent]:
        free = [(x, y) for y, row in enumerate(rows) for x, terrain in enumerate(row) if terrain not in BLOCKED]
        agents = []
        for _ in range(self.rng.choice([0, 1, 1, 2, 3, 4, 6, 9, 14])):
            start = self.rng.choice(free) if free else (0, 0)
            if self.rng.random() < share_of_faults:
                start = self.rng.randint(0, len(rows[0])), self.rng.choice([self.rng.randint(0, len(rows)), 65_535])
            agents.append(Agent(start, self.acts(rows, start, self.rng.choice([0, 0, 1, 2, 5, 9, 20]), share_of_faults)))
        return agents

    def texts(self) -> tuple[str, str, int]:
        """A map, a plan, and how many agents it has."""
        rows = self.map_rows()
        share = self.rng.choice([0, 0, 0, 0.01, 0.03, 0.1])
        agents = self.agents(rows, share)
        end = self.rng.choice(["\n", "\n", "\r\n"])
        map_text = end.join(["type octile", f"height {len(rows)}", f"width {len(rows[0])}", "map", *rows, ""])
        lines = [f"agent {agent.start[0]} {agent.start[1]} {agent.acts or '='}\n" for agent in agents]
        number = self.rng.choice([0, 7, 4_294_967_295, self.rng.randrange(1 << 32)])
        plan_text = "".join(["mapf-plan 1\n", f"number {number}\nagents {len(agents)}\n", *lines])
        return map_text, plan_text, len(agents)

    def spoiled(self, map_text: str, plan_text: str) -> tuple[str, str]:
        """Sometimes the plan's text is cut, or a byte of it is another, or rows of the map are missing."""
        kind = self.rng.choice(["cut", "byte", "byte", "byte", "more", "map"] if self.rng.random() < 0.15 else ["well"])
        place = self.rng.randrange(len(plan_text))
        if kind == "cut":
            return map_text, plan_text[:place]
        if kind == "byte":
            return map_text, plan_text[:place] + self.rng.choice("09 nex=\n") + plan_text[place + 1 :]
        if kind == "more":
            return map_text, plan_text + self.rng.choice(["\n", "agent 0 0 =\n", " "])
        rows = map_text.split("\n")[4:]
        return (map_text[: -self.rng.randint(1, 1 + len("\n".join(rows)))] if kind == "map" and len(rows) > 2 else map_text), plan_text

    def words(self, agents: int) -> tuple[list[str], Optional[int]]:
        """The words of a call, and the agent whose path alone is asked for."""
        words = ["m", "p"]
        if self.rng.random() < 0.55:
            return ["path", *words], None
        chosen = self.rng.choice([*range(agents), *range(agents), *range(agents), agents, self.rng.choice([65_535, 10_000, 999])])
        digits = "0" * self.rng.choice([0, 0, 0, 2]) + str(chosen)
        option = self.rng.choice([["--agent", digits], ["--agent", digits], [f"--agent={digits}"]])
        place = self.rng.choice([0, 1, 2, 2, 2])
        return ["path", *words[:place], *option, *words[place:]], chosen

    def vector(self) -> dict:
        map_text, plan_text, agents = self.texts()
        map_text, plan_text = self.spoiled(map_text, plan_text)
        words, chosen = self.words(agents)
        status, out, err = answer(map_text, plan_text, chosen)
        return {"words": words, "files": {"m": map_text, "p": plan_text}, "status": status, "stdout": out, "stderr": err}


def at(rows: Sequence[str], x: int, y: int) -> str:
    return rows[y][x] if 0 <= y < len(rows) and 0 <= x < len(rows[0]) else "@"


def vector_lines() -> list[str]:
    """All vectors, a line each."""
    making = Making("path")
    return [json.dumps(making.vector()) for _ in range(300)]


if __name__ == "__main__":
    print(*vector_lines(), sep="\n")
