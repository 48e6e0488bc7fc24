#!/usr/bin/env python3
"""Checks a plan as one does in an afternoon: with a dictionary from cells to agents for each step. It answers the line of `mapf check` for a plan
without a fault, and otherwise some fault of the first step that has one.

Usage: plain_checker.py MAP PLAN
"""
import sys

STEPS = {"n": (0, -1), "e": (1, 0), "s": (0, 1), "w": (-1, 0), "-": (0, 0)}
Cell = tuple[int, int]


def read_map(path: str) -> list[str]:
    with open(path, encoding="ascii") as lines:
        return lines.read().splitlines()[4:]


def read_plan(path: str) -> list[tuple[Cell, str]]:
    """The start and the acts of each agent."""
    with open(path, encoding="ascii") as lines:
        words = [line.split() for line in lines.read().splitlines()[3:]]
    return [((int(x), int(y)), acts.strip("=")) for _, x, y, acts in words]


def ground(rows: list[str], cell: Cell) -> str:
    x, y = cell
    character = rows[y][x] if 0 <= y < len(rows) and 0 <= x < len(rows[y]) else "@"
    return {"G": ".", "S": "."}.get(character, character if character in ".W" else "@")


def fault_of(rows: list[str], plan: list[tuple[Cell, str]]) -> str | None:
    cells = [start for start, _ in plan]
    for agent, cell in enumerate(cells):
        if ground(rows, cell) == "@":
            return f"BadStart {agent}"
    if len(set(cells)) < len(cells):
        return "Vertex at the start"
    for step in range(max((len(acts) for _, acts in plan), default=0)):
        now: dict[Cell, int] = {}
        before = {cell: agent for agent, cell in enumerate(cells)}
        for agent, (_, acts) in enumerate(plan):
            here = cells[agent]
            dx, dy = STEPS[acts[step]] if step < len(acts) else (0, 0)
            there = here[0] + dx, here[1] + dy
            if ground(rows, there) != ground(rows, here):
                return f"BadMove {agent} {step}"
            if there in now:
                return f"Vertex {now[there]} {agent} {step + 1}"
            now[there] = agent
            other = before.get(there)
            if other is not None and other < agent and cells[other] == here:
                return f"Swap {other} {agent} {step}"
            cells[agent] = there
    return None


def main() -> int:
    rows, plan = read_map(sys.argv[1]), read_plan(sys.argv[2])
    fault = fault_of(rows, plan)
    if fault:
        print(f"rejected {fault}")
        return 1
    costs = [len(acts.rstrip("-")) for _, acts in plan]
    print(f"accepted agents {len(plan)} cost {sum(costs)} makespan {max(costs, default=0)}")
    return 0


if __name__ == "__main__":
    sys.exit(main())
