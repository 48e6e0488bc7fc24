"""What shows that tapes are not those of one run, by a plain model: moves that began too early, and rotations that began."""
from typing import Callable, Iterator, NamedTuple, Optional, Sequence

from random_runs import Cell
from run_model import Agent, agents_of, courses_of


class Turn(NamedTuple):
    """Agents that go round in one step, the least one first."""

    step: int
    agents: tuple[int, ...]


def turns_of(plan_text: str) -> list[Turn]:
    """The rotations of a plan, in the order of `mapf deps`."""
    courses, found = courses_of(plan_text), set()
    for step in range(max((course[-1][0] for course in courses), default=0)):
        for ring in rings(courses, step):
            found.add(Turn(step, ring))
    return sorted(found, key=lambda turn: (turn.step, turn.agents[0]))


def rings(courses: Sequence[Sequence[tuple[int, tuple[int, int]]]], step: int) -> Iterator[tuple[int, ...]]:
    """The agents of each rotation in a step, each with the one next whose cell it enters."""

    def at(agent: int, time: int) -> tuple[int, int]:
        return [cell for since, cell in courses[agent] if since <= time][-1]

    count = len(courses)
    into = {i: j for i in range(count) for j in range(count) if i != j and at(i, step) != at(i, step + 1) == at(j, step)}
    for first in range(count):
        ring = [first]
        while into.get(ring[-1]) is not None and into[ring[-1]] not in ring:
            ring.append(into[ring[-1]])
        if into.get(ring[-1]) == first and first == min(ring):
            yield tuple(ring)


def begun(agent: Agent) -> int:
    """How many moves are begun: a record is stored where one begins, and one where it ends."""
    return (agent.records + 1) // 2


def early_move(agents: Sequence[Agent], agent: int, counts: Callable[[int], bool]) -> Optional[tuple[int, int]]:
    """What the first of an agent's begun moves should have waited for, by the tapes that count."""
    for need in agents[agent].needs[: begun(agents[agent])]:
        if need and counts(need[0]) and agents[need[0]].done < need[1]:
            return need
    return None


def faults_of(plan_text: str, agents: Sequence[Agent], counts: Callable[[int], bool]) -> list[tuple[int, ...]]:
    """The numbers behind each `NotOneRun`, of tapes that count."""
    found: list[tuple[int, ...]] = []
    for agent in range(len(agents)):
        need = early_move(agents, agent, counts) if counts(agent) else None
        if need:
            found.append((agent, *need))
    courses = courses_of(plan_text)
    for number, turn in enumerate(turns_of(plan_text)):
        if any(counts(agent) and has_begun_in(courses[agent], begun(agents[agent]), turn.step) for agent in turn.agents):
            found.append((number,))
    return found


def has_begun_in(course: Sequence[tuple[int, tuple[int, int]]], moves: int, step: int) -> bool:
    """Whether one of so many moves of an agent is planned in a step."""
    return any(time == step + 1 for time, _ in course[1 : 1 + moves])


def lost_places(agents: Sequence[Agent], agent: int, counts: Callable[[int], bool]) -> list[tuple[Cell, int]]:
    """The cells in which the robot of an agent may be that is lost, each with how many moves lead there, by the tapes that count."""
    it = agents[agent]
    first, last = (it.done, begun(it)) if counts(agent) else (0, 0)
    while last < len(it.needs):
        need = it.needs[last]
        if need and counts(need[0]) and agents[need[0]].done < need[1]:
            break
        last += 1
    return [(it.path[k], k) for k in range(first, last + 1)]


def is_one_run(plan_text: str, records: Sequence[int], counts: Callable[[int], bool]) -> bool:
    """Whether nothing shows that tapes with so many records are not those of one run."""
    agents = agents_of(plan_text)
    for agent, count in zip(agents, records):
        agent.records = count
    return not faults_of(plan_text, agents, counts)
