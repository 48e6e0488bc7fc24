"""A plain model of a run: every agent of a plan with the records that its tape has, what it has heard, and every message that was said. It answers
events as `mapf run` has to, and knows which cells agents hold."""
import dataclasses
from typing import Optional

from random_runs import Cell, moved

# How many bytes a record has.
RECORD = 10


@dataclasses.dataclass(frozen=True)
class Visit:
    """That an agent comes into a cell, by its move before this number: its start is its visit 0."""

    time: int
    agent: int
    number: int


@dataclasses.dataclass(frozen=True)
class Letter:
    """What a message says: agents, each with how many moves it has finished."""

    sender: int
    entries: dict[int, int]


@dataclasses.dataclass
class Agent:
    """A path, whom the agent waits for before each of its moves, and how far it has come."""

    path: list[Cell]
    needs: list[Optional[tuple[int, int]]]
    # How many whole records are stored: one where a move begins, and one where it ends.
    records: int = 0
    is_broken: bool = False
    # How many bytes the next write stores, if it is torn.
    tear: Optional[int] = None
    heard: dict[int, int] = dataclasses.field(default_factory=dict)

    @property
    def done(self) -> int:
        return self.records // 2

    @property
    def is_moving(self) -> bool:
        return self.records % 2 == 1

    def held(self) -> list[Cell]:
        return self.path[self.done : self.done + 1 + self.is_moving]

    def stored(self, reply: str) -> str:
        """Writes a record, and answers so where the write is not torn."""
        if self.tear is None:
            self.records += 1
            return reply
        self.records += self.tear // RECORD
        self.tear, self.is_broken = None, True
        return "refused StoreFailed"

    def waits_for(self, move: int) -> Optional[tuple[int, int]]:
        """Whom a move waits for, and how many moves that one has to finish, by what was heard."""
        need = self.needs[move]
        return need if need and self.heard.get(need[0], 0) < need[1] else None

    def start(self) -> str:
        if self.is_broken or self.is_moving:
            return "refused Broken" if self.is_broken else "refused AlreadyMoving"
        if self.done == len(self.needs):
            return "refused AtEnd"
        need = self.waits_for(self.done)
        if need:
            return f"refused Waits {need[0]} {need[1]}"
        x, y = self.path[self.done + 1]
        return self.stored(f"moving {x} {y}")

    def finish(self) -> str:
        if self.is_broken or not self.is_moving:
            return "refused Broken" if self.is_broken else "refused NotMoving"
        x, y = self.path[self.done + 1]
        return self.stored(f"arrived {x} {y}")


def courses_of(plan: str) -> list[list[tuple[int, Cell]]]:
    """The cells of each agent of a plan, each with the time at which it comes in."""
    courses = []
    for line in plan.splitlines()[3:]:
        _, x, y, acts = line.split(" ")
        course = [(0, (int(x), int(y)))]
        for time, act in enumerate("" if acts == "=" else acts, 1):
            if act != "-":
                course.append((time, moved(course[-1][1], act)))
        courses.append(course)
    return courses


def agents_of(plan: str) -> list[Agent]:
    """Before a move into a cell, an agent waits until whoever was there last has left it, unless that was itself."""
    courses = courses_of(plan)
    visits: dict[Cell, list[Visit]] = {}
    for agent, course in enumerate(courses):
        for number, (time, cell) in enumerate(course):
            visits.setdefault(cell, []).append(Visit(time, agent, number))

    def need(agent: int, time: int, cell: Cell) -> Optional[tuple[int, int]]:
        before = max((visit for visit in visits[cell] if visit.time < time), key=lambda visit: visit.time, default=None)
        return None if before is None or before.agent == agent else (before.agent, before.number + 1)

    return [Agent([cell for _, cell in course], [need(agent, *into) for into in course[1:]]) for agent, course in enumerate(courses)]


class Run:
    """A run of the agents of a plan, whose messages have a version."""

    def __init__(self, plan: str, version: int):
        self.number = int(plan.splitlines()[1].split(" ")[1])
        self.version = version
        self.agents = agents_of(plan)
        self.said: list[Letter] = []

    def reply(self, event: str) -> str:
        """Answers an event."""
        word, agent, *more = event.split(" ")
        if int(agent) >= len(self.agents):
            return "refused NoSuchAgent"
        return getattr(self, word)(int(agent), *map(int, more))

    def start(self, number: int) -> str:
        return self.agents[number].start()

    def finish(self, number: int) -> str:
        return self.agents[number].finish()

    def say(self, number: int) -> str:
        agent = self.agents[number]
        if agent.is_broken:
            return "refused Broken"
        if self.version == 1:
            entries = {number: agent.done}
        else:
            # What was heard of the agent itself is not told.
            entries = {other: done for other, done in sorted({**agent.heard, number: agent.done}.items()) if done}
        self.said.append(Letter(number, entries))
        return f"said {len(self.said) - 1} {self.digits(self.said[-1])}"

    def digits(self, letter: Letter) -> str:
        head = f"46{self.version:02x}{letter.sender:04x}{self.number:08x}"
        if self.version == 1:
            return head + f"{letter.entries[letter.sender]:08x}"
        return head + f"{len(letter.entries):04x}" + "".join(f"{agent:04x}{done:08x}" for agent, done in letter.entries.items())

    def deliver(self, number: int, message: int) -> str:
        agent = self.agents[number]
        if message >= len(self.said):
            return "refused NoSuchMessage"
        if agent.is_broken:
            return "refused Broken"
        letter = self.said[message]
        for other, done in letter.entries.items():
            agent.heard[other] = max(done, agent.heard.get(other, 0))
        return f"heard {letter.sender} {agent.heard.get(letter.sender, 0)}"

    def restart(self, number: int) -> str:
        """What was heard is forgotten, and what is stored is not."""
        agent = self.agents[number]
        agent.heard, agent.is_broken, agent.tear = {}, False, None
        cells = " ".join(f"{x} {y}" for x, y in agent.held())
        return f"{'between' if agent.is_moving else 'at'} {cells} done {agent.done}"

    def tear(self, number: int, count: int) -> str:
        if count > RECORD:
            return "refused BadTear"
        self.agents[number].tear = count
        return "armed"

    def shared(self) -> Optional[Cell]:
        """A cell that two agents hold, if there is one: two that exchange their cells hold both."""
        seen: set[Cell] = set()
        for agent in self.agents:
            for cell in agent.held():
                if cell in seen:
                    return cell
                seen.add(cell)
        return None

    def is_over(self) -> bool:
        """Whether each agent has finished all its moves."""
        return all(agent.records == 2 * len(agent.needs) for agent in self.agents)
