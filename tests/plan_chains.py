"""Plans that go on from plans, made at random, and a plain model of when one does."""
import dataclasses
import random
from typing import Optional, Sequence

from random_runs import STEPS, Cell, moved, settle


@dataclasses.dataclass(frozen=True)
class Course:
    """An agent's start and its acts."""

    start: Cell
    acts: str

    def place(self, time: int) -> Cell:
        """Where it is, perhaps off the map; it stays behind its last act."""
        place = self.start
        for act in self.acts[:time]:
            place = moved(place, None if act == "-" else act)
        return place

    @property
    def moves(self) -> int:
        return len(self.acts.replace("-", ""))


@dataclasses.dataclass(frozen=True)
class Plan:
    number: int
    courses: tuple[Course, ...]

    @property
    def longest(self) -> int:
        return max((len(course.acts) for course in self.courses), default=0)

    @property
    def moves(self) -> int:
        return sum(course.moves for course in self.courses)

    def text(self) -> str:
        lines = [f"agent {c.start[0]} {c.start[1]} {c.acts or '='}\n" for c in self.courses]
        return "".join([f"mapf-plan 1\nnumber {self.number}\nagents {len(self.courses)}\n", *lines])

    def with_course(self, agent: int, course: Course) -> "Plan":
        return dataclasses.replace(self, courses=(*self.courses[:agent], course, *self.courses[agent + 1 :]))

    def with_acts(self, acts: Sequence[str]) -> "Plan":
        """The same agents, which do this."""
        return dataclasses.replace(self, courses=tuple(Course(course.start, own) for course, own in zip(self.courses, acts)))

    def cut(self, time: int) -> "Plan":
        return self.with_acts([course.acts[:time] for course in self.courses])

    def delayed(self) -> "Plan":
        """All wait a step, and then do as before."""
        return self.with_acts(["-" + course.acts for course in self.courses])


def read(text: str) -> Plan:
    """A plan of a text that has no fault."""
    _, number, _, *agents = [line.split(" ") for line in text.splitlines()]
    return Plan(int(number[1]), tuple(Course((int(x), int(y)), acts.strip("=")) for _, x, y, acts in agents))


def difference(old: Plan, new: Plan) -> str:
    """The first reason why the new plan doesn't go on from the old one; nothing where it does."""
    if new.number != old.number:
        return "OtherNumber"
    if len(new.courses) != len(old.courses):
        return "OtherCount"
    for time in range(old.longest + 1):
        for agent, (was, is_now) in enumerate(zip(old.courses, new.courses)):
            if was.place(time) != is_now.place(time):
                return f"Departs {agent} {time}"
    return ""


def are_akin(plan: Plan, other: Plan) -> bool:
    """Whether one of two plans goes on from the other."""
    return not difference(plan, other) or not difference(other, plan)


def extended(rng: random.Random, free: Sequence[Cell], plan: Plan, steps: int, may_turn: bool) -> Plan:
    """A valid plan that does as this one does, and some more behind the last act of all."""
    now = [course.place(plan.longest) for course in plan.courses]
    acts = [course.acts.ljust(plan.longest, "-") for course in plan.courses]
    for _ in range(steps):
        step: list[Optional[str]] = [rng.choice([act for act in STEPS if moved(cell, act) in free] + [None]) for cell in now]
        settle(now, step, may_turn)
        now = [moved(cell, act) for cell, act in zip(now, step)]
        acts = [own + (act or "-") for own, act in zip(acts, step)]
    return plan.with_acts(acts)


def rested(rng: random.Random, plan: Plan) -> Plan:
    """The same, where some agents have fewer waits at their ends, or more."""
    acts = [course.acts.rstrip("-") if rng.random() < 0.6 else course.acts for course in plan.courses]
    return plan.with_acts([own + "-" * rng.choice((0, 0, 0, 1, 2)) for own in acts])
