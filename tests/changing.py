"""Fleets that go over from plan to plan while they drive: they extend what was given out, take back what wasn't begun, and some restart with older plans. Each agent answers by
the plan that its own process has; `mapf run` has to answer what they did by the last plan, and no two may ever hold a common cell."""
import dataclasses
import functools
import pathlib
import random
import subprocess
from typing import Iterator, Optional, Protocol, Sequence

from harness import Harness, Outcome, compared, side_by_side
from plan_chains import Plan, are_akin, difference, extended, read, rested
from random_runs import Cell, random_map, random_plan
from run_model import Agent, agents_of

# How many fleets in memory, and how many of processes.
IN_MEMORY, SHORT_PROCESSES, LONG_PROCESSES = 300, 4, 30
# How often plans change, how many events come between, and how many bring a fleet to its end.
MOST_CHANGES, MOST_EVENTS, MANY = 5, 60, 5_000
# How many steps are added at the most.
MOST_STEPS = 6
EVENTS = {"start": 9, "finish": 7, "speak": 5, "hear": 9, "restart": 2, "change": 3, "fail": 1, "mistake": 1}
# The bytes of a record.
RECORD = 10
# What hangs on the end of a plan, and moves nobody.
RIM = ("refused AtEnd", "refused Waits ", "refused TooMany")


class Process(Protocol):
    """What answers for an agent, over a tape that outlives it."""

    def open(self, plan: Plan) -> str: ...
    def ask(self, line: str) -> str: ...
    def fail(self, line: str) -> None: ...
    def end(self) -> None: ...


class Modelled:
    """A process as it should be: the agent of a plan, over the records of a tape."""

    def __init__(self, number: int, version: int, rng: random.Random):
        self.number, self.version, self.rng = number, version, rng
        self.records = 0
        self.agent: Optional[Agent] = None
        self.moves: list[int] = []
        self.plan: Optional[Plan] = None

    def open(self, plan: Plan) -> str:
        agents = agents_of(plan.text())
        if self.records > 2 * len(agents[self.number].needs):
            return "TooLong"
        if self.plan and not are_akin(self.plan, plan):
            return "OtherPlan"
        self.plan, self.agent, self.moves = plan, agents[self.number], [len(agent.needs) for agent in agents]
        self.agent.records = self.records
        return self.state()

    def state(self) -> str:
        cells = " ".join(f"{x} {y}" for x, y in self.agent.held())
        return f"{'between' if self.agent.is_moving else 'at'} {cells} done {self.agent.done}"

    def ask(self, line: str) -> str:
        word, _, digits = line.partition(" ")
        answer = self.hear(bytes.fromhex(digits)) if digits else getattr(self, word)()
        self.records = self.agent.records
        return answer

    def start(self) -> str:
        return self.agent.start()

    def finish(self) -> str:
        return self.agent.finish()

    def say(self) -> str:
        return f"said 4601{self.number:04x}{self.plan.number:08x}{self.agent.done:08x}"

    def tell(self) -> str:
        told = {other: done for other, done in sorted({**self.agent.heard, self.number: self.agent.done}.items()) if done}
        entries = "".join(f"{agent:04x}{done:08x}" for agent, done in told.items())
        return f"said 4602{self.number:04x}{self.plan.number:08x}{len(told):04x}{entries}"

    def hear(self, message: bytes) -> str:
        sender, head = int.from_bytes(message[2:4], "big"), message[8:]
        places = [head[at : at + 6] for at in range(2, len(head), 6)] if message[1] == 2 else [message[2:4] + head]
        told = {int.from_bytes(place[:2], "big"): int.from_bytes(place[2:], "big") for place in places}
        if any(done > self.moves[agent] for agent, done in told.items()):
            return "refused TooMany"
        for agent, done in told.items():
            self.agent.heard[agent] = max(done, self.agent.heard.get(agent, 0))
        return f"heard {sender} {self.agent.heard.get(sender, 0)}"

    def fail(self, line: str) -> None:
        """The process ends while it writes: its record is stored, or not."""
        self.agent.tear = self.rng.choice((0, 5, 10))
        self.ask(line)

    def end(self) -> None:
        pass


class Real:
    """A process `mapf agent` on a tape of its own."""

    def __init__(self, harness: Harness, folder: pathlib.Path, number: int, rng: random.Random):
        self.harness, self.folder, self.number, self.rng = harness, folder, number, rng
        self.tape = "new"
        self.process: Optional["subprocess.Popen[str]"] = None

    def open(self, plan: Plan) -> str:
        self.end()
        file = self.folder / f"{self.number}.plan"
        file.write_text(plan.text(), encoding="ascii")
        words = [str(self.harness.program), "agent", str(self.folder / "map"), str(file), str(self.number), str(self.folder / f"{self.number}.tape"), "--tape", self.tape]
        pipes = {"stdin": subprocess.PIPE, "stdout": subprocess.PIPE, "stderr": subprocess.PIPE}
        self.process = subprocess.Popen(words, text=True, **pipes)
        line = self.process.stdout.readline()
        if line:
            self.tape = "kept"
            return line.rstrip("\n") if self.keeps(plan) else f"beside the tape of agent {self.number} stands another text"
        return self.process.stderr.read().rstrip("\n").replace("mapf: ", "")

    def keeps(self, plan: Plan) -> bool:
        """Whether the plan is kept beside the tape, with a mark where that has a record."""
        tape = self.folder / f"{self.number}.tape"
        mark = "+" if tape.stat().st_size >= RECORD else "-"
        return tape.with_name(f"{tape.name}.plan").read_text(encoding="ascii") == f"mapf-tape 1 {mark}\n{plan.text()}"

    def ask(self, line: str) -> str:
        self.process.stdin.write(line + "\n")
        self.process.stdin.flush()
        return self.process.stdout.readline().rstrip("\n")

    def fail(self, line: str) -> None:
        """It is killed, wherever it is just then."""
        self.process.stdin.write(line + "\n")
        self.process.stdin.flush()
        if self.rng.random() < 0.3:
            self.process.stdout.readline()
        self.process.kill()

    def end(self) -> None:
        if self.process:
            with self.process:
                self.process.kill()
            self.process = None


@dataclasses.dataclass
class Member:
    """An agent of a fleet: its process, and what is known of it from outside."""

    process: Process
    # The plan by which its process runs, and the one that it ran by when it last answered.
    plan: Plan
    cells: list[Cell]
    done: int = 0


class Unsafe(Exception):
    """Two agents hold a common cell, or somebody answers what he must not."""


class Fleet:
    """A fleet on a map, and the events of its run by the last plan."""

    def __init__(self, rng: random.Random, plan: Plan, processes: Sequence[Process], version: int):
        self.rng, self.version = rng, version
        # The plans by which a process may be started: each goes on from the one before.
        self.plans = [plan]
        self.events, self.replies = [f"mapf-events {version}"], []
        self.messages: list[str] = []
        self.members = [Member(process, plan, [course.start]) for process, course in zip(processes, plan.courses)]
        for member in self.members:
            self.hold(member.process.open(plan).startswith("at "), "a new tape isn't at its start")

    def hold(self, holds: bool, what: str) -> None:
        if not holds:
            raise Unsafe(f"{what}; the last events are {self.events[-3:]}")

    def put(self, event: str, reply: str) -> None:
        self.events.append(event)
        self.replies.append(reply)

    def is_kept(self, member: Member, plan: Plan) -> bool:
        """Whether a process may be started by the plan: it is the one that its tape was kept for, or goes on from it, or the other way round."""
        return are_akin(member.plan, plan)

    def open(self, number: int, plan: Plan) -> bool:
        """Starts an agent's process by a plan, unless its tape has more than that plan."""
        member = self.members[number]
        line = member.process.open(plan)
        if line == "TooLong":
            # It goes on by the plan that it had.
            line = member.process.open(member.plan)
            self.restarted(number, line)
            return False
        member.plan = plan
        self.restarted(number, line)
        return True

    def restarted(self, number: int, line: str) -> None:
        """A record that was stored, and of which nobody was told, shows in the first line."""
        member, words = self.members[number], line.split()
        self.hold(words[0] in ("at", "between"), f"agent {number} doesn't start: {line}")
        places = list(map(int, words[1 : words.index("done")]))
        cells, done = list(zip(places[::2], places[1::2])), int(words[-1])
        if len(cells) == 2 and len(member.cells) == 1:
            self.put(f"start {number}", "moving {} {}".format(*cells[1]))
        elif done > member.done:
            self.put(f"finish {number}", "arrived {} {}".format(*cells[0]))
        self.put(f"restart {number}", line)
        member.cells, member.done = cells, done

    def do(self, word: str, number: int) -> None:
        member = self.members[number]
        if word in ("restart", "change"):
            fitting = [plan for plan in self.plans if self.is_kept(member, plan)]
            self.open(number, self.rng.choice(fitting) if word == "restart" and fitting else self.newest(member))
        elif word == "mistake":
            self.mistake(number)
        elif word == "fail":
            member.process.fail(self.rng.choice(("start", "finish")))
            self.open(number, member.plan)
        elif word == "hear" and self.messages:
            self.hear(number, self.rng.randrange(len(self.messages)))
        elif word == "speak":
            self.speak(number)
        elif word in ("start", "finish"):
            self.go_on(word, number)

    def mistake(self, number: int) -> None:
        """An agent is given a plan that isn't of its chain, by which it would make as many moves: it is refused, and goes on by the one that it had."""
        member = self.members[number]
        plan = member.plan.delayed() if self.rng.random() < 0.5 else dataclasses.replace(member.plan, number=member.plan.number + 1)
        if not self.is_kept(member, plan):
            line = member.process.open(plan)
            self.hold(line == "OtherPlan", f"agent {number} is given a plan of another chain: {line}")
            self.restarted(number, member.process.open(member.plan))

    def newest(self, member: Member) -> Plan:
        """The last plan to which it may come in one step."""
        return next((plan for plan in reversed(self.plans) if self.is_kept(member, plan)), member.plan)

    def go_on(self, word: str, number: int) -> None:
        member, answer = self.members[number], self.members[number].process.ask(word)
        if answer.startswith(RIM):
            return
        self.put(f"{word} {number}", answer)
        name, *cell = answer.split()
        if name == "moving":
            member.cells.append((int(cell[0]), int(cell[1])))
        elif name == "arrived":
            member.cells, member.done = member.cells[1:], member.done + 1

    def speak(self, number: int) -> None:
        answer = self.members[number].process.ask("say" if self.version == 1 else "tell")
        digits = answer.partition("said ")[2]
        self.put(f"say {number}", f"said {len(self.messages)} {digits}")
        self.messages.append(digits)

    def hear(self, number: int, message: int) -> None:
        answer = self.members[number].process.ask(f"hear {self.messages[message]}")
        if not answer.startswith(RIM):
            self.put(f"deliver {number} {message}", answer)

    def live(self, count: int) -> None:
        """So many events at random, after each of which no two agents hold a common cell."""
        for word in self.rng.choices(list(EVENTS), list(EVENTS.values()), k=count):
            self.do(word, self.rng.randrange(len(self.members)))
            held = [cell for member in self.members for cell in member.cells]
            self.hold(len(held) == len(set(held)), "two agents hold a common cell")

    def extend(self, plan: Plan) -> None:
        self.hold(not difference(self.plans[-1], plan), "the plan doesn't go on from the last one")
        self.plans.append(plan)

    def take_back(self, longest: int) -> None:
        """All come to run by a cut of the last plan, one after another: an earlier one where nobody has passed it."""
        whole = self.plans[-1]
        for time in range(self.rng.randint(0, longest), longest + 1):
            part = whole.cut(time)
            if all(self.comes_to(number, part) for number in self.rng.sample(range(len(self.members)), len(self.members))):
                self.plans = [part]
                return
        raise Unsafe("nobody takes back nothing")

    def comes_to(self, number: int, part: Plan) -> bool:
        """Whether an agent comes to run by a part of the last plan, while the others live on by what they have."""
        member = self.members[number]
        for _ in self.plans:
            if not self.is_kept(member, part):
                self.open(number, self.newest(member))
        came = self.open(number, part)
        # Who has come to it stays by it.
        quiet = {"start": 3, "finish": 3, "hear": 2}
        for word in self.rng.choices(list(quiet), list(quiet.values()), k=self.rng.randrange(6)):
            self.do(word, self.rng.randrange(len(self.members)))
        return came

    def end_by_last(self) -> None:
        """All come to the last plan, and to its end: whoever stands has heard of everybody."""
        last = self.plans[-1]
        for number, member in enumerate(self.members):
            for _ in self.plans:
                self.open(number, self.newest(member))
            self.hold(member.plan == last, f"agent {number} doesn't come to run by the last plan")
        for _ in range(MANY):
            if all(len(member.cells) == 1 and member.done == last.courses[number].moves for number, member in enumerate(self.members)):
                return
            for number in range(len(self.members)):
                self.go_on("finish", number)
                self.speak(number)
                for other in range(len(self.members)):
                    self.hear(other, len(self.messages) - 1)
                self.go_on("start", number)
        raise Unsafe("a fleet that all of whom have the last plan doesn't come to its end")

    def end(self) -> None:
        for member in self.members:
            member.process.end()


def change(fleet: Fleet, rng: random.Random, free: list[Cell]) -> None:
    """Goes over from plan to plan, with events between."""
    for _ in range(rng.randint(1, MOST_CHANGES)):
        fleet.live(rng.randrange(MOST_EVENTS))
        if rng.random() < 0.4:
            fleet.take_back(fleet.plans[-1].longest)
        longer = extended(rng, free, fleet.plans[-1], rng.randint(0, MOST_STEPS), False)
        fleet.extend(rested(rng, longer))
    fleet.live(rng.randrange(MOST_EVENTS))
    fleet.end_by_last()


def run(harness: Harness, seed: int, is_real: bool) -> list[Outcome]:
    rng = random.Random(f"changing {seed}")
    version, (map_text, free) = 1 + seed % 2, random_map(rng)
    plan = read(random_plan(rng, free, False))
    folder = harness.folder({"map": map_text.encode()})
    count = len(plan.courses)
    processes = [Real(harness, folder, n, rng) if is_real else Modelled(n, version, rng) for n in range(count)]
    name = f"{'processes' if is_real else 'a fleet in memory'}, seed {seed}"
    fleet = None
    try:
        fleet = Fleet(rng, plan, processes, version)
        change(fleet, rng, free)
    except Unsafe as fault:
        return [compared(name, f"a fleet on {map_text!r}", str(fault), "a fleet that is safe, and ends")]
    finally:
        for process in processes:
            process.end()
    (folder / "last").write_text(fleet.plans[-1].text(), encoding="ascii")
    (folder / "events").write_text("\n".join([*fleet.events, ""]), encoding="ascii")
    ended = harness.mapf(["run", str(folder / "map"), str(folder / "last"), str(folder / "events"), "--complete"])
    due = "\n".join([*fleet.replies, "complete 0", ""]).encode()
    return [compared(name, f"mapf run of {len(fleet.replies)} events of {count} agents in {folder}", (ended.status, first_other(ended.out, due)), (0, None))]


def first_other(wrote: bytes, due: bytes) -> Optional[tuple[bytes, bytes]]:
    """The first lines that differ."""
    ours, others = wrote.split(b"\n"), due.split(b"\n")
    differing = (pair for pair in zip(ours, others) if pair[0] != pair[1])
    return None if wrote == due else next(differing, (ours[-1], others[-1]))


def outcomes(harness: Harness) -> Iterator[Outcome]:
    yield from side_by_side(functools.partial(run, harness, seed, False) for seed in range(1, IN_MEMORY + 1))
    yield from side_by_side(functools.partial(run, harness, seed, True) for seed in range(1, (LONG_PROCESSES if harness.is_long else SHORT_PROCESSES) + 1))
