"""A robot of a simulated fleet: a real agent, a simulated drive, and the loop that joins them."""
import collections
import dataclasses
import pathlib
import random
import re
from typing import Optional

from adverse_agents import BEFORE, BEHIND, WHENEVER, Agent, Box, Clock
from bad_networks import Datagram, Network
from floors import Drive, Referee, Unsafe, path_of
from harness import Harness
from plan_chains import Plan
from random_runs import Cell

# How often in a moment an agent is killed, and how often that is in a call, in its start, and told.
KILLS, IN_CALL, IN_START, TOLD = 0.02, 0.7, 0.1, 0.7
# For how many moments an agent is down at the most.
LONGEST_DOWN = 6
# How often a robot speaks without news, changes its version behind a kill, and looks whether a
# refusal has changed something.
SPEAKS, TURNS, LOOKS = 0.15, 0.2, 0.2
# How often a robot whose drive goes ahead asks `start` and `may`, and for how many moves.
STARTS, ASKS_MAY, MOST_AHEAD = 0.4, 0.3, 6
SAY, TELL = "say", "tell"
STATE = re.compile(r"(at|between) (\d+) (\d+)(?: (\d+) (\d+))? done (\d+)")
ANSWER = re.compile(r"(moving|arrived) (\d+) (\d+)")


@dataclasses.dataclass
class World:
    """What the robots of a fleet share."""

    harness: Harness
    rng: random.Random
    network: Network
    # Whether agents are killed while they store. Then a seed may come out in several ways.
    is_racing: bool
    drives: type[Drive]
    clock: Clock = dataclasses.field(default_factory=Clock)
    referee: Referee = dataclasses.field(default_factory=Referee)
    counts: collections.Counter[str] = dataclasses.field(default_factory=collections.Counter)


@dataclasses.dataclass
class Run:
    """The files of a run: a map, and plans that the robots drive one behind the other."""

    folder: pathlib.Path
    map_text: str
    plans: list[Plan] = dataclasses.field(default_factory=list)

    @property
    def map(self) -> pathlib.Path:
        return self.folder / "M"

    @property
    def tapes(self) -> str:
        return str(self.folder / "tapes" / "%.tape")

    def plan_file(self, place: int) -> pathlib.Path:
        return self.folder / f"{place + 1}.plan"

    @property
    def last_file(self) -> pathlib.Path:
        return self.plan_file(len(self.plans) - 1)

    def add(self, plan: Plan) -> None:
        self.plan_file(len(self.plans)).write_text(plan.text(), encoding="ascii")
        self.plans.append(plan)


def entries_of(digits: str) -> dict[int, int]:
    """What a right message says: agents, each with how many moves it has finished."""
    message = bytes.fromhex(digits)
    if message[1] == 1:
        parts = [message[2:4] + message[8:12]]
    else:
        parts = [message[at : at + 6] for at in range(10, len(message), 6)]
    return {int.from_bytes(it[:2], "big"): int.from_bytes(it[2:], "big") for it in parts}


class Robot:
    """A robot. Its name is for ever, and its number is that of its agent in this run."""

    run: Run
    number: int
    # The place of its plan among those of the run, and of the last by which a process has begun.
    place: int
    runs_by: int
    # Whether its tape is new or was kept, what it has, and whether it may have a record more.
    tape: str
    done: int
    is_moving: bool
    is_unsure: bool
    # Up to which move its process has said that the way is free, and what that has heard.
    granted: int
    heard: dict[int, int]
    # Whether it begins no more moves, has something to say, and until when it is down.
    is_halted: bool
    has_news: bool
    down_until: int

    def __init__(self, name: int, world: World):
        self.name, self.world = name, world
        self.drive = world.drives(name, world.referee)
        self.version = world.rng.choice((SAY, TELL))
        self.is_ahead = world.rng.random() < 0.5
        self.agent: Optional[Agent] = None
        self.box: Optional[Box] = None

    def begin(self, run: Run, number: int) -> None:
        """Begins a run, with a new tape and a new box."""
        self.run, self.number, self.place, self.runs_by = run, number, 0, -1
        self.tape, self.done, self.is_moving, self.is_unsure = "new", 0, False, False
        self.granted, self.heard = 0, {}
        self.is_halted, self.has_news, self.down_until = False, False, 0
        self.box = Box(str(run.folder / f"{number}.box"), number, self.world.clock)
        self.drive.begin(self.path)
        self.open()

    @property
    def plan(self) -> Plan:
        return self.run.plans[self.place]

    @property
    def path(self) -> list[Cell]:
        return path_of(self.plan.courses[self.number])

    @property
    def begun(self) -> int:
        """How many moves its tape has begun, as far as it has said so."""
        return self.done + self.is_moving

    @property
    def has_arrived(self) -> bool:
        moves = len(self.path) - 1
        return self.agent is not None and self.done == self.drive.done == moves

    def hold(self, holds: bool, what: str) -> None:
        if not holds:
            raise Unsafe(f"robot {self.name} (agent {self.number}): {what}")

    # Its agent

    def words(self) -> list[str]:
        files = [str(self.run.map), str(self.run.plan_file(self.place)), str(self.number)]
        tape = self.run.tapes.replace("%", str(self.number))
        return [str(self.world.harness.program), "agent", *files, tape, "--tape", self.tape]

    def open(self) -> None:
        """Starts a process, and believes what it says first."""
        words = self.words()
        self.box.files = words[2:4]
        self.agent = Agent(words, self.box.note)
        if self.world.rng.random() < IN_START:
            self.be_killed(None)
            return
        line = self.agent.line()
        self.tape, self.granted, self.heard, self.runs_by = "kept", 0, {}, self.place
        self.world.counts["starts"] += 1
        self._believe(line)

    def _believe(self, line: str) -> None:
        found = STATE.fullmatch(line)
        self.hold(found is not None, f"the first line is '{line}'")
        is_moving, done = found[1] == "between", int(found[6])
        before, now = 2 * self.done + self.is_moving, 2 * done + is_moving
        due = (before, before + 1) if self.is_unsure else (before,)
        self.hold(now in due, f"the first line is '{line}', and {before} records were stored")
        cells = [(int(found[2]), int(found[3]))]
        cells += [(int(found[4]), int(found[5]))] if is_moving else []
        self.hold(cells == self.path[done : done + len(cells)], f"'{line}' isn't on its path")
        self.has_news |= done > self.done
        self.done, self.is_moving, self.is_unsure = done, is_moving, False
        if is_moving:
            self.drive.allow(done + 1, cells[1])

    def end(self) -> None:
        """Ends its process, if one runs."""
        if self.agent:
            self.agent.end()
            self.agent = None

    def leave(self) -> None:
        """Its process is gone, whatever has happened."""
        if self.agent:
            self.agent.be_killed(False)
        if self.box:
            self.box.close()

    def go_over(self, place: int) -> None:
        """Goes over to another plan of the run. Its process is started again by it."""
        self.end()
        self.place = place
        self.world.referee.follows(self.name, self.path)
        self.open()

    # Kills

    def be_killed(self, line: Optional[str], when: str = WHENEVER) -> None:
        rng = self.world.rng
        self.agent.be_killed(rng.random() < TOLD, line, when)
        self.agent, self.down_until = None, self.world.network.now + rng.randint(1, LONGEST_DOWN)
        self.world.counts["kills"] += 1
        if rng.random() < TURNS:
            self.version = TELL if self.version == SAY else SAY

    def be_killed_in_a_call(self) -> None:
        """Is killed with a line that it was just asked, and nobody reads the answer."""
        rng, write = self.world.rng, self.due_write()
        others = [self.version, "held", f"may {rng.randint(0, MOST_AHEAD)}"]
        line = write if write and rng.random() < 0.7 else rng.choice(others)
        is_free = line != write or self.world.is_racing
        moments = (BEFORE, BEHIND, WHENEVER) if is_free else (BEFORE, BEHIND)
        self.is_unsure = line == write
        self.world.counts["kills in writes"] += self.is_unsure
        self.be_killed(line, rng.choice(moments))

    # A moment

    def live(self) -> None:
        """Does what it does in a moment."""
        rng = self.world.rng
        self.drive.go(rng)
        if not self.agent:
            if self.world.network.now >= self.down_until:
                self.open()
            return
        if rng.random() < KILLS:
            if rng.random() < IN_CALL:
                self.be_killed_in_a_call()
            else:
                self.be_killed(None)
            return
        for datagram in self.world.network.due(self.number):
            self.hear(datagram)
        self.go_on()
        if self.has_news or rng.random() < SPEAKS:
            self.speak()

    def due_write(self) -> str:
        """What it has to ask now so that its tape gets a record, if anything."""
        if self.is_moving:
            return "finish" if self.drive.done > self.done else ""
        is_behind = self.drive.begun > self.done
        return "start" if is_behind or not self.is_halted and self.done + 1 < len(self.path) else ""

    def go_on(self) -> None:
        rng, line = self.world.rng, self.due_write()
        if self.is_ahead and not self.is_halted and rng.random() < ASKS_MAY:
            self.look_ahead()
        is_late = self.is_ahead and not self.is_halted and rng.random() >= STARTS
        if line and not (line == "start" and is_late):
            self.write(line)

    def write(self, line: str) -> None:
        """Asks what stores a record."""
        answer = self.agent.ask(line)
        found = ANSWER.fullmatch(answer)
        if not found:
            is_right = line == "start" and answer.startswith("refused Waits ")
            self.hold(is_right and self.done >= self.granted, f"'{line}' is answered '{answer}'")
            return
        self.hold(found[1] == ("moving" if line == "start" else "arrived"), f"{line}: {answer}")
        cell = int(found[2]), int(found[3])
        if line == "start":
            self.is_moving = True
            self.drive.allow(self.done + 1, cell)
            return
        self.hold(self.drive.way[self.done + 1] == cell, f"'{line}' is answered '{answer}'")
        self.done, self.is_moving, self.has_news = self.done + 1, False, True
        self.world.counts["moves"] += 1

    def look_ahead(self) -> None:
        """Asks how far its way is free, and gives its drive these cells too."""
        most = self.world.rng.randint(0, MOST_AHEAD)
        word, _, count = self.agent.ask(f"may {most}").partition(" ")
        is_right = word == "may" and int(count) <= most
        self.hold(is_right, f"'may {most}' is answered '{word} {count}'")
        last = self.begun + int(count)
        self.granted = max(self.granted, last)
        self.world.counts["cells ahead"] += max(0, last - len(self.drive.way) + 1)
        for move in range(self.begun + 1, last + 1):
            self.drive.allow(move, self.path[move])

    # Messages

    def speak(self) -> None:
        word, _, digits = self.agent.ask(self.version).partition(" ")
        self.hold(word == "said", f"'{self.version}' is answered '{word} {digits}'")
        self.world.network.send(self.number, digits, range(len(self.plan.courses)))
        self.has_news = False

    def hear(self, datagram: Datagram) -> None:
        """Takes what comes. A refusal changes nothing."""
        looks = bool(datagram.fault) and self.world.rng.random() < LOOKS
        before = self.known() if looks else None
        due = f"refused {datagram.fault}" if datagram.fault else self.due_answer(datagram.digits)
        answer = self.agent.ask(f"hear {datagram.digits}")
        self.hold(answer == due, f"'hear {datagram.digits}' is answered '{answer}', not '{due}'")
        if looks:
            self.hold(self.known() == before, f"'{answer}' has changed what is known: {before}")
        self.world.counts["damaged"] += datagram.is_damaged
        self.world.counts["of old runs"] += bool(datagram.fault) and not datagram.is_damaged
        self.world.counts["heard"] += not datagram.fault

    def known(self) -> list[str]:
        """All that its agent knows."""
        return [self.agent.ask(line) for line in ("held", TELL, f"may {MOST_AHEAD}")]

    def due_answer(self, digits: str) -> str:
        """What the agent has to answer to a right message of this run, which it takes."""
        entries, sender = entries_of(digits), int(digits[4:8], 16)
        if any(done > self.plan.courses[agent].moves for agent, done in entries.items()):
            self.world.counts["too many"] += 1
            return "refused TooMany"
        for agent, done in entries.items():
            self.heard[agent] = max(done, self.heard.get(agent, 0))
        return f"heard {sender} {self.heard.get(sender, 0)}"
