"""What the tapes of a whole fleet say: where each agent is, what keeps it, and who keeps whom."""
import dataclasses
import re
from typing import Iterator, Optional

from mapf.faults import Failed, FaultWords, read_words
from mapf.program import AnyProgram, File, files, program_at
from mapf.program import number as as_word
from mapf.replies import At, Between, State, read_reply

# What keeps an agent: its end, its own move, nobody, another agent, or nobody knows.
ARRIVED, MOVING, READY, WAITS, UNKNOWN = "arrived", "moving", "ready", "waits", "unknown"
NUMBER = "([0-9]+)"
STANDS = re.compile(
    rf"at {NUMBER} {NUMBER} done {NUMBER} of {NUMBER} (arrived|ready|waits {NUMBER} {NUMBER})"
)
MOVES = re.compile(rf"between {NUMBER} {NUMBER} {NUMBER} {NUMBER} done {NUMBER} of {NUMBER}")
FAULT = re.compile(r"[A-Z]\w*(?: [0-9]+)*")
KEEPS = re.compile(rf"(root|rotation) {NUMBER} keeps {NUMBER}")
# What is wrong with tapes together. Of two agents' plans: the time from which on they differ. Of a
# begun move: for whom it has to wait, and how many moves that one has to finish; or its rotation.
PLANS_PART, NOT_ONE_RUN = "PlansPart", "NotOneRun"
TOGETHER = re.compile(
    rf"{PLANS_PART}(?: {NUMBER}){{3}}|{NOT_ONE_RUN} {NUMBER}(?: {NUMBER} {NUMBER})?"
)


@dataclasses.dataclass(frozen=True)
class AgentStatus:
    """What an agent's tape says: its state, how many moves it has in all, and what keeps it. One
    that waits does so until agent `waits_for` has finished `until` moves. Of one whose tape can't
    be taken there is the fault alone."""

    keeping: str
    state: Optional[State] = None
    moves: Optional[int] = None
    waits_for: Optional[int] = None
    until: Optional[int] = None
    fault: Optional[FaultWords] = None


@dataclasses.dataclass(frozen=True)
class Status:
    """All agents of a plan; who waits for nobody and has so many others wait for it; the rotations
    that block, by their numbers in `deps`, each with how many wait in it or for it; and why the
    tapes aren't of one run: `PlansPart I J TIME`, `NotOneRun I J C` or `NotOneRun R`."""

    agents: tuple[AgentStatus, ...]
    roots: dict[int, int]
    rotations: dict[int, int]
    faults: tuple[FaultWords, ...] = ()

    def count(self, keeping: str) -> int:
        """How many agents this keeps."""
        return sum(it.keeping == keeping for it in self.agents)


def read_agent(line: str) -> AgentStatus:
    """What a line says behind the agent's number."""
    found = STANDS.fullmatch(line)
    if found:
        x, y, done, moves = map(int, found.groups()[:4])
        keeping = found[5].partition(" ")[0]
        waits_for, until = map(int, found.groups()[5:]) if keeping == WAITS else (None, None)
        return AgentStatus(keeping, At(x, y, done), moves, waits_for, until)
    found = MOVES.fullmatch(line)
    if found:
        *held, moves = map(int, found.groups())
        return AgentStatus(MOVING, Between(*held), moves)
    if not FAULT.fullmatch(line):
        raise Failed(f"'{line[:80]}' is no answer of mapf")
    return AgentStatus(UNKNOWN, fault=read_words(line))


def read_agents(lines: list[str]) -> Iterator[AgentStatus]:
    """The agents of lines that begin with their numbers, in order."""
    for agent, line in enumerate(lines):
        number, _, rest = line.partition(" ")
        if number != str(agent):
            raise Failed(f"'{line[:80]}' is no answer of mapf")
        yield read_agent(rest)


def read_status(text: str) -> Status:
    """What `mapf status` writes, read."""
    lines = text.split("\n")[:-1]
    end = next((at for at, line in enumerate(lines) if not line[:1].isdigit()), len(lines))
    faults = tuple(read_words(line) for line in lines[end:] if TOGETHER.fullmatch(line))
    fleet = Status(tuple(read_agents(lines[:end])), {}, {}, faults)
    for line in lines[end:]:
        if TOGETHER.fullmatch(line):
            continue
        found = KEEPS.fullmatch(line)
        if not found:
            raise Failed(f"'{line[:80]}' is no answer of mapf")
        those = fleet.roots if found[1] == "root" else fleet.rotations
        those[int(found[2])] = int(found[3])
    return fleet


def status(map: File, plan: File, tapes: File, *, program: AnyProgram = None) -> Status:
    """What `mapf status` says of a fleet, whose tapes have the name `tapes` with the agent's number
    in place of each `%`. A tape that can't be taken is an answer, and a text that is none a
    `Fault`."""
    return read_status(program_at(program).answer("status", *files(map, plan, tapes)))


def read_place(line: str) -> At:
    """The place on a path that a line is."""
    place = read_reply(line)
    if not isinstance(place, At):
        raise Failed(f"'{line[:80]}' is no answer of mapf")
    return place


def lost(
    map: File, plan: File, tapes: File, agent: int, *, program: AnyProgram = None
) -> tuple[At, ...]:
    """Where the robot of an agent may be that is lost, by `mapf lost`: places on its path, each with
    how many moves lead there. No agent of the plan may run any more. A tape may have a fault."""
    words = files(map, plan, tapes, as_word(agent))
    answer = program_at(program).answer("lost", *words)
    return tuple(read_place(line) for line in answer.splitlines())
