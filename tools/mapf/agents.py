"""The agent of one robot: the process `mapf agent` on its tape, and what a tape keeps."""
import dataclasses
import re
import subprocess
import tempfile
from typing import IO, Optional, TypeVar, Union

from mapf.faults import Failed, StaleTape, StoreFailed
from mapf.program import AnyProgram, File, Process, files, hold, number, option, program_at, told_in
from mapf.replies import Arrived, At, Between, Heard, May, Moving, Refused, Reply, Said, State, read_reply, read_state

One = TypeVar("One")
Other = TypeVar("Other")
RECORDS = re.compile(r"records ([0-9]+) torn ([0-9]+)")


@dataclasses.dataclass(frozen=True)
class Tape:
    """What a tape keeps: the state with which an agent would begin, how many whole records, and how many bytes behind them."""

    state: State
    records: int
    torn: int


def tape(map: File, plan: File, agent: int, tape: File, *, program: AnyProgram = None) -> Tape:
    """What the tape of an agent keeps, by `mapf tape`. It may be asked beside the agent."""
    answer = program_at(program).answer("tape", *files(map, plan, number(agent), tape))
    state, _, rest = answer.partition("\n")
    found = RECORDS.fullmatch(rest.rstrip("\n"))
    if not found:
        raise Failed(f"'{rest[:80].rstrip()}' is no answer of mapf")
    return Tape(read_state(state), int(found[1]), int(found[2]))


def either(reply: Reply, one: type[One], other: type[Other]) -> Union[One, Other]:
    """A reply of one of two kinds."""
    if isinstance(reply, (one, other)):
        return reply
    raise Failed(f"`mapf agent` answers by {reply}")


@dataclasses.dataclass
class Agent:
    """The agent of one robot, as long as this context lasts: `kind` is `new` or `kept`, as its tape has to be. What it is asked it answers by a
    reply, which may be a refusal; `state` is its first answer. It is no call that can be shared by threads."""

    map: File
    plan: File
    agent: int
    tape: File
    kind: Optional[str] = None
    program: AnyProgram = None
    words: list[str] = dataclasses.field(init=False, repr=False)
    state: State = dataclasses.field(init=False)
    process: Process = dataclasses.field(init=False, repr=False)
    err: IO[bytes] = dataclasses.field(init=False, repr=False)

    def __enter__(self) -> "Agent":
        self.words = ["agent", *option("tape", self.kind), *files(self.map, self.plan, number(self.agent), self.tape)]
        self.err = tempfile.TemporaryFile()
        try:
            # It ignores the signal of a file that grows past its limit, as Python does: it is to answer that its record wasn't stored.
            self.process = program_at(self.program).start(self.words, self.err, stdin=subprocess.PIPE, restore_signals=False)
        except BaseException:
            self.err.close()
            raise
        try:
            self.state = read_state(self.line())
        except BaseException:
            self.close()
            raise
        return self

    def __exit__(self, *_: object) -> None:
        self.close()

    def close(self) -> int:
        """Ends the agent, as the end of its input does, and answers its status."""
        if not self.err.closed:
            with self.err, self.process:
                self.process.communicate()
        return self.process.returncode

    def line(self) -> str:
        """The next line of its answers, or what it told in place of one."""
        line = self.process.stdout.readline() if self.process.stdout else b""
        if not line.endswith(b"\n"):
            status = self.process.wait()
            hold(self.words, status, told_in(self.err))
            raise Failed(f"`mapf agent` ended with status {status}, and without an answer", status)
        return line[:-1].decode("ascii", errors="replace")

    def ask(self, line: str) -> Reply:
        """The answer to a line of its dialogue. Behind `StoreFailed` and `StaleTape` the agent has ended."""
        if "\n" in line:
            raise ValueError("a line of the dialogue is one line")
        try:
            assert self.process.stdin
            self.process.stdin.write(f"{line}\n".encode("ascii"))
            self.process.stdin.flush()
        except OSError:
            # It has ended, and its last lines say why.
            pass
        answer = self.line()
        reply = read_reply(answer)
        if isinstance(reply, Refused) and reply.words.name == "StoreFailed":
            raise StoreFailed(str(reply.words))
        if isinstance(reply, Refused) and reply.words.name == "StaleTape":
            raise StaleTape(str(reply.words), *reply.words.numbers)
        return reply

    def start(self) -> Union[Moving, Refused]:
        """Asks to begin the next move."""
        return either(self.ask("start"), Moving, Refused)

    def finish(self) -> Union[Arrived, Refused]:
        """Says that the robot stands wholly in the new cell."""
        return either(self.ask("finish"), Arrived, Refused)

    def say(self) -> bytes:
        """The message that says how many moves it has finished."""
        return either(self.ask("say"), Said, Said).data

    def tell(self) -> Union[bytes, Refused]:
        """The message with all that it has heard too."""
        reply = either(self.ask("tell"), Said, Refused)
        return reply.data if isinstance(reply, Said) else reply

    def hear(self, message: bytes) -> Union[Heard, Refused]:
        """Gives it a message of another agent."""
        return either(self.ask(f"hear {message.hex()}"), Heard, Refused)

    def may(self, moves: int) -> int:
        """How many of so many next moves, behind the one that it has begun, need nobody any more: the drive may be given these cells too."""
        return either(self.ask(f"may {moves}"), May, May).moves

    def held(self) -> State:
        """Where the robot is by what is stored."""
        return either(self.ask("held"), At, Between)
