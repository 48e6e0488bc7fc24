#!/usr/bin/env python3
"""Drives one robot of a fleet on a network: a control loop around its `mapf agent`.

Usage: robot.py MAP PLAN ID TAPE --drive SOCKET --listen HOST:PORT (--peers HOST:PORT,.. | --group HOST:PORT) [OPTIONS]
       robot.py MAP PLAN ID TAPE --drive SOCKET --broker HOST:PORT [OPTIONS]

It knows its own agent, its own drive and a link on which it says what it has finished and hears what others say; it may be killed at any moment
and started again. Its tape was made before, once, by `mapf agent MAP PLAN ID TAPE --tape new`. What arrives on the link is given to the agent alone:
bytes that are no message of the plan are dropped, and the tenth of a kind is told, the hundredth and so on. With --keys it signs what it says, and
drops what isn't signed. Before its first move it listens for a while (--wait): the others may know that its tape is an older one. As a service of
systemd it says that it lives.

Where another plan, one that goes on from the one before, is put in the place of PLAN (by a rename), it goes over to that between two questions. Of a
plan that its agent doesn't take it tells, and goes on with the one that it has. On a full disk it stands, and tries again.

Status 1: the map, the plan, the tape, the keys or the count has a fault, or the tape is an older one. 2: a bad command line. 3: a file, a socket or a
program failed. It ends when it is asked to.
"""
import argparse
import contextlib
import dataclasses
import random
import selectors
import sys
import time
from typing import Iterator, Optional, Sequence

sys.dont_write_bytecode = True
from addresses import address, addresses  # noqa: E402
from alarms import Alarms  # noqa: E402
from agent import STALE_TAPE, STORE_FAILED, Agent, Ended, Lock, Stale, Unfit, Unstored  # noqa: E402
from black_box import note_of  # noqa: E402
from count_file import BadCount  # noqa: E402
from drive import AGAIN, Cell, NoDrive, Wire  # noqa: E402
from given import number_in  # noqa: E402
from keys import BadKeys  # noqa: E402
from leaving import heed_signals  # noqa: E402
from letters import Dropped, Letter, Link  # noqa: E402
from link_mqtt import BadCertificate, NoBroker, NoClient, Tls  # noqa: E402
from links import link_of  # noqa: E402
from plan_file import PlanFile  # noqa: E402
from program import usual_program  # noqa: E402
from service import Supervisor  # noqa: E402

UNFIT, FAILED = 1, 3
# How long the file of a black box may have to be.
LEAST_OF_BOX, MOST_OF_BOX = 1000, 1 << 60
# A longer message has more digits than a line of the agent may have.
LONGEST_MESSAGE = 65_533
# Seconds after which an agent that has ended is started again. Where its tape can't be stored they double, up to these.
PAUSE, LONGEST_PAUSE = 0.05, 30.0
# For so many messages of each other robot it listens before its first move: of ten one comes through, also where most are lost.
ROUNDS = 10


class Misplaced(Exception):
    """The drive is where the tape doesn't have it."""


def seconds(word: str) -> float:
    with contextlib.suppress(ValueError):
        if 0 <= float(word) < 1e6:
            return float(word)
    raise argparse.ArgumentTypeError(f"a number of seconds is wanted, and '{word[:40]}' is none")


def box_size(word: str) -> int:
    found = number_in(word, MOST_OF_BOX)
    if found is None or found < LEAST_OF_BOX:
        raise argparse.ArgumentTypeError(f"{word[:40]!r} is no number of bytes from {LEAST_OF_BOX} on")
    return found


def read_words(words: Sequence[str]) -> argparse.Namespace:
    parser = argparse.ArgumentParser(prog="robot.py", description=__doc__, formatter_class=argparse.RawDescriptionHelpFormatter)
    parser.add_argument("map", metavar="MAP")
    parser.add_argument("plan", metavar="PLAN", help="the plan, with the number of this run, which all robots of the fleet get")
    parser.add_argument("id", type=int, metavar="ID", help="the agent of the plan that this robot is")
    parser.add_argument("tape", metavar="TAPE", help="the file of its progress; TAPE.lock beside it is held as long as it or its agent lives")
    parser.add_argument("--drive", required=True, metavar="SOCKET", help="the socket of its drive, as docs/OPERATING.md says; the watcher has one")
    parser.add_argument("--listen", type=address, metavar="HOST:PORT", help="a link by UDP: the own address")
    parser.add_argument("--peers", type=addresses, metavar="HOST:PORT,..", help="the addresses of all others")
    parser.add_argument("--group", type=address, metavar="HOST:PORT", help="the multicast group, instead of a list of peers")
    parser.add_argument("--broker", type=address, metavar="HOST:PORT", help="a link by MQTT: where the broker is")
    parser.add_argument("--patience", type=seconds, default=10.0, metavar="S", help="how long a broker may be away at first (%(default)g)")
    parser.add_argument("--tls", nargs=3, metavar=("CA", "CERTIFICATE", "KEY"), help="speaks with the broker by TLS, with these three files")
    parser.add_argument("--keys", metavar="FILE", help="the keys of the fleet: signs all that it says, and hears nothing else (none)")
    parser.add_argument("--tell", action="store_true", help="says all that it knows, and not only what it has finished")
    parser.add_argument("--every", type=seconds, default=0.2, metavar="S", help="says so again after so many seconds (%(default)g)")
    parser.add_argument("--wait", type=seconds, metavar="S", help=f"listens for so many seconds before its first move ({ROUNDS} times --every)")
    parser.add_argument("--box", default="", metavar="FILE", help="its black box (none)")
    parser.add_argument("--box-size", type=box_size, default=0, metavar="BYTES", help="goes on in another file where its box would get longer (never)")
    parser.add_argument("--program", default=usual_program(), metavar="PATH", help="the program mapf (%(default)s)")
    given = parser.parse_args(words)
    if (given.broker is None) == (given.listen is None):
        parser.error("either --listen or --broker is wanted")
    if given.listen and (given.peers is None) == (given.group is None):
        parser.error("--listen goes with either --peers or --group")
    if given.tls and not given.broker:
        parser.error("--tls goes with --broker")
    if given.box_size and not given.box:
        parser.error("--box-size goes with --box")
    given.tls = given.tls and Tls(*given.tls)
    given.wait = ROUNDS * given.every if given.wait is None else given.wait
    return given


def cell_of(words: Sequence[str]) -> Cell:
    return int(words[0]), int(words[1])


@dataclasses.dataclass
class World:
    """What a robot keeps while one agent ends and the next is started."""

    link: Link
    wire: Wire
    supervisor: Supervisor
    dropped: Dropped
    plan: PlanFile
    # For how many seconds it still has to listen before its first move.
    wait: float
    pause: float = PAUSE


class Robot:
    """The loop, from a start of the agent to its end. Each answer of the agent is told to the watcher before anything is done with it."""

    def __init__(self, given: argparse.Namespace, world: World, agent: Agent):
        self.link, self.wire, self.supervisor, self.dropped, self.agent = world.link, world.wire, world.supervisor, world.dropped, agent
        self.plan, self.world = world.plan, world
        self.question, self.every = "tell" if given.tell else "say", given.every
        # Where the drive is to go, and whether something has changed since a start was refused.
        self.target: Optional[Cell] = None
        self.may_start = True
        self.says_at = self.goes_at = self.moves_at = 0.0

    def ask(self, line: str) -> list[str]:
        """The words of an answer, which is reported. An agent whose tape failed has ended."""
        answer = self.agent.ask(line)
        self.wire.tell(f"{line} {answer}")
        if answer == STORE_FAILED:
            raise Unstored
        return answer.split()

    def begin(self) -> None:
        """Takes over what the agent's first line says, and looks where the drive is."""
        self.wire.tell(f"opened {self.agent.first}")
        first, drive = self.agent.first.split(), self.wire.where()
        cells = {cell_of(first[1:3])}
        if first[0] == "between":
            self.target = cell_of(first[3:5])
            cells.add(self.target)
        if not {cell_of(drive[at : at + 2]) for at in range(1, len(drive), 2)} <= cells:
            raise Misplaced(f"the drive {' '.join(drive)}, and the tape says {self.agent.first}")
        self.moves_at = time.monotonic() + self.world.wait
        self.say()

    def say(self) -> None:
        answer = self.ask(self.question)
        if answer[0] == "said":
            self.link.send(bytes.fromhex(answer[1]))
        # Robots that were started together don't speak together for ever.
        self.says_at = time.monotonic() + self.every * random.uniform(0.8, 1.2)

    def hear(self, letter: Letter) -> None:
        """Gives a message to the agent. What it refuses is none of this plan, and is dropped."""
        answer, digits = f"refused {letter.fault}", letter.message.hex()
        if not letter.fault:
            answer = self.agent.ask(f"hear {digits}") if len(letter.message) <= LONGEST_MESSAGE else "refused BadLine"
        if answer.startswith("heard "):
            self.wire.tell(f"hear {digits} {answer}")
            self.may_start = True
        else:
            self.wire.tell(f"dropped {answer}")
            if answer.startswith(STALE_TAPE):
                raise Stale(answer)
            self.dropped.take(answer)

    def start(self) -> None:
        self.may_start = False
        answer = self.ask("start")
        if answer[0] == "moving":
            self.target, self.world.pause = cell_of(answer[1:3]), PAUSE
            self.goes_at = 0.0

    def finish(self) -> None:
        if self.ask("finish")[0] == "arrived":
            self.target, self.may_start, self.world.pause = None, True, PAUSE
            self.say()

    def heed_drive(self) -> None:
        for words in self.wire.told():
            if words[0] == "slipped":
                self.goes_at = 0.0
            elif words[0] == "stands" and self.target == cell_of(words[1:3]):
                self.finish()

    def move(self) -> None:
        if self.target is None and self.may_start:
            self.start()
        now = time.monotonic()
        if self.target is not None and now >= self.goes_at:
            self.wire.tell(f"go {self.target[0]} {self.target[1]}")
            self.goes_at = now + AGAIN

    def due(self) -> float:
        """When something is to be done, whatever comes."""
        return min(self.says_at, self.moves_at if self.world.wait else self.says_at if self.target is None else self.goes_at)

    def live(self) -> None:
        """Until the agent ends, there is another plan, or the robot is asked to end."""
        self.begin()
        with selectors.DefaultSelector() as selector:
            for source in (self.agent, self.link, self.wire):
                selector.register(source.fileno(), selectors.EVENT_READ, source)
            while not self.plan.is_another():
                now = time.monotonic()
                if not self.world.wait:
                    self.move()
                if now >= self.says_at:
                    self.say()
                self.supervisor.lives()
                for key, _ in selector.select(max(0.0, self.due() - time.monotonic())):
                    if key.data is self.agent:
                        raise Ended
                    elif key.data is self.wire:
                        self.heed_drive()
                    else:
                        for letter in self.link.received():
                            self.hear(letter)
                # What was there when the time was over has been heard.
                if now >= self.moves_at:
                    self.world.wait = 0.0


def drive(given: argparse.Namespace) -> None:
    """One agent after another, each started when the one before has ended."""
    supervisor = Supervisor()
    lock = Lock(f"{given.tape}.lock", f"robot {given.id}: waits until the robot before it and its agent have ended", supervisor.lives)
    alarms, plan = Alarms(f"robot {given.id}"), PlanFile(given.plan)
    note = note_of(given.box, given.id, (given.map, plan.copy), given.box_size)
    words = [given.program, "agent", given.map, plan.copy, str(given.id), given.tape, "--tape", "kept", "--explain"]
    with contextlib.closing(link_of(given)) as link:
        world = World(link, Wire(given.drive, given.id, alarms.tell), supervisor, Dropped(given.id), plan, given.wait)
        while True:
            with contextlib.suppress(Ended), of_a_full_disk(world, alarms), of_another_plan(plan, alarms):
                read_another(plan, alarms)
                agent = Agent(words, [lock.fileno(), plan.file], note)
                try:
                    plan.take()
                    Robot(given, world, agent).live()
                finally:
                    agent.end()
            time.sleep(world.pause)


@contextlib.contextmanager
def of_a_full_disk(world: World, alarms: Alarms) -> Iterator[None]:
    """That a record isn't stored is told of once, and it rests longer before each try, until one is stored."""
    try:
        yield
    except Unstored as fault:
        if world.pause == PAUSE:
            alarms.say(f"its tape can't be stored ({fault}); it stands, and tries again")
        world.pause = min(2 * world.pause, LONGEST_PAUSE)
        raise


def read_another(plan: PlanFile, alarms: Alarms) -> None:
    """Reads the plan that has come into the place of the one before, where one has."""
    try:
        if plan.is_another():
            plan.read()
    except OSError as fault:
        alarms.say(f"{plan.path} can't be read, and the plan before it goes on: {fault.strerror}")


@contextlib.contextmanager
def of_another_plan(plan: PlanFile, alarms: Alarms) -> Iterator[None]:
    """A plan that the agent doesn't take is told of, and the one before it goes on. Where there is none before it, the robot ends."""
    try:
        yield
    except Unfit as fault:
        fault.told = fault.told.replace(plan.copy, plan.path)
        if fault.status != UNFIT or not plan.go_back():
            raise
        alarms.say(f"{plan.path} isn't taken, and the plan before it goes on: {fault.fault}")


def main(words: Sequence[str]) -> int:
    given = read_words(words)
    try:
        drive(given)
    except Unfit as fault:
        sys.stderr.write(fault.told)
        why, status = str(fault), fault.status
    except (BadKeys, BadCount, Stale) as fault:
        why, status = str(fault), UNFIT
    except (NoClient, NoBroker, BadCertificate, NoDrive, Misplaced) as fault:
        why, status = str(fault), FAILED
    except OSError as fault:
        where = fault.filename or (given.listen and "{}:{}".format(*given.listen)) or given.tape
        why, status = f"{where}: {fault.strerror or fault}", FAILED
    print(f"robot {given.id}: {why}", file=sys.stderr)
    return status


if __name__ == "__main__":
    heed_signals()
    sys.exit(main(sys.argv[1:]))
