#!/usr/bin/env python3
"""A master control by VDA 5050, version 2.0: has the vehicles of a fleet drive a plan, each by its own `mapf agent`.

Usage: master.py MAP PLAN VEHICLES FOLDER --broker HOST:PORT [--frame MAP.YAML] [OPTIONS]

VEHICLES has a line for each vehicle: its agent, its manufacturer and its serial number. FOLDER has their tapes, `N.tape`, which were made before, and gets
their black boxes, `N.box`. Where it has not all agents of the plan, other masters or robots have the others, on the same broker.

A vehicle's order ends where its agent answers `moving`, and where the agent says that so many more moves may follow; what comes behind is horizon. It may
be killed at any moment, and goes on from what the tapes and the vehicles say. It reads lines: `pause`, `resume`, `cancel` and `show`, of all vehicles or, with
a number behind, of one. An order that was cancelled begins again by `resume`. When all vehicles have arrived, it says so in a line, and goes on. Where
another plan, one that goes on from the one before, is put in the place of PLAN (by a rename), all go over to it, and the vehicles keep their orders.

Status 1: the map or the plan has a fault. 2: a bad command line. 3: a file, a socket or a program failed. It ends when it is asked to.
"""
import argparse
import os
import pathlib
import sys
import time
from typing import Callable, Iterator, Sequence

sys.dont_write_bytecode = True
import beside  # noqa: E402, F401
from addresses import address  # noqa: E402
from alarms import Alarms  # noqa: E402
from agent import Lock, Unfit  # noqa: E402
from black_box import note_of  # noqa: E402
from bus import Bus, Post  # noqa: E402
from check_boxes import number  # noqa: E402
from contact import Contact  # noqa: E402
from frame import BadFrame, read_frame  # noqa: E402
from given import number_in  # noqa: E402
from leaving import heed_signals  # noqa: E402
from letters import sender_of  # noqa: E402
from link_mqtt import NoBroker, NoClient, topic_of  # noqa: E402
from pilot import Pilot  # noqa: E402
from plan_file import PlanFile  # noqa: E402
from program import usual_program  # noqa: E402
from links import number_of  # noqa: E402
from robot import box_size, seconds  # noqa: E402
from route import NoPath, Route, path_of  # noqa: E402
from service import Supervisor  # noqa: E402
from standard import CONNECTION, FACTSHEET, STATE, Identity, kind_of  # noqa: E402
from teller import Teller  # noqa: E402

UNFIT, FAILED = 1, 3
# The longest wait, in seconds.
LOOK = 0.2
HEARD = (CONNECTION, FACTSHEET, STATE)
COMMANDS = ("pause", "resume", "cancel", "show")
MOST_AGENT = 65_535


class BadFleet(Exception):
    """The list of vehicles has a fault."""


def read_words(words: Sequence[str]) -> argparse.Namespace:
    parser = argparse.ArgumentParser(prog="master.py", description=__doc__, formatter_class=argparse.RawDescriptionHelpFormatter)
    parser.add_argument("map", metavar="MAP")
    parser.add_argument("plan", metavar="PLAN", help="the plan, with the number of this run")
    parser.add_argument("vehicles", metavar="VEHICLES", help="which vehicle is which agent: lines AGENT MANUFACTURER SERIAL")
    parser.add_argument("folder", type=pathlib.Path, metavar="FOLDER", help="the tapes and the black boxes of these agents")
    parser.add_argument("--broker", type=address, required=True, metavar="HOST:PORT")
    parser.add_argument("--frame", metavar="MAP.YAML", help="resolution and origin, as ROS has them (a metre, and 0 0 0)")
    parser.add_argument("--map-id", metavar="NAME", help="the map's name in orders (that of MAP's file)")
    parser.add_argument("--ahead", type=number, default=3, metavar="N", help="releases so many moves behind the one that is begun (%(default)s)")
    parser.add_argument("--horizon", type=number, default=4, metavar="N", help="shows so many more (%(default)s)")
    parser.add_argument("--every", type=seconds, default=1.0, metavar="S", help="tells other masters again after so many seconds (%(default)g)")
    parser.add_argument("--patience", type=seconds, default=10.0, metavar="S", help="how long a broker may be away at first (%(default)g)")
    parser.add_argument("--box-size", type=box_size, default=0, metavar="BYTES", help="goes on in another file where a box would get longer (never)")
    parser.add_argument("--program", default=usual_program(), metavar="PATH", help="the program mapf (%(default)s)")
    return parser.parse_args(words)


def read_fleet(path: str) -> dict[int, Identity]:
    """The vehicle of each agent."""
    fleet: dict[int, Identity] = {}
    with open(path, encoding="utf-8", errors="replace") as file:
        lines = file.read().splitlines()
    for place, line in enumerate(lines, 1):
        words = line.split()
        agent = number_in(words[0], MOST_AGENT) if len(words) == 3 else None
        if agent is None or set("+#/") & set(line):
            raise BadFleet(f"{path}: line {place} isn't AGENT MANUFACTURER SERIAL")
        fleet[agent] = Identity(words[1], words[2])
    if not lines or len(set(fleet.values())) < len(lines):
        raise BadFleet(f"{path}: each agent and each vehicle stands there once, and one at least")
    return fleet


class Master:
    """All pilots, and the messages between their agents."""

    def __init__(self, given: argparse.Namespace, fleet: dict[int, Identity]):
        self.given, self.run = given, number_of(given.plan)
        self.supervisor = Supervisor()
        self.agents = {identity: agent for agent, identity in fleet.items()}
        topics = [identity.topic(kind) for identity in fleet.values() for kind in HEARD]
        self.bus = Bus(given.broker, f"mapf-{self.run}-master-{min(fleet)}", [*topics, topic_of(self.run, "+")])
        self.bus.greet = self._greet
        self.plan, self.frame = PlanFile(given.plan), read_frame(given.frame, given.map)
        self.pilots: dict[int, Pilot] = {}
        for agent, identity in fleet.items():
            alarms = Alarms(f"master: vehicle {agent}")
            contact, teller = Contact(identity, self.bus, alarms.tell), self._teller(agent, alarms.tell)
            self.pilots[agent] = Pilot(self._route(agent), teller, contact, (given.ahead, given.horizon), alarms)
        self.plan.take()
        # What agents of others have said last.
        self.elsewhere: dict[int, bytes] = {}
        self.tells_at = 0.0
        self.has_arrived = False

    def _route(self, agent: int) -> Route:
        given = self.given
        cells = path_of(given.program, (given.map, self.plan.copy), agent, [self.plan.file])
        return Route(cells, self.frame, given.map_id or pathlib.Path(given.map).stem, self.run, agent)

    def _teller(self, agent: int, alarm: Callable[[str], None]) -> Teller:
        given, tape = self.given, self.given.folder / f"{agent}.tape"
        lock = Lock(f"{tape}.lock", f"master: vehicle {agent}: waits until the agent before has ended", self.supervisor.lives)
        words = [given.program, "agent", given.map, self.plan.copy, str(agent), str(tape), "--tape", "kept", "--explain"]
        note = note_of(str(given.folder / f"{agent}.box"), agent, (given.map, self.plan.copy), given.box_size, alarm)
        return Teller(words, [lock.fileno(), self.plan.file], note, alarm)

    def _go_over(self) -> None:
        """All go on by the plan that has come into the place of the one before, if all agents take it. The vehicles keep their orders."""
        try:
            self.plan.read()
            routes = {agent: self._route(agent) for agent in self.pilots}
            for pilot in self.pilots.values():
                pilot.teller.try_plan()
        except (Unfit, NoPath, OSError) as fault:
            why = fault.fault if isinstance(fault, Unfit) else fault
            self.plan.go_back()
            print(f"master: {self.plan.path} isn't taken, and the plan before it goes on: {why}", file=sys.stderr, flush=True)
            return
        self.plan.take()
        for agent, pilot in self.pilots.items():
            pilot.go_over(routes[agent])
        self.has_arrived = False

    # Messages between agents

    def _greet(self) -> None:
        """Behind each connection: what was on its way before may be lost."""
        for pilot in self.pilots.values():
            pilot.contact.unsettle()
        self.tells_at = 0.0

    def _spread(self, agent: int) -> None:
        """An agent has said something, or was started and knows nothing of others."""
        own = self.pilots[agent].teller
        self._publish(agent)
        for other, pilot in self.pilots.items():
            if other != agent:
                pilot.teller.hear(own.said)
                own.hear(pilot.teller.said)
        for said in self.elsewhere.values():
            own.hear(said)

    def _publish(self, agent: int) -> None:
        said = self.pilots[agent].teller.said
        if said:
            self.bus.publish(Post(topic_of(self.run, str(agent)), said), retain=True)

    def _hear(self, said: Post) -> None:
        """What an agent of another master has said, or of a robot."""
        sender = sender_of(said.payload)
        if said.topic == topic_of(self.run, str(sender)) and sender not in self.pilots:
            self.elsewhere[sender] = said.payload
            for pilot in self.pilots.values():
                pilot.teller.hear(said.payload)

    def _tell_again(self, now: float) -> None:
        if now >= self.tells_at:
            self.tells_at = now + self.given.every
            for agent in self.pilots:
                self._publish(agent)

    # Commands

    def _obey(self, line: str) -> None:
        words = line.split()
        chosen = [self.pilots[int(it)] for it in words[1:2] if it.isdigit() and int(it) in self.pilots] if words[1:] else list(self.pilots.values())
        if words[:1] and words[0] in COMMANDS and len(words) < 3 and chosen:
            for pilot in chosen:
                self._command(words[0], pilot)
            print(f"done {words[0]}", flush=True)
        else:
            print(f"unknown; commands are {', '.join(COMMANDS)}, and a vehicle's agent may follow", flush=True)

    def _command(self, what: str, pilot: Pilot) -> None:
        if what == "pause":
            pilot.wants_pause = True
        elif what == "resume":
            pilot.wants_pause = pilot.is_held = False
        elif what == "cancel":
            pilot.is_held = True
        else:
            print(pilot.shown(), flush=True)

    # The loop

    def _turn(self, now: float) -> Iterator[int]:
        """The agents that have something to say, or to hear again."""
        for agent, pilot in self.pilots.items():
            if pilot.turn(now):
                yield agent

    def live(self) -> None:
        self.bus.reach(self.given.patience)
        commands = Commands()
        while True:
            self.supervisor.lives()
            if self.plan.is_another():
                self._go_over()
            now = time.monotonic()
            while said := list(self._turn(now)):
                for agent in said:
                    self._spread(agent)
            self._tell_again(now)
            self._look_for_the_end()
            tellers = {it.teller.agent.fileno(): it.teller for it in self.pilots.values() if it.teller.agent}
            for file in self.bus.work(LOOK, [*tellers, *commands.files]):
                if file in tellers:
                    tellers[file].end()
                else:
                    for line in commands.read():
                        self._obey(line)
            for post in self.bus.received():
                self._take(post)

    def leave(self) -> None:
        """Waits until all agents have ended."""
        for pilot in self.pilots.values():
            pilot.teller.end()
        self.bus.close()

    def _take(self, post: Post) -> None:
        identity, kind = kind_of(post.topic)
        if identity in self.agents:
            self.pilots[self.agents[identity]].take(kind, post.payload)
        else:
            self._hear(post)

    def _look_for_the_end(self) -> None:
        if not self.has_arrived and all(it.has_arrived for it in self.pilots.values()):
            self.has_arrived = True
            print(f"arrived {len(self.pilots)}", flush=True)


class Commands:
    """The lines that come in, while some may come."""

    def __init__(self) -> None:
        self.files, self.rest = [sys.stdin.fileno()], b""

    def read(self) -> list[str]:
        read = os.read(self.files[0], 4096)
        if not read:
            self.files = []
        *lines, self.rest = (self.rest + read).split(b"\n")
        return [line.decode(errors="replace") for line in lines]


def main(words: Sequence[str]) -> int:
    given = read_words(words)
    status = FAILED
    try:
        master = Master(given, read_fleet(given.vehicles))
        try:
            master.live()
        finally:
            master.leave()
    except (NoPath, BadFleet, BadFrame) as fault:
        why, status = str(fault), UNFIT
    except (NoClient, NoBroker) as fault:
        why = str(fault)
    except OSError as fault:
        why = f"{fault.filename or given.folder}: {fault.strerror or fault}"
    print(f"master: {why}", file=sys.stderr)
    return status


if __name__ == "__main__":
    heed_signals()
    sys.exit(main(sys.argv[1:]))
