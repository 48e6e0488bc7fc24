#!/usr/bin/env python3
"""Drives a fleet of robots, each a process of its own with `mapf agent` beside it, over a real link, and holds what came of it against `mapf run`.

Usage: robots.py [--link udp|multicast|mqtt] [--tell] [--robots N] [--seed N] [--kills RATE] [--stops RATE] [--seconds S] [--orders N] [OPTIONS]

All run on this machine, over its loopback; network.sh gives each a network of its own. Each run has a plan with a number that is drawn for it, which all
its robots get, so that nothing said in another run is heard. With --seconds a fleet that has arrived is started again, until so much time is over. A line of
names and numbers is written for each run, and one of their sums. With --orders the robots carry out N orders in each run, without a stop: they get plan
after plan, each of which goes on from the one before, and the log is held against the last one. With --keys they sign all that they say, by keys that are made
where there are none yet.

Status 0: all have arrived, no two were in one cell, and `mapf run` answers the log as the robots were answered. 1: they weren't, or it doesn't, or the
keys have a fault. 2: a bad command line. 3: something failed, is not here, or the time of a run was over.
"""
import argparse
import collections
import contextlib
import dataclasses
import itertools
import pathlib
import random
import secrets
import shutil
import socket
import subprocess
import sys
import tempfile
import time
from typing import Counter, Iterator, Optional, Sequence

HERE = pathlib.Path(__file__).resolve().parent
sys.dont_write_bytecode = True
import cables as cable_kinds  # noqa: E402
from addresses import Address, address  # noqa: E402
from broker import Broker, NoBroker  # noqa: E402
from fleet_run import Failed, Run, Settings, Wrong  # noqa: E402
from given import NUMBERS, plan_number  # noqa: E402
from keys import BadKeys, make_or_keep  # noqa: E402
from ordered_run import OrderedRun  # noqa: E402
from orders import NoPlan, Orders  # noqa: E402
from leaving import heed_signals  # noqa: E402
from places import Loopback, Namespaces, NoRoom, Place  # noqa: E402
from program import usual_program  # noqa: E402

WRONG, FAILED = 1, 3
# Where Debian's packages for Python are found, if not by the one that runs this.
DEBIAN_PYTHON = "/usr/bin/python3"
# Seconds within which a broker answers.
PATIENCE = 5


def amount(word: str) -> float:
    with contextlib.suppress(ValueError):
        if 0 <= float(word) < 1e6:
            return float(word)
    raise argparse.ArgumentTypeError(f"a number from 0 on is wanted, and '{word[:40]}' is none")


def read_words(words: Sequence[str]) -> argparse.Namespace:
    parser = argparse.ArgumentParser(prog="robots.py", description=__doc__, formatter_class=argparse.RawDescriptionHelpFormatter)
    parser.add_argument("--link", choices=["udp", "multicast", "mqtt"], default="udp", help="what carries messages (%(default)s)")
    parser.add_argument("--tell", action="store_true", help="each says all that it knows, and not only what it has finished")
    parser.add_argument("--robots", type=int, metavar="N", help="how many of the plan's agents drive (all)")
    parser.add_argument("--seed", type=int, default=1, metavar="N", help="the seed of speeds, slips and harm (%(default)s)")
    parser.add_argument("--kills", type=amount, default=0.0, metavar="RATE", help="how many processes are killed a second (0)")
    parser.add_argument("--cuts", type=amount, default=0.0, metavar="RATE", help="how many cables of network.sh are cut a second, for some seconds (0)")
    parser.add_argument("--stops", type=amount, default=0.0, metavar="RATE", help="how often a second the started broker is stopped, for some seconds (0)")
    parser.add_argument("--moves", type=amount, default=0.05, metavar="S", help="how long a move takes, in the mean (%(default)g seconds)")
    parser.add_argument("--slips", type=amount, default=0.05, metavar="RATE", help="how many moves slip (%(default)g)")
    parser.add_argument("--every", type=amount, default=0.2, metavar="S", help="a robot speaks so often, and behind each move (%(default)g seconds)")
    parser.add_argument("--limit", type=amount, default=300.0, metavar="S", help="the longest time of a run (%(default)g seconds)")
    parser.add_argument("--seconds", type=amount, default=0.0, metavar="S", help="starts again until so much time is over (0: one run)")
    parser.add_argument("--orders", type=int, metavar="N", help="how many orders are carried out in a run (the robots drive the plan)")
    parser.add_argument("--number", type=plan_number, metavar="N", help="the plan number of the first run; the others count on (each is drawn)")
    parser.add_argument("--broker", type=address, metavar="HOST:PORT", help="a broker that is there (one is started)")
    parser.add_argument("--keys", type=pathlib.Path, metavar="FILE", help="the robots sign, with the keys in this file (they don't)")
    parser.add_argument("--tls", type=pathlib.Path, metavar="FOLDER", help="the robots and the broker have certificates that broker/certificates.sh made")
    parser.add_argument("--port", type=int, default=0, metavar="N", help="the first of the ports on this machine (any that are free)")
    parser.add_argument("--keep", type=pathlib.Path, metavar="FOLDER", help="keeps the plan, the log and the replies of each run there")
    parser.add_argument("--boxes", type=pathlib.Path, metavar="FOLDER", help="keeps the plans and the black boxes of each run there")
    parser.add_argument("--map", type=pathlib.Path, default=HERE / "warehouse.map")
    parser.add_argument("--plan", type=pathlib.Path, default=HERE / "warehouse.plan")
    parser.add_argument("--program", default=usual_program(), metavar="PATH", help="the program mapf (%(default)s)")
    parser.add_argument("--namespaces", metavar="PREFIX", help=argparse.SUPPRESS)
    parser.add_argument("--cables", default="", metavar="KIND:WHERE", help=argparse.SUPPRESS)
    given = parser.parse_args(words)
    if given.robots is not None and given.robots < 1:
        parser.error("--robots: a number above 0 is wanted")
    if given.orders is not None and given.orders < 1:
        parser.error("--orders: a number above 0 is wanted")
    if given.tls and given.link != "mqtt":
        parser.error("--tls goes with --link mqtt")
    if given.cuts and not given.cables:
        parser.error("--cuts: there are no cables here, which network.sh makes")
    if given.port and not 1024 <= given.port < 65_000:
        parser.error("--port: a number from 1024 to 64999 is wanted")
    return given


def courses_of(plan: pathlib.Path, robots: Optional[int]) -> list[str]:
    """The lines of a plan's first agents. Whether the text is a plan is for `mapf` to say."""
    courses = plan.read_text(encoding="ascii", errors="replace").splitlines()[3:]
    if robots is not None and robots > len(courses):
        raise Failed(f"{plan}: there are {len(courses)} agents, and {robots} were due")
    return courses[:robots]


def with_paho() -> str:
    """A Python that has a client of MQTT."""
    for python in (sys.executable, DEBIAN_PYTHON):
        with contextlib.suppress(OSError):
            # What lies in this folder isn't what a robot finds.
            if subprocess.run([python, "-c", "import paho.mqtt.client"], cwd="/", stderr=subprocess.DEVNULL, check=False).returncode == 0:
                return python
    raise Failed("a link by MQTT needs the Python package `paho-mqtt`, as Debian's python3-paho-mqtt: there is none here")


def look_for_broker(where: Address) -> None:
    """Robots wait for a broker that is away; one that was never there is told at once."""
    try:
        socket.create_connection(where, PATIENCE).close()
    except OSError as fault:
        raise NoBroker(f"no broker answers at {where[0]}:{where[1]}: {fault.strerror or fault}") from None


def fresh_numbers(first: Optional[int]) -> Iterator[int]:
    """A number that is drawn for each run, so that nobody had it before, whatever clocks say."""
    for number in itertools.count(first or 0):
        yield (secrets.randbelow(NUMBERS) if first is None else number) % NUMBERS


def check_plan(settings: Settings, given: pathlib.Path, plan: pathlib.Path, nothing: pathlib.Path) -> None:
    """A plan that can't be driven to its end is not driven at all."""
    nothing.write_text("mapf-events 1\n", encoding="ascii")
    words = [settings.program, "run", str(settings.map), str(plan), str(nothing), "--complete"]
    ended = subprocess.run(words, stdin=subprocess.DEVNULL, stdout=subprocess.PIPE, stderr=subprocess.PIPE, check=False)
    said = (ended.stdout or ended.stderr).decode("ascii", "replace").partition("\n")[0]
    if not said.startswith("complete "):
        raise (Wrong if ended.returncode == 1 else Failed)(f"{given}: `mapf run --complete` says '{said}'")


def keep(run: Run, number: int, folder: pathlib.Path) -> None:
    folder.mkdir(exist_ok=True)
    for path in filter(pathlib.Path.exists, (run.plan, run.log, run.replies)):
        shutil.copyfile(path, folder / f"{number}{path.suffix}")


class Fleet:
    """The runs of a fleet, one after another, and the sums of what was counted."""

    def __init__(self, given: argparse.Namespace, settings: Settings, courses: Sequence[str], place: Place):
        self.given, self.settings, self.courses, self.place = given, settings, courses, place
        self.cables = cable_kinds.cables_of(given.cables)
        self.sums: Counter[str] = collections.Counter()
        self.runs = self.unfinished = 0

    def run(self, number: int, seed: int, broker: Optional[Broker]) -> None:
        with tempfile.TemporaryDirectory(prefix="mapf-fleet-") as name:
            run = (self._ordered_run if self.given.orders else self._run)(number, seed, broker, pathlib.Path(name))
            try:
                counted = run.drive()
                has_arrived = counted["arrived"] != "0"
                run.hold_log(has_arrived)
            finally:
                run.end()
                if self.given.keep:
                    keep(run, number, self.given.keep)
        self.runs += 1
        self.unfinished += not has_arrived
        self.sums.update({name: float(value) for name, value in counted.items()})
        print(f"run {number} seed {seed}", *(f"{name} {value}" for name, value in counted.items()), flush=True)

    def _run(self, number: int, seed: int, broker: Optional[Broker], folder: pathlib.Path) -> Run:
        text = "\n".join(["mapf-plan 1", f"number {number}", f"agents {len(self.courses)}", *self.courses, ""])
        (folder / "run.plan").write_text(text, encoding="ascii")
        check_plan(self.settings, self.given.plan, folder / "run.plan", folder / "nothing")
        return Run(self.with_boxes(number, folder / "run.plan"), self.place, self.cables, broker, seed, folder)

    def _ordered_run(self, number: int, seed: int, broker: Optional[Broker], folder: pathlib.Path) -> Run:
        """From where the plan has its agents begin, with the first orders."""
        starts = [(int(x), int(y)) for _, x, y, *_ in map(str.split, self.courses)]
        orders = Orders(self.settings.program, self.settings.map, folder, number, starts, random.Random(f"orders {seed}"))
        orders.give_out()
        settings = self.with_boxes(number, orders.plans[0])
        return OrderedRun(orders, self.given.orders, settings, self.place, self.cables, broker, seed, folder=folder)

    def with_boxes(self, number: int, plan: pathlib.Path) -> Settings:
        """The settings of a run, with a new folder for its boxes where these are wanted."""
        if not self.given.boxes:
            return self.settings
        boxes = self.given.boxes / str(number)
        boxes.mkdir(parents=True)
        shutil.copyfile(plan, boxes / plan.name)
        return dataclasses.replace(self.settings, boxes=boxes.absolute())

    def drive(self, broker: Optional[Broker]) -> None:
        begun, numbers = time.monotonic(), fresh_numbers(self.given.number)
        seed = self.given.seed
        while not self.runs or time.monotonic() - begun < self.given.seconds:
            self.run(next(numbers), seed, broker)
            seed += 1
        if self.given.seconds:
            print(f"runs {self.runs} unfinished {self.unfinished}", *(f"{name} {value:g}" for name, value in sums_of(self.sums)), flush=True)


def sums_of(sums: Counter[str]) -> Iterator[tuple[str, float]]:
    for name, value in sums.items():
        yield name, round(value, 2)


def drive(given: argparse.Namespace) -> int:
    courses = courses_of(given.plan, given.robots)
    python = with_paho() if given.link == "mqtt" else sys.executable
    has_own_broker = given.link == "mqtt" and not given.broker
    rates = {"kills": given.kills, "cuts": given.cuts, "stops": given.stops if has_own_broker else 0.0}
    own = (given.link, given.tell, given.every, given.moves, given.slips, rates, given.limit)
    settings = Settings(given.program, python, given.map, len(courses), *own, keys=given.keys, tls=given.tls)
    if given.keys:
        make_or_keep(str(given.keys), len(courses))
    place: Place = Namespaces(given.namespaces) if given.namespaces else Loopback(len(courses), given.port)
    broker = None
    with tempfile.TemporaryDirectory(prefix="mapf-broker-") as folder:
        try:
            if given.broker:
                place.broker = "{}:{}".format(*given.broker)
                look_for_broker(given.broker)
            elif has_own_broker:
                broker = Broker(place.broker, place.broker_words(), pathlib.Path(folder), given.tls)
            fleet = Fleet(given, settings, courses, place)
            fleet.drive(broker)
        finally:
            if broker:
                broker.stop()
    return FAILED if fleet.unfinished else 0


def main(words: Sequence[str]) -> int:
    given = read_words(words)
    try:
        return drive(given)
    except (Wrong, BadKeys) as fault:
        print(f"robots: {fault}", file=sys.stderr)
        return WRONG
    except (Failed, NoBroker, NoPlan, NoRoom, cable_kinds.Broken) as fault:
        print(f"robots: {fault}", file=sys.stderr)
    except OSError as fault:
        print(f"robots: {fault.filename or given.plan}: {fault.strerror or fault}", file=sys.stderr)
    return FAILED


if __name__ == "__main__":
    heed_signals()
    sys.exit(main(sys.argv[1:]))
