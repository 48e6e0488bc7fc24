"""The gauges of tools/watch.py: their form, by a plain reader, and their values, by the plain model
of fleets."""
import contextlib
import http.client
import os
import pathlib
import re
import socket
import time
from typing import Iterator, Optional

from harness import Harness, Outcome, compared
from run_model import agents_of
from statuses import Fleet, tapes_of
from texts import plan
from watched_fleets import LATEST, LIVE, PATIENT, Watched, held_until, kept, put, room_of, words_of

MAP = "type octile\nheight 2\nwidth 8\nmap\n........\n........\n"
# Two behind one another, one whose tape is lost, and one that stays.
PLAN = plan("1 0 eee", "0 0 eee", "0 1 ee", "7 1 =")
ADDRESS = re.compile(rb"watch: gauges are at http://127\.0\.0\.1:(\d+)/metrics\n")
HEAD = re.compile(r"# (HELP|TYPE) ([a-z_]+) (.+)")
SAMPLE = re.compile(r'([a-z_]+)((?:\{[a-z]+="\d+"\})?) (\d+(?:\.\d+)?(?:e-?\d+)?)')
# What changes without a change of the fleet.
TIMES = {f"mapf_seconds_since_{name}" for name in ("progress", "look")}
Values = dict[str, dict[str, float]]


class Gauges:
    """A text of gauges, read line by line; what is wrong with its form is kept."""

    def __init__(self, text: str) -> None:
        self.values: Values = {}
        self.wrong = [] if text.endswith("\n") else ["no line feed at the end"]
        self.told: dict[str, list[str]] = {}
        for line in text.splitlines():
            self.take(line)
        self.wrong += [name for name, it in self.told.items() if it != ["HELP", "TYPE gauge"]]

    def take(self, line: str) -> None:
        head, found = HEAD.fullmatch(line), SAMPLE.fullmatch(line)
        if head:
            what = "HELP" if head[1] == "HELP" else f"TYPE {head[3]}"
            self.told.setdefault(head[2], []).append(what)
            self.values.setdefault(head[2], {})
        elif found and found[2] not in self.values.get(found[1], {found[2]: 0}):
            self.values[found[1]][found[2]] = float(found[3])
        else:
            self.wrong.append(line)

    def lasting(self) -> Values:
        """All but the times."""
        return {name: it for name, it in self.values.items() if name not in TIMES}


def due_gauges(fleet: Fleet) -> Values:
    """The gauges of a fleet by the plain model, but those of times."""
    count = len(fleet.agents)
    known = {it: agent for it, agent in enumerate(fleet.agents) if it not in fleet.faults}
    moving = sum(it.is_moving for it in known.values())
    arrived = sum(it.records == 2 * len(it.needs) for it in known.values())
    waiting = sum(bool(fleet.waits(it)) for it in known)
    lines = fleet.text().splitlines()[count:]
    circles, roots = kept(lines, "rotation"), kept(lines, "root")
    numbers = {
        "agents": count,
        "agents_arrived": arrived,
        "agents_moving": moving,
        "agents_ready": len(known) - arrived - moving - waiting,
        "agents_waiting": waiting,
        "agents_unknown": len(fleet.faults),
        "rotations_blocking": len(circles),
        "alarm": int(bool(circles)),
        # None of them has a box.
        "robots_silent": count,
    }
    samples = {
        "moves_done": {f'{{agent="{agent}"}}': it.done for agent, it in known.items()},
        "moves_planned": {f'{{agent="{agent}"}}': len(it.needs) for agent, it in known.items()},
        "kept_agents": {f'{{root="{root}"}}': count for root, count in roots.items()},
        **{name: {"": number} for name, number in numbers.items()},
    }
    return {f"mapf_{name}": it for name, it in samples.items()}


def fleet_of(harness: Harness, *records: int) -> tuple[Fleet, pathlib.Path]:
    """The fleet with so many records on its tapes, but that of agent 2, which is lost."""
    agents = agents_of(PLAN)
    for agent, count in zip(agents, records):
        agent.records = count
    fleet = Fleet(PLAN, agents, {2: "NoTape"})
    return fleet, room_of(harness, MAP, PLAN, tapes_of(fleet))


def asked(port: int, path: str = "/metrics") -> tuple[int, Optional[str], str]:
    """What is answered to a request: the status, the type and the text."""
    with contextlib.closing(http.client.HTTPConnection("127.0.0.1", port, timeout=LATEST)) as link:
        link.request("GET", path)
        answer = link.getresponse()
        return answer.status, answer.getheader("Content-Type"), answer.read().decode()


def is_open(host: str, port: int) -> bool:
    try:
        with socket.create_connection((host, port), timeout=5):
            return True
    except OSError:
        return False


def port_of(watched: Watched) -> int:
    """The port that the tool says."""
    found = ADDRESS.fullmatch(watched.process.stderr.readline())
    return int(found[1]) if found else 0


def gauges(harness: Harness) -> Iterator[Outcome]:
    """The gauges of a fleet, before it goes on and behind."""
    fleet, folder = fleet_of(harness, 2, 2, 0, 0)
    for agent, ago in ((0, 500), (1, 400), (3, 600)):
        os.utime(folder / f"{agent}.tape", (time.time() - ago, time.time() - ago))
    words = ("--metrics", "0", "--stay", "--boxes", "%.box")
    with Watched(harness, folder, *PATIENT, *words) as watched:
        port = port_of(watched)

        def lasting() -> Values:
            return Gauges(asked(port)[2]).lasting()

        due = due_gauges(fleet)
        yield compared("gauges", "GET /metrics", held_until(lasting, due), due)
        yield from of_form(port)
        fleet.agents[0].records = 4
        put(folder, 0, 4)
        due = due_gauges(fleet)
        yield compared("gauges of one that went on", "GET /metrics", held_until(lasting, due), due)
        since = Gauges(asked(port)[2]).values["mapf_seconds_since_progress"][""]
        yield compared("how long ago that was", f"{since}", since < LATEST, True)


def of_form(port: int) -> Iterator[Outcome]:
    """What is answered, and to whom, of a fleet that has stood for 400 seconds."""
    status, kind, text = asked(port)
    read = Gauges(text)
    due = (200, "text/plain; version=0.0.4", [])
    yield compared("their form", f"GET /metrics: {text}", (status, kind, read.wrong), due)
    times = [read.values.get(name, {}).get("", -1.0) for name in sorted(TIMES)]
    is_so = (0 <= times[0] < LATEST, 400 <= times[1] < 500)
    yield compared("their times", f"GET /metrics: {times}", is_so, (True, True))
    yield compared("another path", "GET /", asked(port, "/")[0], 404)
    yield compared("another address", f"127.0.0.2:{port}", is_open("127.0.0.2", port), False)


def no_port(harness: Harness) -> Iterator[Outcome]:
    """A port that another program has."""
    _, folder = fleet_of(harness, 0, 0, 0, 0)
    with socket.create_server(("127.0.0.1", 0)) as taken:
        port = taken.getsockname()[1]
        ended = harness.run(words_of(harness, "--live", "--metrics", str(port)), folder=folder)
    due = (3, b"", f"watch: port {port}: Address already in use\n")
    wrote = (ended.status, ended.out, ended.err.decode())
    yield compared("a port that is taken", f"{LIVE} --metrics {port}", wrote, due)


PARTS = (gauges, no_port)
