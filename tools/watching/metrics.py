"""The fleet as gauges, in the text format 0.0.4 of Prometheus, for who asks on this machine."""
import dataclasses
import http.server
import socketserver
import threading
import time
from typing import Iterator, Mapping, Optional, Sequence

from mapf.fleets import ARRIVED, MOVING, READY, UNKNOWN, WAITS
from watching.looks import Look
from watching.told import Limits, alarms_of, silent_robots

HOST, PATH = "127.0.0.1", "/metrics"
TEXT = "text/plain; version=0.0.4"
# Who asks and doesn't read is dropped then.
PATIENCE = 10
# By what keeps them agents are counted.
COUNTED = {
    "mapf_agents_arrived": (ARRIVED, "have made all their moves"),
    "mapf_agents_moving": (MOVING, "are moving"),
    "mapf_agents_ready": (READY, "wait for nobody"),
    "mapf_agents_waiting": (WAITS, "wait for another agent"),
    "mapf_agents_unknown": (UNKNOWN, "have no tape that can be taken"),
}
# A number with its label, where it has one.
Sample = tuple[str, float]


@dataclasses.dataclass(frozen=True)
class Gauge:
    """A gauge by its name, with what it says, and its samples."""

    name: str
    told: str
    samples: Sequence[Sample]


def one(name: str, told: str, number: float) -> Gauge:
    return Gauge(name, told, [("", number)])


def each(name: str, told: str, label: str, numbers: Mapping[int, float]) -> Gauge:
    """One that has a sample for each agent."""
    return Gauge(name, told, [(f'{{{label}="{it}"}}', number) for it, number in numbers.items()])


def gauges(look: Look, limits: Limits, clock: float) -> Iterator[Gauge]:
    """All gauges of a look, which are asked for at this time of the machine's clock."""
    status, moved = look.status, look.at.clock - look.progress.clock
    yield one("mapf_agents", "How many agents the plan has.", len(status.agents))
    for name, (keeping, what) in COUNTED.items():
        yield one(name, f"How many agents {what}.", status.count(keeping))
    known = {agent: it for agent, it in enumerate(status.agents) if it.state}
    done = {agent: it.state.done for agent, it in known.items() if it.state}
    planned = {agent: it.moves or 0 for agent, it in known.items()}
    yield each("mapf_moves_done", "How many moves an agent has finished.", "agent", done)
    yield each("mapf_moves_planned", "How many moves an agent has in all.", "agent", planned)
    told = "How many agents wait for this one, directly or not."
    yield each("mapf_kept_agents", told, "root", status.roots)
    told = "How many rotations block for ever."
    yield one("mapf_rotations_blocking", told, len(status.rotations))
    told = "For how many seconds no tape had got a record when they were read."
    yield one("mapf_seconds_since_progress", told, moved)
    told = "How many seconds ago the tapes were read."
    yield one("mapf_seconds_since_look", told, clock - look.asked.clock)
    if any(it.report for it in look.robots):
        told = "How many robots don't report, or have no box."
        yield one("mapf_robots_silent", told, len(silent_robots(look, limits)))
    yield one("mapf_alarm", "1 while there is an alarm, else 0.", bool(alarms_of(look, limits)))


def text_of(look: Look, limits: Limits, clock: float) -> str:
    """All gauges as text."""
    lines = []
    for it in gauges(look, limits, clock):
        lines += [f"# HELP {it.name} {it.told}", f"# TYPE {it.name} gauge"]
        lines += [f"{it.name}{label} {number:.10g}" for label, number in it.samples]
    return "\n".join([*lines, ""])


class Handler(http.server.BaseHTTPRequestHandler):
    """Answers for the gauges alone, and writes no log."""

    timeout = PATIENCE
    server: "Server"

    def do_GET(self) -> None:
        look = self.server.look
        if self.path.partition("?")[0] != PATH or not look:
            # Before the first look there is nothing to tell.
            self.send_error(503 if self.path == PATH else 404)
            return
        body = text_of(look, self.server.limits, time.monotonic()).encode("ascii")
        self.send_response(200)
        self.send_header("Content-Type", TEXT)
        self.send_header("Content-Length", str(len(body)))
        self.end_headers()
        self.wfile.write(body)

    def log_message(self, *_: object) -> None:
        pass


class Server(socketserver.ThreadingTCPServer):
    """The gauges of the last look, by a thread beside the one that looks."""

    daemon_threads = allow_reuse_address = True

    def __init__(self, port: int, limits: Limits) -> None:
        super().__init__((HOST, port), Handler)
        self.limits = limits
        self.look: Optional[Look] = None
        self.thread = threading.Thread(target=self.serve_forever, daemon=True)

    def __enter__(self) -> "Server":
        self.thread.start()
        return self

    def __exit__(self, *_: object) -> None:
        self.shutdown()
        self.server_close()

    def handle_error(self, *_: object) -> None:
        """Who asked has gone: nobody is to be told."""

    @property
    def address(self) -> str:
        return f"http://{HOST}:{self.server_address[1]}{PATH}"
