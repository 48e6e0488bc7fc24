#!/usr/bin/env python3
"""Watches a fleet by its tapes: who has arrived, who moves, for whom all wait, and since when.

Usage: watch.py MAP PLAN TAPES [--live] [--every SECONDS] [--stay] [--boxes BOXES] [OPTIONS]

TAPES is the name of the tapes, with `%` for the agent's number, as `mapf status` takes it; that is
asked once, or with --live again and again, until all have arrived. On a terminal what is told is
drawn anew in place; else each line is written once, behind the time of day, until it changes.

An alarm is a rotation that blocks, a tape that has fewer records than it had or has disappeared,
and tapes that aren't of one run or whose plans don't go on from one another. It is an alarm too that
for --alarm SECONDS nothing moves while not all have arrived, or a root doesn't move. BOXES, with `%`
too, are the black boxes of robots (`robot.py --box`): who hasn't written there for --silent SECONDS
is told. --page FILE is a page for a browser, which shows where all are and who waits for whom, and
comes anew by itself. With --metrics this machine can ask http://127.0.0.1:PORT/metrics for the same
as gauges of Prometheus.

Status 0: all have arrived, or without --live nothing is wrong. 1: there is an alarm, which ends it
without --live or with --alarm-ends; or without --live a tape that can't be taken; or the map or the
plan has a fault. 2: a bad command line. 3: a file, the port or the program failed.
"""
import argparse
import contextlib
import pathlib
import sys
import time
from typing import Iterator, Optional, Sequence

sys.dont_write_bytecode = True
from given import number_up_to  # noqa: E402
from leaving import heed_signals  # noqa: E402
from mapf.faults import Failed, Fault  # noqa: E402
from mapf.fleets import UNKNOWN  # noqa: E402
from mapf.program import Program, usual_program  # noqa: E402
from refused import Refused  # noqa: E402
from watching.live_page import Page  # noqa: E402
from watching.looks import Files, Look, Looks  # noqa: E402
from watching.metrics import Server  # noqa: E402
from watching.screen import screen_of  # noqa: E402
from watching.told import Limits, Line, alarms_of, lines_of  # noqa: E402

WELL, WRONG, FAILED = 0, 1, 3
MOST_PORT = 65_535
LEAST_SECONDS, MOST_SECONDS = 0.05, 1_000_000.0


def tell(line: str) -> None:
    # Where nobody can read it, the work goes on.
    with contextlib.suppress(OSError):
        if sys.stderr:
            print(f"watch: {line}", file=sys.stderr, flush=True)


def seconds(word: str) -> float:
    with contextlib.suppress(ValueError):
        if LEAST_SECONDS <= float(word) <= MOST_SECONDS:
            return float(word)
    raise argparse.ArgumentTypeError(f"seconds are wanted, and {word[:40]!r} are none")


def port(word: str) -> int:
    return number_up_to(word, MOST_PORT)


def read_words(words: Sequence[str]) -> argparse.Namespace:
    kind = argparse.RawDescriptionHelpFormatter
    parser = argparse.ArgumentParser(prog="watch.py", description=__doc__, formatter_class=kind)
    parser.add_argument("map", metavar="MAP", help="the map of the plan")
    parser.add_argument("plan", metavar="PLAN", help="the plan that the fleet drives")
    parser.add_argument("tapes", metavar="TAPES", help="the tapes, as 'tapes/%%.tape'")
    parser.add_argument("--live", action="store_true", help="looks again and again")
    parser.add_argument(
        "--boxes", metavar="BOXES", help="the black boxes of the robots, as 'boxes/%%.box'"
    )
    parser.add_argument(
        "--page", type=pathlib.Path, metavar="FILE", help="writes a page there at each look"
    )
    parser.add_argument(
        "--metrics",
        type=port,
        metavar="PORT",
        help="has gauges at this port (0: at one that is free, which is said)",
    )
    parser.add_argument("--stay", action="store_true", help="goes on when all have arrived")
    parser.add_argument("--alarm-ends", action="store_true", help="ends at an alarm, with status 1")
    for name, usual, about in (
        ("every", 1.0, "looks each so many seconds"),
        ("alarm", 30.0, "it is an alarm that nothing moves, or a root, for so long"),
        ("silent", 10.0, "tells who hasn't reported for so long"),
    ):
        parser.add_argument(
            f"--{name}", type=seconds, default=usual, metavar="SECONDS", help=f"{about} ({usual:g})"
        )
    about = "another program mapf than the usual one"
    parser.add_argument(
        "--program", type=pathlib.Path, default=usual_program(), metavar="PATH", help=about
    )
    given = parser.parse_args(words)
    if not given.live and (given.metrics is not None or given.stay or given.alarm_ends):
        parser.error("--metrics, --stay and --alarm-ends go with --live")
    return given


@contextlib.contextmanager
def gauges(given: argparse.Namespace, limits: Limits) -> Iterator[Optional[Server]]:
    """The gauges, where they are wanted."""
    if given.metrics is None:
        yield None
        return
    try:
        server = Server(given.metrics, limits)
    except OSError as fault:
        raise Failed(f"port {given.metrics}: {fault.strerror}") from None
    with server:
        tell(f"gauges are at {server.address}")
        yield server


class Watch:
    """Looks at a fleet, and tells what it sees."""

    def __init__(self, given: argparse.Namespace) -> None:
        files = Files(given.map, given.plan, given.tapes, given.boxes)
        program, title = Program(given.program), f"{given.map} {given.plan}"
        self.given, self.limits = given, Limits(given.alarm, given.silent)
        self.looks, self.screen = Looks(files, program, given.live), screen_of(given.live, title)
        self.page = Page(given.page, files, program, given.every) if given.page else None

    def run(self) -> int:
        with gauges(self.given, self.limits) as server:
            while True:
                begun = time.monotonic()
                look = self.looks.take()
                status = self.end_of(look)
                if server:
                    server.look = look
                lines = lines_of(look, self.limits) + self.write_page(look, status is not None)
                self.screen.show(lines, look.at)
                if status is not None:
                    return status
                time.sleep(max(0.0, begun + self.given.every - time.monotonic()))

    def write_page(self, look: Look, is_last: bool) -> list[Line]:
        """Writes the page, if one is wanted. That it can't be written is told, and ends nothing but
        at first."""
        try:
            if self.page:
                self.page.write(look, self.limits, is_last)
        except OSError as fault:
            told = f"{self.given.page} can't be written: {fault.strerror}"
            if self.looks.count == 1:
                raise Failed(told) from None
            return [Line(told)]
        return []

    def end_of(self, look: Look) -> Optional[int]:
        """With which status it ends behind this look, if it does."""
        has_alarm = bool(alarms_of(look, self.limits))
        if not self.given.live:
            return WRONG if has_alarm or look.status.count(UNKNOWN) else WELL
        if has_alarm and self.given.alarm_ends:
            return WRONG
        return WELL if look.has_arrived and not self.given.stay and not look.trouble else None


def main(words: Sequence[str]) -> int:
    given = read_words(words)
    try:
        return Watch(given).run()
    except Fault as fault:
        tell(fault.line)
        return fault.status
    except Refused as fault:
        tell(str(fault))
        return fault.status
    except Failed as fault:
        tell(fault.line)
    except OSError as fault:
        tell(
            f"{fault.filename}: {fault.strerror}"
            if fault.filename
            else str(fault.strerror or fault)
        )
    return FAILED


if __name__ == "__main__":
    heed_signals()
    sys.exit(main(sys.argv[1:]))
