"""The parts of ./test, and which of them a call runs."""
import argparse
import contextlib
import dataclasses
import functools
import json
import pathlib
import re
import shutil
import signal
import subprocess
import sys
import tempfile
import threading
from typing import Callable, Iterator

import answers
import beginnings
import calling_python
import changing
import claims
import clusters
import command_lines
import completions
import continuations
import converting
import devices
import documents
import drawn_numbers
import endings
import explaining
import failing_reads
import faults
import fleet
import formats
import handovers
import judging
import launcher
import limits
import listing
import live_watching
import messages
import packaging
import power_cuts
import proving
import refusals
import repairing
import replanning
import replays
import robots
import rows_and_bounds
import scenarios
import shipping
import showing
import signed_messages
import sources
import statuses
import tabling
import vectors
import vehicles
from gate_clock import GateClock
from harness import ROOT, SHIPPED, Harness, Outcome, Report
from lanes import Lanes

# Each part with what it tests, in the order in which they run: what is soonest done and tells most first.
PARTS: dict[str, tuple[str, Callable[[Harness], Iterator[Outcome]]]] = {
    "dist": ("that dist/ holds against the sources, and what is said where it does not", shipping.outcomes),
    "sources": (
        "that few functions say that memory is wanting, counts of the house, and pages made of it",
        sources.outcomes,
    ),
    "launcher": ("./mapf, also where the program of dist/ does not start", launcher.outcomes),
    "documents": ("the commands that README and docs/ show, with their answers", documents.outcomes),
    "lines": ("command lines, statuses and help", command_lines.outcomes),
    "tab": ("what bash offers where Tab is pressed", completions.outcomes),
    "formats": ("the texts of maps, scenarios, plans and events", formats.outcomes),
    "beginnings": ("every beginning of texts and of messages", beginnings.outcomes),
    "limits": ("sizes up to the limits, with answers that are known by how they are made", limits.outcomes),
    "answers": ("whole commands on texts, files and tapes", answers.outcomes),
    "claims": ("tapes that have to be new, or kept, and the plans beside them", claims.outcomes),
    "messages": ("messages with each byte changed, and what agents tell and how far they go by what they heard", messages.outcomes),
    "devices": ("files, inputs and outputs that fail", devices.outcomes),
    "faults": ("calls of the system that fail, one after another", faults.outcomes),
    "reads": ("texts whose reader fails behind each byte", failing_reads.outcomes),
    "power": ("power that is cut behind each call of an agent, by a model of a disk", power_cuts.outcomes),
    "memory": ("calls of the libraries to which memory is refused", refusals.outcomes),
    "explain": ("faults explained to people", explaining.outcomes),
    "runs": ("runs beside a plain model: events at random, and stops at each write", replays.outcomes),
    "endings": ("how runs end: the events that complete them, or the rotation in the way", endings.outcomes),
    "chains": ("plans that go on from plans, beside a plain model", continuations.outcomes),
    "changing": ("fleets that go over from plan to plan while they drive", changing.outcomes),
    "statuses": ("what the tapes of a whole fleet say, beside a plain model", statuses.outcomes),
    "watch": ("fleets that are watched: what is told, alarms, gauges and pages", live_watching.outcomes),
    "handovers": ("what follows from the tapes of a stopped fleet: a cut, or a plan of what is left, beside a plain model", handovers.outcomes),
    "bounds": ("rows of scenarios, bounds of plans and lists of faults, up to the limits", rows_and_bounds.outcomes),
    "scenarios": ("whole scenarios and bounds of plans, beside plain searches", scenarios.outcomes),
    "proofs": ("proofs that plans are the best, beside a plain model and a search of all joint plans", proving.outcomes),
    "listing": ("all faults of plans, beside a list of all pairs", listing.outcomes),
    "python": ("the Python package of tools/mapf, beside plain models", calling_python.outcomes),
    "convert": ("plans of other formats, converted and back", converting.outcomes),
    "judge": ("many plans, judged as one table", judging.outcomes),
    "numbers": ("numbers of plans, which each tool that writes one draws", drawn_numbers.outcomes),
    "dask": ("jobs on a Dask cluster, whose workers and scheduler are killed", clusters.outcomes),
    "repair": ("plans in which agents rotate, planned anew", repairing.outcomes),
    "replan": ("what is to be planned anew for a fleet that was stopped", replanning.outcomes),
    "rows": ("many scenarios, certified as one table", tabling.outcomes),
    "show": ("plans and runs as pages in a browser, and as pictures", showing.outcomes),
    "package": ("Debian's package: made twice, installed on an empty root, called and removed", packaging.outcomes),
    "vectors": ("the answers of an independent implementation", vectors.outcomes),
    "fleet": ("robots as processes that are killed at random", fleet.outcomes),
    "robots": ("robots on a network, over UDP and MQTT, adversities, and their black boxes", robots.outcomes),
    "signing": ("robots that sign: forged and changed messages, counts through kills, and certificates", signed_messages.outcomes),
    "vehicles": ("vehicles by VDA 5050, and the master control that has them drive", vehicles.outcomes),
}
# The parts that look at what the gate has built, and so come last where all is proved.
NEED_PROOF = ("dist", "memory")


def read_words(words: list[str]) -> argparse.Namespace:
    listed = "\n".join(f"  {name:<10} {about}" for name, (about, _) in PARTS.items())
    parser = argparse.ArgumentParser(
        prog="./test",
        description="Tests the program of dist/. The last line is 'N passed, M failed'.",
        epilog=f"parts:\n{listed}",
        formatter_class=argparse.RawDescriptionHelpFormatter,
    )
    parser.add_argument("parts", nargs="*", metavar="PART", help="runs the parts whose name begins so (all)")
    parser.add_argument("--program", type=pathlib.Path, default=ROOT / SHIPPED, metavar="PATH", help="tests this program")
    parser.add_argument("--long", action="store_true", help="runs what takes longer than two minutes too")
    parser.add_argument("--prove", action="store_true", help="proves everything (`rt ci`), and meanwhile tests all, --long too")
    # So a part is run by itself, beside others.
    parser.add_argument("--outcomes", type=pathlib.Path, help=argparse.SUPPRESS)
    given = parser.parse_args(words)
    given.names = [name for name in PARTS if not given.parts or any(name.startswith(word) for word in given.parts)]
    for word in given.parts:
        if not any(name.startswith(word) for name in PARTS):
            parser.error(f"no part begins with '{word}': there are {', '.join(PARTS)}")
    return given


class Gate:
    """The gate of the kit, which proves everything while the program of dist/ is tested. What it writes is passed on, a line at a time."""

    def __init__(self) -> None:
        self.last = ""
        self.process = subprocess.Popen(["rt", "ci"], cwd=ROOT, stdin=subprocess.DEVNULL, stdout=subprocess.PIPE, text=True, errors="replace")
        self.clock = GateClock(self.process.pid)
        self.passing_on = threading.Thread(target=self.pass_on)
        self.passing_on.start()

    def pass_on(self) -> None:
        for self.last in self.process.stdout:
            print(self.last, end="", flush=True)

    def end(self) -> tuple[int, int]:
        """Waits for its end, and answers how many it counted as passed and as failed."""
        self.passing_on.join()
        for line in self.clock.stop():
            print(line, flush=True)
        failed_itself = self.process.wait() != 0
        counted = re.fullmatch(r"(\d+) passed, (\d+) failed\n", self.last)
        passed, failed = map(int, counted.groups()) if counted else (0, 0)
        return passed, max(failed, 1) if failed_itself else failed

    def stop(self) -> None:
        """Ends it, where it has not ended."""
        self.process.terminate()
        self.passing_on.join()
        self.clock.ends.set()


@contextlib.contextmanager
def proving(is_wanted: bool, report: Report) -> Iterator[Callable[[], None]]:
    """Proves everything meanwhile, where that is wanted. The call that this gives waits until all is proved and counted."""
    if is_wanted and not shutil.which("rt"):
        report.fail("`rt` is not on the path: proving needs the kit that dist/README.md names")
        is_wanted = False
    if not is_wanted:
        yield lambda: None
        return
    gate = Gate()
    try:
        yield functools.cache(lambda: report.count(*gate.end()))
    finally:
        gate.stop()


def heed_signals() -> None:
    """Whatever asks this call to end, what it started and wrote is gone then."""

    def leave(number: int, _: object) -> None:
        sys.exit(128 + number)

    for number in (signal.SIGTERM, signal.SIGHUP, signal.SIGINT):
        # Where the caller ignores a signal, this call ignores it too.
        if signal.getsignal(number) is not signal.SIG_IGN:
            signal.signal(number, leave)


def write_outcomes(given: argparse.Namespace) -> int:
    """Runs one part, and writes each of its outcomes as a line of JSON."""
    with tempfile.TemporaryDirectory(prefix="mapf-test-") as room, open(given.outcomes, "w", encoding="utf-8") as lines:
        for outcome in PARTS[given.names[0]][1](Harness(given.program.resolve(), pathlib.Path(room), given.long)):
            lines.write(f"{json.dumps(dataclasses.asdict(outcome))}\n")
    return 0


@contextlib.contextmanager
def running(given: argparse.Namespace, harness: Harness) -> Iterator[Callable[[str], Iterator[Outcome]]]:
    """How the outcomes of a part are come by. Parts run side by side, but where there is one alone, or the processors prove meanwhile."""
    if given.prove or len(given.names) == 1:
        yield lambda name: PARTS[name][1](harness)
        return

    def command(name: str, file: pathlib.Path) -> list[str]:
        words = [name, "--program", str(harness.program), "--outcomes", str(file), *(["--long"] if given.long else [])]
        return [sys.executable, str(ROOT / "test"), *words]

    lanes = Lanes(given.names, harness.folder(), command)
    try:
        yield lanes.outcomes
    finally:
        lanes.end()


def main(words: list[str]) -> int:
    given = read_words(words)
    heed_signals()
    if given.outcomes:
        return write_outcomes(given)
    report = Report()
    with tempfile.TemporaryDirectory(prefix="mapf-test-") as room, proving(given.prove, report) as wait_for_proof:
        harness = Harness(given.program.resolve(), pathlib.Path(room), given.long or given.prove, given.prove)
        version = harness.mapf(["--version"])
        starts = version.status == 0 and version.out.startswith(b"mapf ")
        if not starts:
            # Only dist/ says more of it.
            given.names = [name for name in given.names if name == "dist"]
        with running(given, harness) as outcomes_of:
            for name in sorted(given.names, key=lambda name: given.prove and name in NEED_PROOF):
                if name in NEED_PROOF:
                    wait_for_proof()
                report.take(name, outcomes_of(name))
        wait_for_proof()
        if not starts:
            report.fail(f"{given.program} does not start here; dist/README.md says what it needs, and how to make it again")
    return report.end()
