#!/usr/bin/env python3
"""Measures how long a fleet takes on a network that loses frames, by loss, kind of link and version of messages: means of many seeds, as a table.

Usage: measure.py RUNS [--losses PERCENT,..] [--links LINK,..] [--seeds N] [--limit S] [--at-once N]

RUNS is a file of the lines that network.sh wrote for the runs so far; those that are missing are run. Nothing is killed or cut; frames take 5 to 20
milliseconds, and one in ten comes twice. Needs what network.sh needs.
"""
import argparse
import concurrent.futures
import pathlib
import subprocess
import sys
import threading
from typing import Iterator, Sequence

HERE = pathlib.Path(__file__).resolve().parent
sys.dont_write_bytecode = True
from leaving import heed_signals  # noqa: E402

FAILED = 3
# A link, whether messages are of version 2, the loss and the seed.
Case = tuple[str, bool, int, int]


def read_words(words: Sequence[str]) -> argparse.Namespace:
    parser = argparse.ArgumentParser(prog="measure.py", description=__doc__, formatter_class=argparse.RawDescriptionHelpFormatter)
    parser.add_argument("runs", type=pathlib.Path, metavar="RUNS")
    parser.add_argument("--losses", default="0,20,50", metavar="PERCENT,..", help="(%(default)s)")
    parser.add_argument("--links", default="udp,mqtt", metavar="LINK,..", help="(%(default)s)")
    parser.add_argument("--seeds", type=int, default=10, metavar="N", help="(%(default)s)")
    parser.add_argument("--limit", type=int, default=200, metavar="S", help="the longest time of a run (%(default)s seconds)")
    parser.add_argument("--at-once", type=int, default=2, metavar="N", help="how many runs at the same time (%(default)s)")
    return parser.parse_args(words)


def head_of(case: Case) -> str:
    link, tells, loss, seed = case
    return f"{link} {'tell' if tells else 'say'} loss {loss} seed {seed}"


def known(runs: pathlib.Path) -> dict[str, dict[str, float]]:
    """What the runs so far have counted."""
    found = {}
    for line in runs.read_text(encoding="ascii").splitlines() if runs.exists() else ():
        head, _, rest = line.partition(": ")
        words = rest.split()
        found[head] = {name: float(value) for name, value in zip(words[::2], words[1::2])}
    return found


class Runner:
    def __init__(self, runs: pathlib.Path, limit: int):
        self.runs, self.limit, self.lock = runs, limit, threading.Lock()
        self.networks: set["subprocess.Popen[str]"] = set()

    def run(self, case: Case) -> None:
        link, tells, loss, seed = case
        words = ["--calm", "--loss", loss, "--twice", 10, "--delay", 5, 20, "--link", link, "--seed", seed, "--limit", self.limit]
        command = [str(HERE / "network.sh"), *map(str, words), *(["--tell"] if tells else [])]
        pipes = {"stdin": subprocess.DEVNULL, "stdout": subprocess.PIPE, "stderr": subprocess.PIPE}
        with subprocess.Popen(command, text=True, start_new_session=True, **pipes) as network:
            self.networks.add(network)
            out, err = network.communicate()
            self.networks.discard(network)
        lines = [line for line in out.splitlines() if line.startswith("run ")]
        if not lines:
            raise OSError(0, err.strip().splitlines()[-1] if err.strip() else "nothing was counted", command[0])
        with self.lock, open(self.runs, "a", encoding="ascii") as file:
            file.write(f"{head_of(case)}: {lines[0]}\n")

    def stop(self) -> None:
        """Ends the networks that are there, each of which takes itself down."""
        for network in list(self.networks):
            network.terminate()


def table(given: argparse.Namespace, counted: dict[str, dict[str, float]]) -> Iterator[str]:
    yield "| Link | Messages | Frames lost | Arrived | Seconds | Said by a robot |"
    yield "|---|---|---|---|---|---|"
    for link in given.links.split(","):
        for tells in (False, True):
            for loss in map(int, given.losses.split(",")):
                found = [counted[head] for head in (head_of((link, tells, loss, seed)) for seed in range(1, given.seeds + 1)) if head in counted]
                arrived = [it for it in found if it["arrived"]]
                means = [sum(values) / max(len(values), 1) for values in ([it["seconds"] for it in arrived], [it["said"] / it["arrived"] for it in arrived])]
                words = (link, "tell" if tells else "say", f"{loss} %", f"{len(arrived)} of {len(found)}", f"{means[0]:.1f}", f"{means[1]:.0f}")
                yield f"| {' | '.join(words)} |"


def measure(given: argparse.Namespace) -> None:
    done = known(given.runs)
    losses, links = list(map(int, given.losses.split(","))), given.links.split(",")
    cases = [(link, tells, loss, seed) for loss in losses for seed in range(1, given.seeds + 1) for link in links for tells in (False, True)]
    runner = Runner(given.runs, given.limit)
    with concurrent.futures.ThreadPoolExecutor(given.at_once) as pool:
        running = [pool.submit(runner.run, case) for case in cases if head_of(case) not in done]
        try:
            for run in running:
                run.result()
        except BaseException:
            for run in running:
                run.cancel()
            runner.stop()
            raise
    print("\n".join(table(given, known(given.runs))))


def main(words: Sequence[str]) -> int:
    given = read_words(words)
    try:
        measure(given)
    except (OSError, ValueError) as fault:
        told = f"{fault.filename or given.runs}: {fault.strerror or fault}" if isinstance(fault, OSError) else str(fault)
        print(f"measure: {told}", file=sys.stderr)
        return FAILED
    return 0


if __name__ == "__main__":
    heed_signals()
    sys.exit(main(sys.argv[1:]))
