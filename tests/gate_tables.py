"""The gate's minutes: how they are counted, and how bench/gate.py makes its table of a log. No time is compared with another."""
import os
import pathlib
import re
import signal
import subprocess
import sys
import time
from typing import Iterator

from gate_clock import GateClock
from harness import ROOT, Harness, Outcome, compared, shown

TOOL = ROOT / "bench" / "gate.py"
# A prover that has not worked by then works no more.
LONGEST = 60
COUNTED = """gate: low: proof 1.2, tests 0.0, wrong bodies 2.0
gate: high: proof 3.0, tests 0.6, wrong bodies 0.0
gate: all crates: proof 4.2, tests 0.6, wrong bodies 2.0
gate: 12.3 minutes on 4 processors
"""
WHOLE = "rt: ok; handles allowed: none; must-fail edits: 2 refused; every proof and must-fail edit was done in this run\n"
KEEPS_NONE = "rt: ok; handles allowed: none\n"
SAYS = r"4 processors of .+: it took 12 minutes, and 7 of a processor: 4 for proofs, 1 for proved tests, 2 for 2 wrong bodies\."
KEPT = "rt: ok; done in this run: 1 of the 3 proofs; the others are kept\n"
TRIED = """rt: must-fail low/takes-one.edit: refused, as it must be: x
rt: must-fail low/takes-two.edit: refused, as it must be
"""
TABLE = """|Processor minutes|Proof|Its tests|Wrong bodies|How many|In all|
|---|---|---|---|---|---|
|`high`|3.0|0.6|||3.6|
|`low`|1.2||2.0|2|3.2|
|all|4.2|0.6|2.0|2|6.8|
"""
PAGE = "# Page\n\n<!--gate-->\nold\n<!--end-->\nMore.\n"


def made(harness: Harness, log: str, page: str) -> tuple[list[str], pathlib.Path]:
    """A call that writes the table of a log into a page."""
    folder = harness.folder({"log": log.encode(), "page.md": page.encode()})
    return [sys.executable, str(TOOL), str(folder / "log"), "--write", str(folder / "page.md")], folder


def of_table(harness: Harness) -> Iterator[Outcome]:
    for name, ok in (("a table of a log", WHOLE), ("of a kit that keeps no proofs", KEEPS_NONE)):
        command, folder = made(harness, TRIED + ok + COUNTED, PAGE)
        answer = harness.run(command)
        page = (folder / "page.md").read_text(encoding="utf-8")
        head, _, rest = page.partition("|Processor")
        told = " ".join(head.split())
        says = re.search(SAYS, told)
        wrote = (answer.status, answer.err, bool(says), f"|Processor{rest}")
        yield compared(name, shown(command), wrote, (0, b"", True, f"{TABLE}\n<!--end-->\nMore.\n"))


def of_bad(harness: Harness) -> Iterator[Outcome]:
    """What makes no table leaves the page as it was."""
    whole = TRIED + WHOLE + COUNTED
    for name, log, page, why in (
        ("a gate that took proofs from an earlier run", TRIED + KEPT + COUNTED, PAGE, "log: it is not the log of a gate that proved everything in one run and passed"),
        ("a log of `rt ci` alone", TRIED + WHOLE, PAGE, "log: it has no minutes: only `./test --prove` writes them"),
        ("a page without marks", whole, "# Page\n", "page.md: the page has no lines '<!--gate-->' and '<!--end-->'"),
    ):
        command, folder = made(harness, log, page)
        answer = harness.run(command)
        wrote = (answer.status, answer.err.decode(), (folder / "page.md").read_text(encoding="utf-8"))
        yield compared(name, shown(command), wrote, (1, f"gate: {folder}/{why}\n", page))
    command = [sys.executable, str(TOOL)]
    answer = harness.run(command)
    yield compared("no log", shown(command), (answer.status, answer.out), (2, b""))


def of_clock(harness: Harness) -> Iterator[Outcome]:
    """A process that looks like a prover and works is counted, and one beside it that is none is not."""
    work = "while :; do :; done"
    other = ["bash", "-c", f"exec -a other sh -c '{work}' --crate-name low"]
    prover = ["bash", "-c", f"exec -a /kit/rattle sh -c '{work}' --crate-name low"]
    started = [subprocess.Popen(it, cwd=harness.folder(), start_new_session=True) for it in (other, prover)]
    clock = GateClock(os.getpid())
    try:
        until = time.monotonic() + LONGEST
        while time.monotonic() < until and not clock.seconds:
            time.sleep(0.05)
    finally:
        for process in started:
            os.killpg(process.pid, signal.SIGKILL)
            process.wait()
    lines = list(clock.stop())
    forms = [r"gate: low: proof \d+\.\d, tests 0\.0, wrong bodies 0\.0", r"gate: all crates: proof \d+\.\d, .*", r"gate: [\d.]+ minutes on \d+ processors"]
    fits = len(lines) == 3 and all(re.fullmatch(form, line) for form, line in zip(forms, lines))
    yield compared("a prover that works", "a look at its process", lines if not fits else forms, forms)


def outcomes(harness: Harness) -> Iterator[Outcome]:
    yield from of_table(harness)
    yield from of_bad(harness)
    yield from of_clock(harness)
