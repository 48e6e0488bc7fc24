"""Memory that is refused to calls of the libraries that the program never makes: the tests of the crate `trials` run with each of their allocations
refused in turn, until a run meets none. For the program's own calls `faults` does the same.

Where memory is wanting such a test makes its call again, and passes by the second answer: one allocation alone is refused in a run. The test program
is the one that `rt ci` has built, so this part runs with `./test --prove` alone."""
import functools
import pathlib
import re
import shutil
from typing import Iterator

from faults import Library
from harness import ROOT, Harness, Outcome, compared, shown, side_by_side

CRATE = ROOT / "crates" / "trials"
PROGRAM = CRATE / "out" / "trials_tests"
# A test in the sources.
TEST = re.compile(r"^#\[test\]\nfn (\w+)", re.MULTILINE)
# No test makes nearly so many allocations.
MOST = 5_000


def found_in(harness: Harness, program: pathlib.Path) -> list[str]:
    """The tests of a program, by their whole names."""
    listed = harness.run([str(program), "--list"]).out.decode()
    return sorted(line[: -len(": test")] for line in listed.splitlines() if line.endswith(": test"))


def written_in(sources: pathlib.Path) -> list[str]:
    """The tests of the sources, by the same names."""
    return sorted(f"{path.stem}::{name}" for path in sources.glob("*.rt") for name in TEST.findall(path.read_text(encoding="utf-8")))


def refused_in_turn(harness: Harness, library: Library, test: str) -> list[Outcome]:
    """Runs a test with its first allocation refused, its second one, and on, and at last with none. Its files are in a folder of their own."""
    folder = harness.folder()
    met = folder / "met"
    for at in range(1, MOST + 1):
        met.unlink(missing_ok=True)
        more = {"LD_PRELOAD": str(library.path), "FAULT_CALL": "alloc", "FAULT_KIND": "error", "FAULT_AT": str(at), "FAULT_MET": str(met)}
        ended = harness.run([str(PROGRAM), test], folder=folder, more={**more, "TMPDIR": str(folder)})
        if ended.status:
            return [Outcome(test, f"ran    {shown([str(PROGRAM), test])}, with allocation {at} refused\n    wrote  {ended}")]
        if not met.exists():
            return [Outcome(test)] if at > 1 else [Outcome(test, "no allocation was made")]
    return [Outcome(test, f"it makes more than {MOST} allocations")]


def outcomes(harness: Harness) -> Iterator[Outcome]:
    if not harness.is_proved:
        yield Outcome("calls of the libraries", lacks="test program that `./test --prove` has built")
        return
    if not shutil.which("cc"):
        yield Outcome("calls of the libraries", lacks="cc")
        return
    library = Library(harness)
    yield library.built
    tests = found_in(harness, PROGRAM) if PROGRAM.exists() else []
    yield compared("the tests of the sources are there", f"{PROGRAM} --list", tests, written_in(CRATE / "src"))
    yield from side_by_side(functools.partial(refused_in_turn, harness, library, test) for test in tests)
