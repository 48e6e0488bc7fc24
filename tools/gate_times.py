#!/usr/bin/env python3
"""Lists the functions of a crate whose proofs take longest, and what their time goes into.

Usage: gate_times.py CRATE [--tests] [--most N]
The crate is checked from nothing by one processor, over its built libraries. What the check keeps of each function in out/incremental is
written in turn, so the time between one file and the next is what that file took. A line a function: its seconds in all; those of the
borrow checker's part, which grow faster than a function's length; those of its own proof; and the rest. The last line is the whole check.
"""
import argparse
import collections
import shutil
import subprocess
import sys
import time

sys.dont_write_bytecode = True
import product  # noqa: E402

# What a function's modules are called, behind its own name, and what their time counts as.
BORROWS = ("Lts", "Tie", "Reads", "Kinds", "Layout", "Given", "View")
PROOF = ("Proof", "Answers", "Invariants", "Loops")
OTHER = ("Code", "Mir", "Statement", "Met", "Key", "TheLink", "decls", "Contract")


def split(file: str) -> tuple[str, str]:
    """The function that a kept file is of, and what its time counts as."""
    path = [part for part in file.split("-", 2)[-1].split(".") if part not in ("oantt", "decls")]
    while path and path[0] in ("proofs", "specs", "contracts"):
        path.pop(0)
    kind = "rest"
    while path and path[-1] in BORROWS + PROOF + OTHER:
        part = path.pop()
        kind = "borrows" if part in BORROWS else "proof" if part in PROOF and kind == "rest" else kind
    return ".".join(path) or file, kind


def check(crate: str, tests: bool) -> dict[str, collections.Counter]:
    """Checks the crate, and answers the seconds of each of its functions."""
    folder = product.ROOT / "crates" / crate
    kept = folder / "out" / "incremental"
    shutil.rmtree(kept, ignore_errors=True)
    words = ["rt", "check", "--jobs", "1", *(["--test"] if tests else [])]
    subprocess.run(words, cwd=folder, stdin=subprocess.DEVNULL, check=True, stdout=sys.stderr)
    files = sorted((path.stat().st_mtime, path.name) for path in kept.rglob("*") if path.is_file())
    spent: dict[str, collections.Counter] = collections.defaultdict(collections.Counter)
    for (before, _), (now, name) in zip(files, files[1:]):
        function, kind = split(name)
        spent[function][kind] += now - before
    return spent


def main(words: list[str]) -> int:
    parser = argparse.ArgumentParser(description=__doc__, formatter_class=argparse.RawDescriptionHelpFormatter)
    parser.add_argument("crate")
    parser.add_argument("--tests", action="store_true", help="the crate with its tests")
    parser.add_argument("--most", type=int, default=25, help="how many functions are listed (25)")
    given = parser.parse_args(words)
    began = time.monotonic()
    try:
        spent = check(given.crate, given.tests)
    except (OSError, subprocess.CalledProcessError) as error:
        print(f"gate_times: {error}", file=sys.stderr)
        return 1
    print(f"{'seconds':>8} {'borrows':>8} {'proof':>8} {'rest':>8}  function")
    for function, times in sorted(spent.items(), key=lambda it: -sum(it[1].values()))[: given.most]:
        print(f"{sum(times.values()):8.1f} {times['borrows']:8.1f} {times['proof']:8.1f} {times['rest']:8.1f}  {function}")
    print(f"{time.monotonic() - began:8.1f}  {given.crate}, all {len(spent)}")
    return 0


if __name__ == "__main__":
    sys.exit(main(sys.argv[1:]))
