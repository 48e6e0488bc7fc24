#!/usr/bin/env python3
"""Counts the places that break the rules of CONTRIBUTING. No count is above its limit, which is
what the last commit reached.

Usage: house.py [--all | --promises | --reached CALL | --write-promises] [--root FOLDER]

A line tells a count and its limit, and the lines below it tell the places of a count above that;
`--all` tells the places of each count.

`--promises` tells what each promise of docs/PROMISES.md reaches, and `--reached` each definition
that the promises of a call reach. `--write-promises` writes the last two cells of the rows there:
the files of definitions to believe, by crate, with how many more of other crates; and how many
lines these definitions have.

Status 0: no count is above its limit. 1: one is, or a file can't be measured, or no promise has
the call. 2: a bad command line. 3: the page can't be written.
"""
import argparse
import pathlib
import sys
from typing import Iterator, Sequence

sys.dont_write_bytecode = True
import product  # noqa: E402
from measures import rules  # noqa: E402
from measures.promises import TABLE, Promise, Promises  # noqa: E402
from measures.stale_names import stale_names  # noqa: E402
from measures.workspace import BadWorkspace, Place, Workspace  # noqa: E402
from whole_file import draft  # noqa: E402

# What each measure counts, and its limit. Who brings a count down brings its limit down too.
MEASURES: dict[str, tuple[str, int]] = {
    "specs-twice": ("names that two files of specs/ define", 0),
    "foreign-proofs": ("lines by which a crate cites the proofs of another", 0),
    "long-functions": (f"functions with more than {rules.MOST_LINES_OF_FUNCTION} lines", 2),
    "many-parameters": (f"functions with more than {rules.MOST_PARAMETERS} parameters", 34),
    "long-files": (f"files with more than {rules.MOST_LINES_OF_FILE} lines", 7),
    "wide-lines": ("lines that are too wide", 21),
    "stale-names": ("names of the code in docs/ that stand nowhere else", 0),
    "stale-promises": ("rows of docs/PROMISES.md that the sources have otherwise", 0),
}


def measured(workspace: Workspace, promises: Promises) -> dict[str, list[Place]]:
    """The places that each measure counts."""
    found = {
        "specs-twice": rules.specs_twice(promises.definitions),
        "foreign-proofs": rules.foreign_proofs(workspace),
        "long-functions": rules.long_functions(workspace),
        "many-parameters": rules.many_parameters(workspace),
        "long-files": rules.long_files(workspace),
        "wide-lines": rules.wide_lines(workspace),
        "stale-names": stale_names(workspace),
        "stale-promises": promises.stale(),
    }
    return {name: list(places) for name, places in found.items()}


def counts(workspace: Workspace, promises: Promises, is_all: bool) -> tuple[list[str], bool]:
    """What is told of each measure, and whether no count is above its limit."""
    lines, is_well = [], True
    for name, places in measured(workspace, promises).items():
        about, limit = MEASURES[name]
        is_within = len(places) <= limit
        hint = f": the limit may fall to {len(places)}" if len(places) < limit else ""
        lines.append(f"{name:<15} {len(places):>3} of at most {limit:>3}  {about}{hint}")
        lines += [f"  {place}" for place in places if is_all or not is_within]
        is_well &= is_within
    return lines, is_well


def reached(promises: Promises, call: str) -> Iterator[str]:
    """Each definition that the promises of a call reach."""
    found = [it.reached for it in promises.all() if call in it.calls]
    if not found:
        raise BadWorkspace(f"no promise of {TABLE} has the call '{call}'")
    for it in sorted(set().union(*found), key=lambda it: (it.path, it.line)):
        yield f"{it.path}:{it.line}: {it.name}, {it.length} lines"


def row(it: Promise) -> str:
    return f"{len(it.reached):>11} {it.length:>6}  {', '.join(it.crates)}: {', '.join(it.calls)}"


def write_promises(promises: Promises) -> None:
    """Writes the page of promises as the sources have it."""
    with draft([promises.page().encode()], promises.workspace.root / TABLE) as made:
        made.put()


def told(workspace: Workspace, given: argparse.Namespace) -> tuple[list[str], bool]:
    """The lines that were asked for, and whether all is well."""
    promises = Promises(workspace)
    if given.write_promises:
        write_promises(promises)
        return [], True
    if given.promises:
        return ["definitions  lines  promise", *map(row, promises.all())], True
    if given.reached:
        return list(reached(promises, given.reached)), True
    return counts(workspace, promises, given.all)


def read_words(words: Sequence[str]) -> argparse.Namespace:
    how = argparse.RawDescriptionHelpFormatter
    parser = argparse.ArgumentParser(prog="house.py", description=__doc__, formatter_class=how)
    one = parser.add_mutually_exclusive_group()
    one.add_argument("--all", action="store_true")
    one.add_argument("--promises", action="store_true")
    one.add_argument("--reached", metavar="CALL")
    one.add_argument("--write-promises", action="store_true")
    root = {"type": pathlib.Path, "default": product.ROOT}
    parser.add_argument("--root", metavar="FOLDER", help="measures this folder", **root)
    given = parser.parse_args(words)
    if not (given.root / "crates").is_dir():
        parser.error(f"{given.root} has no folder crates/")
    return given


def main(words: Sequence[str]) -> int:
    given = read_words(words)
    try:
        lines, is_well = told(Workspace(given.root), given)
    except BadWorkspace as error:
        print(f"house: {error}", file=sys.stderr)
        return 1
    except OSError as error:
        print(f"house: {error.filename}: {error.strerror}", file=sys.stderr)
        return 3
    sys.stdout.writelines(f"{line}\n" for line in lines)
    return 0 if is_well else 1


if __name__ == "__main__":
    sys.exit(main(sys.argv[1:]))
