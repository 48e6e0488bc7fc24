"""The rules of CONTRIBUTING that can be counted: each gives the places that break it."""
import re
from typing import Iterator

from measures.definitions import Definitions
from measures.rattle import Function, functions
from measures.workspace import Place, Workspace

MOST_LINES_OF_FUNCTION = 40
MOST_PARAMETERS = 5
MOST_LINES_OF_FILE = 500
# How wide a line may be, by the folder of a crate.
MOST_COLUMNS = {"src": 100, "specs": 100, "proofs": 200}
# No line break makes these narrower: a path that is imported, and a text.
UNBROKEN = re.compile(r"^ *(?:pub |ghost )*use |\"")
OF_PROOFS = re.compile(r"use Rattle\.(\w+)\.proofs\b")
# The folders with code beside the crates, and how its files end.
BESIDE_CRATES = ("tools", "tests", "bench", "examples")
CODE = (".py", ".js", ".css", ".html", ".c")


def specs_twice(definitions: Definitions) -> Iterator[Place]:
    """Names that two files of `specs/` define, each where it is first defined."""
    for name, them in sorted(definitions.by_name.items()):
        others = [f"{it.path}:{it.line}" for it in them[1:] if it.path != them[0].path]
        if others:
            yield Place(them[0].path, them[0].line, f"{name}, as in {', '.join(others)}")


def foreign_proofs(workspace: Workspace) -> Iterator[Place]:
    """Lines by which a crate cites the proofs of another crate of the workspace."""
    for path in workspace.of_crates("src", "specs", "proofs"):
        crate = path.split("/")[1]
        for number, line in enumerate(workspace.lines(path), 1):
            found = OF_PROOFS.search(line)
            if found and found[1] != crate and found[1] in workspace.crates:
                yield Place(path, number, f"{crate} uses proofs of {found[1]}")


def all_functions(workspace: Workspace) -> Iterator[tuple[Place, Function]]:
    """The functions of all crates, each with its place and its name there."""
    for path in workspace.of_crates("src"):
        for it in functions(workspace.text(path)):
            yield Place(path, it.line, it.contract.name), it


def long_functions(workspace: Workspace) -> Iterator[Place]:
    for place, it in all_functions(workspace):
        if it.lines > MOST_LINES_OF_FUNCTION:
            yield place.which(f"has {it.lines} lines")


def many_parameters(workspace: Workspace) -> Iterator[Place]:
    for place, it in all_functions(workspace):
        if it.parameters > MOST_PARAMETERS:
            yield place.which(f"has {it.parameters} parameters")


def long_files(workspace: Workspace) -> Iterator[Place]:
    paths = workspace.of_crates(*MOST_COLUMNS)
    for path in paths + [it for folder in BESIDE_CRATES for it in workspace.files(folder, *CODE)]:
        lines = len(workspace.lines(path))
        if lines > MOST_LINES_OF_FILE:
            yield Place(path, MOST_LINES_OF_FILE + 1, f"the file has {lines} lines")


def wide_lines(workspace: Workspace) -> Iterator[Place]:
    for folder, most in MOST_COLUMNS.items():
        for path in workspace.of_crates(folder):
            for number, line in enumerate(workspace.lines(path), 1):
                if len(line) > most and not UNBROKEN.search(line):
                    yield Place(path, number, f"the line has {len(line)} columns, not {most}")
