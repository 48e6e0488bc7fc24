#!/usr/bin/env python3
"""Writes one page of all public calls of the product's library crates, with what their `///` lines
say and with their clauses, in Markdown.

Usage: contracts.py [--crate NAME] [-o FILE] [--root FOLDER]

The crates stand in the order of crates.txt, and each crate's modules in that of its lib.rt. A call
is listed where another crate can name it: in a public module, passed on by lib.rt, or a method of a
type or a trait that is. What a type has by a trait is listed where it has clauses of its own.

Status 0: done. 1: a source can't be read. 2: a bad command line. 3: the page can't be written.
"""
import argparse
import pathlib
import shutil
import sys
from typing import Iterator, Sequence

sys.dont_write_bytecode = True
import product  # noqa: E402
from measures.calls import Call, Library, Module, file_of  # noqa: E402
from measures.workspace import BadWorkspace, Workspace  # noqa: E402
from whole_file import draft  # noqa: E402

BAD_SOURCE, BAD_LINE, FAILED = 1, 2, 3
TITLE = """\
# Contracts

All public calls of the library crates, as `tools/contracts.py` reads them: what each says of
itself, and its clauses. A clause `requires` has to hold where the call is made, and an `ensures`
holds behind it.
"""


def call_lines(call: Call) -> Iterator[str]:
    yield f"#### `{call.name}`" + (f", by `{call.of_trait}`" if call.of_trait else "")
    yield ""
    if call.function.docs:
        yield call.function.docs
        yield ""
    yield "```rust"
    yield call.function.head
    yield "```"
    yield ""


def module_lines(module: Module) -> Iterator[str]:
    # Of what stands in lib.rt is said what is said of the crate.
    if module.name:
        yield f"### `{module.name}`"
        yield ""
        if module.about:
            yield module.about
            yield ""
    for call in module.calls:
        yield from call_lines(call)


def library_lines(library: Library) -> Iterator[str]:
    yield f"## `{library.name}`"
    yield ""
    yield library.about
    yield ""
    for crate, names in library.passed_on.items():
        yield f"Passes on {', '.join(f'`{it}`' for it in names)} of `{crate}`."
        yield ""
    for module in library.modules():
        yield from module_lines(module)


def page(workspace: Workspace, crates: Sequence[str]) -> bytes:
    libraries = (Library(workspace, crate) for crate in crates)
    lines = [line for library in libraries for line in library_lines(library)]
    return "\n".join([TITLE, *lines]).rstrip("\n").encode() + b"\n"


def put(text: bytes, output: pathlib.Path) -> None:
    with draft([text], output) as made:
        if output:
            made.put()
            return
        with open(made.path, "rb") as file, open(1, "wb", closefd=False) as out:
            shutil.copyfileobj(file, out)


def read_words(words: Sequence[str]) -> argparse.Namespace:
    how = argparse.RawDescriptionHelpFormatter
    parser = argparse.ArgumentParser(prog="contracts.py", description=__doc__, formatter_class=how)
    parser.add_argument("--crate", metavar="NAME", help="the calls of this crate alone")
    to = "where the page goes (standard output)"
    parser.add_argument("-o", "--output", type=pathlib.Path, metavar="FILE", help=to)
    root = {"type": pathlib.Path, "default": product.ROOT}
    parser.add_argument("--root", metavar="FOLDER", help="reads this folder", **root)
    given = parser.parse_args(words)
    if not (given.root / "crates.txt").is_file():
        parser.error(f"{given.root} has no file crates.txt")
    return given


def library_crates(workspace: Workspace) -> list[str]:
    """The product's library crates, in the order of crates.txt."""
    its_own = {it for it in product.crates() if file_of(it) in workspace.paths}
    return [it for it in product.crate_lines() if it in its_own]


def tell(line: str) -> None:
    print(f"contracts: {line}", file=sys.stderr)


def main(words: Sequence[str]) -> int:
    given = read_words(words)
    # Its crates.txt says which crates the product of that folder is made of.
    product.ROOT = given.root
    workspace = Workspace(given.root)
    crates = library_crates(workspace)
    if given.crate and given.crate not in crates:
        tell(f"'{given.crate}' is no library crate: there are {', '.join(crates)}")
        return BAD_LINE
    try:
        put(page(workspace, [given.crate] if given.crate else crates), given.output)
    except BadWorkspace as fault:
        tell(str(fault))
        return BAD_SOURCE
    except OSError as fault:
        tell(f"{given.output or 'standard output'}: {fault.strerror}")
        return FAILED
    return 0


if __name__ == "__main__":
    sys.exit(main(sys.argv[1:]))
