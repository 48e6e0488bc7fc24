#!/usr/bin/env python3
"""Puts the program that was built of the checkout into dist/, or holds what lies there against the sources.

Usage: dist.py            takes the program that was proved and built (and proves and builds it where that is still to be done)
       dist.py --check    says whether dist/ is whole, is made from these sources, and is what the kit builds of them
       dist.py --check --built    the same, and fails where the kit is the one that dist/ names and has built nothing to compare

The check needs no kit, but for the last part; where there is none, or another one, it says that it left that part out.
"""
import argparse
import hashlib
import os
import pathlib
import re
import shutil
import sys
import tempfile

sys.dont_write_bytecode = True
import build  # noqa: E402
import product  # noqa: E402

FACTS = product.SHIPPED.with_name("made-from.txt")
# The names of the facts, in the order in which they stand. The last is the SHA-256 of the lines before it, so that none changes unseen.
SUM, KIT, SOURCES, LINES = "sha256", "kit", "sources", "lines"
# Where the program has the text of its version, which names the kit too.
VERSION = product.ROOT / "crates" / "command_line" / "src" / "help.rt"


class Fault(Exception):
    """Why dist/ does not hold."""


def sum_of(path: pathlib.Path) -> str:
    return hashlib.sha256(path.read_bytes()).hexdigest()


def written_facts(facts: dict[str, str]) -> str:
    """The text of the facts, one a line, with the digest of these lines behind them."""
    text = "".join(f"{name} {facts[name]}\n" for name in (SUM, KIT, SOURCES))
    return f"{text}{LINES} {hashlib.sha256(text.encode()).hexdigest()}\n"


def read_facts() -> dict[str, str]:
    """What dist/ says of its program."""
    text = FACTS.read_text(encoding="utf-8", errors="replace")
    facts = dict(line.partition(" ")[::2] for line in text.splitlines())
    if list(facts) != [SUM, KIT, SOURCES, LINES] or written_facts(facts) != text:
        raise Fault(f"{FACTS.relative_to(product.ROOT)} is not as `dist.py` wrote it")
    return facts


def hold_version(kit: str) -> None:
    """Raises where the version of the program names another kit than this one."""
    found = re.search(r"^proved by (.+)\";$", VERSION.read_text(encoding="utf-8", errors="replace"), re.MULTILINE)
    if not found or found[1] != kit:
        raise Fault(f"{VERSION.relative_to(product.ROOT)} says that {found[1] if found else 'no kit'} proved the program, and it was {kit}")


def put(path: pathlib.Path, content: bytes, mode: int) -> None:
    """Writes a file so that it is there as a whole or as it was before, also for a program that runs."""
    path.parent.mkdir(parents=True, exist_ok=True)
    with tempfile.NamedTemporaryFile(dir=path.parent, delete=False) as new:
        new.write(content)
        os.fchmod(new.fileno(), mode)
    os.replace(new.name, path)


def ship() -> None:
    hold_version(product.kit())
    if not product.is_built() and not build.prove_and_build():
        raise Fault("the program could not be proved and built")
    put(product.SHIPPED, product.BUILT.read_bytes(), 0o755)
    facts = {SUM: sum_of(product.SHIPPED), KIT: product.kit(), SOURCES: product.source_digest()}
    put(FACTS, written_facts(facts).encode(), 0o644)
    print(f"dist: the program that {facts[KIT]} built has SHA-256 {facts[SUM]}")


def check(must_compare: bool) -> None:
    """Raises what is wrong with dist/, and says what was compared."""
    facts = read_facts()
    if sum_of(product.SHIPPED) != facts[SUM]:
        raise Fault(f"{product.SHIPPED.relative_to(product.ROOT)} has not the SHA-256 that stands beside it")
    if not os.access(product.SHIPPED, os.X_OK):
        raise Fault(f"{product.SHIPPED.relative_to(product.ROOT)} may not be executed")
    hold_version(facts[KIT])
    if product.source_digest() != facts[SOURCES]:
        raise Fault("the sources are others than dist/ was made from: `rt ci`, and then `python3 tools/dist.py`, makes it anew")
    print("dist: the program is whole, and made from these sources")
    kit = product.kit()
    if kit != facts[KIT]:
        print(f"dist: not compared with what is built here: it was built by {facts[KIT]}, and here is {kit or 'no kit'}")
    elif product.is_built():
        if sum_of(product.BUILT) != facts[SUM]:
            raise Fault("the program that was built of these sources here has other bytes than the one in dist/")
        print(f"dist: the program is what {kit} built here, byte for byte")
    elif must_compare:
        raise Fault("nothing was built here that dist/ could be compared with")
    else:
        print("dist: not compared with what the kit builds: nothing is built here (`rt ci` does)")


def main(words: list[str]) -> int:
    parser = argparse.ArgumentParser(description=__doc__, formatter_class=argparse.RawDescriptionHelpFormatter)
    parser.add_argument("--check", action="store_true", help="compares, and changes nothing")
    parser.add_argument("--built", action="store_true", help="with --check: the kit's build has to be there")
    given = parser.parse_args(words)
    try:
        check(given.built) if given.check else ship()
    except (Fault, OSError) as fault:
        print(f"dist: {fault}", file=sys.stderr)
        return 1
    return 0


if __name__ == "__main__":
    sys.exit(main(sys.argv[1:]))
