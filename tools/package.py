#!/usr/bin/env python3
"""Makes Debian's package of the program of dist/, with its tools, its manual pages and its documents.

Usage: package.py -o FOLDER [--maintainer "NAME <MAIL>"]

The file is FOLDER/mapf_VERSION_amd64.deb: the version is the newest one of CHANGELOG.md, and one that isn't released is older than the
release. The same sources make the same bytes, wherever, whenever and by whomever it is made, as long as zlib and xz compress alike. All files
are of the day of the newest release there, or of SOURCE_DATE_EPOCH. `dpkg-deb` has to be there.

Status 0: done. 1: dist/ isn't whole. 2: a bad command line. 3: a file or a tool failed. Unless it is 0, nothing is written.
"""
import argparse
import os
import pathlib
import shutil
import subprocess
import sys
import tempfile
from typing import Sequence

sys.dont_write_bytecode = True
import commands  # noqa: E402
import dist  # noqa: E402
import product  # noqa: E402
from debian import told  # noqa: E402
from debian.contents import DOC, contents  # noqa: E402
from debian.tree import Tree, packed  # noqa: E402
from leaving import heed_signals  # noqa: E402
from mapf.faults import Failed  # noqa: E402
from whole_file import draft  # noqa: E402

BUILDER = "dpkg-deb"
MAINTAINER = "The makers of mapf <mapf@packages.invalid>"
REFUSED, FAILED = 1, 3


def read_words(words: Sequence[str]) -> argparse.Namespace:
    parser = argparse.ArgumentParser(prog="package.py", description=__doc__, formatter_class=argparse.RawDescriptionHelpFormatter)
    parser.add_argument("-o", "--output", type=pathlib.Path, metavar="FOLDER", required=True, help="where the package goes")
    parser.add_argument("--maintainer", default=MAINTAINER, metavar="WHO", help="who answers for the package (%(default)s)")
    return parser.parse_args(words)


def hold_program() -> None:
    """Raises where the program of dist/ isn't the one that was proved."""
    if dist.sum_of(product.SHIPPED) != dist.read_facts()[dist.SUM]:
        raise dist.Fault(f"{product.SHIPPED.relative_to(product.ROOT)} has not the SHA-256 that stands beside it")


def built(tree: Tree, beside: Tree, time: int) -> bytes:
    """The bytes of the package."""
    with tempfile.TemporaryDirectory(prefix="mapf-package-") as name:
        root, file = pathlib.Path(name) / "root", pathlib.Path(name) / "deb"
        root.mkdir()
        tree.write(root, time)
        (root / "DEBIAN").mkdir()
        beside.write(root / "DEBIAN", time)
        os.utime(root, (time, time))
        # One thread: with more the bytes may differ from machine to machine.
        variables = {**os.environ, "SOURCE_DATE_EPOCH": str(time), "DPKG_DEB_THREADS_MAX": "1", "LC_ALL": "C.UTF-8"}
        words = [BUILDER, "--root-owner-group", "-Zxz", "-z6", "--build", str(root), str(file)]
        ended = subprocess.run(words, env=variables, stdin=subprocess.DEVNULL, capture_output=True, text=True, check=False)
        if ended.returncode:
            raise Failed(f"`{BUILDER}` ended with status {ended.returncode}: {ended.stderr.strip().rpartition(chr(10))[2] or 'nothing'}")
        return file.read_bytes()


def package(given: argparse.Namespace) -> pathlib.Path:
    if not shutil.which(BUILDER):
        raise Failed(f"there is no {BUILDER} here: Debian's package dpkg has it")
    hold_program()
    releases = told.releases()
    version, time = releases[0].version, told.time_of(releases)
    tree = contents(version, told.day_of(time))
    tree.put(f"{DOC}/changelog.gz", packed(told.changelog(releases, given.maintainer, time).encode()))
    target: pathlib.Path = given.output / f"{told.NAME}_{version}_{told.ARCHITECTURE}.deb"
    with draft([built(tree, told.control(tree, version, given.maintainer), time)], target) as made:
        made.put()
    return target


def main(words: Sequence[str]) -> int:
    given = read_words(words)
    try:
        print(f"package: {package(given)}")
    except dist.Fault as fault:
        print(f"package: {fault}", file=sys.stderr)
        return REFUSED
    except (Failed, commands.Fault) as fault:
        print(f"package: {fault}", file=sys.stderr)
        return FAILED
    except OSError as fault:
        print(f"package: {fault.filename}: {fault.strerror}" if fault.filename else f"package: {fault}", file=sys.stderr)
        return FAILED
    return 0


if __name__ == "__main__":
    heed_signals()
    sys.exit(main(sys.argv[1:]))
