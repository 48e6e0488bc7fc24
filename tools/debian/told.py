"""What Debian is told of the package: its control file, whose code it has, and what changed from version to version."""
import dataclasses
import datetime
import hashlib
import os
import re
import textwrap
from typing import Iterator, Sequence

import product
from debian.tree import Tree

NAME, ARCHITECTURE = "mapf", "amd64"
DEPENDS = "libc6 (>= 2.34), python3 (>= 3.9)"
# Robots by MQTT; a broker; pictures; and jobs on a cluster.
RECOMMENDS, SUGGESTS = "python3-paho-mqtt", "chromium, mosquitto, python3-distributed, python3-pil"
CONTROL = """\
Package: {name}
Version: {version}
Architecture: {architecture}
Maintainer: {maintainer}
Installed-Size: {size}
Depends: {depends}
Recommends: {recommends}
Suggests: {suggests}
Section: science
Priority: optional
Description: verified tools for multi-agent path finding
 Checks plans, their costs and lower bounds, shortest lengths, and proofs that
 no plan costs less; says who waits for whom; and runs plans on robots that
 talk over lossy links and may restart. Each function of the program is proved
 to meet its contract.
 .
 Beside it are tools that convert plans of other planners, judge many of them,
 show them as pages, mend those that robots can't drive, and watch fleets; the
 same calls from Python; and the control program of a robot, also as a service.
"""
# What Python wrote beside the modules where root called them is no file of the package.
PRERM = """\
#!/bin/sh
set -e
find "$DPKG_ROOT/usr/lib/mapf" -name __pycache__ -prune -exec rm -r {} +
"""
NO_LICENCE = "The repository of mapf states no licence for its own sources, of which this package was made.\n"
OF_LIBRARIES = """\
Of the libraries whose code the program has, dist/NOTICES of the repository says what follows. Where it names
the Apache License 2.0, its text stands in /usr/share/common-licenses/Apache-2.0 of a Debian system.
"""
HEADING = re.compile(r"## \[([0-9.]+)\] - (.+)")
DAY = re.compile(r"[0-9]{4}-[0-9]{2}-[0-9]{2}")
UNRELEASED = "Unreleased"
# Words stay whole, as `--no-rotation`.
ITEM = textwrap.TextWrapper(80, initial_indent="  * ", subsequent_indent="    ", break_long_words=False, break_on_hyphens=False)


@dataclasses.dataclass(frozen=True)
class Release:
    """A version of CHANGELOG.md: its number, its day, or that it isn't released, and its lines."""

    number: str
    day: str
    lines: Sequence[str]

    @property
    def version(self) -> str:
        """As Debian has it: what isn't released is older than the release."""
        return f"{self.number}~unreleased" if self.day == UNRELEASED else self.number


def releases() -> list[Release]:
    """The versions of CHANGELOG.md, the newest first."""
    found: list[tuple[str, str, list[str]]] = []
    for line in (product.ROOT / "CHANGELOG.md").read_text(encoding="utf-8").splitlines():
        begun = HEADING.fullmatch(line)
        if begun:
            found.append((begun[1], begun[2], []))
        elif found:
            found[-1][2].append(line)
    return [Release(*it) for it in found]


def time_of(all_releases: Sequence[Release]) -> int:
    """The time of all files: that of the environment, as reproducible builds have it, else the day of the newest release."""
    named = os.environ.get("SOURCE_DATE_EPOCH")
    if named:
        return int(named)
    day = max(it.day for it in all_releases if DAY.fullmatch(it.day))
    return int(datetime.datetime.fromisoformat(f"{day}T00:00:00+00:00").timestamp())


def day_of(time: int) -> str:
    return datetime.datetime.fromtimestamp(time, datetime.timezone.utc).strftime("%Y-%m-%d")


def changelog(all_releases: Sequence[Release], maintainer: str, time: int) -> str:
    """What changed, in Debian's form."""
    return "\n".join(entry(it, maintainer, time) for it in all_releases)


def entry(release: Release, maintainer: str, time: int) -> str:
    is_out = DAY.fullmatch(release.day)
    date = datetime.datetime.fromisoformat(f"{release.day if is_out else day_of(time)}T00:00:00+00:00")
    head = f"{NAME} ({release.version}) {'unstable' if is_out else 'UNRELEASED'}; urgency=medium\n"
    return f"{head}\n{''.join(items(release.lines))}\n -- {maintainer}  {date.strftime('%a, %d %b %Y %H:%M:%S +0000')}\n"


def items(lines: Sequence[str]) -> Iterator[str]:
    """The paragraphs and the lists of a version, each part under its heading."""
    for block in re.split(r"\n(?=- )|\n\n+", "\n".join(lines).strip()):
        text = " ".join(block.split())
        if text.startswith("### "):
            yield f"\n  [ {text[4:]} ]\n"
        else:
            yield ITEM.fill(text.removeprefix("- ")) + "\n"


def licence() -> str:
    """The licences of the repository, if it states any, and those of the libraries whose code the program has."""
    own = [path.read_text(encoding="utf-8") for path in sorted(product.ROOT.glob("LICEN[CS]E*"))]
    notices = (product.SHIPPED.parent.parent / "NOTICES").read_text(encoding="utf-8")
    return "\n".join([*(own or [NO_LICENCE]), OF_LIBRARIES, notices])


def control(tree: Tree, version: str, maintainer: str) -> Tree:
    """What stands beside the files of a package."""
    told = Tree()
    fields = {"name": NAME, "version": version, "architecture": ARCHITECTURE, "maintainer": maintainer, "size": tree.size()}
    told.put_text("control", CONTROL.format(depends=DEPENDS, recommends=RECOMMENDS, suggests=SUGGESTS, **fields))
    # Debian's format has this sum.
    sums = ((path, hashlib.md5(content).hexdigest()) for path, content in sorted(tree.files.items()) if isinstance(content, bytes))
    told.put_text("md5sums", "".join(f"{digest}  {path}\n" for path, digest in sums))
    told.put_text("prerm", PRERM)
    return told
