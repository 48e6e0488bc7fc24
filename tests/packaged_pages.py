"""What people read in Debian's package: that no page, manual or help speaks of what a checkout alone has, and that each link leads somewhere."""
import gzip
import pathlib
import re
from typing import Iterator, Mapping

from harness import Outcome, compared

DOCUMENTS, MANUALS = "usr/share/doc/mapf", "usr/share/man/man1"
# What a user of the package doesn't have: the launcher, the folders of a checkout, and the names that tools have there.
ABSENT = re.compile(r"(?<!\w)\./mapf\b|\bcheckout\b|\./test\b|(?<![\w/])(?:tools|crates|dist|completions)/|/opt/mapf|python3 tools")
TOOLS = re.compile(r"(?<![\w/])(?:convert|handover|judge|prove|repair|rows|show|watch)\.py\b")
LINK = re.compile(r"\]\(([^)#\s]*)(?:#([^)\s]*))?\)")
HEADING = re.compile(r"^#+ (.*)$", re.MULTILINE)
# Signs of manuals that stand for others.
SIGNS = {"\\-": "-", "\\(ga": "`", "\\(aq": "'", "\\(ti": "~", "\\e": "\\"}


def manual(path: pathlib.Path) -> str:
    text = gzip.decompress(path.read_bytes()).decode("ascii")
    for sign, meant in SIGNS.items():
        text = text.replace(sign, meant)
    return text


def anchors(text: str) -> set[str]:
    """The names by which the headings of a page are linked to."""
    return {re.sub(r"[^\w -]", "", heading.lower()).replace(" ", "-") for heading in HEADING.findall(text)}


def dead_links(root: pathlib.Path, page: pathlib.Path, text: str) -> Iterator[str]:
    for name, anchor in LINK.findall(text):
        target = (page.parent / name) if name else page
        if name.startswith(("http://", "https://")):
            continue
        if not target.exists() or not target.resolve().is_relative_to(root.resolve()):
            yield name
        elif anchor and anchor not in anchors(target.read_text(encoding="utf-8")):
            yield f"{name}#{anchor}"


def outcomes(root: pathlib.Path, helps: Mapping[str, str]) -> Iterator[Outcome]:
    """Of the package on this root, with what its programs say of themselves."""
    pages = sorted((root / DOCUMENTS).rglob("*.md"))
    yield compared("how many pages there are", "ls", len(pages) >= 6, True)
    texts = {str(path.relative_to(root / DOCUMENTS)): path.read_text(encoding="utf-8") for path in pages}
    for path, (name, text) in zip(pages, texts.items()):
        yield compared(f"links of {name}", "looked for each", list(dead_links(root, path, text)), [])
    texts.update((path.name, manual(path)) for path in sorted((root / MANUALS).iterdir()))
    texts.update(helps)
    for name, text in texts.items():
        lines = [line for line in text.splitlines() if ABSENT.search(line) or TOOLS.search(line)]
        yield compared(f"what {name} speaks of", "a search", lines, [])
    program = manual(root / MANUALS / "mapf.1.gz")
    named = {path.name.removesuffix(".1.gz") for path in (root / MANUALS).iterdir()} & set(re.findall(r"^\.B (mapf-\w+)$", program, re.MULTILINE))
    tools = {path.name for path in (root / "usr" / "bin").iterdir()} - {"mapf"}
    yield compared("the tools that mapf.1 names", "a search", named, tools)
