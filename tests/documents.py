"""The commands that README, docs/ and the pages of formats show, with their answers.

Each block of the language `console` is run as it stands there. A line that begins with `$ ` is a
command of the shell, in the folder of the repository; the lines below it are all that it writes, to
both outputs. What a block's commands leave behind is gone after it.
"""
import itertools
import os
import pathlib
import re
import shutil
from typing import Iterator

from harness import ROOT, Harness, Outcome, compared

BLOCK = re.compile(r"^```console\n(.*?)^```$", re.DOTALL | re.MULTILINE)


def turns_of(block: str) -> list[tuple[str, str]]:
    """The commands of a block, each with what it writes."""
    turns: list[tuple[str, str]] = []
    for line in block.splitlines():
        if line.startswith("$ "):
            turns.append((line[2:], ""))
        else:
            command, written = turns.pop()
            turns.append((command, f"{written}{line}\n"))
    return turns


def checkout(harness: Harness) -> pathlib.Path:
    """A folder that looks like the checkout, in which `./mapf` is the program under test."""
    folder = harness.folder()
    os.symlink(harness.program, folder / "mapf")
    for name in ("tests", "vectors"):
        os.symlink(ROOT / name, folder / name)
    # A copy, so that the tools call the program under test.
    for name in ("examples", "tools"):
        shutil.copytree(ROOT / name, folder / name)
    return folder


def documents() -> list[pathlib.Path]:
    """The files that show commands. A format's page is the docstring of its module."""
    names = ("README.md", "docs/*.md", "dist/*.md", "tools/plan_formats/*.py")
    return list(itertools.chain(*(sorted(ROOT.glob(name)) for name in names)))


def outcomes(harness: Harness) -> Iterator[Outcome]:
    for document in documents():
        for block in BLOCK.findall(document.read_text(encoding="utf-8")):
            folder, status = checkout(harness), 0
            for command, due in turns_of(block):
                # `$?` is the status of the command before.
                ended = harness.run(["sh", "-c", f"(exit {status}); {{ {command}\n}} 2>&1"], folder=folder)
                status = ended.status
                yield compared(f"{document.name}: {command}", command, ended.out.decode(errors="replace"), due)
            shutil.rmtree(folder)
