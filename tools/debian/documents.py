"""The pages of docs/ as the package has them: with its names for the program and the tools, without what a checkout alone has, and without links to
files that aren't there."""
import os
import re
from typing import AbstractSet, Mapping

# What stands on a page for those alone who have a checkout.
OF_A_CHECKOUT = re.compile(r"<!--checkout-->.*?<!--/checkout-->\n?", re.DOTALL)
PROGRAM = re.compile(r"(?<![\w./])\./mapf\b")
LINK = re.compile(r"\[([^\]]*)\]\(([^)#\s]*)(#[^)\s]*)?\)")
WEB = ("http://", "https://")


def with_names(text: str, tools: Mapping[str, str]) -> str:
    """A text with the names that the program and the tools have in the package."""
    for name, file in tools.items():
        text = re.sub(rf"(?:python3 )?(?<![\w/])(?:tools/)?{re.escape(file)}\b", name, text)
    return PROGRAM.sub("mapf", text)


def page(text: str, folder: str, tools: Mapping[str, str], paths: AbstractSet[str]) -> str:
    """A page that lies in this folder of the package, which has files and folders with these paths."""

    def linked(found: re.Match[str]) -> str:
        target = os.path.normpath(os.path.join(folder, found[2])) if found[2] else folder
        return found[0] if found[2].startswith(WEB) or target in paths else found[1]

    return LINK.sub(linked, with_names(OF_A_CHECKOUT.sub("", text), tools))
