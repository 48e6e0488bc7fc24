"""The formats of plans that convert.py reads and writes, a module each.

A module of this package with a value `FORMAT` is a format. Its name, how a text of it begins, its
reader, its writer and what people have to know of it, as its docstring, stand there, and nothing of
it stands anywhere else. A reader takes the text, and answers the walk of each agent or raises a
`Fault`; it never guesses. A writer gives the pieces of the text of walks.
"""
import dataclasses
import functools
import importlib
import inspect
import pkgutil
import types
from typing import Callable, Iterator, Optional, Sequence

from plan_formats.walks import Fault, Given, Walk

# A format is told by so many bytes.
HEAD = 4096
Reader = Callable[[bytes, Given], list[Walk]]
Writer = Callable[[Sequence[Walk]], Iterator[str]]


@dataclasses.dataclass(frozen=True)
class Format:
    """A format of plans."""

    name: str
    # Whether a text that begins with these bytes looks like one of this format.
    begins: Callable[[bytes], bool]
    read: Reader
    # None where a plan doesn't say all that the format has to say; then the reason.
    write: Optional[Writer] = None
    # Reads what the writer wrote, where a reader of other texts has to find out more.
    read_back: Optional[Reader] = None
    no_way_back: str = ""
    # What whoever reads such a text, or writes one, has to know: it is said on standard error.
    word_on_reading: str = ""
    word_on_writing: str = ""
    # Whether a text gives each agent a cell at each time, up to the last time of all.
    is_padded: bool = False
    # Whether a text leaves out the starts, so that a reader needs the rows of a scenario.
    needs_tasks: bool = False
    # Whether cells are numbers that only the width of a map makes columns and rows.
    needs_map: bool = False
    # Whether a text may leave out times at which an agent waits.
    may_have_gaps: bool = False


@functools.lru_cache(maxsize=None)
def modules() -> dict[str, types.ModuleType]:
    """The modules of all formats, by the names of these."""
    names = [f"{__name__}.{it.name}" for it in pkgutil.iter_modules(__path__)]
    found = [it for it in map(importlib.import_module, names) if hasattr(it, "FORMAT")]
    return {it.FORMAT.name: it for it in sorted(found, key=lambda it: it.FORMAT.name)}


def formats() -> dict[str, Format]:
    """All formats, by name."""
    return {name: it.FORMAT for name, it in modules().items()}


def page_of(name: str) -> str:
    """What people have to know of a format."""
    return f"{inspect.getdoc(modules()[name])}\n"


def guess(text: bytes, due: str) -> Format:
    """The format of a text, by how it begins. Behind a refusal stands what else was due."""
    found = [it for it in formats().values() if it.begins(text[:HEAD])]
    if not found:
        raise Fault(1, f"no format is known by this beginning, {due} was due")
    if len(found) > 1:
        raise Fault(1, f"the text begins as {' and as '.join(it.name for it in found)} do, {due} was due")
    return found[0]
