"""The lines by which files of the code and of definitions name what they take from elsewhere."""
import dataclasses
import re
from typing import Iterator

# `use Rattle.grid.specs.Map.{Grid, IsMap}`, `use Rattle.model.specs.History as history`; a file of
# the code says `ghost use ..;`.
USE = re.compile(
    r"use Rattle\.(\w+)\.(\w+)\.?([\w.]*?)\.?(?:\{([^}]*)\}| as (\w+))?;?$", re.MULTILINE
)


@dataclasses.dataclass(frozen=True)
class Import:
    """One name that a file has from a module: its name there, and the one that it has here. A whole
    module has no name there."""

    crate: str
    folder: str
    module: str
    name: str
    known_as: str
    is_passed_on: bool


def imports(text: str) -> Iterator[Import]:
    """What a text takes from modules of the kit and of the workspace."""
    for found in USE.finditer(text):
        crate, folder, module, names, alias = found.groups()
        is_passed_on = text.endswith("pub ", 0, found.start())
        for each in (names or "").split(","):
            name, _, here = each.strip().partition(" as ")
            known_as = here or name or alias or module.rpartition(".")[2]
            yield Import(crate, folder, module, name, known_as, is_passed_on)
