"""The definitions of `specs/`, read by their layout: a signature stands at the left edge, and all
up to the next one belongs to it."""
import dataclasses
import functools
import re
from typing import Iterator, Optional

from measures.imports import Import, imports
from measures.workspace import Workspace

# `abbrev pub done : ..`, `pub record Track : Type 0 where`, `pub data Outcome (V F : Type 0) : ..`,
# `pub sim_within : ..`. A colon may stand on the next line.
SIGNATURE = re.compile(
    r"^(?:(?:abbrev|unfoldable|opaque|pub) )+(?!use |mod )(?:(?:record|data) )?([^\s:]+)"
    r"|^(?:record|data) (\S+)|^(\w\S*)(?: +:(?= |$)|$)"
)
NO_LINE_OF_ONE = re.compile(r" *$| *--|(?:pub )?(?:use|mod) ")
WORD = re.compile(r"[^\s(){}\[\],;λ]+")
# What stands in front of a colon or a `=` is bound there: a parameter, or a field.
BOUND = re.compile(r"[^\s(){}]+ [:=](?= )")


@dataclasses.dataclass(frozen=True)
class Definition:
    """A name that a file of `specs/` defines: its module, its first line, and its lines without
    comments."""

    crate: str
    module: str
    name: str
    line: int
    text: str

    @property
    def path(self) -> str:
        """The file in which it stands."""
        return f"crates/{self.crate}/specs/{self.module.replace('.', '/')}.antt"

    @property
    def length(self) -> int:
        """How many lines it has."""
        return self.text.count("\n") + 1

    @property
    def names(self) -> Iterator[str]:
        """Its name, and those of the values of a `data`: what its indented lines have in front of
        the colon."""
        yield self.name
        if re.match(r"(?:pub )?data ", self.text):
            for line in self.text.splitlines()[1:]:
                yield from line.partition(":")[0].replace("pub ", "").split()


def definitions_in(crate: str, module: str, text: str) -> Iterator[Definition]:
    """The definitions of a file."""
    lines = text.splitlines()
    begun = [(at, found) for at, found in enumerate(map(SIGNATURE.match, lines)) if found]
    ends = [at for at, _ in begun[1:]] + [len(lines)]
    for (at, found), end in zip(begun, ends):
        own = "\n".join(it for it in lines[at:end] if not NO_LINE_OF_ONE.match(it))
        yield Definition(crate, module, found[found.lastindex], at + 1, own)


class Definitions:
    """All definitions of a workspace, and which of them a text names."""

    def __init__(self, workspace: Workspace) -> None:
        # By crate and module, with the names of values too.
        self.modules: dict[tuple[str, str], dict[str, Definition]] = {}
        self.by_name: dict[str, list[Definition]] = {}
        self.taken: dict[tuple[str, str], tuple[Import, ...]] = {}
        for path in workspace.of_crates("specs"):
            _, crate, _, file = path.split("/", 3)
            key = crate, file[: -len(".antt")].replace("/", ".")
            text = workspace.text(path)
            own = list(definitions_in(*key, text))
            self.modules[key] = {name: it for it in own for name in it.names}
            self.taken[key] = tuple(imports(text))
            for it in own:
                self.by_name.setdefault(it.name, []).append(it)

    def at(self, crate: str, module: str, name: str) -> Optional[Definition]:
        """The definition that a module has by this name: its own, that of a value of this name, or
        one that it passes on."""
        if (crate, module) not in self.modules:
            # `Terrain.Class.{land}` names a value of `Class`, of the module `Terrain`.
            above, _, owner = module.rpartition(".")
            return self.at(crate, above, owner) if above else None
        own = self.modules[crate, module].get(name)
        taken = () if own else self.taken[crate, module]
        passed_on = (it for it in taken if it.is_passed_on and it.known_as == name)
        return next((self.at(it.crate, it.module, it.name) for it in passed_on), own)

    def named_in(
        self, text: str, taken: tuple[Import, ...], own: tuple[str, str] = ("", "")
    ) -> set[Definition]:
        """The definitions that a text names, by what its file takes from elsewhere and by its own
        module. Fields of records are not followed."""
        words = [word.split(".") for word in WORD.findall(BOUND.sub("", text))]
        firsts = {parts[0] for parts in words}
        its_own = self.modules.get(own, {})
        found = {its_own[name] for name in firsts & its_own.keys()}
        for it in taken:
            if it.folder == "specs" and it.known_as in firsts:
                of_module = {parts[1] for parts in words if parts[0] == it.known_as and parts[1:]}
                names = {it.name} if it.name else of_module
                found |= {self.at(it.crate, it.module, name) for name in names}
        return found - {None}

    @functools.lru_cache(maxsize=None)
    def next_to(self, definition: Definition) -> frozenset[Definition]:
        """The definitions that this one names."""
        key = definition.crate, definition.module
        return frozenset(self.named_in(definition.text, self.taken[key], key))

    def reached(self, roots: set[Definition]) -> set[Definition]:
        """These definitions, and all that they name, down to those that name no more."""
        found, left = set(roots), list(roots)
        while left:
            more = self.next_to(left.pop()) - found
            found |= more
            left += more
        return found
