"""What each promise of docs/PROMISES.md stands on: the definitions that the contracts of its calls
reach."""
import dataclasses
import functools
import re
from typing import Iterator, NamedTuple, Optional

from measures.definitions import Definition, Definitions
from measures.rattle import Contract, contracts_of
from measures.workspace import BadWorkspace, Place, Workspace

TABLE = "docs/PROMISES.md"
# Between these lines stands the table, which has two lines of its own above the promises.
BEGIN, END, HEAD = "<!--promises-->", "<!--end-->", 2
# A promise, its calls, its premises, its laws, the definitions to believe, and their lines.
CELLS = 6
QUOTED = re.compile(r"`([^`]+)`")
# `model::laws` are all laws of `model`.
ALL_LAWS = "laws"


class Named(NamedTuple):
    """A call or a law that a row names: its crate, the types that it may be of, and its name there,
    with its type in front where the row has it. A law without a crate is of any of the row."""

    crate: str
    owners: frozenset[str]
    name: str


@dataclasses.dataclass(frozen=True)
class Promise:
    """A row of the table: its line and its cells; its crates, the calls and laws that carry it,
    what the contracts of these reach, and which names are none."""

    line: int
    cells: tuple[str, ...]
    crates: tuple[str, ...]
    calls: tuple[str, ...]
    reached: frozenset[Definition]
    lost: tuple[str, ...]

    @property
    def length(self) -> int:
        """How many lines have to be believed."""
        return sum(it.length for it in self.reached)

    @property
    def due(self) -> tuple[str, ...]:
        """Its cells as the sources have the last two: the files of its own crates that have what it
        reaches, and how many files of other crates do; and the lines."""
        files = {(it.crate, it.module) for it in self.reached}
        own = sorted(it for it in files if it[0] in self.crates)
        told = [f"`{crate}/{module.replace('.', '/')}`" for crate, module in own]
        others = [f"+{len(files) - len(own)}"] if len(files) > len(own) else []
        return (*self.cells[:-2], "<br>".join([*told, *others]), str(self.length))


def rows(workspace: Workspace) -> Iterator[tuple[int, tuple[str, ...]]]:
    """The rows of the table: the line and the cells of each."""
    lines = workspace.lines(TABLE)
    begin = lines.index(BEGIN) if BEGIN in lines else len(lines)
    end = lines.index(END, begin) if END in lines[begin:] else len(lines)
    for at in [at for at in range(begin, end) if lines[at].startswith("|")][HEAD:]:
        cells = [it.strip() for it in lines[at].strip()[1:-1].split("|")]
        # The last two may still be to be written.
        if len(cells) in (CELLS - 2, CELLS - 1):
            cells += [""] * (CELLS - len(cells))
        if len(cells) != CELLS:
            told = f"a row with {len(cells)} cells, where {CELLS} are due"
            raise BadWorkspace(f"{TABLE}:{at + 1}: {told}")
        yield at + 1, tuple(cells)


class Promises:
    """What the promises of a workspace stand on."""

    def __init__(self, workspace: Workspace) -> None:
        self.workspace = workspace
        self.definitions = Definitions(workspace)

    @functools.lru_cache(maxsize=None)
    def all(self) -> list[Promise]:
        """Each row of the table, none where the docs have no promises."""
        found = [self.promise(*row) for row in rows(self.workspace)]
        if not found:
            raise BadWorkspace(f"{TABLE} has no table between the lines '{BEGIN}' and '{END}'")
        return found

    def page(self) -> str:
        """The page, with the last two cells of each row as the sources have them."""
        lines = self.workspace.lines(TABLE)
        for it in self.all():
            lines[it.line - 1] = f"|{'|'.join(it.due)}|"
        return "\n".join([*lines, ""])

    def stale(self) -> Iterator[Place]:
        """The rows that name what isn't there, and those that `page` changes."""
        for it in self.all():
            for name in it.lost:
                yield Place(TABLE, it.line, f"there is no {name}")
            if it.due != it.cells:
                yield Place(TABLE, it.line, "--write-promises changes it")

    def named(self, cell: str) -> Iterator[Named]:
        """What a cell names. Behind `agent::Agent::start`, `finish` is one of `Agent` there too."""
        crate, owners = "", frozenset()
        for quoted in QUOTED.findall(cell):
            first, _, rest = quoted.partition("::")
            if first in self.workspace.crates and rest:
                crate, owners = first, frozenset()
            name = rest if crate == first and rest else quoted
            owner, _, _ = name.rpartition("::")
            owners = owners | {owner} if owner else owners
            yield Named(crate, owners, name)

    def promise(self, line: int, cells: tuple[str, ...]) -> Promise:
        calls_and_laws = [*self.named(cells[1]), *self.named(cells[3])]
        crates = tuple(dict.fromkeys(it.crate for it in calls_and_laws if it.crate))
        found = {it: self.roots(it, (it.crate,) if it.crate else crates) for it in calls_and_laws}
        reached = self.definitions.reached(set().union(*filter(None, found.values())))
        # A law may be one of the definitions of a lower crate.
        known = {it.name for it in reached}
        lost = tuple(it.name for it, own in found.items() if own is None and it.name not in known)
        names = tuple(dict.fromkeys(it.name for it in found))
        return Promise(line, cells, crates, names, frozenset(reached), lost)

    def roots(self, named: Named, crates: tuple[str, ...]) -> Optional[set[Definition]]:
        """The definitions that a call or a law names by its contract, or that have its name.
        Nothing, where there is neither."""
        found: list[Contract] = []
        for crate in crates:
            if named.name == ALL_LAWS:
                found += self.contracts(crate, f"{ALL_LAWS}.rt")
            else:
                found += called(self.contracts(crate), named.name, named.owners)
        own = {it for it in self.definitions.by_name.get(named.name, ()) if it.crate in crates}
        by_contracts = (self.definitions.named_in(it.clauses, it.imports) for it in found)
        return own.union(*by_contracts) if found or own else None

    @functools.lru_cache(maxsize=None)
    def contracts(self, crate: str, file: str = ".rt") -> list[Contract]:
        """The contracts of a crate's code, or of one file of it."""
        paths = self.workspace.files(f"crates/{crate}/src", file)
        return [it for path in paths for it in contracts_of(self.workspace.text(path))]


def called(contracts: list[Contract], call: str, owners: frozenset[str]) -> list[Contract]:
    """The contracts that a call of the table means. A type means all that is public of it."""
    owner, _, name = call.rpartition("::")
    of = {owner} if owner else owners
    readings = [
        [it for it in contracts if it.name == name and it.of_type in of],
        [it for it in contracts if it.name == name and not it.of_type and not owner],
        [it for it in contracts if it.of_type == name and it.is_public],
        [it for it in contracts if it.name == name and not owner],
    ]
    found = next(filter(None, readings), [])
    return [it for it in found if it.is_public] or found
