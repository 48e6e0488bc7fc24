"""The functions of the code, read by their layout, which the kit's formatter fixes: what belongs to
a block is indented, and its last line is not."""
import dataclasses
import functools
import itertools
import re
import textwrap
from typing import Iterator

from measures.imports import Import, imports

FUNCTION = re.compile(r"^( *)(pub(?:\(\w+\))? )?(?:(?:const|unsafe|final) )*fn (\w+)")
BLOCK = re.compile(r"^(?:unsafe )?(?:impl|(?:pub(?:\(\w+\))? )?trait)\b.*\{$")
# `impl<R> Trait for Type<R>` is of Type.
OF_TYPE = re.compile(r"^.*?\b(?:impl|trait)(?:<.*?>)? (?:.* for )?&?(\w+)")
# What a function has to keep, and what a block says of its type: `ghost Value = { .. };`.
CLAUSE = re.compile(r"^ +(?:requires|ensures)\b[^{]*", re.MULTILINE)
OF_BLOCK = re.compile(r"^ +ghost (?!use)[^{]*(\{.*?)(?:^$|\Z)", re.MULTILINE | re.DOTALL)
# Types with arguments, generics and slices have colons and parentheses of their own.
NESTED = re.compile(r"<[^<>]*>|\[[^\[\]]*\]")
PARAMETERS = re.compile(r"\(((?:[^()]|\([^()]*\))*)\)")


@dataclasses.dataclass(frozen=True)
class Contract:
    """The clauses of a function, or those that a block has of its type: its type and its name,
    where it has them, and what may be named in it."""

    of_type: str
    name: str
    is_public: bool
    clauses: str
    imports: tuple[Import, ...]


@dataclasses.dataclass(frozen=True)
class Function:
    """A function: where it stands, its body and its contract; the first line of its block, whether
    it says `pub`, what its `///` lines say, and its head with its clauses."""

    line: int
    body: str
    contract: Contract
    block: str
    is_pub: bool
    docs: str
    head: str

    @property
    def lines(self) -> int:
        """How many lines its body has."""
        return self.body.count("\n")

    @property
    def parameters(self) -> int:
        """How many parameters it has beside `self`: each has one colon."""
        text, left = "", FUNCTION.sub("", self.head).replace("->", "").replace("::", "")
        while text != left:
            text, left = left, NESTED.sub("", left)
        found = PARAMETERS.match(text)
        return found[1].count(":") if found else 0


@functools.lru_cache(maxsize=None)
def functions(text: str) -> tuple[Function, ...]:
    """The functions of a source."""
    lines = text.splitlines()
    outside = outer_imports(lines)
    block, inside, found = "", (), []
    for at, line in enumerate(lines):
        if BLOCK.match(line):
            block, inside = line, tuple(imports(block_of(lines, at)))
        elif line == "}":
            block, inside = "", ()
        head = FUNCTION.match(line)
        if head:
            found.append(function(lines, at, head, block, outside + inside))
    return tuple(found)


def contracts_of(text: str) -> Iterator[Contract]:
    """The contracts of a source's functions, and what its blocks say of their types."""
    yield from (it.contract for it in functions(text))
    lines = text.splitlines()
    for at in (at for at, line in enumerate(lines) if BLOCK.match(line)):
        block = block_of(lines, at)
        taken = outer_imports(lines) + tuple(imports(block))
        yield Contract(type_of(lines[at]), "", True, "\n".join(OF_BLOCK.findall(block)), taken)


def outer_imports(lines: list[str]) -> tuple[Import, ...]:
    return tuple(imports("\n".join(line for line in lines if line.startswith("ghost use"))))


def type_of(head: str) -> str:
    found = OF_TYPE.match(head)
    return found[1] if found else ""


def block_of(lines: list[str], start: int) -> str:
    """The lines of a block, from its head to the `}` that has its head's indentation."""
    indent = lines[start][: len(lines[start]) - len(lines[start].lstrip())]
    end = next((at for at in range(start, len(lines)) if lines[at] == indent + "}"), len(lines) - 1)
    return "\n".join(lines[start : end + 1])


def function(
    lines: list[str], start: int, found: re.Match, block: str, taken: tuple[Import, ...]
) -> Function:
    indent, public, name = found.groups()
    end = end_of_head(lines, start, indent)
    # A head that ends with `{` has its body's last line at its own indentation.
    body = block_of(lines, end).splitlines()[1:-1] if lines[end].endswith("{") else []
    head = re.sub(r"\s*(?:\{\}?|;)$", "", "\n".join(lines[start : end + 1]))
    # What a trait has is as public as the trait.
    is_public = public == "pub " or " for " in block or "trait " in block
    said = "\n".join(CLAUSE.split(head)[1:])
    return Function(
        line=start + 1,
        body="".join(f"{line}\n" for line in body),
        contract=Contract(type_of(block), name, is_public, said, taken),
        block=block,
        is_pub=public == "pub ",
        docs=docs_above(lines, start),
        head=textwrap.dedent(head),
    )


def docs_above(lines: list[str], start: int) -> str:
    """What the `///` lines say above a line; attributes and comments may stand between."""
    above = map(str.strip, reversed(lines[:start]))
    belonging = list(itertools.takewhile(lambda line: line.startswith(("//", "#[")), above))
    return "\n".join(it[3:].strip() for it in reversed(belonging) if it.startswith("///"))


def end_of_head(lines: list[str], start: int, indent: str) -> int:
    """The line on which a function's body begins, or on which it ends where it has none: clauses
    are indented further than the function."""
    for at, line in enumerate(lines[start:], start):
        is_outer = line.startswith(indent) and not line.startswith(indent + " ")
        if (is_outer and line.endswith(("{", "}"))) or line.endswith(";"):
            return at
    return len(lines) - 1
