"""The public calls of a library crate: what another crate can name, by its lib.rt, with what is
said of each there and in its contract."""
import re
from typing import Iterator, NamedTuple

from measures.rattle import Function, functions, type_of
from measures.workspace import Workspace

# `mod map;`, `pub mod laws;`; `pub use source::{Source, Stop};`, of a module or of another crate.
MODULE = re.compile(r"^(pub )?mod (\w+);", re.MULTILINE)
PASSED_ON = re.compile(r"^pub use (?:crate::)?(\w+)::(?:\{([^}]*)\}|(\w+));", re.MULTILINE)
# `pub struct Map {`, `pub(crate) trait Front {`: a type or a trait that a module has.
DECLARED = re.compile(r"^(pub )?(?:pub\(\w+\) )?(?:struct|enum|trait|type) (\w+)", re.MULTILINE)
# `impl<R: Read> Read for Counted<R> {`: the trait that a type has there.
HAS_TRAIT = re.compile(r"^(?:unsafe )?impl(?:<.*?>)? ((\w+).*?) for ")
SAID_OF_ALL = re.compile(r"^//! ?(.*)$", re.MULTILINE)


class Call(NamedTuple):
    """A public call: its name as another crate has it, and the trait by which its type has it."""

    name: str
    of_trait: str
    function: Function


class Module(NamedTuple):
    """A module with public calls, and what is said of it. What stands in lib.rt has no name."""

    name: str
    about: str
    calls: tuple[Call, ...]


def file_of(crate: str, module: str = "lib") -> str:
    return f"crates/{crate}/src/{module}.rt"


class Library:
    """A library crate: what is said of it, what it passes on, and what can be named in it."""

    def __init__(self, workspace: Workspace, crate: str) -> None:
        root = workspace.text(file_of(crate))
        modules = {name: bool(is_pub) for is_pub, name in MODULE.findall(root)}
        self.name, self.about = crate, about(root)
        self.texts = {"": root, **{it: workspace.text(file_of(crate, it)) for it in modules}}
        self.public = {"", *(it for it in modules if modules[it])}
        self.names: dict[str, list[str]] = {}
        for of, names, name in PASSED_ON.findall(root):
            own = filter(None, map(str.strip, (names or name).split(",")))
            self.names.setdefault(of, []).extend(own)
        self.passed_on = {of: names for of, names in self.names.items() if of not in modules}
        # Each type and trait, and whether it is known outside.
        self.types: dict[str, bool] = {}
        for module, text in self.texts.items():
            for is_pub, name in DECLARED.findall(text):
                is_known = bool(is_pub) and self.is_known(module, name)
                self.types[name] = is_known or self.types.get(name, False)

    def is_known(self, module: str, name: str) -> bool:
        """Whether a public name of a module is known outside."""
        return module in self.public or name in self.names.get(module, ())

    def modules(self) -> Iterator[Module]:
        """The modules with public calls."""
        for name, text in self.texts.items():
            calls = tuple(self.calls(name, text))
            if calls:
                yield Module(name, about(text), calls)

    def calls(self, module: str, text: str) -> Iterator[Call]:
        for it in functions(text):
            name = it.contract.name
            if it.block and self.is_known_method(it):
                by = HAS_TRAIT.match(it.block)
                yield Call(f"{type_of(it.block)}::{name}", by[1] if by else "", it)
            elif not it.block and it.is_pub and self.is_known(module, name):
                is_by_module = module and module in self.public
                yield Call(f"{module}::{name}" if is_by_module else name, "", it)

    def is_known_method(self, it: Function) -> bool:
        """Whether a function of a type or a trait is known outside. What a type has by a trait is
        known where both are, and tells no more than the trait where it has no clauses."""
        by = HAS_TRAIT.match(it.block)
        if by:
            is_known = self.types.get(by[2], True) and bool(it.contract.clauses)
        else:
            is_known = it.is_pub or it.block.startswith("pub trait ")
        return is_known and self.types.get(type_of(it.block), False)


def about(text: str) -> str:
    return " ".join(SAID_OF_ALL.findall(text))
