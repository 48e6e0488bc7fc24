"""What the package contains, and where: the program, its manual pages, the tools, the robots, and the documents."""
import os
import pathlib
import re
import subprocess
import sys
from typing import Iterator

import dist
import product
from commands import Help
from debian import documents, manuals, told
from debian.tree import Tree, packed
from mapf.faults import Failed

# The tools that stand on the path, and their files.
TOOLS = {
    "mapf-convert": "convert.py",
    "mapf-handover": "handover.py",
    "mapf-judge": "judge.py",
    "mapf-prove": "prove.py",
    "mapf-repair": "repair.py",
    "mapf-rows": "rows.py",
    "mapf-show": "show.py",
    "mapf-watch": "watch.py",
}
# What works on the sources of a checkout alone.
OF_THE_CHECKOUT = frozenset(
    (*("build.py", "commands.py", "contracts.py", "dist.py", "gate_times.py", "house.py", "package.py"), *("debian", "measures"))
)
# Where things go. Below its own folder they lie as in the repository, so that all find one another.
OWN, DOC = "usr/lib/mapf", "usr/share/doc/mapf"
DOCUMENTS, PICTURE = ("CONVERTING.md", "FORMATS.md", "OPERATING.md", "PROMISES.md", "PROVING.md"), "run.png"
# What is said of the package first.
README = pathlib.Path(__file__).resolve().with_name("README.md")
EXAMPLES = product.ROOT / "examples"
# Examples that are programs lie below its own folder too, and are named by a link.
PROGRAMS = ("fleet", "vda5050")
UNITS = "systemd"
# Where OPERATING puts things without the package, and where they are with it.
PLACES = (
    ("/opt/mapf/fleet/", f"/{OWN}/examples/fleet/"),
    ("/opt/mapf/mapf", "/usr/bin/mapf"),
    ("docs/OPERATING.md", f"/{DOC}/docs/OPERATING.md"),
)
# Where Debian's checker would say something else than is meant.
OVERRIDES = """\
# The program has the bytes that were proved, whose sum made-from.txt names.
mapf: unstripped-binary-or-object [usr/bin/mapf]
"""
SYSUSERS = """\
# As whom robots run, by mapf-robot@.service.
u mapf - "Robots of mapf" /var/lib/mapf
"""
# A document, in the text of help.
DOCUMENT = re.compile(r"\bdocs/(?=[A-Z]+\.md)")


def contents(version: str, day: str) -> Tree:
    """All files of the package."""
    tree = Tree()
    tree.copy(product.SHIPPED, "usr/bin/mapf")
    tree.copy(product.ROOT / "completions" / "mapf.bash", "usr/share/bash-completion/completions/mapf")
    put_tools(tree)
    put_robots(tree)
    put_documents(tree)
    for manual in pages():
        tree.put(f"usr/share/man/man1/{manual.name}.1.gz", packed(manuals.page(manual, version, day).encode("ascii")))
    return tree


def put_tools(tree: Tree) -> None:
    tree.copy_folder(product.ROOT / "tools", f"{OWN}/tools", OF_THE_CHECKOUT)
    tree.put(f"{OWN}/mapf", "../../bin/mapf")
    for name, file in TOOLS.items():
        tree.put(f"usr/bin/{name}", f"../lib/mapf/tools/{file}")
        # What a tool says of itself and of others, in help and elsewhere.
        tree.put_text(f"{OWN}/tools/{file}", of_package(tree.files[f"{OWN}/tools/{file}"].decode()))
    tree.put("usr/lib/python3/dist-packages/mapf", "../../mapf/tools/mapf")


def put_robots(tree: Tree) -> None:
    """The programs among the examples, and their services."""
    for name in PROGRAMS:
        folder = EXAMPLES / name
        if folder.is_dir():
            tree.copy_folder(folder, f"{OWN}/examples/{name}", frozenset([UNITS]))
            tree.put(f"{DOC}/examples/{name}", f"../../../../lib/mapf/examples/{name}")
        if (folder / UNITS).is_dir():
            put_units(tree, folder / UNITS)
    tree.put_text("usr/lib/sysusers.d/mapf.conf", SYSUSERS)


def put_units(tree: Tree, folder: pathlib.Path) -> None:
    """The unit of robots; and what it reads, and a drive's unit to begin from, as examples. All name the places of the package."""
    for file in sorted(folder.iterdir()):
        text = with_places(file.read_text(encoding="utf-8"))
        tree.put_text(f"usr/lib/systemd/system/{file.name}" if "@" in file.name else f"{DOC}/examples/{file.name}", text)


def with_places(text: str) -> str:
    for was, now in PLACES:
        text = text.replace(was, now)
    return text


def put_documents(tree: Tree) -> None:
    """The documents lie as in the repository, so that they name one another, and say how things are called in the package."""
    tree.copy_folder(EXAMPLES, f"{DOC}/examples", frozenset(PROGRAMS))
    tree.copy(product.ROOT / "docs" / PICTURE, f"{DOC}/docs/{PICTURE}")
    tree.copy(README, f"{DOC}/README.md")
    paths = paths_of(tree) | {f"{DOC}/docs/{name}" for name in DOCUMENTS}
    for name in DOCUMENTS:
        text = with_places((product.ROOT / "docs" / name).read_text(encoding="utf-8"))
        tree.put_text(f"{DOC}/docs/{name}", documents.page(text, f"{DOC}/docs", TOOLS, paths))
    tree.copy(dist.FACTS, f"{DOC}/made-from.txt")
    tree.put_text(f"{DOC}/copyright", told.licence())
    tree.put_text("usr/share/lintian/overrides/mapf", OVERRIDES)


def paths_of(tree: Tree) -> set[str]:
    """All files and folders of the package, also by the links that name folders."""
    found = set(tree.files)
    for path, target in tree.files.items():
        if isinstance(target, str):
            named = os.path.normpath(os.path.join(os.path.dirname(path), target))
            found |= {path + it[len(named) :] for it in tree.files if it.startswith(f"{named}/")}
    return found | {str(folder) for path in found for folder in pathlib.PurePosixPath(path).parents}


def pages() -> Iterator[manuals.Manual]:
    """The manual pages: of the program, of its commands and of the tools. Where a tool has the name of a command, its page shows both."""
    asked = Help(product.SHIPPED)
    tools = {name: manuals.of_tool(name, help_of_tool(product.ROOT / "tools" / file)) for name, file in TOOLS.items()}
    yield manuals.with_tools(manuals.of_command("mapf", asked.text()), tools.values())
    names = {f"mapf-{command.name}": command.name for command in asked.commands().commands}
    for name, command in names.items():
        if name not in TOOLS:
            yield manuals.of_command(name, asked.text(command))
    for name, manual in tools.items():
        yield manuals.with_command(manual, asked.text(names[name])) if name in names else manual


def help_of_tool(tool: pathlib.Path) -> str:
    """What `--help` of a tool says, as wide as a terminal mostly is, with the names that things have in the package."""
    variables = {**os.environ, "COLUMNS": "80", "LC_ALL": "C.UTF-8", "PYTHON_COLORS": "0"}
    words = [sys.executable, str(tool), "--help"]
    ended = subprocess.run(words, env=variables, stdin=subprocess.DEVNULL, capture_output=True, text=True, encoding="utf-8", check=False)
    if ended.returncode:
        raise Failed(f"{tool} --help ended with status {ended.returncode}")
    return of_package(ended.stdout)


def of_package(text: str) -> str:
    """A text with the names that documents and tools have in the package."""
    return documents.with_names(DOCUMENT.sub(f"/{DOC}/docs/", text), TOOLS)
