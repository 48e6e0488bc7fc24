"""dist/: that its program is whole, is made from the sources of the checkout, and is what the kit builds; and that each change is seen."""
import pathlib
import re
import shutil
import sys
from typing import Callable, Iterator

from harness import ROOT, SHIPPED, VERSION, Harness, Outcome, compared

TOOL = pathlib.Path("tools") / "dist.py"


def checkout(harness: Harness) -> pathlib.Path:
    """A copy of what dist/ is about."""
    folder = harness.folder()
    for name in ("dist", "tools"):
        shutil.copytree(ROOT / name, folder / name)
    shutil.copy2(ROOT / "crates.txt", folder)
    for source in (ROOT / "crates").glob("*/src"):
        shutil.copytree(source, folder / source.relative_to(ROOT))
    return folder


def flipped(name: str, part: float = 1.0) -> Callable[[pathlib.Path], None]:
    """Changes one bit of a file, so far into it; of its last byte where nothing else is said."""

    def change(folder: pathlib.Path) -> None:
        content = bytearray((folder / name).read_bytes())
        content[int(part * (len(content) - 1))] ^= 1
        (folder / name).write_bytes(content)

    return change


def shortened(folder: pathlib.Path) -> None:
    (folder / SHIPPED).write_bytes((folder / SHIPPED).read_bytes()[:-1])


def unmarked(folder: pathlib.Path) -> None:
    (folder / SHIPPED).chmod(0o644)


def with_a_source_more(folder: pathlib.Path) -> None:
    (folder / "crates" / "mapf" / "src" / "more.rt").write_text("")


def with_other_crates(folder: pathlib.Path) -> None:
    listed = (folder / "crates.txt").read_text()
    (folder / "crates.txt").write_text(listed.replace("mapf: ", "mapf: itoa ", 1))


def with_another_kit(folder: pathlib.Path) -> None:
    source = folder / "crates" / "command_line" / "src" / "help.rt"
    source.write_text(re.sub(r"(?m)^proved by .*$", 'proved by another kit";', source.read_text()))


SPOILED = [
    ("one byte of the program", flipped("dist/x86_64-linux/mapf", 0.5), "dist: dist/x86_64-linux/mapf has not the SHA-256"),
    ("the last byte of the program gone", shortened, "dist: dist/x86_64-linux/mapf has not the SHA-256"),
    ("a program that may not be executed", unmarked, "dist: dist/x86_64-linux/mapf may not be executed"),
    *(
        (f"one byte of the text beside it, at {part} of it", flipped("dist/x86_64-linux/made-from.txt", part), "dist: ")
        for part in (0.0, 0.1, 0.2, 0.28, 0.32, 0.4, 0.5, 0.6, 0.7, 0.8, 0.9, 1.0)
    ),
    ("one byte of a source", flipped("crates/grid/src/lib.rt"), "dist: the sources are others"),
    ("one byte of the program's own source", flipped("crates/mapf/src/main.rt"), "dist: the sources are others"),
    ("the kit in the version", with_another_kit, "dist: crates/command_line/src/help.rt says that another kit proved the program"),
    ("a source more", with_a_source_more, "dist: the sources are others"),
    ("a crate that stands on another one", with_other_crates, "dist: the sources are others"),
]


def outcomes(harness: Harness) -> Iterator[Outcome]:
    command = [sys.executable, str(ROOT / TOOL), "--check", *(["--built"] if harness.is_proved else [])]
    ended = harness.run(command)
    wrote = (ended.status, ended.out, ended.err)
    due = wrote if ended.status == 0 else "status 0"
    yield compared("dist/ as it lies here", f"tools/dist.py {' '.join(command[2:])}", wrote, due)
    if ended.status:
        # Where it doesn't hold, no further change can be told.
        return
    yield compared("the version", "mapf --version", harness.run([str(ROOT / SHIPPED), "--version"]).out.decode(), VERSION)
    for name, spoil, due in SPOILED:
        folder = checkout(harness)
        spoil(folder)
        ended = harness.run([sys.executable, str(folder / TOOL), "--check"])
        wrote = (ended.status, ended.err.decode())
        well = ended.status == 1 and wrote[1].startswith(due) and wrote[1].count("\n") == 1
        yield compared(name, f"tools/dist.py --check, with {name} changed", wrote, wrote if well else f"status 1, and a line that begins with {due!r}")
