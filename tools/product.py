"""The product: the program mapf, the crates that it stands on, the files that it is made of, and where it lies once it is built."""
import hashlib
import pathlib
import shutil
import subprocess

ROOT = pathlib.Path(__file__).resolve().parent.parent
NAME = "mapf"
BUILT = ROOT / "crates" / NAME / "out" / NAME
# The program that needs no kit, and what it was made from.
SHIPPED = ROOT / "dist" / "x86_64-linux" / NAME


def crate_lines() -> dict[str, str]:
    """The lines of crates.txt without comments, by the crate that each names."""
    lines: dict[str, str] = {}
    for line in (ROOT / "crates.txt").read_text(encoding="utf-8").splitlines():
        text = line.partition("#")[0].strip()
        if ":" in text:
            lines[text.partition(":")[0].split()[0]] = text
    return lines


def crates() -> list[str]:
    """The repository's crates that the program stands on, each after those below it, and the program itself last."""
    lines = crate_lines()
    found: list[str] = []

    def add(crate: str) -> None:
        if crate in lines and crate not in found:
            for library in lines[crate].partition(":")[2].split():
                add(library)
            found.append(crate)

    add(NAME)
    return found


def source_files() -> list[pathlib.Path]:
    """The files of the code of these crates, in order of their paths."""
    return sorted(path for crate in crates() for path in (ROOT / "crates" / crate / "src").rglob("*") if path.is_file())


def source_digest() -> str:
    """One digest of the names and the bytes of these files, and of the lines of crates.txt that name their crates."""
    lines = crate_lines()
    digest = hashlib.sha256()
    parts = [("crates.txt", "".join(f"{lines[crate]}\n" for crate in sorted(crates())).encode())]
    parts += [(path.relative_to(ROOT).as_posix(), path.read_bytes()) for path in source_files()]
    for name, content in parts:
        digest.update(f"{name}\n{len(content)}\n".encode())
        digest.update(content)
    return digest.hexdigest()


def is_built() -> bool:
    """Whether the checkout has a build of the program that no source is newer than."""
    return BUILT.is_file() and BUILT.stat().st_mtime >= max(path.stat().st_mtime for path in source_files())


def kit() -> str:
    """The line by which the kit on the path names itself, empty where there is none."""
    if not shutil.which("rt"):
        return ""
    ran = subprocess.run(["rt", "version"], stdin=subprocess.DEVNULL, capture_output=True, text=True)
    return ran.stdout.strip() if ran.returncode == 0 else ""
