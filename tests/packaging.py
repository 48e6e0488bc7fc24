"""Debian's package, as tools/package.py makes it: that the same sources make the same bytes, what it contains, and that it can be installed on an empty
root, called from there as the documents show, and removed again."""
import gzip
import hashlib
import os
import pathlib
import re
import shutil
import sys
from typing import Iterator, Optional, Sequence

import packaged_pages
from documents import BLOCK, turns_of
from harness import ROOT, SHIPPED, Ended, Harness, Outcome, compared, side_by_side

TOOL = pathlib.Path("tools") / "package.py"
# What of a checkout goes into the package, or makes it.
PARTS = ("completions", "dist", "docs", "examples", "tools", "README.md", "CHANGELOG.md", "mapf")
NOT_DONE = shutil.ignore_patterns("__pycache__")
NAME = re.compile(r"package: (.*/mapf_[0-9][0-9.]*(?:~unreleased)?_amd64\.deb)\n")
TOOLS = ("convert", "handover", "judge", "prove", "repair", "rows", "show", "watch")
# The documents whose commands are run from the package.
SHOWN = ("README.md", "docs/OPERATING.md", "docs/CONVERTING.md", "docs/PROVING.md")
# A user who is not the one that runs the tests; and a time that is none of the sources.
NOBODY, ANY_TIME = "65534", 1_000_000_000
IN_2001 = "2001-09-09 01:46"
# A line of a package's list: the mode, the owner, the size, the time, the path, and perhaps what a link names.
LISTED = re.compile(r"(\S{10}) (\S+) +\d+ (\S+ \S+) \./(\S*)(?: -> (\S+))?")
MODES = {"drwxr-xr-x", "-rwxr-xr-x", "-rw-r--r--", "lrwxrwxrwx"}
CONTROL = {
    "Package": "mapf",
    "Architecture": "amd64",
    "Depends": "libc6 (>= 2.34), python3 (>= 3.9)",
    "Recommends": "python3-paho-mqtt",
    "Suggests": "chromium, mosquitto, python3-distributed, python3-pil",
}
# Links, as they have to be for tools and the Python package to find the program.
LINKS = {
    "usr/lib/mapf/mapf": "../../bin/mapf",
    "usr/lib/python3/dist-packages/mapf": "../../mapf/tools/mapf",
    "usr/share/doc/mapf/examples/fleet": "../../../../lib/mapf/examples/fleet",
    **{f"usr/bin/mapf-{name}": f"../lib/mapf/tools/{name}.py" for name in TOOLS},
}
FILES = (
    *("usr/bin/mapf", "usr/share/bash-completion/completions/mapf", "usr/lib/systemd/system/mapf-robot@.service", "usr/lib/sysusers.d/mapf.conf"),
    *("usr/share/doc/mapf/copyright", "usr/share/doc/mapf/changelog.gz", "usr/share/doc/mapf/examples/robot.conf"),
    *("usr/share/doc/mapf/examples/corner.map", "usr/lib/mapf/examples/fleet/robot.py"),
    *(f"usr/share/doc/mapf/docs/{name}.md" for name in ("CONVERTING", "FORMATS", "OPERATING", "PROMISES", "PROVING")),
)
# By its name programs of Debian call Python.
PYTHON = "/usr/bin/python3"
# What dpkg is told, since the root is no system, and has no log.
DPKG = ("--force-not-root", "--force-depends", "--force-bad-path", "--force-script-chrootless", "--path-include=/*")


def package(harness: Harness, root: pathlib.Path, target: pathlib.Path, python: Sequence[str] = (sys.executable,), **more: str) -> Ended:
    """Makes the package of a checkout."""
    return harness.run([*python, str(root / TOOL), "-o", str(target)], more=more)


def checkout(harness: Harness) -> pathlib.Path:
    """A copy of a checkout, with other times."""
    folder = harness.folder()
    for name in PARTS:
        copy = shutil.copyfile if (ROOT / name).is_file() else shutil.copytree
        copy(ROOT / name, folder / name, **({"ignore": NOT_DONE, "copy_function": shutil.copy} if copy is shutil.copytree else {}))
    shutil.copymode(ROOT / "mapf", folder / "mapf")
    for path in [folder, *folder.rglob("*")]:
        os.utime(path, (ANY_TIME, ANY_TIME), follow_symlinks=False)
    return folder


def as_nobody(harness: Harness) -> Optional[list[str]]:
    """Python as another user, where this machine has one for everybody."""
    words = ["setpriv", f"--reuid={NOBODY}", f"--regid={NOBODY}", "--clear-groups"]
    for python in (sys.executable, PYTHON):
        # It starts itself again, as the tool does.
        again = "import json, subprocess, sys; sys.exit(subprocess.call([sys.executable, '-c', 'import argparse']))"
        if harness.run([*words, python, "-c", again]).status == 0:
            return [*words, python]
    return None


def sum_of(folder: pathlib.Path) -> str:
    made = list(folder.glob("*.deb"))
    return hashlib.sha256(made[0].read_bytes()).hexdigest() if len(made) == 1 else f"{len(made)} packages"


def made_elsewhere(harness: Harness, due: str) -> list[Outcome]:
    """The package of another folder, made at another time, by another mask, zone and user."""
    root, target = checkout(harness), harness.folder()
    mask = ["sh", "-c", 'umask 077; exec "$@"', "sh", sys.executable]
    ended = package(harness, root, target, mask, TZ="Asia/Kathmandu", LANG="C", COLUMNS="200")
    outcomes = [compared("made elsewhere", f"{TOOL}, and told {ended.err!r}", (ended.status, sum_of(target)), (0, due))]
    # Nobody else comes into the folder of the tests.
    harness.room.chmod(0o711)
    other, user = harness.folder(), as_nobody(harness)
    other.chmod(0o777)
    if user is None:
        return [*outcomes, Outcome("made by another user", lacks="other user who may run Python")]
    ended = package(harness, root, other, user, TMPDIR=str(other))
    return [*outcomes, compared("made by another user", f"{TOOL}, and told {ended.err!r}", (ended.status, sum_of(other)), (0, due))]


def made_of_a_time(harness: Harness) -> list[Outcome]:
    target = harness.folder()
    package(harness, ROOT, target, SOURCE_DATE_EPOCH=str(ANY_TIME))
    times = {line[3] for line in listed(harness, next(target.glob("*.deb")))}
    return [compared("SOURCE_DATE_EPOCH", f"{TOOL}, and dpkg-deb --contents", times, {IN_2001})]


def listed(harness: Harness, deb: pathlib.Path) -> list[re.Match[str]]:
    """The lines of the package's list."""
    lines = harness.run(["dpkg-deb", "--contents", str(deb)], more={"TZ": "UTC"}).out.decode().splitlines()
    return [found for found in map(LISTED.fullmatch, lines) if found]


def contents(harness: Harness, deb: pathlib.Path) -> Iterator[Outcome]:
    """What the list and the control file of a package say."""
    found = listed(harness, deb)
    paths = [line[4].rstrip("/") for line in found]
    # The links stand behind all else.
    ordered = sorted(found, key=lambda line: (bool(line[5]), line[4].rstrip("/").split("/")))
    kinds = {(line[1] in MODES, line[2]) for line in found}
    yield compared("modes and owners", "dpkg-deb --contents", kinds, {(True, "root/root")})
    yield compared("an order", "dpkg-deb --contents", found == ordered, True)
    links = {line[4]: line[5] for line in found if line[5]}
    yield compared("links", "dpkg-deb --contents", {name: links.get(name) for name in LINKS}, LINKS)
    yield compared("files", "dpkg-deb --contents", [name for name in FILES if name not in paths], [])
    left = [path for path in paths if re.search(r"__pycache__|/\.|house\.py|/debian|systemd/.*\.conf|examples/fleet/systemd", path)]
    yield compared("nothing else", "dpkg-deb --contents", left, [])
    for field, due in CONTROL.items():
        yield compared(field, f"dpkg-deb --field {field}", harness.run(["dpkg-deb", "--field", str(deb), field]).out.decode().strip(), due)


# ---- on an empty root


class Root:
    """An empty root on which the package is installed."""

    def __init__(self, harness: Harness, deb: pathlib.Path):
        self.harness, self.folder = harness, harness.folder()
        self.before = [] if os.geteuid() == 0 else ["fakeroot"]
        for name in ("info", "updates", "triggers"):
            (self.folder / "var" / "lib" / "dpkg" / name).mkdir(parents=True)
        for name in ("status", "available"):
            (self.folder / "var" / "lib" / "dpkg" / name).touch()
        self.installed = self.dpkg("-i", str(deb))

    def dpkg(self, *words: str) -> Ended:
        log = self.harness.room / "dpkg.log"
        path = {"PATH": f"{os.environ['PATH']}:/usr/sbin:/sbin"}
        return self.harness.run([*self.before, "dpkg", f"--root={self.folder}", f"--log={log}", *DPKG, *words], more=path)

    def at(self, name: str) -> pathlib.Path:
        return self.folder / name

    def tool(self, name: str) -> str:
        return f"{sys.executable} {self.at('usr/bin')}/mapf-{name}"


def shown(root: Root) -> Iterator[Outcome]:
    """The commands of the documents, with the names that things have in the package."""
    for name in SHOWN:
        text = root.at(f"usr/share/doc/mapf/{name}").read_text(encoding="utf-8")
        for block in BLOCK.findall(text):
            folder = root.harness.folder()
            shutil.copytree(root.at("usr/share/doc/mapf/examples"), folder / "examples")
            for command, due in turns_of(block):
                words = re.sub(rf"\bmapf-({'|'.join(TOOLS)})\b", lambda found: root.tool(found[1]), command)
                path = {"PATH": f"{root.at('usr/bin')}:{os.environ['PATH']}"}
                ended = root.harness.run(["sh", "-c", f"{{ {words}\n}} 2>&1"], folder=folder, more=path)
                yield compared(f"{name}: {command}", words, ended.out.decode(errors="replace"), due)


def from_python(root: Root) -> Iterator[Outcome]:
    """The Python package, where Debian's Python looks for it. What it writes beside its modules goes with the package."""
    examples = root.at("usr/share/doc/mapf/examples")
    script = f"import mapf; print(mapf.usual_program()); print(mapf.check('{examples}/corner.map', '{examples}/corner.plan').cost)"
    variables = {"PYTHONPATH": str(root.at("usr/lib/python3/dist-packages")), "PYTHONDONTWRITEBYTECODE": ""}
    ended = root.harness.run([sys.executable, "-c", script], more=variables)
    due = Ended(0, f"{root.folder.resolve()}/usr/lib/mapf/mapf\n4\n".encode(), b"")
    yield compared("import mapf", script, ended, due)
    yield compared("what it wrote", script, root.at("usr/lib/mapf/tools/mapf/__pycache__").is_dir(), True)


def programs(root: Root) -> Iterator[Outcome]:
    """Where the unit of a robot and its settings say that things are, they are; and the robot and the tools start."""
    texts = [root.at(name).read_text() for name in ("usr/lib/systemd/system/mapf-robot@.service", "usr/share/doc/mapf/examples/robot.conf")]
    named = sorted({path for text in texts for path in re.findall(r"(?<![\w.])/(usr/(?:bin/mapf|lib/mapf|share/doc)[\w./-]*)", text)})
    yield compared("what the service names", "its unit and robot.conf", [it for it in named if not root.at(it.rstrip(".")).exists()], [])
    yield compared("how much it names", "its unit and robot.conf", (len(named) >= 3, "/opt/" in "".join(texts)), (True, False))
    for name in ("usr/lib/mapf/examples/fleet/robot.py", *(f"usr/bin/mapf-{name}" for name in TOOLS)):
        # Where this machine has Debian's Python, the file says itself that it is for that.
        python = [] if os.access(PYTHON, os.X_OK) else [sys.executable]
        ended = root.harness.run([*python, str(root.at(name)), "--help"])
        yield compared(f"/{name} --help", f"/{name} --help", (ended.status, ended.out[:6], ended.err), (0, b"usage:", b""))


def programs_of(root: Root) -> dict[str, list[str]]:
    """All that can be called: the program, its commands, the tools, and the programs among the examples."""
    program = str(root.at("usr/bin/mapf"))
    commands = re.findall(r"^  (\w+)  ", root.harness.run([program, "help"]).out.decode().partition("Options:")[0], re.MULTILINE)
    found = {"mapf": [program], **{f"mapf {name}": [program, name] for name in commands if name != "help"}}
    examples = (it for it in root.at("usr/lib/mapf/examples").rglob("*.py") if os.access(it, os.X_OK))
    scripts = [*(root.at(f"usr/bin/mapf-{name}") for name in TOOLS), *sorted(examples)]
    return {**found, **{path.name: [sys.executable, str(path)] for path in scripts}}


def manuals(root: Root) -> Iterator[Outcome]:
    """A manual page for the program, each command and each tool, which names its options, and which typesetters take without a warning."""
    program, folder = str(root.at("usr/bin/mapf")), root.at("usr/share/man/man1")
    names = re.findall(r"^  (\w+)  ", root.harness.run([program, "help"]).out.decode().partition("Options:")[0], re.MULTILINE)
    due = sorted({"mapf", *(f"mapf-{name}" for name in (*names, *TOOLS))})
    yield compared("manual pages", "ls", sorted(path.name.removesuffix(".1.gz") for path in folder.iterdir()), due)
    for name in names:
        text = page(folder / f"mapf-{name}.1.gz")
        help_text = root.harness.run([program, "help", name]).out.decode()
        lacking = [it for it in re.findall(r"^ +(?:-\w, )?(--[\w-]+)", help_text, re.MULTILINE) if it.replace("-", "\\-") not in text]
        yield compared(f"options in mapf-{name}.1", "a search", (lacking, f"mapf {name}" in text.replace("\\-", "-")), ([], True))
    for checker in (["groff", "-man", "-ww", "-Tutf8", "-z"], ["mandoc", "-T", "lint", "-W", "warning"]):
        if not shutil.which(checker[0]):
            yield Outcome(f"{checker[0]} on manual pages", lacks=checker[0])
            continue
        told = {name: root.harness.run(checker, page(folder / f"{name}.1.gz").encode()) for name in due}
        yield compared(f"{checker[0]} on manual pages", " ".join(checker), {name: it for name, it in told.items() if it.out or it.err}, {})


def page(path: pathlib.Path) -> str:
    return gzip.decompress(path.read_bytes()).decode("ascii")


def on_a_root(harness: Harness, deb: pathlib.Path) -> list[Outcome]:
    if os.geteuid() and not shutil.which("fakeroot"):
        return [Outcome("installed", lacks="root, and no fakeroot")]
    root = Root(harness, deb)
    outcomes = [compared("installed", "dpkg -i", root.installed.status, 0)]
    if root.installed.status:
        return [Outcome("installed", f"dpkg ended with {root.installed}")]
    same = root.at("usr/bin/mapf").read_bytes() == (ROOT / SHIPPED).read_bytes()
    outcomes.append(compared("the program", "the bytes of usr/bin/mapf", same, True))
    helps = {f"{name} --help": root.harness.run([*words, "--help"]).out.decode() for name, words in programs_of(root).items()}
    outcomes += [*shown(root), *packaged_pages.outcomes(root.folder, helps), *from_python(root), *programs(root), *manuals(root)]
    removed = root.dpkg("-r", "mapf")
    left = [str(it.relative_to(root.folder)) for it in root.folder.rglob("*") if "var" not in it.relative_to(root.folder).parts[:1]]
    outcomes.append(compared("removed", "dpkg -r mapf", (removed.status, left), (0, [])))
    return outcomes


# ---- where nothing is made


def spoiled(harness: Harness) -> list[Outcome]:
    """A program of dist/ that isn't the one that was proved, and no tool that makes packages."""
    root, target = checkout(harness), harness.folder()
    content = bytearray((root / SHIPPED).read_bytes())
    content[len(content) // 2] ^= 1
    (root / SHIPPED).write_bytes(content)
    ended = package(harness, root, target)
    due = Ended(1, b"", b"package: dist/x86_64-linux/mapf has not the SHA-256 that stands beside it\n")
    return [compared("another program", str(TOOL), (ended, os.listdir(target)), (due, []))]


def without_dpkg(harness: Harness) -> Outcome:
    target = harness.folder()
    ended = package(harness, ROOT, target, PATH=str(target))
    due = Ended(3, b"", b"package: there is no dpkg-deb here: Debian's package dpkg has it\n")
    return compared("no dpkg-deb", str(TOOL), (ended, os.listdir(target)), (due, []))


def outcomes(harness: Harness) -> Iterator[Outcome]:
    yield without_dpkg(harness)
    if not shutil.which("dpkg-deb"):
        yield Outcome("a package", lacks="dpkg-deb")
        return
    target = harness.folder()
    ended = package(harness, ROOT, target)
    found = NAME.fullmatch(ended.out.decode())
    due = Ended(0, f"package: {target}/mapf_VERSION_amd64.deb\n".encode(), b"")
    yield compared("a package", str(TOOL), ended if not found or ended.status or ended.err else due, due)
    if not found:
        return
    deb = pathlib.Path(found[1])
    yield from contents(harness, deb)
    digest = sum_of(target)
    tests = (lambda: made_elsewhere(harness, digest), lambda: on_a_root(harness, deb), lambda: made_of_a_time(harness), lambda: spoiled(harness))
    yield from side_by_side(tests)
