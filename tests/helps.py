"""Help, and the version: what holds of each text of help, whatever command it is of."""
import pathlib
import re
import shlex
import shutil
from typing import Iterator, Sequence

import help_texts
from harness import ROOT, VERSION, Ended, Harness, Outcome, compared, ended_as

SAMPLES = {"check": help_texts.CHECK, "deps": help_texts.DEPS}
# It has the help that the library gives it.
OF_LIBRARY = "help"
MOST_COLUMNS = 80
STATUSES = ["0", "1", "2", "3"]
# What asks for the help of the program, and of a command.
OF_PROGRAM = ("help", "-h", "--help", "-h map", "--help map M", "-h --version")
OF_COMMAND = ("help {}", "{} --help", "{} -h", "{} M --help")
# Help on faults; a word more, or another one, is none.
ON_FAULTS = (
    ("help faults", True),
    ("help BadTerrain", True),
    ("help badterrain", True),
    ("help faults map", False),
    ("help badterain", False),
    ("faults", False),
)


def section(text: str, heading: str) -> list[str]:
    """The lines under a heading."""
    found = re.search(rf"^{heading}:\n((?:  .*\n)+)", text, re.MULTILINE)
    return found[1].splitlines() if found else []


def explained(lines: Sequence[str]) -> dict[str, str]:
    """What the lines of a section have in front of a gap, and what they say behind it. A line
    that stands further in goes on with the one before."""
    found: dict[str, str] = {}
    for line in lines:
        begun = re.fullmatch(r" {2,6}(\S.*?)(?: {2,}(.*))?", line)
        if begun:
            found[begun[1]] = begun[2] or ""
    return found


def commands_of(text: str) -> dict[str, str]:
    """The commands that the help of the program lists, with what it says of each."""
    return explained(section(text, "Commands"))


def is_well_laid(text: str) -> bool:
    """Whether it fits on a terminal, as it may be copied from there. An example stays in a line."""
    lines = text.split("\n")
    in_columns = text.partition("\nExample:\n")[0].split("\n")
    return (
        lines[-1] == ""
        and lines[-2] != ""
        and all(it.isascii() and it.isprintable() and it == it.rstrip() for it in lines)
        and all(len(it) <= MOST_COLUMNS for it in in_columns)
    )


def unexplained(text: str) -> list[str]:
    """The words of the line of usage, and the options, that nothing is said of."""
    usage = re.search(r"^Usage: mapf (\S+)(.*)$", text, re.MULTILINE)
    if not usage:
        return ["Usage"]
    words, options = explained(section(text, "Arguments")), explained(section(text, "Options"))
    lacking = [it for it in usage[2].split() if it != "[OPTIONS]" and not words.get(it)]
    without = [it for it, about in options.items() if not about]
    return lacking + without + (["[OPTIONS]"] if bool(options) != ("[OPTIONS]" in usage[2]) else [])


def statuses(text: str) -> list[str]:
    return [it for it in explained(section(text, "Status")) if it.isdigit()]


def forms(text: str) -> list[str]:
    """What the lines of an answer look like, by its help, as regular expressions."""
    said = text.partition("Print help\n\n")[2].partition("\n\nStatus:")[0]
    listed = re.findall(r"^  (\S.*?)(?: {2,}|$)", said, re.MULTILINE)
    quoted = re.findall(r"`([^`]+)`", said)
    # Commands and options are quoted too.
    return [*map(as_pattern, listed), *(re.escape(it) for it in quoted if not it.startswith(("mapf ", "--")))]


def as_pattern(form: str) -> str:
    """`rejected FAULT` and `T X Y ..` as what may stand there."""
    words = form.partition(" ..")[0].split(" ")
    return " ".join(map(pattern_of_word, words)) + (".*" if " .." in form else "")


def pattern_of_word(word: str) -> str:
    if word.isupper():
        return r"\S+" if len(word) == 1 else ".+"
    return re.escape(word)


def example(harness: Harness, folder: pathlib.Path, name: str, text: str) -> Iterator[Outcome]:
    """The example of a help is a call of its command that is done without a word; lines below it
    are its answer. The first line of an answer is one that the help shows."""
    lines = [it.strip() for it in section(text, "Example")] or ["none"]
    words = shlex.split(lines[0])
    yield compared(f"an example of {name}", f"mapf help {name}", words[:2], ["mapf", name])
    ended = harness.mapf(words[1:], folder=folder)
    out = ended.out.decode()
    due = "".join(f"{it}\n" for it in lines[1:]) or out
    yield ended_as(f"the example of {name}", lines[0], ended, Ended(0, due.encode(), b""))
    first, known = out.partition("\n")[0], forms(text)
    is_known = not known or any(re.fullmatch(it, first) for it in known)
    due = first if is_known else f"one of {known}"
    yield compared(f"the answer to the example of {name}", lines[0], first, due)


def of_command(harness: Harness, name: str, about: str) -> tuple[str, list[Outcome]]:
    """The text of a command's help, and what is due of it."""
    ran = f"mapf help {name}"
    ended = harness.mapf(["help", name])
    text = ended.out.decode()
    found = [
        compared(f"{ran} answers", ran, (ended.status, ended.err), (0, b"")),
        compared(f"{ran}, in a line", ran, text.partition("\n")[0], about),
        compared(f"{ran} has a usage", ran, f"\nUsage: mapf {name} " in text, True),
        compared(f"{ran} explains each word", ran, unexplained(text), []),
        compared(f"{ran} is well laid out", ran, is_well_laid(text) or text, True),
    ]
    if name != OF_LIBRARY:
        for line in (it.format(name) for it in OF_COMMAND):
            same = harness.mapf(line.split())
            found.append(ended_as(f"{line}, as {ran}", f"mapf {line}", same, ended))
        found.append(compared(f"{ran} has all statuses", ran, statuses(text), STATUSES))
    return text, found


def of_commands(harness: Harness, listed: dict[str, str]) -> Iterator[Outcome]:
    folder = harness.folder()
    shutil.copytree(ROOT / "examples", folder / "examples")
    # The other tape of the fleet whose tapes are asked for.
    (folder / "robot1.tape").write_bytes(b"")
    for name, about in listed.items():
        text, found = of_command(harness, name, about)
        yield from found
        if name in SAMPLES:
            yield compared(f"the help of {name}", f"mapf help {name}", text, SAMPLES[name])
        if name != OF_LIBRARY:
            # In this order: a tape is made before it is read.
            yield from example(harness, folder, name, text)


def outcomes(harness: Harness) -> Iterator[Outcome]:
    whole = harness.mapf(["help"])
    text = whole.out.decode()
    for line in OF_PROGRAM:
        yield ended_as(line, f"mapf {line}", harness.mapf(line.split()), Ended(0, whole.out, b""))
    for line in ("--version", "-V", "--version map M"):
        due = Ended(0, VERSION.encode(), b"")
        yield ended_as(line, f"mapf {line}", harness.mapf(line.split()), due)
    yield compared("help is well laid out", "mapf help", is_well_laid(text) or text, True)
    yield compared("help has all statuses", "mapf help", statuses(text), STATUSES)
    listed = commands_of(text)
    are_there = {*SAMPLES, OF_LIBRARY} <= {*listed} and all(listed.values())
    yield compared("help lists commands", "mapf help", are_there or listed, True)
    yield from of_commands(harness, listed)
    for line, is_help in ON_FAULTS:
        ended = harness.mapf(line.split())
        wrote = (ended.status, bool(ended.out), bool(ended.err))
        due = (0, True, False) if is_help else (2, False, True)
        yield compared(line, f"mapf {line}", wrote, due)
