"""Faults explained to people: behind their line with `--explain`, and by `mapf help`."""
import re
from typing import Iterator, Mapping, Sequence

import low_leaves
from harness import ROOT, Ended, Harness, Outcome, compared, ended_as, has_terminals, shown, side_by_side
from texts import BEHIND, LANE, SWAP
from wrong_inputs import FILES, INPUTS, Wrong

# An explanation is short.
MOST_LINES, MOST_COLUMNS = 20, 140
# The pages that have tables of faults, and the heads of the columns in which these stand.
FAULT_TABLES = {ROOT / "docs" / "FORMATS.md": ("Fault", "Name"), ROOT / "docs" / "OPERATING.md": ("A robot drops",)}
# Where colour begins, for what is wrong and for what frames it, and where it ends.
MARKED, FRAMED, ENDED = b"\x1b[1;31m", b"\x1b[1;34m", b"\x1b[0m"
# Variables of the environment, and whether there is colour on a terminal.
COLOURED: list[tuple[Mapping[str, str], bool]] = [
    ({"TERM": "xterm"}, True),
    ({}, True),
    ({"TERM": "xterm", "NO_COLOR": ""}, True),
    ({"TERM": "xterm", "NO_COLOR": "1"}, False),
    ({"TERM": "xterm", "NO_COLOR": "0"}, False),
    ({"TERM": "dumb"}, False),
]
# What is to be done about some faults that operators see.
ADVICE = [
    ("NoTape", "Make no new one:"),
    ("TapeInUse", "end it first"),
    ("StoreFailed", "go by its first line"),
    ("Broken", "start it again on its tape"),
    ("WrongPlan", "a robot runs by another plan"),
    ("Waits", "ask again when a message was heard"),
    ("OpenFailed", "--explain"),
    ("Damaged", "make no new one, and do not drive"),
    ("PlansPart", "give all the same plan"),
    ("NotSigned", "with `--keys`"),
    ("NotItsTopic", "its own topic"),
]
# Faulty texts that come through a pipe, which can't be read twice: the words of the command, the text, and the place that is told. Formats
# share these faults, so the place shows that the fault knows which file it is of.
PIPED = [
    ("check lane /dev/stdin", "mapf-plan 2\n", "/dev/stdin:1, read as a plan:\n"),
    ("check /dev/stdin behind", "type hex\n", "/dev/stdin:1, read as a map:\n"),
    ("check lane /dev/stdin", f"{BEHIND}more\n", "/dev/stdin:6, read as a plan:\n"),
    ("run lane behind /dev/stdin", "mapf-events 1\nstart 0", "/dev/stdin:2, read as a list of events:\n"),
    ("run lane /dev/stdin none", "mapf-plan 1\nnumber 7\nagents 1\n", "/dev/stdin:4, read as a plan:\n"),
    ("continues lane /dev/stdin behind", "mapf-plan 1\nnumber x\n", "/dev/stdin:2, read as a plan:\n"),
    ("optimal lane behind /dev/stdin", "mapf-proof 2\n", "/dev/stdin:1, read as a proof:\n"),
]
NOT_SHOWN = "It can't be read once more here, so its line isn't shown.\n"

# How the texts of an example begin, and the command that reads what stands there.
HEADERS = {"type octile": "map", "version 1": "scen", "mapf-plan 1": "plan", "mapf-events": "events", "mapf-proof": "proof"}


def as_bytes(text: object) -> bytes:
    return text if isinstance(text, bytes) else str(text).encode("ascii")


def explained(harness: Harness, of: str, wrong: Wrong) -> Sequence[Outcome]:
    """All is as without `--explain`, and behind the line of the fault is what was due."""
    files = {**FILES, "wrong": wrong.wrong}
    folder = harness.folder({name: as_bytes(text) for name, text in files.items()})
    words = wrong.words.split()
    plain, more = harness.mapf(words, folder=folder), harness.mapf([*words, "--explain"], folder=folder)
    name, ran = f"{of}: {wrong.words}, {wrong.phrases[-1].strip()}", f"{shown(['mapf', *words, '--explain'])}  with wrong as {wrong.wrong!r:.200}"
    line = Ended(more.status, more.out, more.err[: len(plain.err)])
    said = more.err[len(plain.err) :].decode("ascii", "replace")
    lacks = [phrase for phrase in wrong.phrases if phrase not in said]
    return [
        ended_as(f"{name}, but for the explanation", ran, line, plain),
        compared(name, ran, said, "a text with " + repr(lacks)) if lacks else Outcome(name),
        compared(f"{name}, in few lines", ran, is_short(said), True),
    ]


def is_short(said: str) -> bool:
    """Whether the lines are few and none is long, and no byte moves the cursor."""
    lines = said.split("\n")
    return (
        0 < len(lines) <= MOST_LINES
        and said.endswith("\n")
        and all(len(line) <= MOST_COLUMNS and (line.isprintable() or not line) and line == line.rstrip() for line in lines if "|" not in line)
    )


def without_colour(err: bytes) -> bytes:
    """What stands between the escape sequences, each of which is ended before another one begins and on its line."""
    return re.sub(rb"(?:%s|%s)([^\x1b\n]*)%s" % tuple(map(re.escape, (MARKED, FRAMED, ENDED))), rb"\1", err)


def coloured(harness: Harness, of: str, wrong: Wrong) -> Sequence[Outcome]:
    """On a terminal an explanation has colours, and nothing else differs."""
    files = {**FILES, "wrong": wrong.wrong}
    words = [*wrong.words.split(), "--explain"]
    plain = harness.mapf(words, folder=harness.folder({name: as_bytes(text) for name, text in files.items()}))
    folder = harness.folder({name: as_bytes(text) for name, text in files.items()})
    seen = harness.on_a_terminal(words, folder, {"TERM": "xterm"})
    ran = f"{shown(['mapf', *words])}  on a terminal, with wrong as {wrong.wrong!r:.200}"
    return [ended_as(f"{of}: {wrong.words} on a terminal", ran, Ended(seen.status, seen.out, without_colour(seen.err)), plain)]


def colours(harness: Harness) -> Iterator[Outcome]:
    """What is wrong is marked, on a terminal alone, and not where colour is unwanted."""
    if not has_terminals():
        yield Outcome("colours", lacks="terminal")
        return
    folder = harness.folder({"M": as_bytes(LANE), "X": as_bytes(SWAP), "wrong": as_bytes(LANE.replace("type octile", "type hex"))})
    for words in (["map", "wrong", "--explain"], ["deps", "M", "X", "--explain"]):
        plain = harness.mapf(words, folder=folder)
        for variables, has_colour in COLOURED:
            seen = harness.on_a_terminal(words, folder, variables)
            name = f"mapf {' '.join(words)}  on a terminal with {dict(variables)}"
            yield ended_as(name, name, Ended(seen.status, seen.out, without_colour(seen.err)), plain)
            yield compared(f"{name}: what is marked, and what frames it", name, (MARKED in seen.err, FRAMED in seen.err), (has_colour, has_colour))
            yield compared(f"{name}: the line of the fault", name, seen.err.split(b"\n")[0], plain.err.split(b"\n")[0])
    yield from side_by_side([lambda of=of, wrong=wrong: coloured(harness, of, wrong) for of, all_of in INPUTS.items() for wrong in all_of])


def documented() -> set[str]:
    """The names of faults and refusals in the tables of the docs."""
    return set().union(*(faults_of(page.read_text(encoding="utf-8"), heads) for page, heads in FAULT_TABLES.items()))


def faults_of(page: str, heads: Sequence[str]) -> set[str]:
    """The names in the first columns of the tables that have one of these heads."""
    names: set[str] = set()
    column = None
    for line in page.splitlines():
        cells = [cell.strip() for cell in line.strip("|").split("|")] if line.startswith("|") else []
        if not cells:
            column = None
        elif cells[0] in heads:
            column = 0
        elif column == 0:
            names.update(re.findall(r"`([A-Z]\w+)[^`]*`", cells[0]))
    return names


def listed(text: str) -> set[str]:
    """The names in the list of all faults."""
    return set(re.findall(r"(?m)^  (\w+)", text))


def help_on_all(harness: Harness) -> Iterator[Outcome]:
    """The list has each fault of the docs, and each has a help of its own."""
    ended = harness.mapf(["help", "faults"])
    yield compared("the faults that help lists", "mapf help faults", sorted(listed(ended.out.decode("ascii"))), sorted(documented()))
    yield compared("the list of faults ends well", "mapf help faults", (ended.status, ended.err), (0, b""))
    yield compared("a name that is none", "mapf help BadTerain", harness.mapf(["help", "BadTerain"]).status, 2)
    for topic, name in (("FAULTS", "faults"), ("badterrain", "BadTerrain"), ("NOTAPE", "NoTape")):
        yield ended_as(f"help on {topic}", f"mapf help {topic}", harness.mapf(["help", topic]), harness.mapf(["help", name]))
    for name, phrase in ADVICE:
        yield compared(f"advice on {name}", f"mapf help {name}", phrase in harness.mapf(["help", name]).out.decode("ascii"), True)


def examples(text: str) -> Iterator[tuple[str, str, str]]:
    """Of each example in a help: what it is of, its text, and the answer."""
    for of, indented, answer in re.findall(r"(?m)^\w.*, of (.*)\n.*\nExample:\n((?:  .*\n)+)is answered by `(.*)`\.$", text):
        yield of, re.sub(r"(?m)^  ", "", indented), answer


def parts_of(of: str, text: str) -> dict[str, str]:
    """The texts that an example has, by what each is."""
    if of in ("a map", "a scenario", "a plan", "a list of events"):
        return {{"a map": "map", "a scenario": "scen", "a plan": "plan", "a list of events": "events"}[of]: text}
    pieces = re.split(r"(?m)^(?=type octile$|mapf-plan 1$|mapf-events|mapf-proof)", text)
    return {HEADERS[next(head for head in HEADERS if piece.startswith(head))]: piece for piece in pieces if piece}


def example_answer(harness: Harness, texts: dict[str, str]) -> str:
    """What the program says of these texts."""
    texts = {"map": LANE, "plan": BEHIND, **texts} if "map" not in texts and "scen" not in texts else texts
    folder = harness.folder({name: text.encode("ascii") for name, text in texts.items()})
    command = {"proof": "optimal", "events": "run", "plan": "deps", "scen": "scen", "map": "map"}
    last = next(name for name in command if name in texts)
    names = [name for name in ("map", "plan", "events", "proof", "scen") if name in texts]
    ended = harness.mapf([command[last], *names], folder=folder)
    said = ended.err.decode("ascii").removeprefix("mapf: ") or ended.out.decode("ascii").splitlines()[-1]
    return said.strip()


def help_on_one(harness: Harness, name: str) -> Sequence[Outcome]:
    """The help on a fault begins with its name, and the program answers its examples as it says."""
    ended = harness.mapf(["help", name])
    text = ended.out.decode("ascii")
    found = [compared(f"help on {name}", f"mapf help {name}", (ended.status, text.startswith(name), ended.err), (0, True, b""))]
    for of, example, answer in examples(text):
        # The last line of what `Unfinished` shows has no LF, which a page can't show.
        given = example[:-1] if answer == "Unfinished 2" else example
        found.append(compared(f"the example of {name}, of {of}", repr(given), example_answer(harness, parts_of(of, given)), answer))
    return found


def through_pipes(harness: Harness) -> Iterator[Outcome]:
    folder = harness.folder({"lane": LANE.encode(), "behind": BEHIND.encode(), "none": b"mapf-events 1\n"})
    for words, text, place in PIPED:
        answer = harness.mapf([*words.split(), "--explain"], text.encode(), folder)
        _, _, said = answer.err.decode().partition("\n")
        told = said.startswith(place + NOT_SHOWN)
        yield compared(f"{words}, through a pipe", shown(["mapf", *words.split(), "--explain"]), said if not told else "", "")


def outcomes(harness: Harness) -> Iterator[Outcome]:
    yield from through_pipes(harness)
    yield from help_on_all(harness)
    yield from side_by_side([lambda name=name: help_on_one(harness, name) for name in sorted(documented())])
    yield from side_by_side([lambda of=of, wrong=wrong: explained(harness, of, wrong) for of, all_of in INPUTS.items() for wrong in all_of])
    yield from low_leaves.outcomes(harness)
    yield from colours(harness)
