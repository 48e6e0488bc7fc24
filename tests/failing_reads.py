"""Readers fail behind each byte of a text. Where the bytes before decide a fault, the program tells that fault, and else that the reader failed. And
large texts take few calls.

The library of faults.c makes the reads fail."""
import functools
import pathlib
import shutil
from typing import Iterator, Optional

from answers import MOVING, STANDING, answer, lines
from beginnings import EVENTS
from faults import TAPE, Case, Library
from harness import Ended, Harness, Outcome, compared, ended_as, shown, side_by_side
from texts import BEHIND, CORNER, CORNER_WRITTEN, LANE, PROOF, ROW, ROW_WRITTEN, events

FILES = {"M": LANE.encode(), "P": BEHIND.encode()}
# The text that is handed out.
TEXT = "T"
MAP_OF_TWO = "type octile\nheight 1\nwidth 2\nmap\n"
# Beginnings of texts, each with the command that reads it, and the fault that it decides: none where the next bytes have to decide.
BEGINNINGS: list[tuple[str, str, str]] = [
    ("map T", "typo", ""),
    ("map T", "typo\n", "BadHeader 1"),
    ("map T", "type octile\r\n", ""),
    ("map T", "type octile\nheight 0", ""),
    ("map T", "type octile\nheight 0\n", "BadNumber 2"),
    ("map T", "type octile\nheight 99999\n", "TooLarge 2"),
    ("map T", f"{MAP_OF_TWO}.", ""),
    ("map T", f"{MAP_OF_TWO}.\r", ""),
    ("map T", f"{MAP_OF_TWO}.\r.", "BadTerrain 5 2"),
    ("map T", f"{MAP_OF_TWO}.x", "BadTerrain 5 2"),
    ("map T", f"{MAP_OF_TWO}.\n", "ShortRow 5"),
    ("map T", f"{MAP_OF_TWO}..", ""),
    ("map T", f"{MAP_OF_TWO}..\r", ""),
    ("map T", f"{MAP_OF_TWO}...", "LongRow 5"),
    ("map T", f"{MAP_OF_TWO}..\n \r\n", ""),
    ("map T", f"{MAP_OF_TWO}..\n \r\nx", "TextAfter 7"),
    ("scen T", "x", ""),
    ("scen T", "x\n", "NoVersion"),
    ("scen T", "\n", ""),
    ("scen T", "version 1\nx", ""),
    ("scen T", "version 1\nx\n", "FieldCount 2"),
    ("scen T", "version 1\nx m 3 2 0 1 1 0 2", ""),
    ("scen T", "version 1\nx m 3 2 0 1 1 0 2\n", "BadNumber 2 1"),
    ("scen T", "version 1\n0 m 3 2 3 1 1 0 2\n", "OutOfGrid 2"),
    ("scen T", "version 1\n0 m 3 2 0 1 1 0 x\n", "BadLength 2"),
    ("scen T", "version 1\n0 m 3 2 0 1 1 0 2\n", ""),
    # A line has 4,096 bytes at the most.
    ("scen T", " " * 4096, ""),
    ("scen T", " " * 4097, "LineTooLong 1"),
    ("check M T", "mapf-plan 1\nnumber x", ""),
    ("check M T", "mapf-plan 1\nnumber x\n", "BadNumber 2"),
    ("run M P T", "x", ""),
    ("run M P T", "x\n", "NoHeader"),
    ("run M P T", "mapf-events 1", ""),
    ("run M P T", "mapf-events 1\n", ""),
    ("run M P T", "mapf-events 1\nx", ""),
    ("run M P T", "mapf-events 2\nx\n", "BadEvent 2"),
    ("run M P T", "mapf-events 1\n\n", "BadEvent 2"),
    # A line of events has 64 bytes at the most.
    ("run M P T", "0" * 64, ""),
    ("run M P T", "0" * 65, "NoHeader"),
    ("run M P T", f"mapf-events 1\n{'0' * 64}", ""),
    ("run M P T", f"mapf-events 1\n{'0' * 65}", "BadEvent 2"),
    ("optimal M P T", "mapf-proof 1\nobjective x", ""),
    ("optimal M P T", "mapf-proof 1\nobjective x\n", "BadHeader 2"),
]

# Agent 0 is asked these lines. The first of its answers says where it is.
ASKED = ["start", "say", "finish", "say", "held", "start", "hear 4601", "hear 4", "hear 460100000000000700000002", "hear 460100000000000800000001"]
ANSWERS = ["at 1 0 done 0", "moving 2 0", "said 460100000000000700000000", "arrived 2 0", "said 460100000000000700000001", "at 2 0 done 1", "refused AtEnd"]
ANSWERS += ["refused BadLength", "refused BadLine", "refused TooMany", "refused WrongPlan"]
# The side of a large map.
SIDE = 1_024
# Large texts are taken and written in pieces of at least so many bytes.
LEAST_PIECE = 4_096


def read(library: Library, words: str, text: bytes, kind: str, at: int, file: str = TEXT, tape: Optional[bytes] = None) -> tuple[Ended, str, bytes]:
    """Runs a command in which a read of a file fails. Answers what it did, what was met, and what the tape has then."""
    given = text if file == "input" else b""
    folder = library.harness.folder({**FILES, **({} if given else {TEXT: text})})
    ended, met = library.run(Case(words, Ended(0, b"", b""), given, tape), folder, "read", kind, at, {"FAULT_FILE": file})
    left = (folder / TAPE).read_bytes() if (folder / TAPE).exists() else b""
    shutil.rmtree(folder)
    return ended, met, left


def failed(out: bytes = b"") -> Ended:
    return Ended(3, out, b"mapf: ReadFailed\n")


def whole_texts() -> Iterator[tuple[str, str, list[bytes]]]:
    """Texts without a fault, with the command that reads each, and its output by how many lines have come; the last one is all."""
    for words, text, out in (
        ("map T", CORNER, CORNER_WRITTEN),
        ("scen T", ROW, ROW_WRITTEN),
        ("check M T", BEHIND, "accepted agents 2 cost 2 makespan 1\n"),
        ("optimal M P T", PROOF, "optimal cost 2 nodes 1\n"),
    ):
        yield words, text, [*[b""] * (text.count("\n") + 1), out.encode()]
    for version in (1, 2):
        text = events(*(event for event, *_ in EVENTS), version=version)
        replies = [lines(*(each[version] for each in EVENTS[:count])) if count else b"" for count in range(len(EVENTS) + 1)]
        yield "run M P T", text, [b"", *replies, replies[-1]]


def behind_each_byte(library: Library, words: str, text: str, outs: list[bytes]) -> list[Outcome]:
    """A reader that hands out a byte at a time fails behind each of them, also where it would tell that the text ends."""
    outcomes = []
    for count in range(len(text) + 1):
        ended, met, _ = read(library, words, text.encode(), "byte", count + 1)
        due = failed(outs[text[:count].count("\n")])
        ran = f"mapf {words}  where T fails behind {count} bytes of {text!r}"
        outcomes.append(compared(f"{words}, {count} bytes of {text[:14]!r}", ran, (ended, met), (due, TEXT)))
    ended, met, _ = read(library, words, text.encode(), "byte", len(text) + 2)
    return [*outcomes, compared(f"{words}, all of {text[:14]!r}", f"mapf {words}", (ended, met), (answer(0, outs[-1].decode()), ""))]


def of_beginnings(library: Library, words: str, text: str, fault: str) -> list[Outcome]:
    """Behind a beginning the reader fails: where the fault is decided it isn't called any more."""
    ended, met, _ = read(library, words, text.encode(), "byte", len(text) + 1)
    due = (answer(1, fault), "") if fault else (failed(), TEXT)
    return [compared(f"{words}, {text[:60]!r}, {len(text)} bytes", f"mapf {words}  where T fails behind {text!r}", (ended, met), due)]


def of_an_agent(library: Library) -> Iterator[Outcome]:
    """An agent answers the lines whose LF came, and no other one."""
    given = lines(*ASKED)
    for count in range(len(given) + 1):
        ended, met, tape = read(library, "agent M P 0 T", given, "byte", count + 1, "input", b"")
        ended_lines = given[:count].count(b"\n")
        stored = (MOVING + STANDING)[: 20 if ended_lines >= 3 else 10 * min(ended_lines, 1)]
        due = failed(lines(*ANSWERS[: ended_lines + 1])), "input", stored
        ran = shown(["mapf", "agent", "M", "P", "0", "T"], given)
        yield compared(f"an agent whose input fails behind {count} bytes", ran, (ended, met, tape), due)


def of_large_texts(library: Library) -> Iterator[Outcome]:
    """The readers and writers that count calls pass large pieces on whole."""
    text = "\n".join(["type octile", f"height {SIDE}", f"width {SIDE}", "map", *["." * SIDE] * SIDE, ""]).encode()
    folder: pathlib.Path = library.harness.folder({"M": text})
    most = len(text) // LEAST_PIECE + 2
    for call in ("read", "write"):
        ended, count = library.count("map M", folder, call, "out")
        yield ended_as(f"a large map, its calls of {call}", "mapf map M", ended, Ended(0, b"", b""))
        yield compared(f"how often a large map takes a {call}", f"mapf map M  of {len(text)} bytes", 1 < int(count or most + 1) <= most, True)


def outcomes(harness: Harness) -> Iterator[Outcome]:
    if not shutil.which("cc"):
        yield Outcome("reads that fail behind each byte", lacks="cc")
        return
    library = Library(harness)
    yield library.built
    if library.built.fault:
        return
    yield from side_by_side(functools.partial(behind_each_byte, library, *whole) for whole in whole_texts())
    yield from side_by_side(functools.partial(of_beginnings, library, *it) for it in BEGINNINGS)
    yield from of_an_agent(library)
    yield from of_large_texts(library)
