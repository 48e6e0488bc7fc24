"""Cuts the power behind each call of an agent, also where a call fails. What the agent answered has to stay, and it has to go on from what is left.

The library of faults.c notes what the program does to files. By a model of a disk, synced bytes stay where the power is cut. Of later changes, each
name of a file and the first bytes of each write may be kept or lost. The notes also show that an agent locks its tape before it reads or writes it."""
import dataclasses
import functools
import itertools
import pathlib
import shutil
from typing import Iterator, Optional

from answers import MOVING, NOISE, STANDING, lines
from faults import BESIDE, DRAFT, KEPT, NEW, TAPE, Case, Library
from harness import Ended, Harness, Outcome, compared, shown, side_by_side
from texts import BEHIND, LANE, ONWARD, beside, plan

# Each agent 0 is asked this, also when it goes on from what is left. Its answers depend on how many records it begins with.
ASKED = lines("start", "finish")
ANSWERS = [
    lines("at 1 0 done 0", "moving 2 0", "arrived 2 0"),
    lines("between 1 0 2 0 done 0", "refused AlreadyMoving", "arrived 2 0"),
    lines("at 2 0 done 1", "refused AtEnd", "refused NotMoving"),
]
RECORDS = (MOVING, STANDING)
FILES = {"M": LANE, "P": BEHIND, "Y": ONWARD}
PAIR = "type octile\nheight 1\nwidth 2\nmap\n..\n"
# Agents that give these answers where nothing fails: the words of each, the bytes of its tape, and what is beside the tape.
BEGUN: list[tuple[str, bytes, Optional[bytes]]] = [
    *(("agent M P 0 T", tape, None) for tape in (b"", NOISE[:9], MOVING, MOVING + NOISE[:9], MOVING + STANDING)),
    *((f"agent M P 0 T{NEW}", tape, None) for tape in (b"", NOISE[:9])),
    (f"agent M P 0 T{NEW}", b"", beside("-", ONWARD)),
    *((f"agent M P 0 T{KEPT}", tape, beside("-", BEHIND)) for tape in (b"", NOISE[:9], MOVING)),
    (f"agent M P 0 T{KEPT}", b"", beside("-", plan("1 0 e", "0 0 e"))),
    (f"agent M P 0 T{KEPT}", MOVING + NOISE[:9], beside("+", plan("1 0 e", "0 0 e"))),
]
# Calls of an agent that fail in turn.
FAILING = [*((call, "error") for call in ("open", "look", "lock", "read", "seek", "write", "sync", "rename")), ("write", "short"), ("write", "none")]
# An agent makes no more calls of a kind here.
MOST = 60
# How often the agent of a long walk goes to and fro.
ROUNDS = 500

# The bytes that are left of a tape, and of the file beside it: None where there is no file.
Left = tuple[Optional[bytes], Optional[bytes]]


@dataclasses.dataclass
class File:
    """A file with its bytes, and with the bytes that it had when it was synced last."""

    now: bytes
    synced: bytes

    def put(self, place: int, more: bytes) -> None:
        self.now = self.now[:place] + more + self.now[place + len(more) :]

    def left(self) -> set[bytes]:
        """The bytes that it may have where the power is cut."""
        return {self.now, *(self.now[:count] + self.synced[count:] for count in range(len(self.now) + 1))}


class Disk:
    """Files by their names, now and as their folder was synced last."""

    def __init__(self, tape: bytes, kept: Optional[bytes]) -> None:
        # A process that was killed may have left a tape unsynced. It synced the file beside the tape, and marked that behind the tape's first sync.
        is_marked = (kept or b"").startswith(beside("+", ""))
        self.names = {TAPE: File(tape, tape if is_marked else b""), **({} if kept is None else {BESIDE: File(kept, kept)})}
        self.synced = dict(self.names)

    def do(self, call: str, name: str, *rest: str) -> None:
        """Does what a line of the notes says: a sync is one of a file, or else of the folder."""
        if call == "open":
            self.names.setdefault(name, File(b"", b""))
        elif call == "write" and name in self.names:
            self.names[name].put(int(rest[0]), bytes.fromhex(rest[1]))
        elif call == "cut":
            self.names[name].now = self.names[name].now[: int(rest[0])]
        elif call == "sync" and name in (TAPE, BESIDE, DRAFT):
            self.names[name].synced = self.names[name].now
        elif call == "sync":
            self.synced = dict(self.names)
        elif call == "rename":
            self.names[rest[0]] = self.names.pop(name)
        elif call == "unlink":
            del self.names[name]

    def left_of(self, name: str) -> set[Optional[bytes]]:
        """The bytes that may stand under a name where the power is cut."""
        left: set[Optional[bytes]] = set()
        for file in (self.synced.get(name), self.names.get(name)):
            left |= {None} if file is None else file.left()
        return left


@dataclasses.dataclass(frozen=True)
class Cut:
    """Files that a cut may leave, and how many answers told of a record before it: None before the first line."""

    left: Left
    answers: Optional[int]


def cuts_of(notes: str, tape: bytes, kept: Optional[bytes]) -> Iterator[Cut]:
    """All that may be left behind each call that was noted, and before the first one."""
    disk, out = Disk(tape, kept), b""
    for note in ["", *notes.splitlines()]:
        call, *words = note.split(" ")
        if call == "write" and words[0] == "output":
            out += bytes.fromhex(words[2])
        elif call:
            disk.do(call, *words)
        answers = len([line for line in out.splitlines(keepends=True)[1:] if line.startswith((b"moving", b"arrived")) and line.endswith(b"\n")])
        for left in itertools.product(disk.left_of(TAPE), disk.left_of(BESIDE)):
            yield Cut(left, answers if b"\n" in out else None)


class Restarts:
    """Starts agents on what cuts leave, and once alone where several cuts leave the same."""

    def __init__(self, harness: Harness) -> None:
        self.harness = harness
        self.run = functools.lru_cache(None)(self.started)

    def started(self, words: str, left: Left) -> tuple[Ended, Optional[bytes]]:
        """How an agent ends, and what is beside its tape then."""
        files = {TAPE: left[0], BESIDE: left[1], **{name: text.encode() for name, text in FILES.items()}}
        folder = self.harness.folder({name: content for name, content in files.items() if content is not None})
        ended = self.harness.mapf(words.split(), ASKED, folder)
        kept = (folder / BESIDE).read_bytes() if (folder / BESIDE).exists() else None
        shutil.rmtree(folder)
        return ended, kept


def fault_of(restarts: Restarts, words: str, before: int, cut: Cut) -> str:
    """What is wrong with what a cut leaves, of an agent that began with so many records; empty where nothing is."""
    tape, kept = cut.left
    is_begun = cut.answers is not None
    if tape is None and is_begun and words.endswith((NEW, KEPT)):
        return "the tape was lost"
    records = len(tape or b"") // 10
    if b"".join(RECORDS)[: 10 * records] != (tape or b"")[: 10 * records]:
        return f"the tape has {(tape or b'').hex()}"
    if is_begun and records < before + cut.answers:
        return f"of {before + cut.answers} records that were told of the tape has {records}"
    if words.endswith((NEW, KEPT)) and is_begun and before + cut.answers and kept != beside("+", BEHIND):
        return f"a record was told of, and beside the tape is {kept!r}"
    # A new tape is asked for once more where its first line was not out.
    claim = KEPT if words.endswith(KEPT) or (words.endswith(NEW) and is_begun) else NEW if words.endswith(NEW) else ""
    again = f"agent M P 0 T{claim}"
    due = Ended(0, ANSWERS[records], b""), beside("+", BEHIND) if claim else kept
    found = restarts.run(again, cut.left)
    return "" if found == due else f"{again} does {found} by {cut.left}, and due was {due}"


def judged(restarts: Restarts, case: Case, ended: Ended, notes: str) -> str:
    """What is wrong with a run, or behind any cut of it; empty where nothing is."""
    calls = [call for call, name, *_ in map(str.split, notes.splitlines()) if name == TAPE and call != "open"]
    if calls and calls[0] != "lock":
        return f"the tape was not locked first, but {calls}"
    if not ended.out and {"write", "cut"} & set(calls):
        return f"the tape was written before the first line: {calls}"
    # Before it was opened a tape may be lost that was not synced: what it has is known when the first line is out.
    before = len(case.tape or b"") // 10
    return next(filter(None, (fault_of(restarts, case.words, before, cut) for cut in cuts_of(notes, case.tape or b"", case.beside))), "")


def noted(library: Library, case: Case, folder: pathlib.Path, call: str, kind: str, at: int) -> tuple[Ended, str, str]:
    """Runs an agent, and answers what it did, what was met, and what was noted of its calls."""
    notes = folder / "notes"
    notes.unlink(missing_ok=True)
    ended, met = library.run(case, folder, call, kind, at, {"FAULT_TRACE": str(notes)})
    return ended, met, notes.read_text() if notes.exists() else ""


def cuts_behind_calls(library: Library, restarts: Restarts, case: Case, call: str, kind: str) -> list[Outcome]:
    """Cuts the power behind each call of an agent of which each call of a kind fails in turn, and at last none."""
    folder = library.harness.folder({name: text.encode() for name, text in FILES.items()})
    outcomes: list[Outcome] = []
    for at in range(1, MOST):
        ended, met, notes = noted(library, case, folder, call, kind, at)
        ran = f"{shown(['mapf', *case.words.split()], case.given)}  where {call} {at} meets {kind}, of {met or 'nothing'}"
        fault = judged(restarts, case, ended, notes) if met or ended == case.due else f"{ended}, and due was {case.due}"
        name = f"power cuts of {case.words} with {(case.tape or b'').hex()}, {call} {at} with {kind}"
        outcomes.append(Outcome(name, fault and f"ran    {ran}\n    found  {fault}"))
        (folder / DRAFT).unlink(missing_ok=True)
        if not met:
            return outcomes
    return [*outcomes, Outcome(f"power cuts of {case.words}", f"{MOST} calls of {call}, and no end")]


def of_a_long_walk(library: Library) -> Iterator[Outcome]:
    """Whenever an answer is out, its record stays, and so do all records before it."""
    count = 2 * ROUNDS
    folder = library.harness.folder({"M": PAIR.encode(), "P": plan(f"0 0 {'ew' * ROUNDS}").encode()})
    case = Case("agent M P 0 T", Ended(0, b"", b""), lines("start", "finish") * count, b"")
    ended, _, notes = noted(library, case, folder, "sync", "count", 0)
    tape, disk, answers, wrong = (folder / TAPE).read_bytes(), Disk(b"", None), -1, []
    for note in notes.splitlines():
        call, name, *rest = note.split(" ")
        if (call, name) == ("write", "output"):
            answers += 1
            is_kept = disk.synced[TAPE].synced == tape[: 10 * answers]
            wrong += [] if is_kept else [answers]
        else:
            disk.do(call, name, *rest)
    name = f"the records of {count} moves are synced before their answers"
    yield compared(name, shown(["mapf", *case.words.split()]), (ended.status, answers, len(tape), wrong), (0, 2 * count, 20 * count, []))


def outcomes(harness: Harness) -> Iterator[Outcome]:
    if not shutil.which("cc"):
        yield Outcome("power cuts", lacks="cc")
        return
    library, restarts = Library(harness), Restarts(harness)
    yield library.built
    if library.built.fault:
        return
    yield from of_a_long_walk(library)
    cases = [Case(words, Ended(0, ANSWERS[len(tape) // 10], b""), ASKED, tape, kept) for words, tape, kept in BEGUN]
    calls = itertools.product(cases, FAILING)
    yield from side_by_side(functools.partial(cuts_behind_calls, library, restarts, case, *failing) for case, failing in calls)
