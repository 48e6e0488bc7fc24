"""Calls of the system that fail: each allocation, open, look at a file, lock, read, write, sync, seek, truncation and renaming that a command makes fails in turn,
until a run meets none. What failed is told, nothing else is blamed, and a tape goes on from what it has. Besides, it is counted how often memory is taken.

A small library in C that is loaded before the C library makes the calls fail: it is built here, and without `cc` this part is skipped."""
import dataclasses
import functools
import pathlib
import re
import shutil
import struct
from typing import Iterator, Mapping, Optional

import command_lines
import help_texts
from answers import ARRIVED_AS_OTHER, MOVING, NOISE, OTHER_AGENT, STANDING, answer, lines
from claims import fault_beside
from completing import ends_of, judged
from harness import ROOT, VERSION, Ended, Harness, Outcome, compared, shown, side_by_side
from texts import (
    BEHIND,
    CORNER,
    CORNER_WRITTEN,
    LANE,
    NOBODY,
    ONWARD,
    PROOF,
    ROW,
    ROW_WRITTEN,
    SHORT,
    SQUARE,
    SWAP,
    TASKS,
    TURN,
    WALL,
    beside,
    events,
    plan,
    scen,
)

FILES = {
    "M": LANE,
    "C": CORNER,
    "B": SHORT,
    "W": WALL,
    "Q": SQUARE,
    "P": BEHIND,
    "X": SWAP,
    "Y": ONWARD,
    "A": plan("1 0 ex", "0 0 e"),
    "O": NOBODY,
    "R": TURN,
    "S": ROW,
    "F": TASKS,
    "G": scen("m.map 3 1 1 0 2 0 1", "m.map 3 1 0 0 2 0 2"),
    "U": scen("w.map 3 1 0 0 2 0 2"),
    "D": scen("q.map 2 2 0 0 1 1 3"),
    "N": scen("m.map 3 2 x 1 1 0 2"),
    "E": events("start 1", "start 0", "finish 0", "say 0", "deliver 1 0", "start 1", "finish 1"),
    "E2": events("start 0", "finish 0", "say 0", "deliver 1 0", "say 1", version=2),
    "J": events("start 0", "jump"),
    "L": events("start 0", "tear 1 3"),
    "V": "mapf-events 3\n",
    "Z": PROOF,
    "Z9": PROOF.replace("2", "9"),
    # The tapes of all agents of P: one moves, and nothing is kept of the other yet.
    "J0": MOVING.decode(),
    "J1": "",
}
# Tapes that are read, with those of all agents, and what is told where one fails.
TAPES = {"J0": 0, "J1": 1}
# The tape is no file of the table: it is put there before each run.
TAPE = "T"
# What is beside it, and the name under which that is written.
BESIDE, DRAFT = "T.plan", "T.plan.new"
# The words by which a tape has to be a new one, or one that was kept.
NEW, KEPT = " --tape new", " --tape kept"
# The folder of a tape, which is opened to be synced where the tape has no record.
FOLDER = "."
# What is met where a file is looked up by its name, as a tape is before each record.
BY_NAME = "a name"
REPLIES = "refused Waits 0 1\nmoving 2 0\narrived 2 0\nsaid 0 460100000000000700000001\nheard 0 1\nmoving 1 0\narrived 1 0\n"
TELLING = "moving 2 0\narrived 2 0\nsaid 0 46020000000000070001000000000001\nheard 0 1\nsaid 1 46020001000000070001000000000001\n"


@dataclasses.dataclass(frozen=True)
class Case:
    """A command, all that it does where nothing fails, its input, and what its tape has before, and what is beside that."""

    words: str
    due: Ended
    given: bytes = b""
    tape: Optional[bytes] = None
    beside: Optional[bytes] = None

    @property
    def early(self) -> bytes:
        """What may be out before all that the command needs is read and taken: replies and answers, but not how a run ends."""
        if not self.words.startswith(("run ", "agent ")):
            return b""
        return re.split(rb"^(?:complete|blocked) ", self.due.out, maxsplit=1, flags=re.MULTILINE)[0]

    @property
    def files(self) -> set[str]:
        """Those that are named, and the tapes that have an agent's number in place of `%`."""
        named = {word.replace("%", agent) for word in self.words.split() for agent in "01"}
        return {name for name in named if name in FILES or name == TAPE}

    @property
    def at_hand(self) -> str:
        """The plan that is beside the tape when the first line is out."""
        return FILES[self.words.split()[2]]

    @property
    def is_written(self) -> bool:
        """Whether a file is written beside the tape."""
        return not self.due.err and (self.words.endswith(NEW) or (self.beside is not None and self.beside[14:] != self.at_hand.encode()))


# What `mapf status` says of the two agents of P.
MOVES, WAITS, KEEPS = "0 between 1 0 2 0 done 0 of 1\n", "1 at 0 0 done 0 of 1 waits 0 1\n", "root 0 keeps 1\n"
TURN_DEPS = "agents 4 moves 4 needs 4 rotations 1\nneed 0 0 1 1\nneed 1 0 2 1\nneed 2 0 3 1\nneed 3 0 0 1\nrotation 0 0 1 2 3\n"
CASES = [
    Case("map C", answer(0, CORNER_WRITTEN)),
    Case("map C --block 2 0", answer(0, "type octile\nheight 2\nwidth 3\nmap\n..@\n.@.\n")),
    Case("map C --block 3 0", answer(1, "NoSuchCell 3 0")),
    Case("map B", answer(1, "ShortRow 6")),
    Case("scen S", answer(0, ROW_WRITTEN)),
    Case("scen N", answer(1, "BadNumber 2 5")),
    Case("row C S 0", answer(0, "shortest 2 0 listed 2.00000000 agrees\n")),
    Case("row Q D 0", answer(1, "shortest 0 1 listed 3 differs\n")),
    Case("row W U 0", answer(1, "unreachable\n")),
    Case("row C S 1", answer(1, "NoSuchRow")),
    Case("row M S 0", answer(1, "SizeDiffers 0")),
    Case("rows C S", answer(0, "0 shortest 2 0 listed 2.00000000 agrees\nrows 1 agree 1 differ 0 unreachable 0 size 0\n")),
    Case("rows M S --straight", answer(1, "0 SizeDiffers\nrows 1 sum 0 greatest 0 unreachable 0 size 1\n")),
    Case("rows C S --from 2", answer(1, "NoSuchRow")),
    Case("bound M P", answer(0, "cost 2 of 2 makespan 1 of 1\n")),
    Case("bound M X", answer(1, "Swap 0 1 0")),
    Case("check M X --all", answer(1, "rejected Swap 0 1 0\nfaults 1 agents 2\n")),
    Case("check M P --bound", answer(0, "accepted agents 2 cost 2 of 2 makespan 1 of 1\n")),
    Case("check Q R --no-rotation", answer(1, "rejected Rotation 0 0 1 2 3\n")),
    Case("check M P", answer(0, "accepted agents 2 cost 2 makespan 1\n")),
    Case("check M X", answer(1, "rejected Swap 0 1 0\n")),
    Case("check M A", answer(1, "BadAct 4 12")),
    Case("check M P --json", answer(0, '{"accepted":true,"agents":2,"cost":2,"makespan":1}\n')),
    Case("check M X --json", answer(1, '{"accepted":false,"fault":"Swap 0 1 0"}\n')),
    Case("check M P --scen F", answer(0, "accepted agents 2 cost 2 makespan 1\n")),
    Case("check M P --scen G", answer(1, "rejected GoalDiffers 1\n")),
    Case("check M P --scen N", answer(1, "BadNumber 2 5")),
    Case("check M P --scen F --json", answer(0, '{"accepted":true,"agents":2,"cost":2,"makespan":1}\n')),
    Case("deps M P", answer(0, "agents 2 moves 2 needs 1 rotations 0\nneed 1 0 0 1\n")),
    Case("deps Q R", answer(0, TURN_DEPS)),
    Case("deps M X", answer(1, "Swap 0 1 0")),
    Case("deps M P --cell 1 0", answer(0, "visit 0 0 0\nvisit 1 1 1\n")),
    Case("path M P", answer(0, "0 1 0 0 0\n1 2 0 1 0\n2 2 0 1 0\n")),
    Case("path M X", answer(0, "0 0 0 1 0\n1 1 0 0 0\n")),
    Case("path Q P", answer(1, "BadMove 0 0")),
    Case("path M P --agent 1", answer(0, "0 0 0\n1 1 0\n")),
    Case("path M P --agent 2", answer(1, "NoSuchAgent")),
    Case("cut M P 1", answer(0, "mapf-plan 1\nnumber 7\nagents 2\nagent 1 0 e\nagent 0 0 e\n")),
    Case("cut M X 1", answer(1, "Swap 0 1 0")),
    Case("continues M P Y", answer(0, "continues from 2, adds 2 moves\n")),
    Case("continues M X Y", answer(1, "Swap 0 1 0")),
    Case("continues M Y X", answer(1, "Swap 0 1 0")),
    Case("continues M Y P", answer(1, "Departs 0 4")),
    Case("continues M A P", answer(1, "BadAct 4 12")),
    Case("continues M P A", answer(1, "BadAct 4 12")),
    Case("optimal M P Z", answer(0, "optimal cost 2 nodes 1\n")),
    Case("optimal M P Z --json", answer(0, '{"optimal":true,"cost":2,"bound":2,"nodes":1}\n')),
    Case("optimal M P Z9", answer(1, "refused LeafTooLow 4 2\n")),
    Case("optimal M X Z", answer(1, "Swap 0 1 0")),
    Case("optimal M P A", answer(1, "BadHeader 1")),
    Case("run M P E", answer(0, REPLIES)),
    Case("run M P E2", answer(0, TELLING)),
    Case("run M P J", Ended(1, b"moving 2 0\n", b"mapf: BadEvent 3\n")),
    Case("run M P V", answer(1, "NoHeader")),
    Case("run M X E", answer(1, "Swap 0 1 0")),
    Case("run M P E --complete", answer(0, f"{REPLIES}complete 0\n")),
    Case("run M P J --complete", Ended(1, b"moving 2 0\n", b"mapf: BadEvent 3\n")),
    Case("run M O L --complete", answer(0, "refused NoSuchAgent\nrefused NoSuchAgent\ncomplete 0\n")),
    Case("run Q R L --complete", answer(1, "refused Waits 1 1\narmed\nblocked 0\n")),
    Case("agent M P 2 T", answer(1, "NoSuchAgent"), tape=b""),
    Case("agent M X 0 T", answer(1, "Swap 0 1 0"), tape=b""),
    Case(
        "agent M P 0 T",
        Ended(
            0,
            lines("at 1 0 done 0", "moving 2 0", "said 460100000000000700000000", "arrived 2 0", "said 46020000000000070001000000000001", "at 2 0 done 1"),
            b"",
        ),
        lines("start", "say", "finish", "tell", "held"),
        b"",
    ),
    # A message that is refused for want of memory changes nothing, and comes once more.
    Case(
        "agent M P 1 T",
        Ended(
            0,
            lines(
                *("at 0 0 done 0", "heard 0 1", "heard 0 1", "said 46020001000000070001000000000001", "moving 1 0", "arrived 1 0"),
                *("said 460100010000000700000001", "said 46020001000000070002000000000001000100000001"),
            ),
            b"",
        ),
        lines(*["hear 46020000000000070001000000000001"] * 2, "tell", "start", "finish", "say", "tell"),
        NOISE[:9],
    ),
    Case("agent M P 0 T", Ended(0, lines("between 1 0 2 0 done 0", "arrived 2 0", "refused AtEnd"), b""), b"finish\nstart", MOVING + STANDING[:9]),
    Case("agent M P 0 T", Ended(0, lines("at 2 0 done 1", "said 460100000000000700000001"), b""), b"say\n", MOVING + STANDING),
    Case("agent M P 0 T --tape new", Ended(0, lines("at 1 0 done 0", "moving 2 0"), b""), b"start\n", b""),
    Case("agent M P 0 T --tape new", answer(1, "TapeExists"), b"start\n", MOVING + NOISE[:9]),
    Case("agent M P 0 T --tape kept", Ended(0, lines("between 1 0 2 0 done 0", "arrived 2 0"), b""), b"finish\n", MOVING, beside("+", BEHIND)),
    Case("agent M P 0 T --tape kept", Ended(0, lines("between 1 0 2 0 done 0", "arrived 2 0"), b""), b"finish\n", MOVING, beside("-", BEHIND)),
    Case("agent M Y 0 T --tape kept", Ended(0, lines("at 1 0 done 0", "moving 2 0"), b""), b"start\n", b"", beside("-", BEHIND)),
    Case("agent M P 0 T --tape kept", answer(1, "OtherPlan"), b"start\n", MOVING, beside("+", BEHIND.replace("number 7", "number 8"))),
    Case("agent M P 0 T --tape kept", answer(1, "TapeEmptied"), b"start\n", b"", beside("+", BEHIND)),
    Case("agent M P 0 T --tape new", answer(1, "TapeEmptied"), b"start\n", b"", beside("+", BEHIND)),
    Case("agent M P 0 T --tape kept", answer(1, "PlanDamaged"), b"start\n", b"", BEHIND.encode()),
    Case("agent M P 0 T", answer(1, "WrongAgent 0"), b"start\n", OTHER_AGENT),
    Case("agent M P 0 T", answer(1, "Damaged 1"), b"start\n", MOVING + NOISE),
    Case("agent M P 0 T", answer(1, "TooLong"), b"start\n", MOVING + STANDING + NOISE),
    Case("tape M P 0 T", answer(0, "at 1 0 done 0\nrecords 0 torn 0\n"), tape=b""),
    Case("tape M P 0 T", answer(0, "between 1 0 2 0 done 0\nrecords 1 torn 9\n"), tape=MOVING + STANDING[:9]),
    Case("tape M P 0 T", answer(1, "WrongAgent 0"), tape=OTHER_AGENT),
    Case("tape M P 2 T", answer(1, "NoSuchAgent"), tape=b""),
    Case("status M P J%", answer(0, f"{MOVES}{WAITS}{KEEPS}")),
    Case("status M X J%", answer(1, "Swap 0 1 0")),
    Case("lost M P J% 0", answer(0, "at 1 0 done 0\nat 2 0 done 1\n")),
    Case("lost M X J% 0", answer(1, "Swap 0 1 0")),
    Case("lost M P J% 1", answer(0, "at 0 0 done 0\n")),
    Case("lost M P J% 2", answer(1, "NoSuchAgent")),
    Case("handover M P J%", answer(0, "mapf-plan 1\nnumber 7\nagents 2\nagent 1 0 e\nagent 0 0 e\n")),
    Case("handover M X J%", answer(1, "Swap 0 1 0")),
    Case("anew M P J% 8", answer(0, "mapf-plan 1\nnumber 8\nagents 2\nagent 2 0 =\nagent 0 0 e\n")),
    Case("anew M P J% 8 --without 0", answer(0, "mapf-plan 1\nnumber 8\nagents 1\nagent 0 0 e\n")),
    Case("anew M P J% 7", answer(1, "SameNumber")),
    Case("anew M P J% 8 --without 2", answer(1, "NoSuchAgent")),
    Case("map -", answer(0, CORNER_WRITTEN), CORNER.encode()),
    Case("scen -", answer(1, "BadNumber 2 5"), FILES["N"].encode()),
    Case("--version", answer(0, VERSION)),
    Case("help deps", answer(0, help_texts.DEPS)),
    Case("check --help", answer(0, help_texts.CHECK)),
]
# Bad command lines; in a short test one that `clap` refuses, and those that are refused behind it.
BAD_LINES = [Case(words, Ended(2, b"", told)) for words, told in command_lines.WHOLE.items()]
FEW_BAD_LINES = [case for case in BAD_LINES if case.words in ("zzz", "row M S 1x", "agent M P 65536 T")]
# A run of which only its end is free: what completes it is judged, and then the same whenever nothing fails.
COMPLETED = "run M P L --complete"

# How each call fails; in a long test there are more ways.
KINDS = {
    "alloc": ["error"],
    "open": ["error"],
    "look": ["error"],
    "lock": ["error"],
    "read": ["error", "short"],
    "write": ["error", "on", "none", "short"],
    "sync": ["error"],
    "seek": ["error"],
    "truncate": ["error"],
    "rename": ["error"],
}
LONG_KINDS = {**KINDS, "alloc": ["error", "on"], "read": ["error", "on", "short"], "open": ["error", "on"]}
# No command makes nearly so many calls of one kind on these texts.
MOST = 2_000
# Events of a run that is to take no memory for any of them.
MANY_LINES = 10_000
# No agent makes more moves.
MOST_MOVES = 65_535

# The records that the tape of each agent comes to have, and where the agent is with as many of them.
RECORDS = {"0": (MOVING, STANDING), "1": (OTHER_AGENT, ARRIVED_AS_OTHER)}
STATES = {
    "0": ("at 1 0 done 0", "between 1 0 2 0 done 0", "at 2 0 done 1"),
    "1": ("at 0 0 done 0", "between 0 0 1 0 done 0", "at 1 0 done 1"),
}


class Library:
    """The library that makes calls fail, built, and the program over it."""

    def __init__(self, harness: Harness):
        self.harness = harness
        self.path = harness.folder() / "faults.so"
        command = ["cc", "-shared", "-fPIC", "-O1", "-w", "-o", str(self.path), str(ROOT / "tests" / "faults.c")]
        self.built = compared("the library is built", shown(command), harness.run(command), Ended(0, b"", b""))

    def run(self, case: Case, folder: pathlib.Path, call: str, kind: str, at: int, others: Mapping[str, str] = {}) -> tuple[Ended, str]:
        """Runs a command in which this call fails, or each one where `at` is 0. Answers what it did, and the file or the stream of the
        call; empty where the call was not met. What else is asked of the library stands in `others`."""
        met = folder / "met"
        met.unlink(missing_ok=True)
        if case.tape is not None:
            (folder / TAPE).write_bytes(case.tape)
            (folder / BESIDE).unlink(missing_ok=True)
            if case.beside is not None:
                (folder / BESIDE).write_bytes(case.beside)
        more = {"LD_PRELOAD": str(self.path), "FAULT_CALL": call, "FAULT_KIND": kind, "FAULT_AT": str(at), "FAULT_MET": str(met)}
        ended = self.harness.run([str(self.harness.program), *case.words.split()], case.given, folder, {**more, **others})
        return ended, met.read_text() if met.exists() else ""

    def count(self, words: str, folder: pathlib.Path, call: str, to: str, given: bytes = b"") -> tuple[Ended, str]:
        """Runs a command whose output goes to a file, counts its calls of a kind, and answers what it did, and how many they are."""
        met = folder / "met"
        met.unlink(missing_ok=True)
        more = {"LD_PRELOAD": str(self.path), "FAULT_CALL": call, "FAULT_KIND": "count", "FAULT_AT": "0", "FAULT_MET": str(met)}
        command = ["sh", "-c", f'exec "$0" "$@" >{to}', str(self.harness.program), *words.split()]
        return self.harness.run(command, given, folder, more), met.read_text() if met.exists() else ""


def begins(whole: bytes, text: bytes) -> bool:
    """Whether a text is the first lines of another one."""
    return whole.startswith(text) and text[-1:] in (b"", b"\n")


def is_fault(ended: Ended, name: str) -> bool:
    """Whether a command ended with this fault."""
    return (ended.status, ended.err) == (3, f"mapf: {name}\n".encode())


def is_read_failed(case: Case, met: str, ended: Ended) -> bool:
    """Whether a command said that a read failed, and before that answered the lines that had come. All of them come at once, and before the first
    answer of a run; an agent says where it is first, and does not answer a line that may go on."""
    given = case.early.splitlines(keepends=True)
    if met == "input":
        answered = (given[:1], given[: 1 + case.given.count(b"\n")])
    else:
        answered = ([], given if case.words.startswith("run ") and met == case.words.split()[3] else [])
    return is_fault(ended, "ReadFailed") and ended.out in [b"".join(it) for it in answered]


def is_store_failed(case: Case, ended: Ended) -> bool:
    """Whether an agent said of a move that it was not stored, and ended."""
    before = ended.out[: -len(b"refused StoreFailed\n")]
    is_told = ended.out.endswith(b"\nrefused StoreFailed\n") and begins(case.due.out, before)
    return (ended.status, ended.err) == (3, b"") and is_told and case.due.out[len(before) :].startswith((b"moving ", b"arrived "))


def is_refused_once(case: Case, ended: Ended) -> bool:
    """Whether an agent had no memory for one message, and else did what was due."""
    asked, due, wrote = case.given.splitlines(), case.due.out.splitlines(), ended.out.splitlines()
    if (ended.status, ended.err, len(wrote)) != (0, b"", len(due)) or len(asked) + 1 != len(due):
        return False
    differ = [line for line, one, other in zip([b"", *asked], wrote, due) if one != other]
    return len(differ) == 1 and differ[0].startswith((b"hear ", b"tell")) and wrote.count(b"refused OutOfMemory") == 1


def is_told_of_tapes(case: Case, failed: list[int], name: str, ended: Ended) -> bool:
    """Whether a command that reads all tapes tells that those of some agents have this fault: an agent that is left out may have any, and where one is lost all may."""
    words = case.words.split()
    if words[0] == "status":
        text = "".join(f"{agent} {name}\n" if agent in failed else said for agent, said in enumerate((MOVES, WAITS)))
        return ended == Ended(1, f"{text}{'' if 1 in failed else KEEPS}".encode(), b"")
    if words[0] == "lost":
        # A tape with a fault tells nothing: so agent 1 may have gone on behind agent 0.
        further = "at 1 0 done 1\n" if words[-1] == "1" and 0 in failed else ""
        return ended == answer(0, f"{case.due.out.decode()}{further}")
    blamed = [agent for agent in failed if words[-2:] != ["--without", str(agent)]]
    return ended == (answer(1, f"BadTape {blamed[0]}") if blamed else case.due)


def is_told_of_looks(case: Case, ended: Ended) -> bool:
    """Whether a command that reads tapes tells that some can't be opened, or plans beside them: which of them was looked at nobody knows."""
    command = case.words.split()[0]
    if command == "agent":
        return False
    if command == "tape":
        return is_fault(ended, "OpenFailed") and not ended.out
    some = ([], [0], [1], [0, 1])
    if any(failed and is_told_of_tapes(case, failed, "OpenFailed", ended) for failed in some):
        return True
    plans = ("".join(f"beside {agent} OpenFailed\n" for agent in failed).encode() for failed in some if failed)
    return command == "status" and any(ended.out.endswith(told) and is_status_of(case, ended, len(told)) for told in plans)


def is_status_of(case: Case, ended: Ended, more: int) -> bool:
    """Whether all but the last bytes is what is due, or tells of tapes that can't be opened."""
    rest = Ended(ended.status, ended.out[:-more], ended.err)
    failed = ([0], [1], [0, 1])
    return rest == Ended(1, case.due.out, b"") or any(is_told_of_tapes(case, agents, "OpenFailed", rest) for agents in failed)


def is_first_look(case: Case, call: str, met: str, at: int) -> bool:
    """Whether the call asks whether there is a new tape already, which is found out again when it is made."""
    return (call, met, at) == ("look", BY_NAME, 1) and case.words.endswith(NEW)


def is_allowed(case: Case, call: str, kind: str, met: str, ended: Ended) -> bool:
    """Whether a command did what it may do where this call failed, of the file or stream that was met."""
    due = case.due
    if kind == "short" or not met:
        return ended == due
    if call == "alloc":
        return ended == due or (is_fault(ended, "OutOfMemory") and begins(case.early, ended.out)) or is_refused_once(case, ended)
    if met == BY_NAME:
        return is_store_failed(case, ended) or is_told_of_looks(case, ended)
    if met in TAPES:
        # From a failure that goes on the tapes of later agents fail too.
        failed = [agent for tape, agent in TAPES.items() if tape == met or (kind == "on" and agent > TAPES[met])]
        return is_told_of_tapes(case, failed, "OpenFailed" if call == "open" else "TapeFailed", ended)
    if call in ("open", "look"):
        # What is beside the tape is opened to be marked too.
        return (is_fault(ended, "TapeFailed" if met in (FOLDER, DRAFT) else "OpenFailed") and not ended.out) or (
            met == BESIDE and (is_store_failed(case, ended) or (is_fault(ended, "TapeFailed") and not ended.out))
        )
    if kind == "on" and call == "write":
        # What would tell of the failure fails too.
        status = due.status if met == "error output" else 3
        return (ended.status, ended.err) == (status, b"") and due.out.startswith(ended.out)
    if met in (TAPE, BESIDE, DRAFT) or call == "sync":
        return (is_fault(ended, "TapeFailed") and not ended.out) or is_store_failed(case, ended)
    if call == "read":
        # A text that is known to be faulty is not read on.
        return is_read_failed(case, met, ended) or (bool(due.err) and ended == due)
    if met == "error output":
        return (ended.status, ended.out) == (due.status, due.out) and due.err.startswith(ended.err)
    return (ended.status, ended.err) == (3, b"mapf: WriteFailed\n") and due.out.startswith(ended.out)


def judged_tape(library: Library, case: Case, folder: pathlib.Path, out: bytes, seen: dict[bytes, Ended]) -> str:
    """What is wrong with a tape, behind what was told; empty where nothing is. It is opened again once for all runs that leave the same."""
    left = (folder / TAPE).read_bytes()
    agent = case.words.split()[3]
    is_kept = case.words.endswith((NEW, KEPT)) and not case.due.status
    fault = fault_beside(folder, case.beside, case.at_hand if is_kept else None, b"\nmoving " in out)
    if fault or case.due.status or case.words.startswith("tape "):
        return fault or ("" if left == case.tape else f"the tape was to stay as it was, and has {left.hex()}")
    records, before = left[: len(left) // 10 * 10], len(case.tape or b"") // 10
    told = before + len(re.findall(rb"^(?:moving|arrived) ", out, re.MULTILINE))
    if not b"".join(RECORDS[agent]).startswith(records) or len(records) // 10 not in (told, told + 1):
        return f"the tape was to have {told} records, or perhaps one more, and has {left.hex()}"
    if left not in seen:
        seen[left] = library.harness.mapf(case.words.replace(NEW, "").split(), folder=folder)
    due = Ended(0, f"{STATES[agent][len(records) // 10]}\n".encode(), b"")
    return "" if seen[left] == due else f"opened again it says {seen[left]}, and due was {due}"


def calls_of(library: Library, case: Case, call: str, kind: str) -> list[Outcome]:
    """Lets each call of a kind fail in turn, until none is met."""
    folder = library.harness.folder({name: text.encode() for name, text in FILES.items() if name in case.files})
    outcomes: list[Outcome] = []
    names: set[str] = set()
    seen: dict[bytes, Ended] = {}
    # That single bytes pass is also asked of all calls at once.
    for at in range(0 if kind == "short" else 1, MOST):
        ended, met = library.run(case, folder, call, kind, at)
        is_right = is_allowed(case, call, kind, met, ended) or (is_first_look(case, call, met, at) and ended == case.due)
        fault = "" if is_right else f"{ended}, which is not what it may do where it does {case.due} else"
        if case.tape is not None and not fault:
            fault = judged_tape(library, case, folder, ended.out, seen)
        ran = f"{shown(['mapf', *case.words.split()], case.given)}  where {call} {at} meets {kind}, of {met or 'nothing'}"
        outcomes.append(Outcome(f"{case.words}, {call} {at} with {kind}", fault and f"ran    {ran}\n    found  {fault}"))
        names.add(met)
        if at and not met:
            break
    else:
        outcomes.append(Outcome(f"{case.words}, {call} with {kind}", f"{MOST} calls, and no end"))
    outcomes.append(compared(f"{case.words}, what {call} meets not", case.words, names_due(case, call) - names, set()))
    return outcomes


def opened(case: Case) -> set[str]:
    """The files that a command opens: none where its words are none, and no tape where there is no agent for it."""
    if case.due.status == 2:
        return set()
    has_no_agent = case.due.err in (b"mapf: NoSuchAgent\n", b"mapf: SameNumber\n", b"mapf: Swap 0 1 0\n")
    return case.files - ({TAPE, *TAPES} if has_no_agent else set())


def written_beside(case: Case) -> set[str]:
    """What is written beside a tape: the draft of what is kept there, and the mark of a first record."""
    marks = case.words.endswith((NEW, KEPT)) and not case.due.err and (b"start\n" in case.given or case.beside == beside("-", case.at_hand))
    return ({DRAFT} if case.is_written else set()) | ({BESIDE} if marks else set())


def names_due(case: Case, call: str) -> set[str]:
    """Files and streams that a command at least has to do with by such a call."""
    if call == "alloc":
        return {"memory"}
    if call == "open":
        folder = {FOLDER} if case.words.startswith("agent ") and len(case.tape or b"") < 10 and not case.due.err else set()
        return folder | opened(case) | written_beside(case)
    if call == "read" and not case.due.err:
        return case.files | ({"input"} if case.given else set()) | ({BESIDE} if case.beside is not None else set())
    if call == "write":
        stores = {TAPE} if b"start\n" in case.given and not case.due.err else set()
        return stores | written_beside(case) | ({"output"} if case.due.out else set()) | ({"error output"} if case.due.err else set())
    if not case.words.startswith("agent "):
        return set()
    if call == "lock":
        return {TAPE} & opened(case)
    if call == "look":
        stores = {BY_NAME} if b"start\n" in case.given and not case.due.err else set()
        return stores | ({TAPE} & opened(case))
    if call == "rename":
        return {BESIDE} if case.is_written else set()
    is_synced = len(case.tape or b"") >= 10 or case.words.endswith(NEW)
    return {TAPE} if call == "sync" and is_synced and not case.due.err else set()


def completed(harness: Harness) -> tuple[Case, Outcome]:
    """The run whose end is free, and the outcome of its judgement."""
    folder = harness.folder({name: FILES[name].encode() for name in "MP"})
    _, fault = judged(harness, folder, FILES["L"], ends_of(FILES["P"]), False)
    (folder / "L").write_text(FILES["L"])
    return Case(COMPLETED, harness.mapf(COMPLETED.split(), folder=folder)), Outcome(COMPLETED, fault)


def growths(library: Library) -> Iterator[Outcome]:
    """However many events a run answers that have nothing to keep, it takes memory as often as for one, wherever its output goes."""
    harness = library.harness
    line, reply = "start 9", b"refused NoSuchAgent\n"
    for words in ("run M P E", "run M P E --complete"):
        counts = set()
        for lines_count in (1, MANY_LINES):
            folder = harness.folder({"M": LANE.encode(), "P": BEHIND.encode(), "E": events(*[line] * lines_count).encode()})
            for to in ("out", "/dev/null"):
                ended, count = library.count(words, folder, "alloc", to)
                name = f"{words}, {lines_count} events, to {to}"
                yield compared(name, shown(["mapf", *words.split()]), (ended, count.isdigit()), (Ended(0, b"", b""), True))
                counts.add(count)
            written = (folder / "out").read_bytes()
            yield compared(f"{words}, the replies to {lines_count} events", words, written[: len(reply) * lines_count] == reply * lines_count, True)
        yield compared(f"{words}, how often memory is taken", f"{words} with one event, and with {MANY_LINES}", sorted(counts), sorted(counts)[:1])


def messages_said(library: Library) -> Iterator[Outcome]:
    """The bytes of one message after another stand in the same memory, so for many messages it is taken for their list alone, which doubles."""
    words, counts = "run M P E", []
    for messages in (1, MANY_LINES):
        folder = library.harness.folder({"M": LANE.encode(), "P": BEHIND.encode(), "E": events(*["say 0"] * messages).encode()})
        ended, count = library.count(words, folder, "alloc", "out")
        last = f"said {messages - 1} 460100000000000700000000\n".encode()
        is_last = (folder / "out").read_bytes().endswith(last)
        yield compared(f"{words}, {messages} messages", words, (ended, is_last, count.isdigit()), (Ended(0, b"", b""), True, True))
        if not count.isdigit():
            return
        counts.append(int(count))
    grown = counts[1] - counts[0]
    yield compared("how often messages take memory", f"{words} with one message, and with {MANY_LINES}", grown <= MANY_LINES.bit_length(), True)


def syncs(library: Library) -> Iterator[Outcome]:
    """A tape is synced once where it is opened with a record, its folder where it is opened without one, the tape too where it has to be a new one, with what is
    beside it, and the folder once more; and a tape once behind each record that is written to it."""
    for moves in (1, MOST_MOVES):
        files = {"M": LANE.encode(), "P": plan(f"0 0 {'ew' * (moves // 2)}e").encode()}
        tape = b"".join(struct.pack(">BBIHH", 0x50, 1 + r % 2, 7, 0, (r + 1) // 2) for r in range(2 * moves))
        for records in sorted({0, 1, 2 * moves - 1, 2 * moves}):
            folder = library.harness.folder({**files, TAPE: tape[: 10 * records]})
            written = 2 * moves - records
            given = lines(*(("start", "finish")[r % 2] for r in range(records, 2 * moves)))
            name = f"syncs of a tape of {records} records to which {written} are written"
            ended, count = library.count("agent M P 0 T", folder, "sync", "out", given)
            ran = f"mapf agent M P 0 T  with {records} records on the tape, and the lines start and finish {written} times in all"
            due = (Ended(0, b"", b""), str(written + 1), True)
            yield compared(name, ran, (ended, count, (folder / TAPE).read_bytes() == tape), due)
    folder = library.harness.folder({name: FILES[name].encode() for name in "MP"})
    counted = library.count(f"agent M P 0 T{NEW}", folder, "sync", "out")
    yield compared("syncs of a new tape", f"mapf agent M P 0 T{NEW}", (counted, (folder / TAPE).exists()), ((Ended(0, b"", b""), "4"), True))


def outcomes(harness: Harness) -> Iterator[Outcome]:
    if not shutil.which("cc"):
        yield Outcome("calls of the system that fail", lacks="cc")
        return
    library = Library(harness)
    yield library.built
    case, outcome = completed(harness)
    yield outcome
    if library.built.fault or outcome.fault:
        return
    yield from growths(library)
    yield from messages_said(library)
    yield from syncs(library)
    kinds = LONG_KINDS if harness.is_long else KINDS
    for call, kind in ((call, kind) for call, each in kinds.items() for kind in each):
        # Where memory stays wanting, an agent that can't hear answers other things from there on.
        bad_lines = BAD_LINES if harness.is_long else FEW_BAD_LINES
        cases = [it for it in [*CASES, case, *bad_lines] if (call, kind) != ("alloc", "on") or b"hear " not in it.given]
        yield from side_by_side(functools.partial(calls_of, library, it, call, kind) for it in cases)
