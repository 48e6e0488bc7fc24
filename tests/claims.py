"""Tapes that have to be new, or kept, and the plan beside them: which plans at hand it lets by, and when it says that a record was stored."""
import pathlib
from typing import Iterator, Optional

from answers import MOVING, NOISE, OTHER_AGENT, STANDING
from harness import Ended, Harness, Outcome, compared, shown
from texts import BEHIND, LANE, ONWARD, beside, plan

# What is claimed of a tape, the bytes of its file or None where there is none, and what is told, or where the agent is. A file is made of a new tape alone. Beside one
# that is to be kept its plan was kept.
CLAIMED: list[tuple[str, Optional[bytes], Ended]] = [
    ("new", None, Ended(0, b"at 1 0 done 0\n", b"")),
    ("new", b"", Ended(0, b"at 1 0 done 0\n", b"")),
    ("new", NOISE[:9], Ended(0, b"at 1 0 done 0\n", b"")),
    ("new", MOVING, Ended(1, b"", b"mapf: TapeExists\n")),
    ("new", MOVING + STANDING + NOISE[:9], Ended(1, b"", b"mapf: TapeExists\n")),
    ("new", NOISE, Ended(1, b"", b"mapf: TapeExists\n")),
    ("new", OTHER_AGENT, Ended(1, b"", b"mapf: TapeExists\n")),
    ("new", MOVING + STANDING + NOISE, Ended(1, b"", b"mapf: TooLong\n")),
    ("kept", None, Ended(1, b"", b"mapf: NoTape\n")),
    ("kept", b"", Ended(0, b"at 1 0 done 0\n", b"")),
    ("kept", NOISE[:9], Ended(0, b"at 1 0 done 0\n", b"")),
    ("kept", MOVING, Ended(0, b"between 1 0 2 0 done 0\n", b"")),
    ("kept", NOISE, Ended(1, b"", b"mapf: Damaged 0\n")),
]


def of_claims(harness: Harness) -> Iterator[Outcome]:
    """A tape that has to be new, or kept."""
    for claim, tape, due in CLAIMED:
        files = {**({} if tape is None else {"T": tape}), **({"T.plan": beside("-", BEHIND)} if claim == "kept" else {})}
        folder = harness.folder({"M": LANE.encode(), "P": BEHIND.encode(), **files})
        words = ["agent", "M", "P", "0", "T", "--tape", claim]
        name = f"a tape that is {claim}, and {'not there' if tape is None else tape.hex() or 'empty'}"
        ended, left = harness.mapf(words, folder=folder), left_of(folder)
        made = {} if due.status else {"T": tape or b"", "T.plan": beside("-" if len(tape or b"") < len(MOVING) else "+", BEHIND)}
        yield compared(name, shown(["mapf", *words]), (ended, left), (due, {**files, **made}))
        # Nor is a file touched before the agent is known.
        words[3] = "2"
        found = harness.mapf(words, folder=folder), left_of(folder)
        yield compared(f"{name}, of no agent", shown(["mapf", *words]), found, (Ended(1, b"", b"mapf: NoSuchAgent\n"), left))


def fault_beside(folder: pathlib.Path, before: Optional[bytes], at_hand: Optional[str], is_told: bool) -> str:
    """What is wrong with what is beside a tape whose agent failed in any way: it is as before, or has the plan at hand, if that is to be kept; with the mark where a
    first record was told of, and only where there is one. Empty where nothing is."""
    left, may_be = left_of(folder), {before}
    if at_hand is not None:
        unmarked, marked = beside("-", at_hand), beside("+", at_hand)
        may_be = {*(() if is_told else (before, unmarked)), *((marked,) if len(left["T"]) >= len(MOVING) else ())}
    return "" if left.get("T.plan") in may_be else f"beside the tape is {left.get('T.plan')!r}"


def left_of(folder: pathlib.Path) -> dict[str, bytes]:
    """What is left of a tape, and beside it."""
    return {path.name: path.read_bytes() for path in folder.glob("T*")}


# A plan from which BEHIND goes on, one that has the same cells and is longer, and plans of other chains.
FIRST, LONGER = plan("1 0 e", "0 0 e"), plan("1 0 e---", "0 0 e")
STRANGERS = [plan("1 0 -e", "0 0 --e"), BEHIND.replace("number 7", "number 8"), plan("1 0 e"), plan("1 0 e-", "0 0 -e")]
OTHER, EMPTIED, DAMAGED = (Ended(1, b"", f"mapf: {name}\n".encode()) for name in ("OtherPlan", "TapeEmptied", "PlanDamaged"))
AT, ON_THE_WAY = Ended(0, b"at 1 0 done 0\n", b""), Ended(0, b"between 1 0 2 0 done 0\n", b"")
# Texts that are no plan of a tape.
NO_PLANS = [b"", *(beside(mark, BEHIND)[:-1] for mark in "+-"), beside("*", BEHIND), beside("-", BEHIND) + b"\n", beside("-", f"\n{BEHIND}"), BEHIND.encode()]
NO_PLANS += [b"mapf-tape 1 -", b"mapf-tape 1 -\n", f"mapf-tape 2 -\n{BEHIND}".encode(), f"mapf-tape 1 -\r\n{BEHIND}".encode()]
# What is claimed of a tape, the bytes of its file, what is beside it or None, the plan at hand, what is told, and what is beside it then.
BESIDE: list[tuple[str, bytes, Optional[bytes], str, Ended, Optional[bytes]]] = [
    *(("kept", b"", beside("-", BEHIND), other, AT, beside("-", other)) for other in (BEHIND, ONWARD, FIRST, LONGER)),
    *(("kept", MOVING, beside(mark, BEHIND), other, ON_THE_WAY, beside("+", other)) for mark in "-+" for other in (BEHIND, ONWARD, FIRST, LONGER)),
    *(("kept", MOVING, beside(mark, BEHIND), other, OTHER, beside(mark, BEHIND)) for mark in "-+" for other in STRANGERS),
    *(("kept", b"", beside("+", BEHIND), other, EMPTIED, beside("+", BEHIND)) for other in (BEHIND, ONWARD, *STRANGERS)),
    ("kept", MOVING[:9], beside("+", BEHIND), BEHIND, EMPTIED, beside("+", BEHIND)),
    ("kept", MOVING, beside("-", ONWARD), FIRST, ON_THE_WAY, beside("+", FIRST)),
    ("kept", MOVING, beside("+", BEHIND), plan("1 0 =", "0 0 ="), Ended(1, b"", b"mapf: TooLong\n"), beside("+", BEHIND)),
    ("kept", NOISE, beside("-", BEHIND), ONWARD, Ended(1, b"", b"mapf: Damaged 0\n"), beside("-", BEHIND)),
    ("kept", b"", None, BEHIND, Ended(1, b"", b"mapf: NoTape\n"), None),
    ("kept", MOVING, None, BEHIND, Ended(1, b"", b"mapf: NoTape\n"), None),
    *(("kept", b"", text, BEHIND, DAMAGED, text) for text in NO_PLANS),
    ("new", b"", beside("-", STRANGERS[0]), BEHIND, AT, beside("-", BEHIND)),
    ("new", MOVING[:9], beside("-", BEHIND), ONWARD, AT, beside("-", ONWARD)),
    ("new", b"", beside("+", BEHIND), BEHIND, EMPTIED, beside("+", BEHIND)),
    ("new", b"", beside("+", STRANGERS[1]), BEHIND, EMPTIED, beside("+", STRANGERS[1])),
    ("new", b"", BEHIND.encode(), BEHIND, DAMAGED, BEHIND.encode()),
    ("new", MOVING, beside("+", BEHIND), BEHIND, Ended(1, b"", b"mapf: TapeExists\n"), beside("+", BEHIND)),
]


def of_plans_beside(harness: Harness) -> Iterator[Outcome]:
    """The plan beside a tape lets the plan at hand by, or not; it has its place where the first line is out, and the tape is left alone."""
    for number, (claim, tape, text, at_hand, due, after) in enumerate(BESIDE):
        files = {"M": LANE.encode(), "P": at_hand.encode(), "T": tape, "T.plan.new": b"left by a kill"}
        folder = harness.folder({**files, **({} if text is None else {"T.plan": text})})
        words = ["agent", "M", "P", "0", "T", "--tape", claim]
        ended, left = harness.mapf(words, folder=folder), left_of(folder)
        is_written = not due.status and (text is None or text[14:] != after[14:] or claim == "new")
        rest = {} if is_written else {"T.plan.new": files["T.plan.new"]}
        wanted = {"T": tape, **({} if after is None else {"T.plan": after}), **rest}
        yield compared(f"the plan beside a tape, {number}", shown(["mapf", *words]), (ended, left), (due, wanted))


def of_marks(harness: Harness) -> Iterator[Outcome]:
    """The mark is there when the first record is answered, and where a tape is emptied then it isn't taken for a new one; without the option nobody looks."""
    folder, words = harness.folder({"M": LANE.encode(), "P": BEHIND.encode()}), ["agent", "M", "P", "0", "T"]
    found = []
    for claim, given in (("new", b""), ("kept", b"finish\n"), ("kept", b"start\n"), ("kept", b"")):
        ended = harness.mapf([*words, "--tape", claim], given, folder)
        found.append((ended.status, ended.out.splitlines()[-1], (folder / "T.plan").read_bytes()))
    due = [b"at 1 0 done 0", b"refused NotMoving", b"moving 2 0", b"between 1 0 2 0 done 0"]
    yield compared("marks", shown(["mapf", *words]), found, [(0, line, beside("-" if at < 2 else "+", BEHIND)) for at, line in enumerate(due)])
    (folder / "T").write_bytes(b"")
    ended = [harness.mapf([*words, *claim], folder=folder) for claim in (["--tape", "kept"], ["--tape", "new"], [])]
    yield compared("a tape that was emptied", shown(["mapf", *words]), (ended, (folder / "T.plan").read_bytes()), ([EMPTIED, EMPTIED, AT], beside("+", BEHIND)))


def of_folders(harness: Harness) -> Iterator[Outcome]:
    """What is beside a tape and can't be opened is named by `--explain`, and why."""
    for claim in ("new", "kept"):
        folder, words = harness.folder({"M": LANE.encode(), "P": BEHIND.encode(), "T": b""}), ["agent", "M", "P", "0", "T", "--tape", claim, "--explain"]
        (folder / "T.plan").mkdir()
        due = Ended(3, b"", b"mapf: OpenFailed\nT.plan, to be read as the plan of a tape: it is a folder.\n")
        yield compared(f"a folder beside a {claim} tape", shown(["mapf", *words]), harness.mapf(words, folder=folder), due)


def of_refused_new_tapes(harness: Harness) -> Iterator[Outcome]:
    """A new tape that is refused for what is beside it leaves no file, and what is beside it stays."""
    for text, due in ((beside("+", BEHIND), EMPTIED), (BEHIND.encode(), DAMAGED), (b"", DAMAGED)):
        folder, words = harness.folder({"M": LANE.encode(), "P": BEHIND.encode(), "T.plan": text}), ["agent", "M", "P", "0", "T", "--tape", "new"]
        found = harness.mapf(words, folder=folder), left_of(folder)
        yield compared(f"a new tape beside {text[:13]!r}", shown(["mapf", *words]), found, (due, {"T.plan": text}))
    folder, words = harness.folder({"M": LANE.encode(), "P": BEHIND.encode()}), ["agent", "M", "P", "0", "T", "--tape", "new"]
    (folder / "T.plan").mkdir()
    ended = harness.mapf(words, folder=folder)
    yield compared("a new tape beside a folder", shown(["mapf", *words]), (ended, (folder / "T").exists()), (Ended(3, b"", b"mapf: OpenFailed\n"), False))
    folder = harness.folder({"M": LANE.encode(), "P": BEHIND.encode()})
    (folder / "T.plan.new").mkdir()
    ended = harness.mapf(words, folder=folder)
    yield compared("a folder in the place of the draft of a plan", shown(["mapf", *words]), ended, Ended(3, b"", b"mapf: TapeFailed\n"))


def outcomes(harness: Harness) -> Iterator[Outcome]:
    yield from of_claims(harness)
    yield from of_plans_beside(harness)
    yield from of_marks(harness)
    yield from of_folders(harness)
    yield from of_refused_new_tapes(harness)
