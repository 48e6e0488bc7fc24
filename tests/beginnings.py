"""Every beginning of texts and of messages: as far as it says all that is due it is read, and else it has the fault of what is due next.

What is due is told by plain readers of texts that are right as a whole, in which each number of a header has but one digit."""
from typing import Iterator

from answers import answer, asked, lines, talked
from harness import ROOT, Ended, Harness, Outcome
from texts import BEHIND, LANE, NOBODY, RELAY, TURN, VERTEX, events, plan, scen

EXAMPLES = ROOT / "examples"
MAPS = [(EXAMPLES / name).read_text() for name in ("corner.map", "plain.map", "terrain.map", "turn.map")]
SCENS = [scen("m.map 3 2 0 1 1 0 2", "m.map 3 2 2 1 0 0 3.0"), "version 1\n0 my.map 3 1 0 0 2 0 2.00\n\n1 m 1 1 0 0 0 0 0\n"]
PLANS = [RELAY, TURN, VERTEX, NOBODY, plan("10 0 =", "0 11 ee--ww", number=4294967295)]
PLANS += [(EXAMPLES / name).read_text() for name in ("behind.plan", "corner.plan", "swap.plan", "turn.plan")]

# Events of the plan BEHIND, each with its replies in runs of both versions.
EVENTS = [
    ("start 1", "refused Waits 0 1", "refused Waits 0 1"),
    ("start 0", "moving 2 0", "moving 2 0"),
    ("finish 0", "arrived 2 0", "arrived 2 0"),
    ("say 0", "said 0 460100000000000700000001", "said 0 46020000000000070001000000000001"),
    ("deliver 1 0", "heard 0 1", "heard 0 1"),
    ("tear 1 3", "armed", "armed"),
    ("start 1", "refused StoreFailed", "refused StoreFailed"),
    ("restart 1", "at 0 0 done 0", "at 0 0 done 0"),
]

# Messages of both versions that agent 1 of the plan BEHIND hears.
MESSAGES = [("460100000000000700000001", "heard 0 1"), ("46020000000000070001000000000001", "heard 0 1"), ("46020000000000070000", "heard 0 0")]


def first_of_map(whole: str, text: str) -> str:
    """What a beginning of a map text is answered with: the canonical text, or the fault of the first line that is not whole."""
    due, found = whole.rstrip("\n").split("\n"), text.split("\n")
    for number, line in enumerate(due, 1):
        has = found[number - 1] if number <= len(found) else ""
        if has != line:
            return f"BadHeader {number}" if number <= 4 else f"ShortRow {number}" if has else f"MissingRows {number}"
    return "".join(f"{line}\n" for line in due)


def first_of_scen(text: str) -> str:
    """What a beginning of a scenario text is answered with: its rows so far in canonical form, or the fault of the last one."""
    first, *rows = text.split("\n")
    if first != "version 1":
        return "NoVersion"
    written = ["version 1"]
    for number, row in enumerate(rows, 2):
        fields = row.split()
        if fields and len(fields) < 9:
            return f"FieldCount {number}"
        if fields and fields[8].endswith("."):
            return f"BadLength {number}"
        written += ["\t".join(fields)] if fields else []
    return "".join(f"{line}\n" for line in written)


def of_maps(harness: Harness) -> Iterator[Outcome]:
    for whole in MAPS:
        for length in range(len(whole) + 1):
            due = first_of_map(whole, whole[:length])
            yield asked(harness, "map T", {"T": whole[:length]}, answer(0 if due.endswith("\n") else 1, due), f"map: {length} bytes of {whole!r}")


def of_scenarios(harness: Harness) -> Iterator[Outcome]:
    for whole in SCENS:
        for length in range(len(whole) + 1):
            due = first_of_scen(whole[:length])
            yield asked(harness, "scen T", {"T": whole[:length]}, answer(0 if due.endswith("\n") else 1, due), f"scen: {length} bytes of {whole!r}")


def of_plans(harness: Harness) -> Iterator[Outcome]:
    for whole in PLANS:
        for length in range(len(whole)):
            due = f"Unfinished {whole[:length].count(chr(10)) + 1}"
            yield asked(harness, "check M P", {"M": LANE, "P": whole[:length]}, answer(1, due), f"check: {length} bytes of {whole!r}")


def of_events(harness: Harness) -> Iterator[Outcome]:
    for version in (1, 2):
        whole = events(*(event for event, *_ in EVENTS), version=version)
        for length in range(len(whole) + 1):
            text = whole[:length]
            count = text.count("\n")
            fault = "NoHeader" if not count else "" if text.endswith("\n") else f"Unfinished {count + 1}"
            due = Ended(1 if fault else 0, lines(*(each[version] for each in EVENTS[: max(count - 1, 0)])), lines(f"mapf: {fault}") if fault else b"")
            yield asked(harness, "run M P E", {"M": LANE, "P": BEHIND, "E": text}, due, f"run: {length} bytes of events of version {version}")


def of_messages(harness: Harness) -> Iterator[Outcome]:
    for digits, heard in MESSAGES:
        asks = [f"hear {digits[:count]}" for count in range(len(digits) + 1)]
        # A byte is two digits.
        replies = [*("refused BadLine" if count % 2 else "refused BadLength" for count in range(len(digits))), heard]
        yield talked(harness, 1, b"", lines(*asks), Ended(0, lines("at 0 0 done 0", *replies), b""), b"")


def outcomes(harness: Harness) -> Iterator[Outcome]:
    yield from of_maps(harness)
    yield from of_scenarios(harness)
    yield from of_plans(harness)
    yield from of_events(harness)
    yield from of_messages(harness)
