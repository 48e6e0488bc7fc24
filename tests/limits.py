"""Sizes up to the limits: maps, walks, scenarios, plans, runs and tapes as great as they may be, whose answers are known by how they are made.

Nothing gives up below its limit: the answer is there in full, and what is wrong at the last place alone is found there."""
import functools
import os
import pathlib
import re
import shutil
import struct
import subprocess
from typing import Callable, Iterator, Mapping, Sequence

from answers import answer
from harness import LONGEST, Ended, Harness, Outcome, compared, shown, side_by_side
from statuses import tape_of
from texts import BEHIND, LANE, PROOF, SQUARE, plan, scen

MOST_ACTS, MOST_AGENTS, MOST_ACTS_OF_ALL = 65_535, 10_000, 16_777_216
# Map sizes at the limit of 4,194,304 cells, or at that of a side.
GREATEST_MAPS = [(2_048, 2_048), (65_535, 64), (64, 65_535), (65_535, 1), (1, 65_535)]

Test = Callable[[Harness], list[Outcome]]


def asked(harness: Harness, name: str, words: str, files: Mapping[str, bytes], due: Ended, given: bytes = b"") -> Outcome:
    """Runs a command on files, which are gone afterwards, and compares all that it did; what is told of a difference is short."""
    folder = harness.folder(files)
    ended = harness.mapf(words.split(), given, folder)
    for file in files:
        os.remove(folder / file)
    if ended == due:
        return Outcome(name)
    where = {out: differing(getattr(ended, out), getattr(due, out)) for out in ("out", "err") if getattr(ended, out) != getattr(due, out)}
    return Outcome(name, f"ran    {shown(['mapf', *words.split()], given)}\n    wrote  status {ended.status}, due was {due.status}; {where}")


def differing(wrote: bytes, due: bytes) -> str:
    """Where two outputs begin to differ, and what stands there."""
    at = next((i for i, (one, other) in enumerate(zip(wrote, due)) if one != other), min(len(wrote), len(due)))
    begin = max(at - 60, 0)
    return f"{len(wrote)} bytes, {len(due)} due, other ones from byte {at}: {wrote[begin : at + 60]!r}, due {due[begin : at + 60]!r}"


def map_text(rows: Sequence[str], end: str = "\n") -> bytes:
    return end.join(["type octile", f"height {len(rows)}", f"width {len(rows[0])}", "map", *rows, ""]).encode()


# The greatest number of a column or a row that can be asked for.
MOST_COORDINATE = 65_535


def mixed_rows(width: int, height: int) -> list[str]:
    """Rows of all terrain, each a character further on than the one above."""
    terrain = ".GSW@OT"
    return [(terrain * (width // len(terrain) + 2))[y % len(terrain) :][:width] for y in range(height)]


def of_maps(harness: Harness) -> list[Outcome]:
    """The greatest maps, read and written, and one fault at their last places."""
    outcomes = []
    for width, height in GREATEST_MAPS:
        rows = mixed_rows(width, height)
        text, name = map_text(rows), f"a map of {width} x {height}"
        last, line = len(text) - 2, height + 4
        outcomes.append(asked(harness, name, "map M", {"M": map_text(rows, "\r\n")}, Ended(0, text, b"")))
        blocked = text[:last] + b"@\n"
        outcomes.append(asked(harness, f"{name}, its last cell", f"map M --block {width - 1} {height - 1}", {"M": text}, Ended(0, blocked, b"")))
        for cell in (f"{width} {height - 1}", f"{width - 1} {height}"):
            if int(cell.split()[0]) <= MOST_COORDINATE and int(cell.split()[1]) <= MOST_COORDINATE:
                outcomes.append(asked(harness, f"{name}, no cell", f"map M --block {cell}", {"M": text}, answer(1, f"NoSuchCell {cell}")))
        for spoiled, fault in (
            (text[:last] + b"x\n", f"BadTerrain {line} {width}"),
            (text[:last] + b"\n", f"ShortRow {line}" if width > 1 else ""),
            (text[: last + 1] + b"..\n", f"LongRow {line}"),
            (text[: last + 1 - width], f"MissingRows {line}"),
            (text + b"\n" * 100_000 + b".", f"TextAfter {line + 100_001}"),
        ):
            if fault:
                outcomes.append(asked(harness, f"{name}, {fault}", "map M", {"M": spoiled}, answer(1, fault)))
    zeros = "0" * 1_000_000
    for text, due in (
        (f"type octile\nheight {zeros}2\nwidth {zeros}1\nmap\n.\n.\n", answer(0, "type octile\nheight 2\nwidth 1\nmap\n.\n.\n")),
        (f"type octile\nheight {zeros}\nwidth 1\nmap\n", answer(1, "BadNumber 2")),
        (f"type octile\nheight 1\nwidth {zeros}65536\nmap\n", answer(1, "TooLarge 3")),
        (f"type octile\nheight {'9' * 1_000_000}\n", answer(1, "TooLarge 2")),
        (f"type octile\nheight 2\nwidth 1\nmap{' ' * 1_000_000}\n.\n.\n", answer(0, "type octile\nheight 2\nwidth 1\nmap\n.\n.\n")),
    ):
        outcomes.append(asked(harness, f"a long line: {text[:40]}", "map M", {"M": text.encode()}, due))
    return outcomes


def winding_rows(width: int, height: int, is_open: bool = True) -> list[str]:
    """A map whose rows are ways to and fro: between two of them only one end is free, now the right one, now the left one. The last of these
    ends may be closed."""
    rows = ["." * width if y % 2 == 0 else "@" * (width - 1) + "." if y % 4 == 1 else "." + "@" * (width - 1) for y in range(height)]
    if not is_open:
        rows[-2] = "@" * width
    return rows


def walled_rows(width: int, height: int, gap: int) -> list[str]:
    """An open map with a wall down its middle column that is free in one row alone."""
    middle = width // 2
    return ["." * width if y == gap else "." * middle + "@" + "." * (width - middle - 1) for y in range(height)]


def of_detours(harness: Harness, width: int, height: int) -> list[Outcome]:
    """Walks along the first row round a wall, by a gap that is near and by one in the last row: a little longer than the distance, and far longer."""
    middle = width // 2
    outcomes = []
    for gap in (height // 8, height - 1):
        # On each side of the wall it comes to the gap's row aslant, or as far as the width lets it, and then through the gap straight.
        sides = (middle - 1, width - middle - 2)
        diagonal = sum(min(side, gap) for side in sides)
        straight = sum(abs(side - gap) for side in sides) + 2
        files = {"M": map_text(walled_rows(width, height, gap)), "S": scen(f"m.map {width} {height} 0 0 {width - 1} 0 1").encode()}
        due = answer(1, f"shortest {straight} {diagonal} listed 1 differs\n")
        outcomes.append(asked(harness, f"round a wall by row {gap}, {width} x {height}", "row M S 0", files, due))
    return outcomes


def of_walks(harness: Harness, width: int, height: int) -> list[Outcome]:
    """Walks as long as a map lets them be: from the first cell to the last along all ways to and fro, and across an open map."""
    ways = (height + 1) // 2
    height = 2 * ways - 1
    steps = ways * (width - 1) + 2 * (ways - 1)
    end = (width - 1 if ways % 2 else 0, height - 1)
    straight, diagonal = abs(width - height), min(width, height) - 1
    outcomes = []
    for name, rows, goal, line in (
        ("to and fro", winding_rows(width, height), end, f"shortest {steps} 0 listed {steps} agrees\n"),
        ("a way that is closed", winding_rows(width, height, False), end, "unreachable\n"),
        ("across", ["." * width] * height, (width - 1, height - 1), f"shortest {straight} {diagonal} listed {steps} differs\n"),
    ):
        files = {"M": map_text(rows), "S": scen(f"m.map {width} {height} 0 0 {goal[0]} {goal[1]} {steps}").encode()}
        due = answer(0 if line.endswith("agrees\n") else 1, line)
        outcomes.append(asked(harness, f"{name}, {width} x {height}", "row M S 0", files, due))
    return outcomes


def of_scenarios(harness: Harness) -> list[Outcome]:
    """A hundred thousand rows, written, and single ones of them judged on an open map."""
    width, height, count = 400, 250, 100_000
    rows = [f"{n}\tmaps/{n}.map\t{width}\t{height}\t{n % width}\t{n // width}\t0\t0\t{n + 1_000}.25" for n in range(count)]
    text = "\n".join(["version 1", *rows, ""]).encode()
    outcomes = [
        asked(harness, "100,000 rows", "scen S", {"S": text}, Ended(0, text, b"")),
        asked(harness, "100,000 rows, the last one is bad", "scen S", {"S": text[:-3] + b"\n"}, answer(1, f"BadLength {count + 1}")),
        asked(harness, "a million lines without a row", "scen S", {"S": b"version 1\n" + b" \n" * 1_000_000 + b"x"}, answer(1, "FieldCount 1000002")),
    ]
    greatest = "version 1\n" + "4294967295\tmaps/arena.map\t65535\t65535\t65534\t0\t0\t65534\t9999999.999999999999\n" * count
    outcomes.append(asked(harness, "100,000 rows of the greatest numbers", "scen S", {"S": greatest.encode()}, answer(0, greatest)))
    files = {"M": map_text(["." * width] * height), "S": text}
    for n in (0, 9_999, 10_000, 65_535, 65_536, 99_999):
        x, y = n % width, n // width
        # No walk of this map is as long as a listed length.
        line = f"shortest {abs(x - y)} {min(x, y)} listed {n + 1_000}.25 differs\n"
        outcomes.append(asked(harness, f"row {n} of 100,000", f"row M S {n}", files, answer(1, line)))
    outcomes.append(asked(harness, "row 100,000 of 100,000", "row M S 100000", files, answer(1, "NoSuchRow")))
    return outcomes


def checked(harness: Harness, name: str, files: Mapping[str, bytes], verdict: str, words: str = "check M P") -> Outcome:
    return asked(harness, name, words, files, Ended(0 if verdict.startswith("accepted") else 1, f"{verdict}\n".encode(), b""))


def of_long_plans(harness: Harness) -> list[Outcome]:
    """Agents with as many acts as there may be, and what is wrong in the last step."""
    most = MOST_ACTS
    to_and_fro = "ew" * (most // 2)
    outcomes = []
    for agents, verdict in (
        ([f"0 0 {'-' * most}"], "accepted agents 1 cost 0 makespan 0"),
        ([f"0 0 {to_and_fro}e"], f"accepted agents 1 cost {most} makespan {most}"),
        ([f"0 0 {to_and_fro}w"], f"rejected BadMove 0 {most - 1}"),
        (["1 0 =", f"0 0 {'-' * (most - 1)}e"], f"rejected Vertex 0 1 {most} 1 0"),
        ([f"0 0 {'-' * (most - 1)}e", f"1 0 {'-' * (most - 1)}w"], f"rejected Swap 0 1 {most - 1}"),
        ([f"0 0 {'-' * most}", "3 0 ="], "rejected BadStart 1"),
        ([f"2 0 {'-' * most}", f"0 0 {to_and_fro}e"], f"accepted agents 2 cost {most} makespan {most}"),
    ):
        outcomes.append(checked(harness, verdict, {"M": LANE.encode(), "P": plan(*agents).encode()}, verdict))
    width = MOST_ACTS
    files = {"M": map_text(["." * width]), "P": plan(f"0 0 {'e' * (width - 1)}").encode()}
    outcomes.append(checked(harness, "65,535 cells on one way", files, f"accepted agents 1 cost {width - 1} makespan {width - 1}"))
    outcomes.append(asked(harness, "deps of one way", "deps M P", files, answer(0, f"agents 1 moves {width - 1} needs 0 rotations 0\n")))
    outcomes.append(asked(harness, "the cells of one way", "path M P", files, Ended(0, lines(*(f"{x} {x} 0" for x in range(width))), b"")))
    to_the_end = {"M": LANE.encode(), "P": plan("2 0 =", f"0 0 {to_and_fro}e").encode()}
    rows = lines(*(f"{time} 2 0 {time % 2} 0" for time in range(most + 1)))
    outcomes.append(asked(harness, f"where two agents are at {most + 1} times", "path M P", to_the_end, Ended(0, rows, b"")))
    for time, kept in ((most - 1, to_and_fro), (most, f"{to_and_fro}e"), (0, "=")):
        due = Ended(0, plan("2 0 =", f"0 0 {kept}").encode(), b"")
        outcomes.append(asked(harness, f"a plan of {most} acts, cut at {time}", f"cut M P {time}", to_the_end, due))
    for kept, due in (
        (to_and_fro, answer(0, f"continues from {most - 1}, adds 1 moves\n")),
        (f"{to_and_fro}-", answer(1, f"Departs 1 {most}")),
        (f"{to_and_fro}e", answer(0, f"continues from {most}, adds 0 moves\n")),
    ):
        files = {**to_the_end, "K": plan("2 0 =", f"0 0 {kept}").encode()}
        outcomes.append(asked(harness, f"a plan of {most} acts behind one of {len(kept)}", "continues M K P", files, due))
    outcomes += of_a_long_run(harness, to_the_end, to_and_fro)
    for acts, fault in ((f"{to_and_fro}n", f"BadMove 1 {most - 1}"), (f"{'-' * (most - 1)}w", f"BadMove 1 {most - 1}")):
        spoiled = {"M": LANE.encode(), "P": plan("2 0 =", f"0 0 {acts}").encode()}
        outcomes.append(asked(harness, f"a path with {fault}", "path M P", spoiled, answer(1, fault)))
    count = 60
    moved = count * most
    text = plan(*(f"0 {y} {to_and_fro}e" for y in range(count))).encode()
    files = {"M": map_text(["..."] * count), "P": text, "E": lines("mapf-events 1", f"start {count - 1}")}
    head = f"agents {count} moves {moved} needs 0 rotations 0"
    outcomes.append(asked(harness, f"deps of {moved} moves", "deps M P", files, Ended(0, lines(head), b"")))
    outcomes.append(asked(harness, f"a run of {moved} moves", "run M P E", files, Ended(0, lines(f"moving 1 {count - 1}"), b"")))
    for count in (most + 1, 1_000_000):
        files = {"M": LANE.encode(), "P": plan(f"0 0 {'-' * count}").encode()}
        outcomes.append(asked(harness, f"{count} acts", "check M P", files, answer(1, "TooMany 4")))
    return outcomes


def of_a_long_run(harness: Harness, files: Mapping[str, bytes], to_and_fro: str) -> list[Outcome]:
    """Tapes up to the longest, of an agent that goes to and fro and then has a last move, beside one that has none."""
    most, whole = len(to_and_fro) + 1, Ended(0, files["P"], b"")
    outcomes = []
    for records, cut, left in (
        (0, answer(0, plan("2 0 =", "0 0 =")), f"0 0 {to_and_fro}e"),
        (2 * most - 3, answer(0, plan("2 0 =", f"0 0 {to_and_fro}")), "0 0 e"),
        (2 * most - 2, answer(0, plan("2 0 =", f"0 0 {to_and_fro}")), "0 0 e"),
        (2 * most - 1, whole, "1 0 ="),
        (2 * most, whole, "1 0 ="),
    ):
        fleet = {**files, "0.tape": b"", "1.tape": tape_of(1, records)}
        state = f"at {(records // 2) % 2} 0" if records % 2 == 0 else f"between {(records // 2) % 2} 0 {(records // 2 + 1) % 2} 0"
        kept = "" if records % 2 else " arrived" if records == 2 * most else " ready"
        told = f"0 at 2 0 done 0 of 0 arrived\n1 {state} done {records // 2} of {most}{kept}\n"
        outcomes.append(asked(harness, f"the status of {records} records", "status M P %.tape", fleet, answer(0, told)))
        places = "".join(f"at {count % 2} 0 done {count}\n" for count in range(records // 2, most + 1))
        outcomes.append(asked(harness, f"places behind {records} records", "lost M P %.tape 1", fleet, answer(0, places)))
        outcomes.append(asked(harness, f"handed over with {records} records", "handover M P %.tape", fleet, cut))
        outcomes.append(asked(harness, f"begun anew with {records} records", "anew M P %.tape 8", fleet, answer(0, plan("2 0 =", left, number=8))))
    too_long = {**files, "0.tape": b"", "1.tape": tape_of(1, 2 * most) + b"P" * 10}
    outcomes.append(asked(harness, "a record more", "handover M P %.tape", too_long, answer(1, "BadTape 1")))
    return outcomes


def of_most_acts(harness: Harness) -> list[Outcome]:
    """Plans with as many acts in all as there may be: agents to and fro, each in a row of its own, and in the last steps the last ones alone do
    what is wrong. Nobody has more acts than the last one, so nothing comes later."""
    full, rest = divmod(MOST_ACTS_OF_ALL, MOST_ACTS)
    steps, other = MOST_ACTS, full - 1
    last = other - 1
    walk = "ew" * (steps // 2)
    map_bytes = map_text(["...."] * full + ["....", "..@."])

    def text(*last_two: str) -> bytes:
        agents = [f"0 {y + 2} {walk}e" for y in range(full - 2)]
        return plan(*agents, *last_two, f"0 1 {'-' * rest}").encode()

    moved = steps * full
    wait, to_middle = "-" * (steps - 1), "-" * (steps - 2) + "w"
    outcomes = []
    for last_two, verdict in (
        ((f"0 0 {walk}e", f"2 0 {walk}e"), f"accepted agents {full + 1} cost {moved} makespan {steps}"),
        ((f"0 0 {wait}e", f"2 0 {walk}w"), f"rejected Vertex {last} {other} {steps} 1 0"),
        ((f"0 0 {wait}e", f"2 0 {to_middle}w"), f"rejected Swap {last} {other} {steps - 1}"),
        ((f"0 0 {walk}e", f"2 0 {walk}n"), f"rejected BadMove {other} {steps - 1}"),
        ((f"0 0 {walk}e", f"2 {full + 1} {walk}e"), f"rejected BadStart {other}"),
    ):
        outcomes.append(checked(harness, f"{MOST_ACTS_OF_ALL} acts, {verdict}", {"M": map_bytes, "P": text(*last_two)}, verdict))
    files = {"M": map_bytes, "P": text(f"0 0 {walk}e", f"2 0 {walk}e")}
    outcomes.append(asked(harness, f"{MOST_ACTS_OF_ALL} acts, not cut", f"cut M P {steps}", files, Ended(0, files["P"], b"")))
    files["K"] = text(f"0 0 {walk}e", f"2 0 {walk}-")
    outcomes.append(asked(harness, f"{MOST_ACTS_OF_ALL} acts, and no more", "continues M P P", files, answer(0, f"continues from {steps}, adds 0 moves\n")))
    outcomes.append(asked(harness, f"{MOST_ACTS_OF_ALL} acts, the last another", "continues M K P", files, answer(1, f"Departs {other} {steps}")))
    for last_two, due in (
        ((f"0 0 {wait}e", f"2 0 {walk}w"), Ended(0, lines(*(f"{time} {2 + time % 2 if time < steps else 1} 0" for time in range(steps + 1))), b"")),
        ((f"0 0 {walk}e", f"2 0 {walk}n"), answer(1, f"BadMove {other} {steps - 1}")),
        ((f"0 0 {walk}e", f"2 {full + 1} {walk}e"), answer(1, f"BadStart {other}")),
    ):
        files = {"M": map_bytes, "P": text(*last_two)}
        outcomes.append(asked(harness, f"one path of {MOST_ACTS_OF_ALL} acts", f"path M P --agent {other}", files, due))
    if harness.is_long:
        files = {"M": map_bytes, "P": text(f"0 0 {walk}e", f"2 0 {walk}e"), "E": lines("mapf-events 1", f"start {other}", "start 0", f"start {full}")}
        counts = f"agents {full + 1} moves {moved} needs 0 rotations 0"
        outcomes.append(asked(harness, f"deps of {MOST_ACTS_OF_ALL} acts", "deps M P", files, Ended(0, lines(counts), b"")))
        visits = lines(*(f"visit {other} {k} {k}" for k in range(1, steps + 1, 2)))
        outcomes.append(asked(harness, f"who comes into a cell by {MOST_ACTS_OF_ALL} acts", "deps M P --cell 3 0", files, Ended(0, visits, b"")))
        replies = lines("moving 3 0", "moving 1 2", "refused AtEnd")
        outcomes.append(asked(harness, f"a run of {MOST_ACTS_OF_ALL} acts", "run M P E", files, Ended(0, replies, b"")))
        state = lines("at 2 0 done 0", "moving 3 0")
        outcomes.append(asked(harness, "an agent of them", f"agent M P {other} T", {**files, "T": b""}, Ended(0, state, b""), b"start\n"))
    together = plan(*[f"0 0 {'-' * MOST_ACTS}"] * full, f"0 0 {'-' * rest}").encode()
    outcomes.append(checked(harness, "all in one cell", {"M": map_bytes, "P": together}, "rejected Vertex 0 1 0 0 0"))
    too_many = text(f"0 0 {walk}e", f"2 0 {walk}e")[:-1] + b"-\n"
    outcomes.append(asked(harness, "an act more", "check M P", {"M": map_bytes, "P": too_many}, answer(1, f"TooMany {full + 4}")))
    return outcomes


def of_most_agents(harness: Harness) -> list[Outcome]:
    """As many agents as there may be, in pairs of cells of their own, and what is wrong with the last ones alone."""
    count, in_row = MOST_AGENTS, 100
    rows = ["." * (2 * in_row)] * (count // in_row)
    map_bytes = map_text([*rows, "@" * (2 * in_row)])
    starts = [(2 * (i % in_row), i // in_row) for i in range(count)]
    last, row = count - 1, count // in_row - 1
    right = 2 * in_row - 2

    def agents(*changed: str) -> list[str]:
        whole = [f"{x} {y} ewe" for x, y in starts]
        return [*whole[: count - len(changed)], *changed]

    def tasks(*changed: str, rows_in_all: int = count) -> bytes:
        whole = [f"m.map {2 * in_row} {len(rows) + 1} {x} {y} {x + 1} {y} 1" for x, y in starts]
        return scen(*[*whole[: count - len(changed)], *changed][:rows_in_all]).encode()

    accepted = f"accepted agents {count} cost {3 * count} makespan 3"
    outcomes = []
    for changed, verdict in (
        ((), accepted),
        ((f"{right} {row} --w",), f"rejected Vertex {last - 1} {last} 3 {right - 1} {row}"),
        ((f"{right - 2} {row} --e", f"{right} {row} -ww"), f"rejected Swap {last - 1} {last} 2"),
        ((f"{right} {row} --s",), f"rejected BadMove {last} 2"),
        ((f"{right} {row + 1} ---",), f"rejected BadStart {last}"),
    ):
        outcomes.append(checked(harness, f"{count} agents, {verdict}", {"M": map_bytes, "P": plan(*agents(*changed)).encode()}, verdict))
        if "Bad" in verdict:
            fault = verdict.partition(" ")[2]
            outcomes.append(asked(harness, f"paths with {fault}", "path M P", {"M": map_bytes, "P": plan(*agents(*changed)).encode()}, answer(1, fault)))
    plan_bytes = plan(*agents()).encode()
    cells = [" ".join([str(time), *(f"{x + time % 2} {y}" for x, y in starts)]) for time in range(4)]
    files = {"M": map_bytes, "P": plan_bytes}
    outcomes.append(asked(harness, f"where {count} agents are", "path M P", files, Ended(0, lines(*cells), b"")))
    outcomes.append(asked(harness, f"agent {last} of them", f"path M P --agent {last}", files, Ended(0, lines(*(f"{time} {starts[last][0] + time % 2} {starts[last][1]}" for time in range(4))), b"")))
    outcomes.append(asked(harness, f"agent {count} of them", f"path M P --agent {count}", files, answer(1, "NoSuchAgent")))
    as_json = f'{{"accepted":true,"agents":{count},"cost":{3 * count},"makespan":3}}\n'
    outcomes.append(asked(harness, f"{count} agents as JSON", "check M P --json", {"M": map_bytes, "P": plan_bytes}, answer(0, as_json)))
    size = f"m.map {2 * in_row} {len(rows) + 1}"
    for text, verdict in (
        (tasks(), accepted),
        (tasks(f"m.map {2 * in_row} {len(rows) + 2} {right} {row} {right + 1} {row} 1"), f"rejected SizeDiffers {last}"),
        (tasks(f"{size} {right + 1} {row} {right + 1} {row} 1"), f"rejected StartDiffers {last}"),
        (tasks(f"{size} {right} {row} {right} {row} 1"), f"rejected GoalDiffers {last}"),
        (tasks(rows_in_all=last), "rejected TooFewRows"),
    ):
        files = {"M": map_bytes, "P": plan_bytes, "S": text}
        outcomes.append(checked(harness, f"{count} agents and rows, {verdict}", files, verdict, "check M P --scen S"))
    files = {"M": LANE.encode(), "P": plan(*["0 0 ="] * (count + 1)).encode()}
    return [*outcomes, asked(harness, "an agent more", "check M P", files, answer(1, "TooMany 3"))]


def message(sender: int, *entries: tuple[int, int]) -> str:
    """A message of version 2 of the plan 7, in digits."""
    return (struct.pack(">BBHIH", 0x46, 2, sender, 7, len(entries)) + b"".join(struct.pack(">HI", *entry) for entry in entries)).hex()


def said(sender: int, done: int) -> str:
    """A message of version 1 of the plan 7, in digits."""
    return struct.pack(">BBHII", 0x46, 1, sender, 7, done).hex()


def lines(*texts: str) -> bytes:
    return "\n".join([*texts, ""]).encode()


def of_most_tapes(harness: Harness, files: Mapping[str, bytes]) -> list[Outcome]:
    """Of as many agents that go east at once the last half have begun."""
    count = MOST_AGENTS
    begun = count // 2
    fleet = {**files, **{f"{agent}.tape": tape_of(agent, 0 if agent < begun else 1 if agent == begun else 2) for agent in range(count)}}
    left = [f"{agent} 0 e" if agent < begun else f"{agent + 1} 0 =" for agent in range(count)]
    at = [*(f"{agent} at {agent} 0 done 0 of 1 waits {agent + 1} 1" for agent in range(begun)), f"{begun} between {begun} 0 {begun + 1} 0 done 0 of 1"]
    at += [f"{agent} at {agent + 1} 0 done 1 of 1 arrived" for agent in range(begun + 1, count)]
    outcomes = [asked(harness, f"the status of {count} agents", "status M P %.tape", fleet, Ended(0, lines(*at, f"root {begun} keeps {begun}"), b""))]
    outcomes.append(asked(harness, f"one of {count} agents is lost", "lost M P %.tape 0", fleet, Ended(0, lines("at 0 0 done 0"), b"")))
    outcomes.append(asked(harness, f"another of {count} agents is lost", f"lost M P %.tape {begun}", fleet, Ended(0, lines(f"at {begun} 0 done 0", f"at {begun + 1} 0 done 1"), b"")))
    outcomes.append(asked(harness, f"agent {count} is lost", f"lost M P %.tape {count}", files, answer(1, "NoSuchAgent")))
    outcomes.append(asked(harness, f"{count} agents are handed over", "handover M P %.tape", fleet, Ended(0, files["P"], b"")))
    for words, kept in (("", left), (" --without 0", left[1:]), (f" --without {count - 1}", left[:-1])):
        due = answer(0, plan(*kept, number=8))
        outcomes.append(asked(harness, f"{count} agents begin anew{words}", f"anew M P %.tape 8{words}", fleet, due))
    outcomes.append(asked(harness, f"agent {count} is carried off", f"anew M P %.tape 8 --without {count}", files, answer(1, "NoSuchAgent")))
    return outcomes


def of_a_line(harness: Harness) -> list[Outcome]:
    """As many agents as there may be, one behind the other, all of which go east at once: who waits for whom, and what the last ones say."""
    count = MOST_AGENTS
    last = count - 1
    files = {"M": map_text(["." * (count + 1)]), "P": plan(*(f"{x} 0 e" for x in range(count))).encode()}
    cut = Ended(0, plan(*(f"{x} 0 =" for x in range(count))).encode(), b"")
    needs = lines(f"agents {count} moves {count} needs {last} rotations 0", *(f"need {i} 0 {i + 1} 1" for i in range(last)))
    outcomes = [asked(harness, f"deps of {count} agents", "deps M P", files, Ended(0, needs, b""))]
    outcomes.append(asked(harness, f"a plan of {count} agents, cut at 0", "cut M P 0", files, cut))
    outcomes += of_most_tapes(harness, files)
    both = {**files, "K": cut.out}
    outcomes.append(asked(harness, f"a plan of {count} agents behind their starts", "continues M K P", both, answer(0, f"continues from 0, adds {count} moves\n")))
    turns = [
        ("start 0", "refused Waits 1 1"),
        (f"start {last - 1}", f"refused Waits {last} 1"),
        (f"start {last}", f"moving {last + 1} 0"),
        (f"finish {last}", f"arrived {last + 1} 0"),
        (f"say {last}", f"said 0 {said(last, 1)}"),
        (f"deliver {last - 1} 0", f"heard {last} 1"),
        (f"start {last - 1}", f"moving {last} 0"),
        (f"restart {last}", f"at {last + 1} 0 done 1"),
        *((f"start {agent}", "refused NoSuchAgent") for agent in (count, 65_535, 65_536)),
    ]
    events, replies = zip(*turns)
    files["E"] = lines("mapf-events 1", *events)
    outcomes.append(asked(harness, f"a run of {count} agents", "run M P E", files, Ended(0, lines(*replies), b"")))
    # The first agent hears of all others in one message, and tells of all.
    others = [(agent, 1) for agent in range(1, count)]
    given = lines(f"hear {message(last, *others)}", "tell", "start", "finish", "tell")
    due = lines("at 0 0 done 0", f"heard {last} 1", f"said {message(0, *others)}", "moving 1 0", "arrived 1 0", f"said {message(0, (0, 1), *others)}")
    outcomes.append(asked(harness, f"agent 0 hears of {count - 1} others", "agent M P 0 T", {**files, "T": b""}, Ended(0, due, b""), given))
    due = lines(f"at {last} 0 done 0", f"moving {last + 1} 0", f"said {said(last, 0)}")
    outcomes.append(asked(harness, f"agent {last}", f"agent M P {last} T", {**files, "T": b""}, Ended(0, due, b""), lines("start", "say")))
    outcomes.append(asked(harness, f"agent {count}", f"agent M P {count} T", {**files, "T": b""}, answer(1, "NoSuchAgent")))
    return outcomes


def of_hearings(harness: Harness, version: int) -> list[Outcome]:
    """A run in which the first of as many agents as there may be hears of all others, by a message of each. At version 2 it then tells another
    one of all at once, and hears as many entries again, all of which it knows."""
    count, in_row = MOST_AGENTS, 100
    cells = [(2 * (i % in_row), i // in_row) for i in range(count)]
    gone = [(i, 1) for i in range(count)]

    def own(agent: int) -> str:
        return said(agent, 1) if version == 1 else message(agent, (agent, 1))

    def whole(agent: int) -> str:
        return said(agent, 1) if version == 1 else message(agent, *gone)

    turns = []
    for number, i in enumerate((*range(1, count), 0)):
        x, y = cells[i]
        turns += [(f"start {i}", f"moving {x + 1} {y}"), (f"finish {i}", f"arrived {x + 1} {y}"), (f"say {i}", f"said {number} {own(i) if i else whole(0)}")]
        turns.append((f"deliver 0 {number}", f"heard {i} 1") if i else (f"deliver 1 {number}", "heard 0 1"))
    # All of it is known, and is said again and again; then a restart forgets it.
    turns += [("say 1", f"said {count} {whole(1)}"), (f"deliver 0 {count}", "heard 1 1"), (f"deliver 1 {count - 1}", "heard 0 1"), ("deliver 0 0", "heard 1 1")]
    number = count + 1
    for _ in range(100):
        turns += [("say 0", f"said {number} {whole(0)}"), (f"deliver 1 {number}", "heard 0 1")]
        number += 1
    turns += [("restart 0", f"at {cells[0][0] + 1} {cells[0][1]} done 1"), ("say 0", f"said {number} {own(0)}")]
    events, replies = zip(*turns)
    files = {"M": map_text(["." * (2 * in_row)] * (count // in_row)), "P": plan(*(f"{x} {y} e" for x, y in cells)).encode()}
    files["E"] = lines(f"mapf-events {version}", *events)
    return [asked(harness, f"an agent that hears of {count - 1} others at version {version}", "run M P E", files, Ended(0, lines(*replies), b""))]


def ring(count: int) -> dict[str, bytes]:
    """The map M of two rows, and the plan P by which its agents, an even number, turn round in one circle."""
    half = count // 2
    east = [f"{x} 0 {'e' if x + 1 < half else 's'}" for x in range(half)]
    west = [f"{x} 1 {'w' if x else 'n'}" for x in reversed(range(half))]
    return {"M": map_text(["." * half] * 2), "P": plan(*east, *west).encode()}


def of_a_ring(harness: Harness) -> list[Outcome]:
    """As many agents as there may be, all of which turn round in one circle."""
    count = MOST_AGENTS
    files = {**ring(count), "E": b"mapf-events 1\n"}
    head = f"agents {count} moves {count} needs {count} rotations 1"
    needs = (f"need {i} 0 {(i + 1) % count} 1" for i in range(count))
    turn = " ".join(["rotation", "0", *map(str, range(count))])
    return [
        checked(harness, f"{count} agents that turn", files, f"accepted agents {count} cost {count} makespan 1"),
        asked(harness, f"deps of {count} agents that turn", "deps M P", files, Ended(0, lines(head, *needs, turn), b"")),
        asked(harness, f"{count} agents that turn block", "run M P E --complete", files, answer(1, "blocked 0\n")),
    ]


def of_plans_on_great_maps(harness: Harness) -> list[Outcome]:
    """Plans on maps as great as they may be: an agent in the first cell stays, and one comes into the last cell."""
    outcomes = []
    for width, height in GREATEST_MAPS:
        x, y = width - 1, height - 1
        mover = f"{x - 1} {y} e" if width > 1 else f"{x} {y - 1} s"
        start = " ".join(mover.split()[:2])
        files = {"M": map_text(["." * width] * height), "P": plan(mover, "0 0 =").encode(), "E": lines("mapf-events 1", "start 0"), "T": b""}
        spoiled = {**files, "P": plan(mover, f"{x} {y} =").encode()}
        outcomes.append(checked(harness, f"a plan on {width} x {height}", files, "accepted agents 2 cost 1 makespan 1"))
        outcomes.append(checked(harness, f"two agents in the last cell of {width} x {height}", spoiled, f"rejected Vertex 0 1 1 {x} {y}"))
        for words, out in (
            ("deps M P", lines("agents 2 moves 1 needs 0 rotations 0")),
            (f"deps M P --cell {x} {y}", lines("visit 0 1 1")),
            ("path M P", lines(f"0 {start} 0 0", f"1 {x} {y} 0 0")),
            ("run M P E --complete", lines(f"moving {x} {y}", "complete 1", "finish 0")),
            ("agent M P 0 T", lines(f"at {start} done 0", f"moving {x} {y}")),
        ):
            outcomes.append(asked(harness, f"{words} on {width} x {height}", words, files, Ended(0, out, b""), b"start\n"))
    return outcomes


def of_many_cells(harness: Harness) -> list[Outcome]:
    """Pairs of agents, one behind the other, through more than 65,535 cells in all; and one cell that is come into 65,535 times."""
    rows, width = 250, 600
    moves = width - 2
    agents = [f"{x} {y} {'e' * moves}" for y in range(rows) for x in (1, 0)]
    needs = [f"need {2 * y + 1} {k} {2 * y} {k + 1}" for y in range(rows) for k in range(moves)]
    head = f"agents {2 * rows} moves {2 * rows * moves} needs {rows * moves} rotations 0"
    files = {"M": map_text(["." * width] * rows), "P": plan(*agents).encode()}
    outcomes = [asked(harness, "deps over 150,000 cells", "deps M P", files, Ended(0, lines(head, *needs), b""))]
    for cell, visits in (
        ("0 0", ["visit 1 0 0"]),
        ("300 249", ["visit 498 299 299", "visit 499 300 300"]),
        ("599 249", ["visit 498 598 598"]),
        ("600 249", []),
    ):
        due = Ended(0, lines(*visits) if visits else b"", b"")
        outcomes.append(asked(harness, f"who comes into {cell} of them", f"deps M P --cell {cell}", files, due))
    turns = MOST_ACTS
    agents = [f"{x} {y} {(acts * (turns // 4 + 1))[:turns]}" for x, y, acts in ((0, 0, "eswn"), (1, 0, "swne"), (1, 1, "wnes"), (0, 1, "nesw"))]
    needs = [f"need {i} {k} {(i + 1) % 4} {k + 1}" for i in range(4) for k in range(turns)]
    rotations = [f"rotation {step} 0 1 2 3" for step in range(turns)]
    head = f"agents 4 moves {4 * turns} needs {4 * turns} rotations {turns}"
    files = {"M": SQUARE.encode(), "P": plan(*agents).encode(), "E": b"mapf-events 1\n"}
    outcomes.append(asked(harness, "65,535 rotations", "deps M P", files, Ended(0, lines(head, *needs, *rotations), b"")))
    outcomes.append(asked(harness, "65,535 rotations block", "run M P E --complete", files, answer(1, "blocked 0\n")))
    visits = lines(*(f"visit {(1 - time) % 4} {time} {time}" for time in range(turns + 1)))
    outcomes.append(asked(harness, "who comes into a cell of theirs", "deps M P --cell 1 0", files, Ended(0, visits, b"")))
    waits = "-" * (turns - 1)
    agents = [f"{x} {y} {waits}{act}" for x, y, act in ((0, 0, "e"), (1, 0, "s"), (1, 1, "w"), (0, 1, "n"))]
    text = lines("agents 4 moves 4 needs 4 rotations 1", *(f"need {i} 0 {(i + 1) % 4} 1" for i in range(4)), f"rotation {turns - 1} 0 1 2 3")
    files["P"] = plan(*agents).encode()
    outcomes.append(asked(harness, "a rotation in the last step", "deps M P", files, Ended(0, text, b"")))
    return outcomes


def turns_of_a_long_run(version: int) -> Iterator[tuple[str, str]]:
    """The events of a run and their replies. Agent 0 goes to and fro, and says twice a move how far it is. Agent 1 stays; it hears the second message, and says
    what it knows. Now and then both writes of a move are torn: a restart reads the whole tape, so more of them would take long."""
    cells = ("0 0", "1 0")
    count = 0
    for k in range(MOST_ACTS):
        here, there = cells[k % 2], cells[(k + 1) % 2]
        is_torn, stored = k % 101 == 0, k // 101 % 11
        if is_torn:
            yield from ((f"tear 0 {stored}", "armed"), ("start 0", "refused StoreFailed"), ("start 0", "refused Broken"))
            yield "restart 0", f"between {here} {there} done {k}" if stored == 10 else f"at {here} done {k}"
        if not is_torn or stored < 10:
            yield "start 0", f"moving {there}"
        if is_torn:
            yield from ((f"tear 0 {10 - stored}", "armed"), ("finish 0", "refused StoreFailed"), ("say 0", "refused Broken"))
            yield "restart 0", f"at {there} done {k + 1}" if stored == 0 else f"between {here} {there} done {k}"
        if not is_torn or stored > 0:
            yield "finish 0", f"arrived {there}"
        own, other = (said(0, k + 1), said(1, 0)) if version == 1 else (message(0, (0, k + 1)), message(1, (0, k + 1)))
        yield from (("say 0", f"said {count} {own}"), ("say 0", f"said {count + 1} {own}"), (f"deliver 1 {count + 1}", f"heard 0 {k + 1}"))
        yield from (("say 1", f"said {count + 2} {other}"), (f"deliver 0 {count + 2}", "heard 1 0"), ("start 1", "refused AtEnd"))
        count += 3
    yield "start 0", "refused AtEnd"
    yield f"deliver 1 {count}", "refused NoSuchMessage"
    for number in (0, 65_535, 65_536, 100_000, 100_002, count - 2):
        # Of the three messages of move `k` the first two are agent 0's, and say that `k + 1` moves are finished.
        yield "restart 1", "at 2 0 done 0"
        yield f"deliver 1 {number}", f"heard 0 {number // 3 + 1}" if number % 3 < 2 or version == 1 else "heard 1 0"


def of_long_runs(harness: Harness, version: int) -> list[Outcome]:
    events, replies = zip(*turns_of_a_long_run(version))
    plan_bytes = plan(f"0 0 {'ew' * (MOST_ACTS // 2)}e", "2 0 =").encode()
    files = {"M": LANE.encode(), "P": plan_bytes, "E": lines(f"mapf-events {version}", *events)}
    name = f"{len(events)} events at version {version}"
    # All agents are at their ends, so nothing is left to be said.
    outcomes = [asked(harness, name, "run M P E --complete", files, Ended(0, lines(*replies, "complete 0"), b""))]
    if harness.is_long:
        outcomes.append(asked(harness, f"{name}, without an ending", "run M P E", files, Ended(0, lines(*replies), b"")))
        files["E"] += b"jump\n"
        due = Ended(1, lines(*replies), f"mapf: BadEvent {len(events) + 2}\n".encode())
        outcomes.append(asked(harness, f"{name}, and a fault behind them", "run M P E", files, due))
    return outcomes


def of_long_tapes(harness: Harness) -> list[Outcome]:
    """The tape of an agent that makes as many moves as there may be, whole and cut off at each tenth of them, with and without a torn tail."""
    count, cells = MOST_ACTS, ("0 0", "1 0")
    files = {"M": LANE.encode(), "P": plan(f"0 0 {'ew' * (count // 2)}e").encode()}
    tape = b"".join(struct.pack(">BBIHH", 0x50, 1 + r % 2, 7, 0, (r + 1) // 2) for r in range(2 * count))
    outcomes = []
    for tenth in range(11):
        for records in {2 * (count * tenth // 10), max(2 * (count * tenth // 10) - 1, 0)}:
            k, is_moving = divmod(records, 2)
            here, there = cells[k % 2], cells[(k + 1) % 2]
            first = f"between {here} {there} done {k}" if is_moving else f"at {here} done {k}"
            rest = [f"arrived {there}", f"said {said(0, k + 1)}"] if is_moving else ["refused NotMoving", f"said {said(0, k)}"]
            for tail in (b"", b"\xff" * 9):
                due = Ended(0, lines(first, *rest), b"")
                name = f"a tape of {records} records and {len(tail)} bytes"
                outcomes.append(asked(harness, name, "agent M P 0 T", {**files, "T": tape[: 10 * records] + tail}, due, lines("finish", "say")))
    last = 2 * count - 1
    for spoiled, fault in (
        (tape + b"\xff" * 10, "TooLong"),
        (tape[:-10] + b"\xff" * 10, f"Damaged {last}"),
        (tape[:-1] + b"\xfe", f"Damaged {last}"),
        (tape[:-5] + b"\x08" + tape[-4:], f"WrongPlan {last}"),
        (tape[:-3] + b"\x01" + tape[-2:], f"WrongAgent {last}"),
    ):
        outcomes.append(asked(harness, f"a tape of {last + 1} records, {fault}", "agent M P 0 T", {**files, "T": spoiled}, answer(1, fault)))
    return outcomes


def of_what_an_agent_keeps(harness: Harness) -> list[Outcome]:
    """A process reads the whole plan, and keeps what its own agent needs of it: a small part of the most that it had, in kilobytes."""
    in_row, acts = 100, 400
    starts = [(2 * (i % in_row), i // in_row) for i in range(MOST_AGENTS)]
    folder = harness.folder({"M": map_text(["." * (2 * in_row)] * in_row), "P": plan(*(f"{x} {y} {'ew' * (acts // 2)}" for x, y in starts)).encode()})
    command = [str(harness.program), "agent", "M", "P", "1", "T"]
    with subprocess.Popen(command, cwd=folder, stdin=subprocess.PIPE, stdout=subprocess.PIPE) as process:
        said = process.stdout.readline()
        memory = dict(re.findall(r"(VmHWM|VmRSS):\s+(\d+)", pathlib.Path(f"/proc/{process.pid}/status").read_text()))
        process.stdin.close()
    ran = f"mapf agent M P 1 T  of {MOST_AGENTS} agents with {acts} acts"
    is_small = 4 * int(memory["VmRSS"]) < int(memory["VmHWM"])
    return [
        compared(f"the first line of one of {MOST_AGENTS} agents", ran, said, b"at 2 0 done 0\n"),
        compared(f"what one of {MOST_AGENTS} agents keeps", ran, memory, memory if is_small else "less than a quarter of the most"),
    ]


def of_proofs(harness: Harness) -> list[Outcome]:
    """Trees as deep as they may be, and deeper: each node is the first child of the one before."""
    outcomes = []
    for depth, due in ((65_535, answer(0, "optimal cost 2 nodes 131071\n")), (65_536, answer(1, "TooMany 65540"))):
        text = PROOF.replace("leaf\n", "vertex 0 1 9 0 0\n" * depth + "leaf\n" * (depth + 1))
        files = {"M": LANE.encode(), "P": BEHIND.encode(), "T": text.encode()}
        outcomes.append(asked(harness, f"a tree of a depth of {depth}", "optimal M P T", files, due))
    return outcomes


def of_walled_agents(harness: Harness) -> list[Outcome]:
    """Two halves of a map with one gap between them. The first agent ends in the gap, once the second one is through: it comes there at time 50 at
    the soonest, so the first one costs 51. If it cost less, the second one would never come through. Many others go 90 steps, so that the bound is
    far above what the second one costs."""
    side, gap, others = 200, 100, 60
    rows = ["." * gap + ("." if y == gap else "@") + "." * (side - gap - 1) for y in range(side)]
    agents = [f"{gap - 1} {gap + 1} {'-' * 49}ne", f"{gap // 2} {gap} {'e' * 100}"]
    agents += [f"0 {y} {'e' * 90}" for y in range(others)]
    bound = 51 + 100 + 90 * others
    text = f"mapf-proof 1\nobjective cost\nbound {bound}\nstays 0 50\nleaf\nleaf\n"
    files = {"M": map_text(rows), "P": plan(*agents).encode(), "T": text.encode()}
    return [asked(harness, f"one of {len(agents)} agents is walled off", "optimal M P T", files, answer(0, f"optimal cost {bound} nodes 3\n"))]


def of_least_memory(harness: Harness) -> list[Outcome]:
    """So much address space is enough for each command to begin, and to explain a fault."""
    least, outcomes = 4 * 2**20, []
    files = {"M": LANE.encode(), "P": BEHIND.encode(), "W": b"type octile\nheight 1\nwidth 3\nmap\n..\n", "0.tape": b""}
    short = b"mapf: ShortRow 5\n"
    for words, status, err in (
        ("--version", 0, b""), ("map M", 0, b""), ("check M P", 0, b""), ("deps M P", 0, b""), ("status M P %.tape", 1, b""), ("agent M P 0 T", 0, b""),
        ("map W", 1, short), ("map W --explain", 1, short), ("help faults", 0, b""),
    ):
        command = ["prlimit", f"--as={least}", str(harness.program), *words.split()]
        if not shutil.which("prlimit"):
            break
        ran = subprocess.run(command, cwd=harness.folder(files), stdin=subprocess.DEVNULL, capture_output=True, timeout=LONGEST)
        outcomes.append(compared(f"{words} in {least} bytes", f"mapf {words}", (ran.returncode, ran.stderr[: len(short)]), (status, err)))
    return outcomes


TESTS: Sequence[Test] = (
    of_maps,
    *(functools.partial(of_walks, width=width, height=height) for width, height in ((2_048, 2_047), (65_535, 63), (64, 65_535))),
    *(functools.partial(of_detours, width=width, height=height) for width, height in ((2_048, 2_048), (65_535, 64), (64, 65_535))),
    of_scenarios,
    of_long_plans,
    of_most_acts,
    of_most_agents,
    of_a_line,
    of_a_ring,
    of_plans_on_great_maps,
    *(functools.partial(of_hearings, version=version) for version in (1, 2)),
    of_many_cells,
    *(functools.partial(of_long_runs, version=version) for version in (1, 2)),
    of_long_tapes,
    of_proofs,
    of_walled_agents,
    of_what_an_agent_keeps,
    of_least_memory,
)


def outcomes(harness: Harness) -> Iterator[Outcome]:
    yield from side_by_side(functools.partial(test, harness) for test in TESTS)
