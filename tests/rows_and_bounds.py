"""Rows of scenarios, bounds of plans and lists of faults: whole answers, progress, and sizes up to the limits."""
import functools
import itertools
import subprocess
from typing import Iterator, Sequence

from answers import FITS, TEXT_FAULTS, VERDICTS, answer
from harness import Ended, Harness, Outcome, compared, has_terminals, side_by_side
from limits import GREATEST_MAPS, MOST_ACTS, MOST_AGENTS, Test, asked, lines, map_text, ring, winding_rows
from texts import BEHIND, CORNER, LANE, NOBODY, SHORT, SQUARE, SWAP, TURN, VERTEX, WALL, plan, scen

# A row of each kind on the map WALL, whose middle cell is blocked.
EACH_KIND = scen("w.map 3 1 1 0 1 0 0", "w.map 3 1 2 0 2 0 2", "w.map 3 1 0 0 2 0 2", "w.map 3 2 0 0 0 0 0")
JUDGED = [
    "0 shortest 0 0 listed 0 agrees",
    "1 shortest 0 0 listed 2 differs",
    "2 unreachable",
    "3 SizeDiffers",
]
# The map, the scenario, further words, the status, and the lines or the fault.
ROWS: list[tuple[str, str, str, int, Sequence[str]]] = [
    (WALL, EACH_KIND, "", 1, [*JUDGED, "rows 4 agree 1 differ 1 unreachable 1 size 1"]),
    (WALL, EACH_KIND, "--to 1", 0, [JUDGED[0], "rows 1 agree 1 differ 0 unreachable 0 size 0"]),
    (WALL, EACH_KIND, "--from 1 --to 2", 1, [JUDGED[1], "rows 1 agree 0 differ 1 unreachable 0 size 0"]),
    (WALL, EACH_KIND, "--from 2 --to 3", 1, [JUDGED[2], "rows 1 agree 0 differ 0 unreachable 1 size 0"]),
    (WALL, EACH_KIND, "--from 3", 1, [JUDGED[3], "rows 1 agree 0 differ 0 unreachable 0 size 1"]),
    (WALL, EACH_KIND, "--from 4 --to 0", 0, ["rows 0 agree 0 differ 0 unreachable 0 size 0"]),
    (WALL, EACH_KIND, "--from 5 --to 0", 1, ["NoSuchRow"]),
    (WALL, EACH_KIND, "--straight", 1, ["0 least 0", "1 least 0", "2 unreachable", "3 SizeDiffers", "rows 4 sum 0 greatest 0 unreachable 1 size 1"]),
    (WALL, EACH_KIND, "--straight --to 2", 0, ["0 least 0", "1 least 0", "rows 2 sum 0 greatest 0 unreachable 0 size 0"]),
    (SQUARE, scen("q.map 2 2 0 0 1 1 9"), "--straight", 0, ["0 least 2", "rows 1 sum 2 greatest 2 unreachable 0 size 0"]),
    (SQUARE, scen(), "", 0, ["rows 0 agree 0 differ 0 unreachable 0 size 0"]),
    (SQUARE, scen(), "--straight", 0, ["rows 0 sum 0 greatest 0 unreachable 0 size 0"]),
    (SQUARE, scen(), "--from 1", 1, ["NoSuchRow"]),
    # A map has its fault before the scenario, and that before the number.
    (SHORT, "no scenario", "--from 7", 1, ["ShortRow 6"]),
    (CORNER, "no scenario", "--from 7", 1, ["NoVersion"]),
    (CORNER, scen("m.map 3 2 x 1 1 0 2"), "--from 7", 1, ["BadNumber 2 5"]),
]
# The agents of plans on the map LANE, each with its cost and what it needs at least.
BOUNDS = [
    (BEHIND, [(1, 1), (1, 1)]),
    (NOBODY, []),
    (plan("0 0 -e-w"), [(4, 0)]),
    (plan("0 0 eewe--"), [(4, 2)]),
]
# A plan that two pairs spoil in one step, and one agent a step later, with its faults; and how many agents the first of them name.
SPOILED = plan("0 0 ee", "1 0 ww", "0 0 w")
SPOILED_FAULTS = [
    ("Vertex 0 2 0 0 0", '{"kind":"Vertex","agents":[0,2],"time":0,"x":0,"y":0}'),
    ("BadMove 2 0", '{"kind":"BadMove","agent":2,"step":0}'),
    ("Swap 0 1 0", '{"kind":"Swap","agents":[0,1],"step":0}'),
    ("BadMove 1 1", '{"kind":"BadMove","agent":1,"step":1}'),
]
NAMED_BY_FIRST = [2, 2, 3, 3]


# ---- whole answers


def text_or_fault(status: int, found: Sequence[str]) -> Ended:
    return answer(status, found[0] if len(found) == 1 and not found[0].startswith("rows") else "".join(f"{line}\n" for line in found))


def of_rows(harness: Harness) -> Iterator[Outcome]:
    for map_text_of_it, scenario, words, status, found in ROWS:
        files = {"M": map_text_of_it.encode(), "S": scenario.encode()}
        yield asked(harness, f"rows {words}, {found[-1]}", f"rows M S {words}", files, text_or_fault(status, found))


def of_bounds(harness: Harness) -> Iterator[Outcome]:
    for text, agents in BOUNDS:
        files = {"M": LANE.encode(), "P": text.encode()}
        costs, needs = [cost for cost, _ in agents], [need for _, need in agents]
        ends = f"cost {sum(costs)} of {sum(needs)} makespan {max(costs, default=0)} of {max(needs, default=0)}"
        of_each = "".join(f"agent {agent} cost {cost} of {need}\n" for agent, (cost, need) in enumerate(agents))
        yield asked(harness, f"bound: {ends}", "bound M P", files, answer(0, f"{ends}\n"))
        yield asked(harness, f"bound of each: {ends}", "bound M P --agents", files, answer(0, f"{of_each}{ends}\n"))
        yield asked(harness, f"accepted with {ends}", "check M P --bound", files, answer(0, f"accepted agents {len(agents)} {ends}\n"))
    for text, fault in ((SWAP, "Swap 0 1 0"), (VERTEX, "Vertex 0 1 2 0 0")):
        files = {"M": LANE.encode(), "P": text.encode()}
        for words in ("bound M P", "bound M P --agents --json"):
            yield asked(harness, f"{words}: {fault}", words, files, answer(1, fault))
        yield asked(harness, f"rejected with bounds: {fault}", "check M P --bound", files, answer(1, f"rejected {fault}\n"))
    for map_bytes, text, fault in TEXT_FAULTS:
        files = {"M": map_bytes.encode(), "P": text.encode()}
        for words in ("bound M P", "bound M P --json", "check M P --all", "check M P --bound", "check M P --no-rotation"):
            yield asked(harness, f"{words}: {fault}", words, files, answer(1, fault))


def of_lists(harness: Harness) -> Iterator[Outcome]:
    """What `check --all` lists: of a plan with faults as many as are asked for, and of another one thing at most."""
    for most, agents in enumerate(NAMED_BY_FIRST, 1):
        files, more = {"M": LANE.encode(), "P": SPOILED.encode()}, most < len(SPOILED_FAULTS)
        told = [f"rejected {fault}" for fault, _ in SPOILED_FAULTS[:most]]
        yield asked(harness, f"the first {most} faults", f"check M P --all={most}", files, Ended(1, lines(*told, f"faults {most} agents {agents}{' more' if more else ''}"), b""))
        as_json = ",".join(it for _, it in SPOILED_FAULTS[:most])
        due = f'{{"accepted":false,"faults":[{as_json}],"agents":{agents},"more":{"true" if more else "false"}}}\n'
        yield asked(harness, f"the first {most} faults as JSON", f"check M P --json --all={most}", files, answer(1, due))
    for text, status, words, numbers in VERDICTS:
        if numbers:
            files = {"M": LANE.encode(), "P": text.encode(), "S": b"no scenario"}
            yield asked(harness, f"all faults: {words}", "check M P --all", files, answer(status, f"{words}\n"))
            yield asked(harness, f"all faults, and a scenario that is none: {words}", "check M P --all --scen S", files, answer(1, "NoVersion"))
    for text, status, due in FITS:
        files = {"M": LANE.encode(), "P": BEHIND.encode(), "S": text.encode()}
        named = 1 if due[-3:-1] in (" 0", " 1") else 0
        whole = f"{due}faults 1 agents {named}\n" if due.startswith("rejected") else due
        yield asked(harness, f"all faults beside a scenario: {due.strip()}", "check M P --all --scen S", files, answer(status, whole))
    # Who has a fault isn't held against a scenario.
    files = {"M": LANE.encode(), "P": SWAP.encode(), "S": b"no scenario"}
    yield asked(harness, "a fault before a scenario", "check M P --all --scen S", files, Ended(1, lines("rejected Swap 0 1 0", "faults 1 agents 2"), b""))
    files["P"] = BEHIND.encode()
    yield asked(harness, "all faults: AgentCount", "check M P --all --agents 3", files, Ended(1, lines("rejected AgentCount", "faults 1 agents 0"), b""))
    due = '{"accepted":false,"faults":[{"kind":"AgentCount"}],"agents":0,"more":false}\n'
    yield asked(harness, "all faults as JSON: AgentCount", "check M P --all --json --agents 3", files, answer(1, due))


def of_rotations(harness: Harness) -> Iterator[Outcome]:
    """A rotation comes behind all else that a plan may have against it."""
    turned = "Rotation 0 0 1 2 3"
    size = "q.map 2 2"
    solved = scen(f"{size} 0 0 1 0 1", f"{size} 1 0 1 1 1", f"{size} 1 1 0 1 1", f"{size} 0 1 0 0 1")
    other = scen(f"{size} 0 0 1 0 1", f"{size} 1 0 1 1 1", f"{size} 1 1 0 1 1", f"{size} 0 1 0 1 1")
    accepted = "accepted agents 4 cost 4 makespan 1\n"
    for words, scenario, due in (
        ("", "", answer(0, accepted)),
        ("--no-rotation", "", answer(1, f"rejected {turned}\n")),
        ("--no-rotation --bound", "", answer(1, f"rejected {turned}\n")),
        ("--no-rotation --json", "", answer(1, f'{{"accepted":false,"fault":"{turned}"}}\n')),
        ("--no-rotation --all", "", Ended(1, lines(f"rejected {turned}", "faults 1 agents 4"), b"")),
        ("--no-rotation --scen S", solved, answer(1, f"rejected {turned}\n")),
        ("--no-rotation --scen S", other, answer(1, "rejected GoalDiffers 3\n")),
        ("--no-rotation --all --scen S", other, Ended(1, lines("rejected GoalDiffers 3", "faults 1 agents 1"), b"")),
        ("--no-rotation --agents 3", "", answer(1, "rejected AgentCount\n")),
        ("--no-rotation --scen S", "no scenario", answer(1, "NoVersion")),
    ):
        files = {"M": SQUARE.encode(), "P": TURN.encode(), "S": scenario.encode()}
        yield asked(harness, f"a rotation, {words} {scenario[10:]!r}", f"check M P {words}", files, due)
    as_json = '{"accepted":false,"faults":[{"kind":"Rotation","step":0,"agents":[0,1,2,3]}],"agents":4,"more":false}\n'
    files = {"M": SQUARE.encode(), "P": TURN.encode()}
    yield asked(harness, "a rotation as JSON", "check M P --all --json --no-rotation", files, answer(1, as_json))


# ---- progress


def of_progress(harness: Harness) -> Iterator[Outcome]:
    """How far it has come is said on a terminal, or where that is asked for, and changes nothing else."""
    count = 40
    files = {"M": LANE.encode(), "S": scen(*["m.map 3 1 0 0 2 0 2"] * (count - 1), "m.map 3 1 0 0 2 0 9").encode()}
    folder = harness.folder(files)
    quiet, told = harness.mapf(["rows", "M", "S"], folder=folder), harness.mapf(["rows", "M", "S", "--progress"], folder=folder)
    yield compared("no progress where there is no terminal", "mapf rows M S", quiet.err, b"")
    yield compared("progress changes no answer", "mapf rows M S --progress", (told.status, told.out), (quiet.status, quiet.out))
    said = f"\r0 of {count} rows, 0 disagree\r16 of {count} rows, 0 disagree\r32 of {count} rows, 0 disagree\r{count} of {count} rows, 1 disagree\n"
    yield compared("what is said of progress", "mapf rows M S --progress", told.err, said.encode())
    with open("/dev/full", "wb") as full:
        how = {"cwd": folder, "stdin": subprocess.DEVNULL, "stdout": full, "stderr": subprocess.PIPE}
        failed = subprocess.run([str(harness.program), "rows", "M", "S", "--progress"], **how)
    lines_told = failed.stderr.decode().split("\n")
    yield compared("a fault behind progress", "mapf rows M S --progress > /dev/full", (failed.returncode, lines_told[1:]), (3, ["mapf: WriteFailed", ""]))
    if not has_terminals():
        yield Outcome("progress on a terminal", lacks="terminal")
        return
    for gets_rows, due in ((False, told.err), (True, quiet.out)):
        said_there = harness.on_a_terminal(["rows", "M", "S"], folder, gets_output=gets_rows).err
        yield compared(f"progress on a terminal{', which gets the rows too' if gets_rows else ''}", "mapf rows M S", said_there, due)


# ---- sizes up to the limits


def of_great_rows(harness: Harness) -> list[Outcome]:
    """Walks as long as a map lets them be, one of each kind in a scenario."""
    outcomes = []
    for width, height in ((2_048, 2_047), (65_535, 63), (64, 65_535)):
        ways = (height + 1) // 2
        height = 2 * ways - 1
        steps = ways * (width - 1) + 2 * (ways - 1)
        end = (width - 1 if ways % 2 else 0, height - 1)
        size, back = f"m.map {width} {height}", f"{end[0]} {end[1]} 0 0"
        rows = scen(f"{size} 0 0 {end[0]} {end[1]} {steps}", f"{size} {back} {steps}", f"{size} 0 0 0 0 0").encode()
        for name, is_open, words, due in (
            ("to and fro", True, "--straight", [f"0 least {steps}", f"1 least {steps}", "2 least 0", f"rows 3 sum {2 * steps} greatest {steps} unreachable 0 size 0"]),
            ("closed", False, "--straight", ["0 unreachable", "1 unreachable", "2 least 0", "rows 3 sum 0 greatest 0 unreachable 2 size 0"]),
            ("to and fro", True, "", [*(f"{row} shortest {steps} 0 listed {steps} agrees" for row in (0, 1)), "2 shortest 0 0 listed 0 agrees", "rows 3 agree 3 differ 0 unreachable 0 size 0"]),
        ):
            files = {"M": map_text(winding_rows(width, height, is_open)), "S": rows}
            status = 0 if is_open else 1
            outcomes.append(asked(harness, f"rows {words} {name}, {width} x {height}", f"rows M S {words}", files, Ended(status, lines(*due), b"")))
    for width, height in GREATEST_MAPS:
        steps = width + height - 2
        files = {"M": map_text(["." * width] * height), "S": scen(f"m.map {width} {height} 0 0 {width - 1} {height - 1} 1").encode()}
        due = lines(f"0 least {steps}", f"rows 1 sum {steps} greatest {steps} unreachable 0 size 0")
        outcomes.append(asked(harness, f"straight across {width} x {height}", "rows M S --straight", files, Ended(0, due, b"")))
    return outcomes


def of_many_rows(harness: Harness) -> list[Outcome]:
    """A hundred thousand rows on an open map."""
    width, height, count = 400, 250, 100_000
    cells = [(place % width, place // width) for place in range(count)]
    text = scen(*(f"m.map {width} {height} {x} {y} 0 0 {x + y}" for x, y in cells)).encode()
    files = {"M": map_text(["." * width] * height), "S": text}
    told = [f"{row} least {x + y}" for row, (x, y) in enumerate(cells)]
    last = f"rows {count} sum {sum(x + y for x, y in cells)} greatest {width + height - 2} unreachable 0 size 0"
    first = count - 200
    straight = [(abs(x - y), min(x, y)) for x, y in cells[first:]]
    judged = [f"{row} shortest {s} {d} listed {x + y} {'differs' if d else 'agrees'}" for row, ((s, d), (x, y)) in enumerate(zip(straight, cells[first:]), first)]
    bad = sum(d > 0 for _, d in straight)
    ends = f"rows {count - first} agree {count - first - bad} differ {bad} unreachable 0 size 0"
    return [
        asked(harness, f"{count} rows, straight", "rows M S --straight", files, Ended(0, lines(*told, last), b"")),
        asked(harness, f"the last {count - first} rows", f"rows M S --from {first}", files, Ended(1 if bad else 0, lines(*judged, ends), b"")),
        asked(harness, "no row of them", f"rows M S --from {count}", files, Ended(0, lines("rows 0 agree 0 differ 0 unreachable 0 size 0"), b"")),
        asked(harness, "a row too far", f"rows M S --from {count + 1}", files, answer(1, "NoSuchRow")),
    ]


def of_many_faults(harness: Harness) -> list[Outcome]:
    """As many agents as there may be, all of which stand in one cell: the list takes what was asked for, and no more."""
    count = MOST_AGENTS
    files = {"M": LANE.encode(), "P": plan(*["0 0 ="] * count).encode()}
    outcomes = []
    for words, most in (("--all", 1_000), ("--all=1", 1), ("--all=100000", 100_000)):
        pairs = list(itertools.islice(itertools.combinations(range(count), 2), most))
        agents = len({agent for pair in pairs for agent in pair})
        due = lines(*(f"rejected Vertex {i} {j} 0 0 0" for i, j in pairs), f"faults {most} agents {agents} more")
        outcomes.append(asked(harness, f"{count} agents in one cell, {words}", f"check M P {words}", files, Ended(1, due, b"")))
    steps = MOST_ACTS
    files["P"] = plan(f"0 0 {'-' * steps}", "0 0 =").encode()
    due = lines(*(f"rejected Vertex 0 1 {time} 0 0" for time in range(steps + 1)), f"faults {steps + 1} agents 2")
    outcomes.append(asked(harness, f"a fault at each of {steps + 1} times", "check M P --all=4294967295", files, Ended(1, due, b"")))
    files["P"] = plan(f"0 0 {'n' * steps}", f"2 0 {'s' * steps}").encode()
    moves = (f"rejected BadMove {agent} {step}" for step in range(steps) for agent in (0, 1))
    outcomes.append(asked(harness, f"{2 * steps} bad moves", "check M P --all=4294967295", files, Ended(1, lines(*moves, f"faults {2 * steps} agents 2"), b"")))
    return outcomes


def of_great_bounds(harness: Harness) -> list[Outcome]:
    """Bounds of as many agents as there may be, and of as many acts."""
    count, in_row = MOST_AGENTS, 100
    starts = [(2 * (i % in_row), i // in_row) for i in range(count)]
    files = {"M": map_text(["." * (2 * in_row)] * (count // in_row)), "P": plan(*(f"{x} {y} ewe" for x, y in starts)).encode()}
    ends = f"cost {3 * count} of {count} makespan 3 of 1"
    each = (f"agent {agent} cost 3 of 1" for agent in range(count))
    turning = ring(count)
    turn = " ".join(["Rotation", "0", *map(str, range(count))])
    steps = MOST_ACTS
    long = {"M": map_text(["." * steps]), "P": plan(f"0 0 {'e' * (steps - 1)}").encode()}
    to_and_fro = {"M": LANE.encode(), "P": plan(f"0 0 {'ew' * (steps // 2)}e").encode()}
    return [
        asked(harness, f"bounds of {count} agents", "bound M P --agents", files, Ended(0, lines(*each, ends), b"")),
        asked(harness, f"{count} agents accepted with bounds", "check M P --bound", files, answer(0, f"accepted agents {count} {ends}\n")),
        asked(harness, f"{count} agents that turn", "check M P --no-rotation", turning, answer(1, f"rejected {turn}\n")),
        asked(harness, f"{count} agents that turn, as JSON", "check M P --no-rotation --json", turning, answer(1, f'{{"accepted":false,"fault":"{turn}"}}\n')),
        asked(harness, f"{count} agents that turn, listed", "check M P --no-rotation --all", turning, Ended(1, lines(f"rejected {turn}", f"faults 1 agents {count}"), b"")),
        asked(harness, "the bound of one long way", "bound M P", long, answer(0, f"cost {steps - 1} of {steps - 1} makespan {steps - 1} of {steps - 1}\n")),
        asked(harness, "the bound of who goes to and fro", "bound M P", to_and_fro, answer(0, f"cost {steps} of 1 makespan {steps} of 1\n")),
    ]


LIMITS: Sequence[Test] = (of_great_rows, of_many_rows, of_many_faults, of_great_bounds)


def outcomes(harness: Harness) -> Iterator[Outcome]:
    for part in (of_rows, of_bounds, of_lists, of_rotations, of_progress):
        yield from part(harness)
    yield from side_by_side(functools.partial(test, harness) for test in LIMITS)
