"""How runs end: what `mapf run --complete` answers with is run, and has to come to what it says."""
import functools
import json
import random
import shutil
from typing import Iterator, Mapping, Sequence

from answers import ASKING, answer, asked
from completing import ends_of, judged, needs_and_rotations
from harness import ROOT, Ended, Harness, Outcome, compared, side_by_side
from random_runs import random_events, random_map, random_plan
from texts import BACK, BEHIND, LANE, NOBODY, RELAY, SHORT, SQUARE, SWAP, TURN, events, plan
from vectors import VECTORS

# Agent 0 has arrived and has said so, and agent 1 has heard it.
HEARD = ["start 0", "finish 0", "say 0", "deliver 1 0"]

# Runs, by a map, a plan and events, and how many `say` and how many `deliver` are enough behind them.
RUNS = [
    (LANE, BEHIND, [], 1, 1),
    # A message that is lost is said again; one that was heard is not.
    (LANE, BEHIND, ["start 0"], 1, 1),
    (LANE, BEHIND, ["start 0", "finish 0"], 1, 1),
    (LANE, BEHIND, ["start 0", "finish 0", "say 0"], 1, 1),
    (LANE, BEHIND, HEARD, 0, 0),
    (LANE, BEHIND, [*HEARD, "start 1"], 0, 0),
    (LANE, BEHIND, [*HEARD, "start 1", "restart 1"], 0, 0),
    (LANE, BEHIND, [*HEARD, "restart 1"], 1, 1),
    (LANE, BEHIND, [*HEARD, "start 1", "finish 1"], 0, 0),
    # A move under way, and one more, where neither waits for anybody.
    (LANE, BACK, [], 0, 0),
    (LANE, BACK, ["start 0", "finish 0", "start 0"], 0, 0),
    (LANE, BACK, ["tear 0 10", "start 0", "tear 1 3"], 0, 0),
    # Torn records, stored and not stored, of agents that are broken, and a tear that still stands.
    (LANE, BEHIND, ["tear 0 9", "start 0"], 1, 1),
    (LANE, BEHIND, ["tear 0 10", "start 0"], 1, 1),
    (LANE, BEHIND, ["tear 0 10"], 1, 1),
    (LANE, BEHIND, ["tear 0 0"], 1, 1),
    (LANE, BEHIND, ["tear 1 9"], 1, 1),
    (LANE, BEHIND, ["start 0", "tear 0 10", "finish 0"], 1, 1),
    (LANE, BEHIND, ["start 0", "tear 0 9", "finish 0"], 1, 1),
    (LANE, BEHIND, ["start 0", "finish 0", "tear 0 9"], 1, 1),
    (LANE, BEHIND, [*HEARD, "tear 1 9", "start 1"], 1, 1),
    (LANE, BEHIND, [*HEARD, "tear 1 10", "start 1"], 0, 0),
    (LANE, BEHIND, [*HEARD, "start 1", "tear 1 10", "finish 1"], 0, 0),
    # Refusals change nothing.
    (LANE, BEHIND, ASKING, 1, 1),
    (LANE, BEHIND, ["start 9", "tear 0 11", "finish 1", "deliver 1 7"], 1, 1),
    # Who comes back to a cell waits for whoever was there in between.
    (SQUARE, plan("0 0 e--w", "0 1 -ns"), [], 2, 2),
    (SQUARE, RELAY, [], 1, 1),
    (LANE, plan("0 0 ="), [], 0, 0),
]

# Both agents of the lane are at their ends, whatever becomes of their tapes and messages.
THERE = [*HEARD, "start 1", "finish 1"]
ARRIVED = [
    THERE,
    [*THERE, "restart 0", "say 1", "restart 1"],
    [*THERE, "tear 0 0", "tear 1 10"],
    [*HEARD, "start 1", "tear 1 10", "finish 1"],
    ["start 0", "tear 0 10", "finish 0", "restart 0", "say 0", "deliver 1 0", "start 1", "tear 1 10", "finish 1"],
]
# So many events of each word are enough where nothing is left to do.
NO_EVENT = dict.fromkeys(("start", "finish", "say", "deliver", "restart", "tear"), 0)

# Rotations, one of them behind other moves, and events of their runs.
BLOCKED = [
    (SQUARE, TURN, []),
    (SQUARE, TURN, ["start 0", "say 1", "deliver 0 0", "start 0", "restart 0"]),
    (SQUARE, TURN, ["tear 2 10", "start 2", "tear 3 1"]),
    (SQUARE, plan("0 0 --e", "1 0 --s", "1 1 --w", "0 1 --n"), []),
]

# Texts with a fault: the map, the plan, the events, the replies before the fault, and its name.
FAULTY = [
    (SHORT, BEHIND, events("start 0"), "", "ShortRow 6"),
    (LANE, "mapf-plan 2\n", events("start 0"), "", "BadHeader 1"),
    (LANE, SWAP, events("start 0"), "", "Swap 0 1 0"),
    (LANE, BEHIND, "", "", "NoHeader"),
    (LANE, BEHIND, "mapf-events 3\n", "", "NoHeader"),
    (LANE, BEHIND, events("start 0", "jump"), "moving 2 0\n", "BadEvent 3"),
    (LANE, BEHIND, events("start 0", "complete 0"), "moving 2 0\n", "BadEvent 3"),
    (LANE, BEHIND, events("start 0", "finish 0")[:-1], "moving 2 0\n", "Unfinished 3"),
    (SQUARE, TURN, events("start 0", "jump"), "refused Waits 1 1\n", "BadEvent 3"),
    (LANE, NOBODY, events()[:-1], "", "NoHeader"),
]

WAREHOUSE = ROOT / "examples" / "fleet" / "warehouse"
WORDS = "run M P E --complete"
VERSIONS = (1, 2)
SHORT_SEEDS, LONG_SEEDS = range(1, 201), range(1, 2_001)


class Runs:
    """Runs over one plan on one map, and what is due at their ends."""

    def __init__(self, harness: Harness, map_text: str, plan_text: str):
        self.harness = harness
        self.plan = plan_text
        self.ends = ends_of(plan_text)
        self.folder = harness.folder({"M": map_text.encode("latin-1"), "P": plan_text.encode("latin-1")})
        self.needs, self.rotations = needs_and_rotations(harness.mapf(["deps", "M", "P"], folder=self.folder).out.decode())

    def judge(self, name: str, text: str, enough: Mapping[str, int] = {}) -> Outcome:
        """The outcome of a run of these events, behind which events of some words may come only so often."""
        completing, fault = judged(self.harness, self.folder, text, self.ends, self.rotations > 0)
        for word, most in enough.items():
            times = sum(line.startswith(f"{word} ") for line in completing)
            if times > most and not fault:
                fault = f"`{word}` comes {times} times, and {most} would be enough"
        ran = f"mapf {WORDS}  with the plan {self.plan[:300]!r} and the events {text[:300]!r}"
        return Outcome(name, fault and f"ran    {ran}\n    found  {fault}")

    def done(self) -> None:
        shutil.rmtree(self.folder)


def of_runs(harness: Harness) -> Iterator[Outcome]:
    for version in VERSIONS:
        for map_text, plan_text, lines, says, delivers in RUNS:
            runs = Runs(harness, map_text, plan_text)
            enough = {"say": says, "deliver": delivers}
            yield runs.judge(f"version {version}, behind {lines}", events(*lines, version=version), enough)
        for lines in ARRIVED:
            runs = Runs(harness, LANE, BEHIND)
            yield runs.judge(f"version {version}, nothing left behind {lines}", events(*lines, version=version), NO_EVENT)
        for map_text, plan_text, lines in BLOCKED:
            runs = Runs(harness, map_text, plan_text)
            yield compared(f"a rotation of {plan_text!r}", "mapf deps M P", runs.rotations, 1)
            yield runs.judge(f"version {version}, blocked behind {lines}", events(*lines, version=version))
        for lines in ([], ["start 0", "say 0"]):
            files = {"M": LANE, "P": NOBODY, "E": events(*lines, version=version)}
            yield asked(harness, WORDS, files, answer(0, "refused NoSuchAgent\n" * len(lines) + "complete 0\n"))
    for map_text, plan_text, text, replies, fault in FAULTY:
        due = Ended(1, replies.encode(), f"mapf: {fault}\n".encode())
        yield asked(harness, WORDS, {"M": map_text, "P": plan_text, "E": text}, due)


def of_the_warehouse(harness: Harness) -> Outcome:
    """The run of the example, at whose end some agents still have a tear before them."""
    map_text, plan_text, text = ((WAREHOUSE.with_suffix(f".{kind}")).read_text(encoding="ascii") for kind in ("map", "plan", "events"))
    return Runs(harness, map_text, plan_text).judge("the warehouse", text, NO_EVENT)


def torn_runs(command: str, are_all: bool) -> Iterator[tuple[str, dict, list[str]]]:
    """The runs of a file of vectors in which a tear is armed, of two agents or of any number: a name, the files, and the event lines that were
    answered, behind the header."""
    with open(VECTORS / f"{command}.jsonl", encoding="utf-8") as lines:
        for number, line in enumerate(lines, 1):
            vector = json.loads(line)
            answers = vector["stdout"].splitlines()
            files = dict(zip("MPE", (vector["files"].get(name, "") for name in vector["words"][1:])))
            if "armed" in answers and (are_all or "\nagents 2\n" in files["P"]):
                yield f"line {number} of vectors/{command}.jsonl", files, files["E"].splitlines(keepends=True)[: len(answers) + 1]


def of_beginnings(harness: Harness, name: str, files: Mapping[str, str], lines: Sequence[str]) -> list[Outcome]:
    """A run of an independent implementation that is cut off after each of its events: at many places somebody is broken, or about to be."""
    runs = Runs(harness, files["M"], files["P"])
    lengths = range(1, len(lines) + 1) if runs.needs or harness.is_long else ()
    outcomes = [runs.judge(f"{name}, its first {length - 1} events", "".join(lines[:length])) for length in lengths]
    runs.done()
    return outcomes


def of_random_runs(harness: Harness, seed: int) -> list[Outcome]:
    rng = random.Random(f"endings {seed}")
    map_text, free = random_map(rng)
    plan_text = random_plan(rng, free, may_turn=seed % 4 == 0)
    runs = Runs(harness, map_text, plan_text)
    outcomes = [runs.judge(f"seed {seed}, version {version}", random_events(rng, len(runs.ends), version)) for version in VERSIONS]
    runs.done()
    return outcomes


def row(width: int, height: int = 1) -> str:
    return f"type octile\nheight {height}\nwidth {width}\nmap\n" + f"{'.' * width}\n" * height


def in_lines(rows: int, length: int, moves: int) -> list[str]:
    """Agents in rows of one length that all go east at once, the last of each row first by number."""
    return [f"{x} {y} {'e' * moves}" for y in range(rows) for x in range(length)]


def of_great_runs(harness: Harness) -> Iterator[Outcome]:
    """Many agents behind one another, by number against the order of travel and with it: nobody is asked before the one in front is gone."""

    def judge(name: str, map_text: str, agents: Sequence[str], version: int) -> Outcome:
        runs = Runs(harness, map_text, plan(*agents))
        outcome = runs.judge(f"version {version}, {name}", events(version=version))
        runs.done()
        return outcome

    for version in VERSIONS:
        agents = in_lines(1, 1_000, 1)
        yield judge("1,000 agents in a line, against their numbers", row(1_001), agents, version)
        yield judge("1,000 agents in a line, by their numbers", row(1_001), agents[::-1], version)
        yield judge("one agent, 65,535 moves", LANE, [f"0 0 {'ew' * 32_767}e"], version)
    yield judge("10,000 agents in a line, against their numbers", row(10_001), in_lines(1, 10_000, 1), 1)
    if harness.is_long:
        yield judge("10,000 agents, 200 moves each", row(300, 100), in_lines(100, 100, 200), 1)
        yield judge("1,000 agents, 200 moves each", row(300, 10), in_lines(10, 100, 200), 2)


def outcomes(harness: Harness) -> Iterator[Outcome]:
    yield from of_runs(harness)
    yield of_the_warehouse(harness)
    torn = [run for command in ("run", "run2") for run in torn_runs(command, harness.is_long)]
    yield from side_by_side(functools.partial(of_beginnings, harness, *run) for run in torn)
    yield from side_by_side(functools.partial(of_random_runs, harness, seed) for seed in (LONG_SEEDS if harness.is_long else SHORT_SEEDS))
    yield from of_great_runs(harness)
