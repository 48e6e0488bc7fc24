#!/usr/bin/env python3
"""Measures `mapf` beside a plain Rust program that does the same work.

Usage: run.py [--program PATH] [--rounds N] [--only COMMAND] [--keep FILE] [--write PAGE]
       run.py [--program PATH] [--rounds N] [--only COMMAND] [--side N] [--rows N] [--keep FILE]
       run.py --kept FILE --write PAGE

Both programs run in turn over the same texts, many rounds, and at least ten seconds for each text,
or `--seconds N`. The other program is built first, where it isn't given by `--peer PATH`.
A line for each text: the best time of each in milliseconds, the median of the rounds' ratios, and
the most memory that each held, in megabytes. For `row` and `rows` our program finds walks and
certifies them, and the other one only finds them; of whole scenarios it does so in one more way, by
jump points. For `alone` there is no other program. What each program answers to `complete` is
judged by a run of it, since which events it answers with is free. For `check` two more rows have a
checker of all pairs of agents, and one in Python, in place of the other program.

`--write docs/PERFORMANCE.md` puts what was measured into the tables of that page, with the day and
the machine, and leaves its other tables as they are. `--keep` writes it into a file, from which
`--kept` takes it in place of measuring anything.
"""
import argparse
import dataclasses
import pathlib
import subprocess
import sys
import tempfile
from typing import Iterator, Optional, Sequence

BENCH = pathlib.Path(__file__).resolve().parent
sys.path[:0] = [str(BENCH), *(str(BENCH.parent / it) for it in ("tests", "tools"))]
import completing  # noqa: E402
import far  # noqa: E402
import generate  # noqa: E402
import optimal  # noqa: E402
import tables  # noqa: E402
from plain_formats import plan_text  # noqa: E402
from timing import LEAST_SECONDS, Bench, peak_memory, whole_peak_memory  # noqa: E402
from whole_file import draft  # noqa: E402

# The sizes that the page has.
SIDE, ROWS = 2048, 100_000
AGENTS, MOST_ACTS, ALL_ACTS = 10_000, 1600, (400, 800, 1600)
# Of whole scenarios the sides of maps are so many times as short, and the rows so many times as few.
FEWER_SIDE, FEWER_ROWS = 4, 100
# Out of so many times as many pairs of cells come those that are spread over all lengths.
CANDIDATES = 4
# What the page calls some kinds of maps and plans.
NAMES = {
    "terrain": "mixed terrain",
    "sparse": "one cell in five blocked",
    "dense": "35 cells of 100 blocked",
    "corridors": "corridors three cells wide",
    "mixed": "mixed terrain, cell by cell",
    "patches": "mixed terrain in patches",
    "loops": "winding loops",
}


def build_peer() -> pathlib.Path:
    words = ["cargo", "build", "--release", "--offline", "--quiet"]
    subprocess.run(words, cwd=BENCH / "peer", check=True)
    return BENCH / "peer/target/release/peer"


def named(kind: str) -> str:
    return NAMES.get(kind, kind)


def measure_text(bench: Bench, command: str, kind: str, text: str, row: tuple[str, str]) -> None:
    """Measures programs that read a text and write it."""
    path = bench.folder / f"{kind}.{command}"
    path.write_text(text)
    commands = bench.commands([command, str(path)])
    measured, written = bench.measure(commands)
    if written[0] != written[1] or written[0] != path.read_bytes():
        sys.exit(f"the two programs wrote other texts for {command} {kind}")
    most = [peak_memory(it, len(written[0])) for it in commands]
    bench.report(f"{command} {kind}", measured, most, row)


def measure_maps(bench: Bench, side: int) -> None:
    for kind in generate.KINDS:
        text = generate.map_text(kind, side, side, 1)
        measure_text(bench, "map", kind, text, ("maps", named(kind)))


def measure_scenario(bench: Bench, side: int, rows: int) -> None:
    text = generate.scen_text(side, side, 1, rows)
    measure_text(bench, "scen", "rows", text, ("scenario", f"{rows:,} rows"))


def write_row(
    bench: Bench, words: Sequence[str], kind: str, side: int, goals: Sequence[tuple[int, int]]
) -> None:
    """Writes a row to the first goal to which a walk leads. A first run finds the length that the
    row is then to list."""
    scen = pathlib.Path(words[2])
    for goal in goals:
        scen.write_text(generate.row_text(kind, side, side, goal, 0, 0))
        ran = subprocess.run([bench.programs[1], *words], stdout=subprocess.PIPE, text=True)
        found = ran.stdout.split()
        if found[:1] == ["shortest"]:
            length = int(found[1]), int(found[2])
            scen.write_text(generate.row_text(kind, side, side, goal, *length))
            return
    sys.exit(f"no walk leads to a goal on the map {kind} {side}")


def measure_row(bench: Bench, kind: str, side: int, is_shown: bool) -> None:
    """Measures programs that look for a shortest walk across a map, and for one to a goal an eighth
    of the way."""
    map_path = bench.folder / f"{kind}.map"
    map_path.write_text(generate.map_text(kind, side, side, 1))
    far, near = [generate.far_goal(kind, side, side)], generate.near_goals(side, side)
    for name, goals in (("far", far), ("near", near)):
        scen_path = bench.folder / f"{kind}-{name}.scen"
        words = ["row", str(map_path), str(scen_path), "0"]
        write_row(bench, words, kind, side, goals)
        commands = bench.commands(words)
        measured = bench.measure_alike(f"row {kind} {side} {name}", commands)
        row = ("rows", f"{named(kind)}, {name}") if is_shown else None
        most = [whole_peak_memory(it) for it in commands]
        bench.report(f"row {kind} {side} {name}", measured, most, row)


def measure_rows(bench: Bench, side: int) -> None:
    for it in (side, side // 2, side // 4):
        for kind in generate.WALKED_KINDS:
            measure_row(bench, kind, it, it == side)


def found_lengths(bench: Bench, map_path: pathlib.Path, scen_path: pathlib.Path) -> list[float]:
    """The lengths of a scenario's rows, as the other program finds them."""
    words = [bench.programs[1], "rows", str(map_path), str(scen_path)]
    ran = subprocess.run(words, stdout=subprocess.PIPE, text=True)
    lines = [line.split() for line in ran.stdout.splitlines()[:-1]]
    if not lines or any(line[1] != "shortest" for line in lines):
        sys.exit(f"no walk leads to a goal of {scen_path.name}")
    return [int(line[2]) + int(line[3]) * 2**0.5 for line in lines]


def write_scenario(bench: Bench, kind: str, side: int, rows: int) -> list[str]:
    """Writes a map, and a scenario whose rows are right and spread over all lengths. Answers the
    words."""
    map_path, scen_path = bench.files(f"{kind}-rows", "map", "scen")
    text = generate.map_text(kind, side, side, 1)
    map_path.write_text(text)
    pairs = far.pairs_of(text, 1, CANDIDATES * rows)
    scen_path.write_text(far.pairs_text(side, side, pairs, [0.0] * len(pairs)))
    lengths = found_lengths(bench, map_path, scen_path)
    chosen = far.spread(lengths, rows)
    made = [pairs[it] for it in chosen], [lengths[it] for it in chosen]
    scen_path.write_text(far.pairs_text(side, side, *made))
    return ["rows", str(map_path), str(scen_path)]


def measure_scenarios(bench: Bench, side: int, rows: int) -> None:
    """Measures programs that answer each row of a scenario: with shortest walks, with straight steps
    alone, and beside a search by jump points."""
    for kind in far.KINDS:
        words = write_scenario(bench, kind, side, rows)
        for table, ours, theirs in (
            ("scenarios", [], []),
            ("straight", ["--straight"], ["--straight"]),
            ("jumps", [], ["--jump"]),
        ):
            commands = [[bench.programs[0], *words, *ours], [bench.programs[1], *words, *theirs]]
            name = f"{table} {kind} {side}"
            measured = bench.measure_alike(name, commands)
            most = [whole_peak_memory(it) for it in commands]
            bench.report(name, measured, most, (table, named(kind)))


@dataclasses.dataclass(frozen=True)
class Plans:
    """A plan by its kind, the side of its open map, how many agents it has, and how many acts each.
    Its row is called so, where the page has one."""

    kind: str
    side: int
    agents: int
    acts: int
    row: Optional[str]

    def write(self, folder: pathlib.Path) -> tuple[pathlib.Path, pathlib.Path, str]:
        map_path, plan_path = (folder / f"{self.kind}.{ending}" for ending in ("map", "plan"))
        map_path.write_text(generate.map_text("open", self.side, self.side, 1))
        size = (self.side, self.side)
        text = generate.plan_text(self.kind, *size, 1, self.agents, self.acts)
        plan_path.write_text(text)
        return map_path, plan_path, text


def all_plans(side: int, kinds: Sequence[str]) -> Iterator[Plans]:
    for acts in ALL_ACTS:
        for kind in kinds:
            is_shown = acts == MOST_ACTS or kind == "waits"
            yield Plans(kind, side, AGENTS, acts, named(kind) if is_shown else None)
    yield Plans("regions", side, AGENTS, MOST_ACTS, "regions")
    yield Plans("crowd", 128, 1_000, 400, "crowd")
    yield Plans("loops", 128, 1_000, 2000, named("loops"))


def measure_check(bench: Bench, plans: Plans) -> None:
    """Measures programs that check a valid plan, and one with a fault near its end where a changed
    act makes one."""
    map_path, plan_path, text = plans.write(bench.folder)
    texts = {"": text}
    if plans.kind in generate.CLOSE_KINDS:
        texts[", late fault"] = generate.with_late_fault(text)
    for fault, it in texts.items():
        plan_path.write_text(it)
        commands = bench.commands(["check", str(map_path), str(plan_path)])
        name = f"check {plans.kind}{fault} {plans.acts}"
        measured = bench.measure_alike(name, commands, statuses=(0, 1))
        row = ("plans", f"{plans.row}{fault}") if plans.row else None
        if plans.kind == "waits":
            row = ("waits", f"{plans.acts:,}")
        bench.report(name, measured, [whole_peak_memory(it) for it in commands], row)


def measure_usual_checkers(bench: Bench) -> None:
    """Measures the checkers that one would have otherwise: one that compares all pairs of agents,
    and one in Python, on a plan that each can do."""
    map_path, plan_path, _ = Plans("crowd", 128, 1_000, 400, None).write(bench.folder)
    texts = [str(map_path), str(plan_path)]
    pairs, python = [bench.programs[1], "pairs"], [sys.executable, str(BENCH / "plain_checker.py")]
    others = {"all pairs, in Rust": pairs, "a dictionary a step, in Python": python}
    for name, other in others.items():
        commands = [[bench.programs[0], "check", *texts], [*other, *texts]]
        measured = bench.measure_alike(name, commands)
        most = [whole_peak_memory(it) for it in commands]
        bench.report(f"check crowd 400, {name}", measured, most, ("checkers", name))


def measure_checks(bench: Bench, side: int) -> None:
    for plans in all_plans(side, ("boxes", "waits", "blocks", "trains")):
        measure_check(bench, plans)
    measure_usual_checkers(bench)


def measure_bounds(bench: Bench, side: int, agents: int) -> None:
    """Measures what plans cost at least: on an open map, where each agent goes round in a box, and
    in a maze, where they go far, one behind the other."""
    boxes = Plans("boxes", side, agents, 400, None).write(bench.folder)[:2]
    bench.measure_alone(f"`bound`, boxes on {side} x {side}", ["bound", *map(str, boxes)], 0)
    paths = bench.files("following", "map", "plan")
    text = generate.map_text("maze", side, side, 1)
    for path, made in zip(paths, (text, far.following_plan_text(text, agents, 4_000))):
        path.write_text(made)
    name = f"`bound`, far through a maze of {side} x {side}"
    bench.measure_alone(name, ["bound", *map(str, paths)], 0)


def measure_all_faults(bench: Bench, agents: int) -> None:
    """Measures the lists of all faults of plans that have many."""
    for kind, count, told in (("heap", 10 * agents, "in one cell"), ("strays", agents, "astray")):
        paths = Plans(kind, 128, count, 400, None).write(bench.folder)[:2]
        for option in ("--all", "--all=100000"):
            name = f"`check {option}`, {count:,} agents {told}"
            bench.measure_alone(name, ["check", *map(str, paths), option], 1)


def measure_alone(bench: Bench, side: int, agents: int) -> None:
    """Measures what our program alone answers."""
    measure_bounds(bench, side, agents)
    measure_all_faults(bench, agents)


def measure_dependencies(bench: Bench, side: int) -> None:
    """Measures programs that write the dependencies of valid plans."""
    for plans in all_plans(side, ("boxes", "blocks", "trains")):
        map_path, plan_path, _ = plans.write(bench.folder)
        commands = bench.commands(["deps", str(map_path), str(plan_path)])
        name = f"deps {plans.kind} {plans.acts}"
        measured = bench.measure_alike(name, commands)
        row = ("dependencies", plans.row) if plans.row else None
        bench.report(name, measured, [whole_peak_memory(it) for it in commands], row)


def write_dense_plan(
    bench: Bench, name: str, kind: str = "crowd", side: int = 48
) -> tuple[list[str], str]:
    """Writes the map and the plan of 1,000 agents close together, and names a file for events.
    Answers the words, and the plan."""
    map_path, plan_path, events_path = bench.files(name, "map", "plan", "events")
    plan = generate.plan_text(kind, side, side, 1, 1_000, 400)
    map_path.write_text(generate.map_text("open", side, side, 1))
    plan_path.write_text(plan)
    return ["run", str(map_path), str(plan_path), str(events_path)], plan


@dataclasses.dataclass(frozen=True)
class Events:
    """Events that bring a dense plan of 1,000 agents to its end, or so many of them: what is
    special of them, the share of moves that have mishaps, and the version of their messages."""

    name: str
    count: int
    mishaps: float = 0.0
    version: int = 1
    plan: tuple[str, int] = ("crowd", 48)


def measure_run(bench: Bench, given: Events) -> None:
    words, plan = write_dense_plan(bench, given.name or "plain", *given.plan)
    text = generate.events_text(plan, 1, given.count, given.mishaps, given.version)
    pathlib.Path(words[-1]).write_text(text)
    commands = bench.commands(words)
    measured = bench.measure_alike(f"run {given.name}", commands)
    most = [whole_peak_memory(it) for it in commands]
    row = ("runs", ", ".join(filter(None, [f"{given.count:,}", given.name])))
    bench.report(f"run {given.name or 'plain'} {given.count}", measured, most, row)


def measure_restarts(bench: Bench, moves: int, restarts: int) -> None:
    """Measures programs that restart an agent with so many moves done, again and again."""
    paths = bench.files("restarts", "map", "plan", "events")
    made = generate.pacing_plan_text(moves), generate.restarts_text(moves, restarts)
    for path, text in zip(paths, (generate.map_text("open", 2, 1, 1), *made)):
        path.write_text(text)
    commands = bench.commands(["run", *map(str, paths)])
    measured = bench.measure_alike("restarts", commands)
    most = [whole_peak_memory(it) for it in commands]
    row = ("runs", f"{2 * moves + restarts:,}, {restarts:,} restarts")
    bench.report(f"run restarts {restarts}", measured, most, row)


def measure_runs(bench: Bench) -> None:
    loops = ("loops", 128)
    for given in (
        Events("", 100_000),
        Events("", 1_000_000),
        Events("mishaps", 100_000, 0.2),
        Events("loops", 1_000_000, plan=loops),
        Events("loops and mishaps", 100_000, 0.2, plan=loops),
        Events("telling", 100_000, version=2),
    ):
        measure_run(bench, given)
    for restarts in (1_000, 4_000):
        measure_restarts(bench, 60_000, restarts)


def judge(program: str, words: Sequence[str], plan: str, answer: bytes) -> int:
    """Runs the events that are said to complete a run from its beginning, and ends this program
    where they don't. How many there are."""
    header, ends = "mapf-events 1\n", completing.ends_of(plan)
    replies, events = completing.told(answer.decode(), 0)
    if events is None:
        sys.exit(f"no events that complete a run: {answer[:100]!r}")
    pathlib.Path(words[-1]).write_text(completing.asked_again(header, events, len(ends)))
    again = subprocess.run([program, *words], capture_output=True, text=True, check=True).stdout
    fault = completing.fault_in(replies, events, ends, again)
    if fault:
        sys.exit(f"the events don't complete the run: {fault}")
    return len(events)


def measure_endings(bench: Bench) -> None:
    """Measures programs that complete a run of a dense plan of 1,000 agents in which nothing has
    happened."""
    words, plan = write_dense_plan(bench, "complete")
    pathlib.Path(words[-1]).write_text("mapf-events 1\n")
    commands = bench.commands([*words, "--complete"])
    measured, written = bench.measure(commands)
    most = [whole_peak_memory(it) for it in commands]
    # each answer is run by our program
    counts = [judge(bench.programs[0], words, plan, answer) for answer in written]
    told = " and ".join(f"{it:,}" for it in sorted(set(counts)))
    bench.report("complete plain", measured, most, ("endings", f"{told} events"))
    print(f"  events: mapf {counts[0]}, peer {counts[1]}", flush=True)


MEASURED = {
    "map": lambda bench, given: measure_maps(bench, given.side),
    "scen": lambda bench, given: measure_scenario(bench, given.side, given.rows),
    "row": lambda bench, given: measure_rows(bench, given.side),
    "rows": lambda bench, given: measure_scenarios(
        bench, given.side // FEWER_SIDE, given.rows // FEWER_ROWS
    ),
    "alone": lambda bench, given: measure_alone(
        bench, given.side // FEWER_SIDE, given.rows // FEWER_ROWS
    ),
    "check": lambda bench, given: measure_checks(bench, given.side),
    "deps": lambda bench, given: measure_dependencies(bench, given.side),
    "optimal": lambda bench, given: optimal.measure_proofs(bench),
    "run": lambda bench, given: measure_runs(bench),
    "complete": lambda bench, given: measure_endings(bench),
}


def measure(given: argparse.Namespace) -> tables.Run:
    """Measures what was asked for."""
    programs = [str(pathlib.Path(given.program).resolve()), str(given.peer or build_peer())]
    shared = pathlib.Path("/dev/shm")
    heads = f"{'mapf ms':>8} {'peer ms':>8} {'ratio':>6} {'mapf MB':>8} {'peer MB':>8}"
    print(f"{'text':28} {heads}")
    with tempfile.TemporaryDirectory(dir=shared if shared.is_dir() else None) as name:
        bench = Bench(programs, pathlib.Path(name), given.rounds, given.seconds)
        for command, measure_it in MEASURED.items():
            if given.only in (None, command):
                measure_it(bench, given)
    return tables.run_of(bench.measures)


def read_words(words: Sequence[str]) -> argparse.Namespace:
    how = argparse.RawDescriptionHelpFormatter
    parser = argparse.ArgumentParser(prog="run.py", description=__doc__, formatter_class=how)
    parser.add_argument("--program", default=str(BENCH.parent / "crates/mapf/out/mapf"))
    parser.add_argument("--peer", type=pathlib.Path)
    parser.add_argument("--rounds", type=int, default=9)
    parser.add_argument("--seconds", type=float, default=LEAST_SECONDS)
    parser.add_argument("--side", type=int, default=SIDE)
    parser.add_argument("--rows", type=int, default=ROWS)
    parser.add_argument("--only", choices=tuple(MEASURED))
    parser.add_argument("--keep", type=pathlib.Path, metavar="FILE")
    parser.add_argument("--kept", type=pathlib.Path, metavar="FILE")
    parser.add_argument("--write", type=pathlib.Path, metavar="PAGE")
    given = parser.parse_args(words)
    if given.kept and not given.write:
        parser.error("--kept FILE measures nothing: --write PAGE is wanted")
    if given.write and (given.side, given.rows) != (SIDE, ROWS):
        parser.error(f"the page has maps of {SIDE} x {SIDE} and {ROWS} rows: no others are written")
    return given


def put(page: pathlib.Path, run: tables.Run) -> None:
    """Writes what a run measured into its tables of the page."""
    text = tables.written(page.read_text(encoding="utf-8"), run)
    with draft([text.encode()], page) as made:
        made.put()


def main(words: Sequence[str]) -> int:
    given = read_words(words)
    try:
        if given.write:
            # What can't be written isn't worth a measure.
            given.write.read_bytes()
        run = tables.kept(given.kept) if given.kept else measure(given)
        if given.keep:
            tables.keep(run, given.keep)
        if given.write:
            put(given.write, run)
    except tables.BadTables as fault:
        print(f"bench: {fault}", file=sys.stderr)
        return 1
    except OSError as fault:
        print(f"bench: {fault.filename}: {fault.strerror}", file=sys.stderr)
        return 1
    return 0


if __name__ == "__main__":
    sys.exit(main(sys.argv[1:]))
