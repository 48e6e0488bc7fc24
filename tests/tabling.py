"""tools/rows.py: one result a scenario, with the counts of all its rows, whoever is stopped."""
import functools
import random
import shlex
from typing import Iterator, Sequence

from harness import VERSION, Harness, Outcome, compared, shown, side_by_side
from job_rooms import Room, stopped
from scenarios import Ground, Row, due_of_rows, random_ground, random_row
from texts import LANE, SHORT, scen

COUNTS = ("rows", "agree", "differ", "unreachable", "size", "sum", "greatest")
COLUMNS = ["map", "scenario", "verdict", "fault", *COUNTS, "seconds", "map_sha256", "scenario_sha256", "judge"]
SEEDS = range(1, 25)
SECONDS = 5
# Two rows on LANE that are right, by name, and a third that isn't; what is due of them, and by straight steps.
RIGHT = scen("a/b/lane.map 3 1 0 0 2 0 2", "a/b/lane.map 3 1 2 0 1 0 1.0")
WRONG = f"{RIGHT}0 a/b/lane.map 3 1 0 0 1 0 3\n"
LANE_RIGHT = ("maps/lane.map", "agree", "", "2", "2", "0", "0", "0", "", "")
LANE_WRONG = ("maps/lane.map", "differ", "2 shortest 1 0 listed 3 differs", "3", "2", "1", "0", "0", "", "")
STRAIGHT_RIGHT = ("maps/lane.map", "agree", "", "2", "", "", "0", "0", "3", "2")
STRAIGHT_WRONG = ("maps/lane.map", "agree", "", "3", "", "", "0", "0", "4", "2")
NOTHING = ("",) * len(COUNTS)
# Scenarios by name, and what is due of each.
SCENARIOS: dict[str, tuple[str, tuple[str, ...]]] = {
    "right.scen": (RIGHT, LANE_RIGHT),
    "deep/wrong.scen": (WRONG, LANE_WRONG),
    "deep/none.scen": ("version 1\n", ("", "unreadable", "scens/deep/none.scen: there is no row, one that names the map was due", *NOTHING)),
    "two.scen": (
        f"{RIGHT}0 b/lane.map 3 1 0 0 1 0 1\n",
        ("", "unreadable", "scens/two.scen: rows name the maps a/b/lane.map and b/lane.map, one was due", *NOTHING),
    ),
    "bytes.scen": (
        RIGHT.replace("lane.map", "la\0ne.map"),
        ("", "unreadable", "scens/bytes.scen: the name of the map has a line end or a zero byte, a name without one was due", *NOTHING),
    ),
    "bad.scen": ("version 2\n", ("", "unreadable", "scens/bad.scen: `mapf scen` says NoVersion", *NOTHING)),
    "short.scen": (RIGHT.replace("lane.map", "short.map"), ("maps/short.map", "unreadable", "ShortRow 6", *NOTHING)),
    "gone.scen": (RIGHT.replace("lane.map", "gone.map"), ("maps/gone.map", "failed", "OpenFailed", *NOTHING)),
}


def rows_room(harness: Harness) -> Room:
    room = Room(harness, "rows", {})
    for folder in ("maps", "scens/deep", "many"):
        (room.folder / folder).mkdir(parents=True)
    for name, text in (("lane.map", LANE), ("short.map", SHORT)):
        room.file(f"maps/{name}", text.encode())
    for name, (text, _) in SCENARIOS.items():
        room.file(f"scens/{name}", text.encode())
    return room


def found_in(room: Room, output: str) -> dict[str, tuple[str, ...]]:
    """What was said of each scenario."""
    return {row["scenario"]: tuple(row[name] for name in ("map", "verdict", "fault", *COUNTS)) for row in room.rows(output)}


def of_folders(room: Room) -> Iterator[Outcome]:
    """Each scenario below a folder, by the map that its rows name."""
    due = {f"scens/{name}": columns for name, (_, columns) in SCENARIOS.items()}
    for output in ("all.csv", "all.jsonl"):
        ended = room.run("--maps", "maps", "scens", "-o", output)
        yield compared(f"a folder of scenarios, to {output}", "rows.py --maps maps scens", (ended.status, found_in(room, output)), (0, due))
        yield compared(f"the columns of {output}", f"looked at {output}", list(room.rows(output)[0]), COLUMNS)
    told = ended.err.decode().splitlines()
    totals = ["8 results: 1 agree, 1 differ, 5 unreadable, 1 failed; rows 5, of which 1 bad"]
    totals += ["map maps/gone.map: 1 failed; rows 0, of which 0 bad", "map maps/lane.map: 1 agree, 1 differ; rows 5, of which 1 bad"]
    totals += ["map maps/short.map: 1 unreadable; rows 0, of which 0 bad"]
    lines = [f"rows: {line}" for line in (f"{VERSION.partition(chr(10))[0]} certifies 8 scenarios", *totals)]
    yield compared("what they come to", "rows.py --maps maps scens", told, lines)
    named = ["scens/right.scen", "scens/deep"]
    room.run("--maps", "maps", *named, "-o", "named.csv")
    some = {name: columns for name, columns in due.items() if name in named or "deep" in name}
    yield compared("a scenario and a folder", "rows.py --maps maps scens/right.scen scens/deep", found_in(room, "named.csv"), some)
    for k in (1, 2):
        room.run("--maps", "maps", "scens", "--shard", f"{k}/2", "-o", f"part{k}.csv")
    parts = [found_in(room, f"part{k}.csv") for k in (1, 2)]
    yield compared("two parts of a folder", "rows.py --shard 1/2, 2/2", ([len(it) for it in parts], {**parts[0], **parts[1]}), ([4, 4], due))


def of_one(room: Room) -> Iterator[Outcome]:
    """A map and a scenario, whatever map its rows name; and the least straight steps."""
    for words, due in (([], LANE_WRONG), (["--straight"], STRAIGHT_WRONG)):
        output = f"one{len(words)}.csv"
        ended = room.run("maps/lane.map", "scens/deep/wrong.scen", *words, "-o", output, "--page", "page.html")
        wrote = (ended.status, found_in(room, output))
        yield compared(f"one scenario, {words}", "rows.py maps/lane.map scens/deep/wrong.scen", wrote, (0, {"scens/deep/wrong.scen": due}))
    text = (room.folder / "page.html").read_text(encoding="utf-8")
    wrote = ('<td class="verdict">agree</td>' in text, '<td class="number">4</td>' in text, "<script" in text)
    yield compared("a page of the results", "rows.py --page page.html", wrote, (True, True, False))
    room.run("maps/lane.map", "scens/two.scen", "-o", "two.csv")
    due = ("maps/lane.map", "agree", "", "3", "3", "0", "0", "0", "", "")
    yield compared("a map that is told", "rows.py maps/lane.map scens/two.scen", found_in(room, "two.csv"), {"scens/two.scen": due})


def due_of(ground: Ground, rows: Sequence[Row], is_straight: bool) -> tuple[str, ...]:
    """The verdict, the first row that doesn't agree, and the counts, by the plain model."""
    ended = due_of_rows(ground, rows, 0, len(rows), is_straight)
    *lines, last = ended.out.decode().splitlines()
    words = last.split()
    counts = dict(zip(words[::2], words[1::2]))
    bad = next((line for line in lines if not line.endswith("agrees") and " least " not in line), "")
    return ("differ" if ended.status else "agree", bad, *(counts.get(name, "") for name in COUNTS))


def of_many(room: Room) -> Iterator[Outcome]:
    """Scenarios at random, beside the plain model."""
    scenarios = {}
    for seed in SEEDS:
        rng = random.Random(f"tabling {seed}")
        ground = random_ground(rng)
        rows = [random_row(rng, ground) for _ in range(rng.randint(1, 12))]
        room.file(f"maps/{seed}.map", ground.text().encode())
        lines = [row.text().replace(" m.map ", f" some/where/{seed}.map ", 1) for row in rows]
        room.file(f"many/{seed}.scen", "".join(["version 1\n", *(f"{line}\n" for line in lines)]).encode())
        scenarios[f"many/{seed}.scen"] = seed, ground, rows
    for words in ([], ["--straight"]):
        output = f"many{len(words)}.csv"
        room.run("--maps", "maps", "many", *words, "-o", output)
        found = found_in(room, output)
        for name, (seed, ground, rows) in scenarios.items():
            due = (f"maps/{seed}.map", *due_of(ground, rows, bool(words)))
            yield compared(f"{name}, {words}", f"rows.py --maps maps many {' '.join(words)}", found.get(name), due)


def of_changes(room: Room) -> Iterator[Outcome]:
    """A result is of what was read and asked: of others it is made anew, and that is said."""
    call = ["--maps", "maps", "scens/right.scen", "scens/deep/wrong.scen", "-o", "changes.csv"]
    room.run(*call)

    def after(name: str, told: str, *words: str) -> Outcome:
        ended = room.run(*call, *words)
        wrote = (told.encode() in ended.err, len(room.rows("changes.csv")))
        return compared(name, f"rows.py {' '.join(call)}, which told {ended.err!r}", wrote, (True, 2))

    before = (room.folder / "changes.csv").read_bytes()
    yield after("nothing has changed", "2 of 2 jobs have a result")
    yield compared("the results stay as they were", "looked at changes.csv", (room.folder / "changes.csv").read_bytes() == before, True)
    yield after("another question", "right.scen: another judge since", "--straight")
    due = {"scens/right.scen": STRAIGHT_RIGHT, "scens/deep/wrong.scen": STRAIGHT_WRONG}
    yield compared("what is answered then", "rows.py --straight", found_in(room, "changes.csv"), due)
    room.file("maps/lane.map", LANE.replace("...", ".@.").encode())
    yield after("another map", "right.scen: another map and judge since")
    room.file("maps/lane.map", LANE.encode())
    room.file("scens/right.scen", WRONG.encode())
    yield after("another scenario", "right.scen: another map and scenario since")
    room.file("scens/right.scen", b"version 1\n")
    yield after("a scenario that names no map any more", "right.scen: the list says something else of it")
    room.file("scens/right.scen", RIGHT.encode())
    yield after("one that names a map again", "right.scen: the list says something else of it")
    due = {"scens/right.scen": LANE_RIGHT, "scens/deep/wrong.scen": LANE_WRONG}
    yield compared("what stands at the end", "looked at changes.csv", found_in(room, "changes.csv"), due)


# Programs that don't certify, and what is said of a scenario.
PROGRAMS = (
    ("killed", "kill -9 $$", ("failed", "`mapf rows` ended by signal 9")),
    ("silent", "exit 5", ("failed", "`mapf rows` ended with status 5")),
    ("torn", "echo 0 shortest 2 0 listed 2 agrees", ("failed", "`mapf rows` ended with status 0")),
    ("short", "echo rows 2 agree 2 differ 0 unreachable 0 size 0", ("failed", "`mapf rows` ended with status 0")),
    ("lying", "echo 0 unreachable; echo rows 1 agree 0 differ 0 unreachable 1 size 0", ("failed", "`mapf rows` ended with status 0")),
    ("full", "echo 0 least 2; echo mapf: OutOfMemory >&2; exit 3", ("failed", "OutOfMemory")),
    ("group", "kill -9 0", ("failed", "ended by signal 9")),
    ("sleepy", "sleep 60", ("failed", f"time limit of {SECONDS} seconds")),
)


def of_program(room: Room, name: str, script: str, due: tuple[str, str]) -> list[Outcome]:
    program = room.script(name, f'test "$1" = --version && exec echo mapf 0\n{script}')
    ended = room.run("maps/lane.map", "scens/right.scen", "-o", f"{name}.csv", "--seconds", str(SECONDS), program=program)
    found = [(row["verdict"], row["fault"]) for row in room.rows(f"{name}.csv")]
    return [compared(f"a program that is {name}", f"{script}, and told {ended.err!r}", (ended.status, found), (0, [due]))]


def of_programs(room: Room) -> Iterator[Outcome]:
    yield from side_by_side(functools.partial(of_program, room, *it) for it in reversed(PROGRAMS))
    ended = room.run("--maps", "maps", "scens/right.scen", "-o", "gone.csv", program=str(room.folder / "no"))
    found = [(row["map"], row["verdict"]) for row in room.rows("gone.csv")]
    yield compared("a program that is not there", "rows.py --maps maps scens/right.scen", (ended.status, found), (0, [("", "failed")]))


def of_stops(room: Room) -> Iterator[Outcome]:
    """A call that is killed again and again, its last line torn, has each scenario once at its end."""
    slow = room.script("slow", f'test "$1" = rows && sleep 0.1\nexec {shlex.quote(str(room.harness.program))} "$@"')
    words = room.words("--maps", "maps", "many", "-o", "stopped.csv", program=slow)
    turns, stops = stopped(room, words, "stopped.csv", b"maps/1.map,many/1")
    yield compared("a call that is killed again and again", f"{turns} times", found_in(room, "stopped.csv"), found_in(room, "many0.csv"))
    yield compared("each scenario once", "looked at stopped.csv", (len(room.rows("stopped.csv")), stops > 1), (len(SEEDS), True))


def of_bad_lines(room: Room) -> Iterator[Outcome]:
    (room.folder / "empty").mkdir()
    lines = (
        (["maps/lane.map", "-o", "none.csv"], 2),
        (["maps/lane.map", "scens/right.scen", "scens/two.scen", "-o", "none.csv"], 2),
        (["--maps", "maps", "-o", "none.csv"], 2),
        (["maps/lane.map", "scens/right.scen"], 2),
        (["maps/lane.map", "scens/right.scen", "--jobs", "0", "--processes", "0", "-o", "none.csv"], 2),
        (["maps/lane.map", "scens/right.scen", "--shard", "3/2", "-o", "none.csv"], 2),
        (["--maps", "maps", "empty", "-o", "none.csv"], 1),
        (["maps/lane.map", "scens/right.scen", "-o", "no/none.csv"], 3),
        (["maps/lane.map", "scens/right.scen", "-o", room.file("others.csv", b"a,b\n1,2\n")], 3),
        (["maps/lane.map", "scens/right.scen", "-o", room.file("others.jsonl", b'{"a":1}\n')], 3),
    )
    for (words, status), (ended, told, out) in zip(lines, room.many([words for words, _ in lines])):
        yield compared(" ".join(words), shown(["tools/rows.py", *words]), (ended, bool(told), out), (status, True, ""))
    yield compared("a file of something else", "looked at others.csv", (room.folder / "others.csv").read_bytes(), b"a,b\n1,2\n")
    yield compared("nothing is written", "looked for none.csv", (room.folder / "none.csv").exists(), False)


def outcomes(harness: Harness) -> Iterator[Outcome]:
    room = rows_room(harness)
    yield from of_folders(room)
    yield from of_one(room)
    yield from of_many(room)
    yield from of_changes(room)
    yield from of_programs(room)
    yield from of_stops(room)
    yield from of_bad_lines(room)
