"""tools/convert.py: what planners write becomes the plan that it says, and back; nothing else is written, whatever stands in the text."""
import ast
import collections
import dataclasses
import functools
import importlib.util
import json
import os
import pathlib
import random
import re
import shlex
import shutil
import subprocess
import sys
from typing import Callable, Iterator, Optional, Sequence

import example_texts
import path_model
import plain_formats
import planner
import refused_texts
from harness import ROOT, Ended, Harness, Outcome, compared, put_program, shown, side_by_side
from plain_formats import SHAPES, WIDTH, WRITERS, Paths, padded, plan_text, reading, scen_text

TOOL = ROOT / "tools" / "convert.py"
MANY = ROOT / "tests" / "many_conversions.py"
# A map for agents of a planner, how many there are, and a seed that soon leads to a plan.
SAMPLES = (("fleet/warehouse.map", 12, 12), ("planners/hall.map", 60, 7))
NUMBER = "7"
# How many numbers are drawn. That two of them are the same has a chance of one in a hundred million.
DRAWN = 10
# Random plans a format, and how many of them one process converts.
SHORT_ROUNDS, LONG_ROUNDS, ROUND = 20, 200, 20
SHORT_PLACES, LONG_PLACES = 170, 2_000
# Formats whose greatest texts are soon converted.
SOON_AT_LIMITS = ("csv", "paths", "tracker")


@dataclasses.dataclass(frozen=True)
class Conversion:
    """A call of the tool: its words, what it ended with, and the text that is there afterwards."""

    words: list[str]
    status: int
    told: str
    written: Optional[bytes]

    @property
    def shown(self) -> str:
        return shown(["tools/convert.py", *self.words])


class Room:
    """A folder of texts, and conversions of them, many in a process."""

    def __init__(self, harness: Harness):
        self.harness = harness
        self.folder = harness.folder()
        self.calls: list[tuple[list[str], pathlib.Path]] = []

    def file(self, name: str, text: bytes) -> str:
        path = self.folder / name
        path.write_bytes(text)
        return str(path)

    def convert(self, words: Sequence[str], program: str = "") -> None:
        """Plans a call. What it writes goes to a file of its own."""
        output = self.folder / f"{len(self.calls)}.out"
        self.calls.append(([*words, "-o", str(output), "--program", program or str(self.harness.program)], output))

    def done(self) -> list[Conversion]:
        """Runs the calls that were planned."""
        answers = many(self.harness, [{"words": words} for words, _ in self.calls])
        found = [
            Conversion(words, status, told, output.read_bytes() if output.exists() else None)
            for (words, output), (status, told, _) in zip(self.calls, answers)
        ]
        for _, output in self.calls:
            output.unlink(missing_ok=True)
        self.calls.clear()
        return found

    def gone(self) -> None:
        shutil.rmtree(self.folder)


def many(harness: Harness, calls: Sequence[dict[str, object]]) -> list[tuple[int, str, str]]:
    """The answers of calls that one process makes: status, standard error, standard output."""
    ended = harness.run([sys.executable, str(MANY)], "".join(f"{json.dumps(call)}\n" for call in calls).encode())
    answers = [json.loads(line) for line in ended.out.splitlines()]
    if len(answers) != len(calls):
        raise ValueError(f"of {len(calls)} calls {len(answers)} ended: {ended.err[-2000:]!r}")
    return answers


def tool(harness: Harness, words: Sequence[str], folder: Optional[pathlib.Path] = None) -> Ended:
    """The tool as one would call it."""
    return harness.run([sys.executable, str(TOOL), *words, "--program", str(harness.program)], folder=folder)


def paths_of(text: bytes) -> Paths:
    return [agent.cells() for agent in path_model.read_plan(text.decode())]


# Samples of a planner


def with_a_vertex(paths: Paths, _: str) -> Paths:
    """One agent more, that stays in a goal of another."""
    moving = next(path for path in paths if len(path) > 1)
    return [*paths, [moving[-1]]]


def with_a_swap(paths: Paths, _: str) -> Paths:
    """One agent more, that exchanges its cell with another in the first step, where nobody else comes."""
    begins = collections.Counter(cell for path in paths for cell in set(path[:2]))
    one, other = next(path[:2] for path in paths if len(path) > 1 and begins[path[0]] == begins[path[1]] == 1)
    return [*paths, [other, one]]


def with_a_wall(paths: Paths, map_text: str) -> Paths:
    """An agent goes on from its goal into a wall."""
    terrain = path_model.read_map(map_text)
    for number, path in enumerate(paths):
        for dx, dy in path_model.STEPS.values():
            cell = path[-1][0] + dx, path[-1][1] + dy
            if terrain.get(cell) == "@":
                return [*paths[:number], [*path, cell], *paths[number + 1 :]]
    raise ValueError("no goal is beside a wall")


KINDS: list[tuple[str, Callable[[Paths, str], Paths], str]] = [
    ("a valid plan", lambda paths, _: paths, "accepted "),
    ("a vertex conflict", with_a_vertex, "rejected Vertex "),
    ("a swap", with_a_swap, "rejected Swap "),
    ("a step into a wall", with_a_wall, "rejected BadMove "),
]


def sampled(map_text: str, agents: int, seed: int) -> Paths:
    rng = random.Random(f"hall {seed}")
    free = planner.free_cells(map_text)
    return planner.plan(free, planner.random_tasks(free, agents, rng), rng)


def of_sample(harness: Harness, name: str, map_name: str, kinds: Sequence[tuple[str, Paths, str]]) -> list[Outcome]:
    """Texts of a planner in a format, with their map and their scenarios."""
    map_file, room, outcomes = str(ROOT / "examples" / map_name), Room(harness), []
    for number, (_, paths, _) in enumerate(kinds):
        text, scen = room.file(f"{number}.text", WRITERS[name](paths).encode()), room.file(f"{number}.scen", scen_text(paths).encode())
        room.convert([text, "--map", map_file, "--scen", scen, "--number", NUMBER])
    for (kind, paths, verdict), done in zip(kinds, room.done()):
        due = plan_text(plain_formats.due_paths(name, paths), int(NUMBER)).encode()
        ran = f"{done.shown}  of {kind} of {map_name} as {name}"
        outcomes.append(compared(f"{kind} of {map_name} as {name}", ran, (done.status, done.written), (0, due)))
        said = "is to say what is wrong with it" in done.told
        outcomes.append(compared(f"what is told of {kind} as {name}", ran, said, verdict.startswith("rejected BadMove")))
        if name != "lorr":
            judged = harness.mapf(["check", map_file, room.file("plan", done.written or b"")]).out.decode()
            outcomes.append(compared(f"the verdict on {kind} as {name}", f"{ran}, and `mapf check`", judged[: len(verdict)], verdict))
    room.gone()
    return outcomes


def of_samples(harness: Harness) -> Iterator[Callable[[], list[Outcome]]]:
    for map_name, agents, seed in SAMPLES:
        map_text = (ROOT / "examples" / map_name).read_text()
        paths = sampled(map_text, agents, seed)
        kinds = [(kind, spoil(paths, map_text), verdict) for kind, spoil, verdict in KINDS]
        for name in WRITERS:
            yield functools.partial(of_sample, harness, name, map_name, kinds)


# There and back


def random_paths(rng: random.Random) -> Paths:
    """Agents that walk as they like on open ground."""
    width, height = rng.randint(1, 12), rng.randint(1, 12)
    paths = []
    for _ in range(rng.randint(1, 8)):
        path = [(rng.randrange(width), rng.randrange(height))]
        for _ in range(rng.choice([0, 1, 3, 8, 20])):
            dx, dy = rng.choice(list(path_model.STEPS.values()))
            x, y = path[-1][0] + dx, path[-1][1] + dy
            path.append((x, y) if 0 <= x < width and 0 <= y < height else path[-1])
        paths.append(path)
    # The tracker's texts need a goal that settles which way is up.
    return [*paths, [(0, 0), (0, 1)]]


def of_rounds(harness: Harness, name: str, first: int, count: int) -> list[Outcome]:
    """Random plans to a format and back, and what a plain writer writes to plans."""
    room, cases = Room(harness), []
    for seed in range(first, first + count):
        paths = random_paths(random.Random(f"round {name} {seed}"))
        scen = ["--scen", room.file(f"{seed}.scen", scen_text(paths).encode())]
        # Some with the line ends of other systems.
        text = WRITERS[name](paths).replace("\n", "\r\n" if seed % 4 == 1 else "\n")
        room.convert([room.file(f"{seed}.text", text.encode()), "--number", NUMBER, *scen])
        cases.append((f"a plain text, seed {seed} as {name}", plan_text(plain_formats.due_paths(name, paths), int(NUMBER)).encode()))
    read = room.done()
    outcomes = [same(*case, done) for case, done in zip(cases, read)]
    if name != "lorr":
        outcomes += there_and_back(room, name, first, [done.written or b"" for done in read])
    room.gone()
    return outcomes


def there_and_back(room: Room, name: str, first: int, plans: Sequence[bytes]) -> list[Outcome]:
    for seed, text in enumerate(plans, first):
        room.convert([room.file(f"{seed}.plan", text), "--to", name])
    there = room.done()
    for seed, done in enumerate(there, first):
        # Of the tracker's texts up leads to the row above here, and the scenario is the same.
        room.convert([room.file(f"{seed}.there", done.written or b""), "--number", NUMBER, "--scen", str(room.folder / f"{seed}.scen")])
    return [same(f"there and back, seed {seed} as {name}", text, done) for seed, (text, done) in enumerate(zip(plans, room.done()), first)]


def same(name: str, due: bytes, done: Conversion) -> Outcome:
    return compared(name, done.shown, (done.status, done.written, "" if done.status == 0 else done.told), (0, due, ""))


# Texts that are cut, or have another byte


def spoiled_texts(text: bytes, rng: random.Random, places: int) -> Iterator[tuple[str, bytes]]:
    """The text cut at every line and at many places, and with a byte changed."""
    line_ends = [place + 1 for place, byte in enumerate(text) if byte == 10]
    for place in sorted({*line_ends[:-1], *(rng.randrange(len(text)) for _ in range(places))}):
        yield f"cut behind {place} bytes", text[:place]
    for _ in range(places):
        place = rng.randrange(len(text))
        # Bytes that the text has are more telling than others.
        byte = rng.choice([text[rng.randrange(len(text))], text[rng.randrange(len(text))], rng.randrange(256)])
        yield f"byte {place} changed to {byte}", text[:place] + bytes([byte]) + text[place + 1 :]


def judged(name: str, what: str, text: bytes, solved: Paths, done: Conversion) -> Outcome:
    """A spoiled text is refused in one line that names a line of it, or is the plan that a plain reader reads in it."""
    if done.status == 1:
        head, _, rest = done.told.splitlines()[-1].partition(".text:")
        line = rest.partition(":")[0]
        well = line.isdigit() and 1 <= int(line) <= text.count(b"\n") + 1 and done.written is None and " due" in rest
        return compared(f"{name}, {what}", done.shown, done.told if not well else "", "")
    plain = reading(name, text, solved)
    wrote = (done.status, done.written and paths_of(done.written), done.told if done.status else "")
    return compared(f"{name}, {what}", f"{done.shown}  of {text[:300]!r}", wrote, (0, plain, ""))


def of_spoiled(harness: Harness, name: str, places: int) -> list[Outcome]:
    rng = random.Random(f"spoiled {name}")
    paths = [path[:25] for path in sampled((ROOT / "examples" / SAMPLES[0][0]).read_text(), *SAMPLES[0][1:])[:6]]
    room = Room(harness)
    scen = room.file("scen", scen_text(paths).encode())
    # The scenario is given where the format needs it: elsewhere it would refuse what a reader lets pass.
    more = ["--scen", scen] if name == "tracker" else []
    texts = list(spoiled_texts(WRITERS[name](paths).encode(), rng, places))
    for number, (_, text) in enumerate(texts):
        room.convert([room.file(f"{number}.text", text), "--from", name, *more])
    outcomes = [judged(name, what, text, paths, done) for (what, text), done in zip(texts, room.done())]
    room.gone()
    return outcomes


def of_shape(harness: Harness, name: str, places: int) -> list[Outcome]:
    """A plan in another shape, whole, cut and with bytes changed. What another YAML says is no question here: it is only cut."""
    rng = random.Random(f"shape {name}")
    paths = [path[:12] for path in sampled((ROOT / "examples" / SAMPLES[0][0]).read_text(), *SAMPLES[0][1:])[:3]]
    source, needs_map, write, _ = SHAPES[name]
    room = Room(harness)
    more = ["--map", room.file("map", f"type octile\nheight 64\nwidth {WIDTH}\nmap\n".encode() + (b"." * WIDTH + b"\n") * 64)] if needs_map else []
    whole = write(paths).encode()
    spoiled = [it for it in spoiled_texts(whole, rng, places) if name != "yaml" or it[0].startswith("cut")]
    texts = [("as it was written", whole), *spoiled] if name != "yaml" or has_yaml() else []
    for number, (_, text) in enumerate(texts):
        room.convert([room.file(f"{number}.text", text), "--from", source, *more])
    done = room.done()
    outcomes = [judged(name, what, text, paths, it) for (what, text), it in zip(texts, done)]
    if texts:
        due = padded(paths) if name == "times" else paths
        outcomes.append(compared(f"{name}, as it was written", done[0].shown, done[0].written and paths_of(done[0].written), due))
    room.gone()
    return outcomes


# Texts and command lines that are refused, and line ends that texts may have


def refused(name: str, line: int, told: str, done: Conversion) -> Outcome:
    """A refusal is one line that names the line of the text, says what is wrong, and what was due; and nothing is written."""
    place, _, said = done.told.partition(": ")
    wrote = (done.status, place.rpartition(":")[2], told in said and " due" in said, done.told.count("\n"), done.written)
    return compared(f"{name}: {told}", f"{done.shown}, which told {done.told!r}", wrote, (1, str(line), True, 1, None))


def of_refusals(harness: Harness) -> list[Outcome]:
    room, cases = Room(harness), []
    rows = ["--scen", room.file("scen", refused_texts.SCEN.encode())]
    for number, (name, text, line, told) in enumerate(refused_texts.TEXTS):
        room.convert([room.file(f"{number}.text", text.encode("latin-1")), "--from", name, *(rows if name == "tracker" else [])])
        cases.append((name, line, told))
    for number, (text, line, told) in enumerate(refused_texts.UNKNOWN):
        room.convert([room.file(f"{number}.unknown", text.encode())])
        cases.append(("a format that is not named", line, told))
    for number, (text, scen, told) in enumerate(refused_texts.UNSETTLED):
        room.convert([room.file(f"{number}.unsettled", text.encode()), "--from", "tracker", "--scen", room.file(f"{number}.scen", scen.encode())])
        cases.append(("which way is up", 1, told))
    for number, (text, line, told) in enumerate(refused_texts.PLANS):
        room.convert([room.file(f"{number}.plan", text.encode()), "--to", "csv"])
        cases.append(("a plan", line, told))
    outcomes = [refused(*case, done) for case, done in zip(cases, room.done())]
    room.gone()
    return outcomes


def of_limits(harness: Harness, name: str) -> list[Outcome]:
    """The most acts and the most agents that a plan may have, and one more of each."""
    room, cases = Room(harness), []
    still, crowd = [(1, 2)], [[(agent % 100, agent // 100)] for agent in range(path_model.MOST_AGENTS + 1)]
    for what, most in (("acts", [still * (path_model.MOST_ACTS + 1)]), ("agents", crowd[:-1])):
        for more, paths in ((0, most), (1, crowd if what == "agents" else [most[0] + still])):
            text = room.file(f"{what}{more}.text", WRITERS[name](paths).encode())
            scen = room.file(f"{what}{more}.scen", scen_text(paths).encode())
            room.convert([text, "--from", name, "--number", NUMBER, "--scen", scen])
            cases.append((f"{name}: the most {what} and {more}", (1, None) if more else (0, plan_text(paths, int(NUMBER)).encode())))
    outcomes = []
    for (case, due), done in zip(cases, room.done()):
        told = done.told if done.status != due[0] else ""
        outcomes.append(compared(case, done.shown, (done.status, done.written == due[1], told), (due[0], True, "")))
    room.gone()
    return outcomes


def of_the_most_acts_in_all(harness: Harness) -> list[Outcome]:
    """Acts of all agents that are one too many together."""
    agents, rest = divmod(path_model.MOST_ACTS_IN_ALL + 1, path_model.MOST_ACTS)
    paths = [[(0, 0)] * (path_model.MOST_ACTS + 1)] * agents + [[(0, 0)] * (rest + 1)]
    room = Room(harness)
    scen = room.file("scen", scen_text(paths).encode())
    room.convert([room.file("text", tracker_text_of_waits(paths)), "--from", "tracker", "--scen", scen])
    done = room.done()[0]
    room.gone()
    return [refused("tracker", len(paths), f"there are {path_model.MOST_ACTS_IN_ALL + 1} acts in all", done)]


def tracker_text_of_waits(paths: Paths) -> bytes:
    return b"".join(b"w" * (len(path) - 1) + b"\n" for path in paths)


# A map of a lane of three cells, two agents on it, and the plan that they say.
LANE = b"type octile\nheight 1\nwidth 3\nmap\n..@\n"
TEXT = b"Agent 0: (0,1)->(0,0)\nAgent 1:(0,0)->(0,1)->\n"
PLAN = b"mapf-plan 1\nnumber 7\nagents 2\nagent 1 0 w\nagent 0 0 e\n"
PLAN_CSV = b"agent,time,x,y\n0,0,1,0\n0,1,0,0\n1,0,0,0\n1,1,1,0\n"
FILES = {
    "T": TEXT,
    "M": LANE,
    "P": PLAN,
    "S": b"version 1\n0\tm\t3\t1\t1\t0\t0\t0\t1\n0\tm\t3\t1\t0\t0\t1\t0\t1\n0\tm\t3\t1\t0\t0\t1\t0\t1\n",
    "D": b"version 1\n0\tm\t3\t1\t1\t0\t0\t0\t1\n0\tm\t3\t1\t0\t0\t0\t0\t1\n",
    "E": b"version 1\n0\tm\t3\t1\t1\t0\t0\t0\t1\n",
    "U": b"u\n",
    "W": b"Agent 0: (0,1)->(0,2)\n",
    "Q": b"mapf-plan 1\nnumber 7\nagents 1\nagent 1 0 e\n",
    "F": b"Agent 0: (0,1)->(1,1)\n",
    "B": b"type octile\nheight 1\nwidth 3\nmap\n..\n",
}
# Texts of the League of Robot Runners: with turns alone and what they mean, and one that only waits, whatever its letters mean.
FILES["L"] = b'{"actionModel":"MAPF_T","start":[[0,1,"E"]],"actualPaths":["R,W"]}\n'
FILES["V"] = b'{"start":[[0,1,"E"]],"actualPaths":["W,W"]}\n'
FILES["K"] = b"version 1\n0\tm\t3\t1\t0\t0\t0\t0\t0\n"
# A planner's agent that leaves each map, to the west and then to the north, and another that is well.
OFF = b"mapf-plan 1\nnumber 7\nagents 2\nagent 1 0 wwn\nagent 0 2 n\n"
OFF_CSV = b"agent,time,x,y\n0,0,1,0\n0,1,0,0\n0,2,-1,0\n0,3,-1,-1\n1,0,0,2\n1,1,0,1\n"
FILES["OFF"], FILES["OFFC"] = OFF, OFF_CSV
FILES["G"] = b"Agent 0: (0,1)->(0,0)->(0,-1)->(-1,-1)->\nAgent 1: (2,0)->(1,0)->\n"
FILES["OFFY"] = b"schedule:\n" + b"".join(
    b"  agent%d:\n" % agent + b"".join(b"    - x: %d\n      y: %d\n      t: %d\n" % (x, y, time) for time, (x, y) in enumerate(path))
    for agent, path in enumerate([[(1, 0), (0, 0), (-1, 0), (-1, -1)], [(0, 2), (0, 1)]])
)
FILES["OFFL"] = (
    b"solved=1\nsoc=9\n"
    b"goals=(-1,-1),(5,5),\nsolution=\n0:(1,0),(0,2),\n1:(0,0),(0,1),\n2:(-1,0),(0,1),\n3:(-1,-1),(0,1),\n"
)
# Three agents, the last of which misses its goal, and one that leaves the map where `u` leads to the row above.
FILES["UP"] = b"u\nru\nw\n"
FILES["UPS"] = b"version 1\n0\tm\t9\t9\t3\t3\t3\t4\t1\n0\tm\t9\t9\t5\t5\t6\t6\t1\n0\tm\t9\t9\t0\t0\t8\t8\t1\n"
UP = b"mapf-plan 1\nnumber 7\nagents 3\nagent 3 3 s\nagent 5 5 es\nagent 0 0 -\n"
FILES["UD"], FILES["UDS"] = b"ud\n", b"version 1\n0\tm\t9\t9\t0\t0\t0\t0\t0\n"
WAITS = b"mapf-plan 1\nnumber 7\nagents 1\nagent 1 0 --\n"
# Words, the status, what is written to standard output, and a piece of what is told.
CALLS = [
    ("T --number 7", 0, PLAN, "T is read as paths\nconvert: 2 agents, 2 acts\n"),
    ("T --number 7 --from paths", 0, PLAN, "convert: 2 agents, 2 acts\n"),
    ("T --number 7 --map M --scen S", 0, PLAN, ""),
    ("P --to paths", 0, b"Agent 0: (0,1)->(0,0)->\nAgent 1: (0,0)->(0,1)->\n", ""),
    ("P --to tracker --map M --scen S", 0, b"l\nr\n", "u is written for north"),
    ("W --number 7 --map M", 0, b"mapf-plan 1\nnumber 7\nagents 1\nagent 1 0 e\n", "M allows no such plan: BadMove 0 0."),
    ("Q --to paths --map M", 0, b"Agent 0: (0,1)->(0,2)->\n", "M allows no such plan: BadMove 0 0."),
    ("Q --to paths", 0, b"Agent 0: (0,1)->(0,2)->\n", ""),
    ("L --number 7", 0, WAITS, ""),
    ("V --number 7", 0, WAITS, ""),
    # What a planner did wrong is converted, and said.
    ("F --map M --number 7", 0, b"mapf-plan 1\nnumber 7\nagents 1\nagent 1 0 s\n", "M allows no such plan: BadMove 0 0."),
    ("T --scen D --number 7", 0, PLAN, "T:2: agent 1 ends in column 1, row 0, column 0, row 0 was due by row 1 of D\n"),
    ("G --map M --number 7", 0, OFF, "M allows no such plan: BadStart 1."),
    ("G --number 7", 0, OFF, ""),
    ("OFF --to paths", 0, b"Agent 0: (0,1)->(0,0)->(0,-1)->(-1,-1)->\nAgent 1: (2,0)->(1,0)->\n", ""),
    ("OFF --to csv", 0, OFF_CSV, ""),
    ("OFFC --number 7", 0, OFF, ""),
    ("OFFY --number 7", 0, OFF, ""),
    ("OFFL --number 7", 0, OFF.replace(b" n\n", b" n--\n"), "OFFL:3: 'goals=' has (5,5) for agent 1, (0,1) was due by its path\n"),
    ("OFFL --number 7", 0, OFF.replace(b" n\n", b" n--\n"), "OFFL:2: soc= is '9', 4 was due by its cells\n"),
    ("UP --scen UPS --number 7", 0, UP, "UP:3: u is read as leading to the row below: agent 2 doesn't come to its goal, but 2 of 3 agents do\n"),
    ("UD --scen UDS --number 7", 0, b"mapf-plan 1\nnumber 7\nagents 1\nagent 0 0 sn\n", "UD:1: u is read as leading to the row below: the other way"),
    ("T --scen E", 1, b"", "T:2: agent 1 has no row in E"),
    ("P --to csv --scen D", 0, PLAN_CSV, "P:5: agent 1 ends in column 1, row 0, column 0, row 0 was due by row 1 of D\n"),
    ("P --to csv --scen K", 1, b"", "P:4: agent 0 starts in column 1, row 0, column 0, row 0 was due by row 0 of K\n"),
    ("T --from lacam", 1, b"", "T:1: 'Agent 0: (0,1)->(0,0)' stands where 'key=value' was due"),
    ("T --map B", 1, b"", "convert: B: `mapf map` says ShortRow 5\n"),
    ("T --map T", 1, b"", "convert: T: `mapf map` says BadHeader 1\n"),
    ("T --scen M", 1, b"", "convert: M: `mapf scen` says NoVersion\n"),
    ("U", 2, b"", "convert: the format tracker leaves out where agents start: --scen is wanted\n"),
    ("P --to lorr", 2, b"", "a plan has no headings, so there is no way back into lorr\n"),
    ("P --to paths --number 3", 2, b"", "--number goes with a conversion to a plan"),
    ("P --to paths --from csv", 2, b"", "--from goes with a conversion to a plan"),
    ("P --to yaml", 2, b"", "invalid choice: 'yaml'"),
    ("T --number 4294967296", 2, b"", "is no number up to 4294967295"),
    (f"T --number {0:020}4294967296", 2, b"", "is no number up to 4294967295"),
    (f"T --number {0:020}7", 0, PLAN, "T is read as paths\nconvert: 2 agents, 2 acts\n"),
    ("T --number -1", 2, b"", "--number"),
    ("", 2, b"", "FILE"),
    ("N", 3, b"", "convert: N: No such file or directory\n"),
    ("T --map N", 3, b"", "convert: N: `mapf map` ended with status 3: OpenFailed\n"),
    ("T --program N", 3, b"", "convert: N can't be started: No such file or directory\n"),
    ("T -o N/out", 3, b"", "No such file or directory\n"),
    ("T -o .", 3, b"", "is no regular file\n"),
    ("T -o /dev/null", 3, b"", "convert: /dev/null: is no regular file\n"),
]


# A map, and on it the plan of the texts that people have: of two agents, one of which waits.
WIDE = b"type octile\nheight 2\nwidth 4\nmap\n....\n....\n"
FOUND = b"mapf-plan 1\nnumber 7\nagents 2\nagent 1 0 -s\nagent 3 1 w\n"
LORR = b'{"actionModel":"MAPF_T","start":[[0,1,"S"],[1,3,"W"]],"actualPaths":["W,F","F"]}'
YAML = (
    b"cost: 5\nschedule:\n  agent0:\n  - t: 0\n    x: 1\n    y: 0\n  - t: 1\n    x: 1\n    y: 0\n  - t: 2\n    x: 1\n    y: 1\n"
    b"  agent1:\n  - t: 0\n    x: 3\n    y: 1\n  - t: 1\n    x: 2\n    y: 1\n"
)
GAP = (
    b"schedule:\n  agent0:\n    - x: 1\n      y: 0\n      t: 0\n    - x: 1\n      y: 1\n      t: 2\n"
    b"  agent1:\n    - x: 3\n      y: 1\n      t: 0\n    - x: 2\n      y: 1\n      t: 1\n"
)
PATHS_FOUND = b"Agent 0: (0,1)->(0,1)->(1,1)->\nAgent 1: (1,3)->(1,2)->\n"
CSV_FOUND = b"agent,t,x,y\n0,0,1,0\n0,1,1,0\n0,2,1,1\n1,0,3,1\n1,1,2,1\n"
TIMES = b"0:(1,0),(3,1),\n1:(1,0),(2,1),\n2:(1,1),(2,1),\n"
PADDED = FOUND.replace(b"1 w\n", b"1 w-\n")
PRINTED = b"EECBS: Succeed,0.01\nAgent 0 (2 -->2): 1->1->5->\nAgent 1 (1 -->1): 7->6->\n"
RHCR = b"2\n1,0,0;1,1,1;5,1,2;\n7,2,0;6,2,1;\n"
BOM = b"\xef\xbb\xbf"
# A text, more words, the plan that it says, or a piece of what is told of one that is refused.
PEOPLES = [
    ("no line end", PATHS_FOUND[:-1], "", FOUND),
    ("no line end and no arrows", PATHS_FOUND.replace(b"->\n", b"\n")[:-1], "", FOUND),
    ("a blank line at the end", PATHS_FOUND + b"\n", "", FOUND),
    ("blanks at the end", PATHS_FOUND + b"  \r\n\r\n", "", FOUND),
    ("a byte order mark", BOM + PATHS_FOUND, "", FOUND),
    ("cells with a blank", PATHS_FOUND.replace(b",", b", "), "", FOUND),
    ("a table without a line end", CSV_FOUND[:-1], "", FOUND),
    ("a table of another heading", CSV_FOUND, "", FOUND),
    ("a table with a byte order mark", BOM + CSV_FOUND.replace(b"\n", b"\r\n"), "", FOUND),
    ("times alone", TIMES, "", PADDED),
    ("times alone without a line end", TIMES[:-1], "", PADDED),
    ("times alone with blanks", TIMES.replace(b",", b", ").replace(b", \n", b",\n"), "", PADDED),
    ("JSON without a line end", BOM + LORR, "", FOUND),
    ("YAML of Python", YAML, "", FOUND),
    ("YAML of Python without a line end", YAML[:-1], "", FOUND),
    ("a schedule without a line end", GAP[:-1], "--fill-waits", FOUND),
    ("YAML whose last cell may be cut", YAML[: YAML.rindex(b"  - t: 1") - 1], "", b"without a line end in the one cell of agent 1"),
    ("a schedule with a gap", GAP, "", b"agent 0 has time 2 behind time 0, time 1 was due, or --fill-waits"),
    ("YAML with a gap", YAML.replace(b"  - t: 1\n    x: 1\n    y: 0\n", b""), "--fill-waits", FOUND),
    ("waits in a table", CSV_FOUND, "--fill-waits", b"--fill-waits goes with a schedule"),
    ("printed paths", PRINTED, "--map WIDE", FOUND),
    ("printed paths alone", PRINTED.partition(b"\n")[2], "--map WIDE", FOUND),
    ("printed paths without a line end", PRINTED[:-1], "--map WIDE", FOUND),
    ("printed paths that are cut", PRINTED[:-4], "--map WIDE", b"the path of agent 1 has 0 acts, 1 were due"),
    ("printed paths that are cut in a word", PRINTED[: PRINTED.index(b"Agent 1") + 3], "--map WIDE", b"'Age' stands where a path was due"),
    ("printed paths without a map", PRINTED, "", b"--map is wanted"),
    ("printed paths that leave the map", PRINTED.replace(b"1->1->5", b"5->5->9"), "--map WIDE", FOUND.replace(b"1 0 -s", b"1 1 -s")),
    ("paths of RHCR", RHCR, "--map WIDE", FOUND),
    ("paths of RHCR without a line end", RHCR[:-1], "--map WIDE", FOUND),
    ("paths of RHCR that are cut", RHCR[:-2], "--map WIDE", b"'6,2,1' stands where an item was due"),
    ("paths of RHCR of other agents", RHCR.replace(b"2\n", b"3\n", 1), "--map WIDE", b"the text says that it has '3' agents, 2 was due"),
    ("paths of RHCR without a map", RHCR, "", b"--map is wanted"),
    ("letters without a line end", b"wu\nl", "--scen ROWS", FOUND),
    ("letters and a blank line", b"wu\nl\n\n", "--scen ROWS", FOUND),
    ("letters and a line that may be blank", b"wu\n\n", "--scen MORE", b"the text may have 1 agents and a blank end, or 2 agents"),
]
PEOPLES_FILES = {
    "WIDE": WIDE,
    "ROWS": b"version 1\n0 m 4 2 1 0 1 1 1\n0 m 4 2 3 1 2 1 1\n",
    "MORE": b"version 1\n0 m 4 2 1 0 1 1 1\n0 m 4 2 3 1 2 1 1\n0 m 4 2 0 0 0 0 0\n",
}


def of_peoples_texts(harness: Harness) -> list[Outcome]:
    """Texts as they come from Python, from tables, from terminals and from planners that have another shape."""
    room, outcomes = Room(harness), []
    files = {name: room.file(name, text) for name, text in PEOPLES_FILES.items()}
    for number, (_, text, words, _) in enumerate(PEOPLES):
        room.convert([room.file(f"{number}.text", text), "--number", NUMBER, *(files.get(word, word) for word in words.split())])
    for (name, text, words, due), done in zip(PEOPLES, room.done()):
        is_plan = due.startswith(b"mapf-plan")
        if is_plan and text.lstrip(BOM).startswith(b"cost") and not has_yaml():
            outcomes.append(compared(name, done.shown, (done.status, "python3-yaml" in done.told), (1, True)))
            continue
        wrote = (done.status == 0, done.written) if is_plan else (done.status == 0, due.decode() in done.told, done.written)
        outcomes.append(compared(name, f"{done.shown}, which told {done.told!r}", wrote, (True, due) if is_plan else (False, True, None)))
    room.gone()
    return outcomes


def has_yaml() -> bool:
    return importlib.util.find_spec("yaml") is not None


# Maps, with what they become or a piece of what is told of them.
LEAGUE_MAPS = [
    (b"type octile\nheight 2\nwidth 4\nmap\n.ES@\nSTO.\n", b"type octile\nheight 2\nwidth 4\nmap\n...@\n.TO.\n", "1 E and 2 S are free cells now"),
    (b"type octile\r\nheight 1\r\nwidth 2\r\nmap\r\n.@\r\n\r\n", b"type octile\nheight 1\nwidth 2\nmap\n.@\n", "0 E and 0 S are free cells now"),
    (b"type octile\nheight 1\nwidth 2\nmap\n.E", b"type octile\nheight 1\nwidth 2\nmap\n..\n", "1 E and 0 S"),
    (b"type octile\nheight 1\nwidth 2\nmap\n.G\n", None, ":5: 'G' in column 1 is no wall in maps of MovingAI, and a wall in those of the League"),
    (b"type octile\nheight 1\nwidth 2\nmap\n.#\n", None, ":5: '#' in column 1 is no terrain"),
    (b"type octile\nheight 2\nwidth 2\nmap\n..\n.\n", None, ":6: the row has 1 cells, 2 were due"),
    (b"type octile\nheight 2\nwidth 2\nmap\n..\n", None, ":5: the map has 1 rows, 2 were due"),
    (b"type octile\nheight 1\nwidth 2\nmap\n..\n..\n", None, ":5: the map has 2 rows, 1 were due"),
    (b"type octile\nheight 0\nwidth 2\nmap\n", None, ":3: 0 rows of 2 cells were stated"),
    (b"type octile\nwidth 2\nheight 1\nmap\n..\n", None, ":2: 'width 2' stands where 'height 8' was due"),
]


def of_drawn_numbers(harness: Harness) -> list[Outcome]:
    """A number that is drawn is another one each time, and the plan is the same."""
    room = Room(harness)
    text = room.file("T", FILES["T"])
    for _ in range(DRAWN):
        room.convert([text])
    plans, shown_last = [], ""
    for done in room.done():
        plans.append((done.written or b"").split(b"\n", 2))
        shown_last = done.shown
    room.gone()
    numbers = {lines[1] for lines in plans if len(lines) == 3}
    rest = {(lines[0], lines[2]) for lines in plans if len(lines) == 3}
    due = PLAN.split(b"\n", 2)
    return [compared("numbers that are drawn", shown_last, (len(numbers), rest), (DRAWN, {(due[0], due[2])}))]


def of_league_maps(harness: Harness) -> list[Outcome]:
    """Maps of the League of Robot Runners become maps of MovingAI, or are refused."""
    room, outcomes = Room(harness), []
    for number, (text, _, _) in enumerate(LEAGUE_MAPS):
        room.convert([room.file(f"{number}.map", text)])
    room.convert([str(room.folder / "0.map"), "--from", "csv"])
    *done, alone = room.done()
    for (text, due, told), it in zip(LEAGUE_MAPS, done):
        wrote = (it.status, it.written, told in it.told)
        outcomes.append(compared(f"the map {text!r}", f"{it.shown}, which told {it.told!r}", wrote, (0 if due else 1, due, True)))
    outcomes.append(compared("a map read as a plan", alone.shown, (alone.status, alone.written), (1, None)))
    room.gone()
    return outcomes


def of_no_yaml(harness: Harness) -> list[Outcome]:
    """Where the package yaml isn't installed, that is said."""
    folder = harness.folder({"Y": YAML, "yaml.py": b"raise ImportError\n"})
    words = [sys.executable, str(TOOL), "Y", "--program", str(harness.program)]
    ended = harness.run(words, folder=folder, more={"PYTHONPATH": str(folder)})
    wrote = (ended.status, ended.err.startswith(b"convert: Y is read as schedule\nY:1: this shape of YAML is read by the Python package yaml"), ended.out)
    return [compared("YAML without its package", f"convert.py Y, which told {ended.err!r}", wrote, (1, True, b""))]


def of_calls(harness: Harness) -> list[Outcome]:
    """Calls in a folder, each as one would type it. Nothing is left behind."""
    folder, outcomes = harness.folder(FILES), []
    calls = [{"words": ["--program", str(harness.program), *line.split()], "folder": str(folder)} for line, _, _, _ in CALLS]
    for (line, status, out, told), (ended, err, wrote) in zip(CALLS, many(harness, calls)):
        found = (ended, wrote.encode("latin-1"), told in err)
        outcomes.append(compared(f"convert.py {line}", f"convert.py {line}, which told {err[-400:]!r}", found, (status, out, True)))
    files = sorted(path.name for path in folder.iterdir())
    return [*outcomes, compared("what calls leave behind", "ls", files, sorted(FILES))]


# Outputs, programs and converters that fail

# Programs in place of mapf: none answers what a plan says.
LIARS = [
    ("a program without the command", 'echo "error: unrecognized subcommand" >&2\nexit 2', "ended with status 2: error: unrecognized subcommand"),
    ("a program that fails", "echo 'mapf: OutOfMemory' >&2\nexit 3", "ended with status 3: OutOfMemory"),
    ("a program that finds the text faulty", "echo 'mapf: Unfinished 3' >&2\nexit 1", "ended with status 1: Unfinished 3"),
    ("a program that is killed", "kill -9 $$", "ended with status -9"),
    ("another cell", r"printf '0 1 0 0 0\n1 0 0 1 1\n'", "agent 1 at time 1"),
    ("another time", r"printf '0 1 0 0 0\n2 0 0 1 0\n'", "at time 1"),
    ("a time less", r"printf '0 1 0 0 0\n'", "at time 1"),
    ("a time more", r"printf '0 1 0 0 0\n1 0 0 1 0\n2 0 0 1 0\n'", "at time 2"),
    ("an agent more", r"printf '0 1 0 0 0 0 0\n1 0 0 1 0 0 0\n'", "at time 0"),
    ("a line that isn't ended", r"printf '0 1 0 0 0\n1 0 0 1 0'", "at time 1"),
    ("no line", ":", "at time 0"),
    ("a fault on an open map", "echo 'mapf: BadMove 0 0' >&2\nexit 1", "`mapf path` says BadMove 0 0 on an open map"),
]


def of_liars(harness: Harness) -> list[Outcome]:
    """Whatever the program says but the cells that were read, nothing is written."""
    room, cases = Room(harness), []
    text, plan = room.file("T", TEXT), room.file("P", PLAN)
    for number, (name, body, told) in enumerate(LIARS):
        liar = str(room.folder / f"{number}.sh")
        put_program(pathlib.Path(liar), f"#!/bin/sh\n{body}\n")
        for words in ([text], [plan, "--to", "csv"]):
            room.convert(words, program=liar)
            cases.append((f"{name}, {words[1:]}", told))
    outcomes = []
    for (name, told), done in zip(cases, room.done()):
        wrote = (done.status, done.written, told in done.told)
        outcomes.append(compared(name, f"{done.shown}, which told {done.told!r}", wrote, (3, None, True)))
    room.gone()
    return outcomes


# Mistakes that are put into the converter, each of which is to refuse a plan: none passes off another one.
MISTAKES = [
    ("north for south", ["T"], "walks.ACT_OF[0, 1] = 'n'"),
    ("north for south, into a wall", ["T", "--map", "M"], "walks.ACT_OF[0, 1] = 'n'"),
    ("west for east", ["T"], "walks.ACT_OF[1, 0] = 'w'"),
    ("a step for a wait", ["T"], "walks.ACT_OF[0, 0] = 'e'"),
    ("a start beside the first cell", ["T"], "walks.Walk.start = property(lambda walk: (walk.xs[0] + 1, walk.ys[0]))"),
    ("agents backwards", ["T"], "pieces = mapf_plan.pieces; mapf_plan.pieces = lambda walks, number: pieces(walks[::-1], number)"),
    ("an agent left out", ["T"], "pieces = mapf_plan.pieces; mapf_plan.pieces = lambda walks, number: pieces(walks[1:], number)"),
    ("waits dropped", ["T"], "acts_of = walks.acts_of; walks.acts_of = lambda xs, ys: acts_of(xs, ys).rstrip('-')"),
    ("a wait more", ["T"], "acts_of = walks.acts_of; walks.acts_of = lambda xs, ys: acts_of(xs, ys) + '-'"),
    ("waits of all", ["T"], "mapf_plan.pieces = functools.partial(lambda pieces, them, number: pieces(walks.padded(them), number), mapf_plan.pieces)"),
    ("a plan misread", ["P", "--to", "paths"], "mapf_plan.walked = lambda a, line, start, acts: walks.walked(a, line, start, acts[::-1])"),
    ("rows before columns", ["P", "--to", "csv"], "csv_table.FORMAT = dataclasses.replace(csv_table.FORMAT, write=lambda walks: written(walks))"),
]
# Each agent goes back and forth, to the south too, and waits at its end.
WINDING = b"Agent 0: (3,3)->(3,4)->(4,4)->(4,3)->(4,3)->\nAgent 1: (6,1)->(6,2)->(7,2)->(7,2)->\n"
WINDING_PLAN = b"mapf-plan 1\nnumber 7\nagents 2\nagent 3 3 esw-\nagent 1 6 es-\n"
WINDING_MAP = b"type octile\nheight 8\nwidth 6\nmap\n" + b"......\n" * 2 + b"@@@@@@\n" + b"......\n" * 2 + b"@@@@@@\n" + b"......\n" * 2
SPOILING = """
import dataclasses, functools, sys
sys.path.insert(0, {folder!r})
import convert
from plan_formats import csv_table, mapf_plan, walks
def written(walks):
    yield csv_table.HEADING.decode()
    for agent, walk in enumerate(walks):
        yield from (f"{{agent}},{{time}},{{y}},{{x}}\\n" for time, (x, y) in enumerate(zip(walk.xs, walk.ys)))
{mistake}
sys.exit(convert.main(sys.argv[1:]))
"""


def of_mistake(harness: Harness, name: str, words: Sequence[str], mistake: str) -> list[Outcome]:
    folder = harness.folder({"T": WINDING, "P": WINDING_PLAN, "M": WINDING_MAP})
    code = SPOILING.format(folder=str(TOOL.parent), mistake=mistake)
    ended = harness.run([sys.executable, "-c", code, *words, "-o", "out", "--program", str(harness.program)], folder=folder)
    wrote = (ended.status, (folder / "out").exists(), b"differs from" in ended.err)
    return [compared(f"a mistake put in: {name}", f"convert.py {' '.join(words)}, which told {ended.err!r}", wrote, (3, False, True))]


def of_outputs(harness: Harness) -> Iterator[Outcome]:
    """A file is replaced as a whole, with its rights, also by a link; a refusal leaves it alone, and so does a program that failed."""
    folder = harness.folder({**FILES, "out": b"as before"})
    (folder / "out").chmod(0o640)
    os.symlink("out", folder / "link")
    tool(harness, ["W", "-o", "link", "--scen", "K"], folder)
    yield compared("a refusal leaves the file alone", "convert.py W -o link --scen K", (folder / "out").read_bytes(), b"as before")
    failed = harness.run([sys.executable, str(TOOL), "T", "-o", "out", "--program", "/bin/false"], folder=folder)
    wrote = (failed.status, (folder / "out").read_bytes(), len(list(folder.iterdir())))
    yield compared("so does a program that fails", "convert.py T -o out --program /bin/false", wrote, (3, b"as before", len(FILES) + 2))
    tool(harness, ["T", "-o", "link", "--number", NUMBER], folder)
    wrote = ((folder / "out").read_bytes(), oct((folder / "out").stat().st_mode & 0o777), os.readlink(folder / "link"))
    yield compared("a link's file is replaced, with its rights", "convert.py T -o link", wrote, (PLAN, "0o640", "out"))
    with open("/dev/full", "wb") as full:
        words = [sys.executable, str(TOOL), "T", "--program", str(harness.program)]
        ended = subprocess.run(words, cwd=folder, stdin=subprocess.DEVNULL, stdout=full, stderr=subprocess.PIPE)
    wrote = (ended.returncode, b"No space left" in ended.stderr, ended.stderr.count(b"\n"))
    yield compared("a full device", "convert.py T >/dev/full", wrote, (3, True, 2))
    script = f"{shlex.quote(sys.executable)} {shlex.quote(str(TOOL))} T --number 7 --program {shlex.quote(str(harness.program))}"
    for name, redirected, due in (("closed", "2>&-", (0, PLAN)), ("full", "2>/dev/full", (0, PLAN)), ("closed output", ">&-", (3, b""))):
        ended = harness.run(["sh", "-c", f"{script} {redirected}"], folder=folder)
        yield compared(f"standard error {name}", f"convert.py T {redirected}", (ended.status, ended.out), due)


def of_examples(_: Harness) -> list[Outcome]:
    """The texts of examples/planners are those that the planner of the tests writes."""
    found = {name: (example_texts.FOLDER / name).read_text(encoding="ascii") for name in example_texts.texts()}
    return [compared(f"examples/planners/{name}", "tests/example_texts.py", found[name], text) for name, text in example_texts.texts().items()]


def of_pages(harness: Harness) -> list[Outcome]:
    """The page of each format is the docstring of its module, and docs/CONVERTING.md names each."""
    pages, outcomes = format_pages(), []
    due = {name: (0, page, "") for name, page in pages.items()}
    for name in ("yaml", "", "csv\n"):
        told = f"convert: {name!r} is no format, one of {', '.join(pages)} was due\n"
        due[name] = (2, "", told)
    for name, answer in due.items():
        ended = tool(harness, ["--help-format", name])
        wrote = (ended.status, ended.out.decode(), ended.err.decode())
        outcomes.append(compared(f"the page of {name!r}", "--help-format", wrote, answer))
    script = f"{shlex.quote(sys.executable)} {shlex.quote(str(TOOL))} --help-format csv >/dev/full"
    ended = harness.run(["sh", "-c", script])
    full = (3, b"convert: No space left on device\n")
    outcomes.append(compared("a page on a full device", script, (ended.status, ended.err), full))
    text = (ROOT / "docs" / "CONVERTING.md").read_text(encoding="utf-8")
    table = text.partition("| Format |")[2].partition("\n\n")[0]
    named = sorted(re.findall(r"(?m)^\| `(\w+)` \|", table))
    return [*outcomes, compared("the formats of the docs", str(TOOL), named, list(pages))]


def format_pages() -> dict[str, str]:
    """The docstrings of the modules that call a format by its name, by that name."""
    pages = {}
    for path in (TOOL.parent / "plan_formats").glob("*.py"):
        text = path.read_text(encoding="utf-8")
        name = re.search(r'^FORMAT = Format\(\s*"(\w+)"', text, re.MULTILINE)
        if name:
            pages[name[1]] = f"{ast.get_docstring(ast.parse(text))}\n"
    return dict(sorted(pages.items()))


def of_vectors(_: Harness) -> list[Outcome]:
    """The vectors of `mapf path` are those that the model makes."""
    text = "".join(f"{line}\n" for line in path_model.vector_lines())
    return [compared("vectors/path.jsonl", "tests/path_model.py", (ROOT / "vectors" / "path.jsonl").read_text() == text, True)]


def outcomes(harness: Harness) -> Iterator[Outcome]:
    rounds = LONG_ROUNDS if harness.is_long else SHORT_ROUNDS
    places = LONG_PLACES if harness.is_long else SHORT_PLACES
    yield from of_outputs(harness)
    yield from side_by_side(
        [
            functools.partial(of_calls, harness),
            *(functools.partial(of_mistake, harness, *mistake) for mistake in MISTAKES),
            functools.partial(of_examples, harness),
            functools.partial(of_peoples_texts, harness),
            functools.partial(of_no_yaml, harness),
            functools.partial(of_drawn_numbers, harness),
            functools.partial(of_league_maps, harness),
            functools.partial(of_pages, harness),
            functools.partial(of_vectors, harness),
            functools.partial(of_liars, harness),
            functools.partial(of_refusals, harness),
            *(functools.partial(of_limits, harness, name) for name in (WRITERS if harness.is_long else SOON_AT_LIMITS)),
            *([functools.partial(of_the_most_acts_in_all, harness)] if harness.is_long else []),
            *of_samples(harness),
            *(functools.partial(of_rounds, harness, name, first, ROUND) for first in range(0, rounds, ROUND) for name in WRITERS),
            *(functools.partial(of_spoiled, harness, name, places) for name in WRITERS),
            *(functools.partial(of_shape, harness, name, places // 5) for name in SHAPES),
        ]
    )
