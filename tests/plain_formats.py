"""The formats that tools/convert.py reads, written and read in the plainest way, a cell at a time: what it answers is compared with this."""
import json
import re
from typing import Callable, Optional, Sequence

Cell = tuple[int, int]
Path = list[Cell]
Paths = list[Path]
# By act and by heading, what is added to the column and to the row.
STEPS = {"n": (0, -1), "e": (1, 0), "s": (0, 1), "w": (-1, 0), "-": (0, 0)}
ACTS = {step: act for act, step in STEPS.items()}
HEADINGS = "ESWN"
AHEAD = {"E": (1, 0), "S": (0, 1), "W": (-1, 0), "N": (0, -1)}
MOST_SIDE = 65_535


def step_between(one: Cell, other: Cell) -> Cell:
    return other[0] - one[0], other[1] - one[1]


def plan_text(paths: Paths, number: int) -> str:
    lines = [f"mapf-plan 1\nnumber {number}\nagents {len(paths)}\n"]
    for path in paths:
        acts = "".join(ACTS[step_between(*pair)] for pair in zip(path, path[1:]))
        lines.append(f"agent {path[0][0]} {path[0][1]} {acts or '='}\n")
    return "".join(lines)


def padded(paths: Paths) -> Paths:
    longest = max(map(len, paths))
    return [path + [path[-1]] * (longest - len(path)) for path in paths]


def scen_text(paths: Paths) -> str:
    """The rows that these paths solve, of a map of some size and with some length."""
    ends = [(*path[0], *path[-1]) for path in paths]
    return "version 1\n" + "".join(f"0\tm.map\t999\t999\t{a}\t{b}\t{c}\t{d}\t1\n" for a, b, c, d in ends)


def paths_text(paths: Paths) -> str:
    return "".join(f"Agent {number}: {''.join(f'({y},{x})->' for x, y in path)}\n" for number, path in enumerate(paths))


def paths_text_without_blanks(paths: Paths) -> str:
    return "".join(f"Agent {number}:{'->'.join(f'({y},{x})' for x, y in path)}\n" for number, path in enumerate(paths))


def lacam_text(paths: Paths) -> str:
    paths = padded(paths)
    facts = {"agents": len(paths), "map_file": "hall.map", "solver": "planner", "solved": 1, "makespan": len(paths[0]) - 1}
    lines = [f"{key}={value}" for key, value in facts.items()]
    for key, cells in (("starts", [path[0] for path in paths]), ("goals", [path[-1] for path in paths])):
        lines.append(f"{key}={''.join(f'({x},{y}),' for x, y in cells)}")
    lines.append("solution=")
    lines += [f"{time}:{''.join(f'({x},{y}),' for x, y in cells)}" for time, cells in enumerate(zip(*paths))]
    return "".join(f"{line}\n" for line in lines)


def schedule_text(paths: Paths) -> str:
    lines = ["statistics:", f"  cost: {sum(map(len, paths)) - len(paths)}", f"  makespan: {max(map(len, paths)) - 1}", "  runtime: 0.0125", "schedule:"]
    for number, path in enumerate(paths):
        lines.append(f"  agent{number}:")
        for time, (x, y) in enumerate(path):
            lines += [f"    - x: {x}", f"      y: {y}", f"      t: {time}"]
    return "".join(f"{line}\n" for line in lines)


def csv_text(paths: Paths) -> str:
    """The table time by time, and of each second time the agents backwards."""
    lines = ["agent,time,x,y"]
    for time in range(max(map(len, paths))):
        row = [f"{number},{time},{path[time][0]},{path[time][1]}" for number, path in enumerate(paths) if time < len(path)]
        lines += row[::-1] if time % 2 else row
    return "".join(f"{line}\n" for line in lines)


def tracker_text(paths: Paths) -> str:
    """Acts by which up leads to the row below, unlike on a screen."""
    letters = dict(zip("nesw-", "drulw"))
    return "".join("".join(letters[ACTS[step_between(*pair)]] for pair in zip(path, path[1:])) + "\n" for path in paths)


def with_turns(path: Path) -> tuple[list[str], Path]:
    """The actions of a robot that looks east at first and goes this way, and its cells with its turns."""
    actions, cells, heading = [], [path[0]], 0
    for pair in zip(path, path[1:]):
        step = step_between(*pair)
        while step != (0, 0) and AHEAD[HEADINGS[heading]] != step:
            turn = "C" if AHEAD[HEADINGS[heading - 1]] == step else "R"
            heading = (heading + (1 if turn == "R" else -1)) % 4
            actions.append(turn)
            cells.append(pair[0])
        actions.append("W" if step == (0, 0) else "F")
        cells.append(pair[1])
    return actions, cells


def lorr_text(paths: Paths) -> str:
    actions = [",".join(with_turns(path)[0]) for path in paths]
    document = {"actionModel": "MAPF_T", "AllValid": "Yes", "teamSize": len(paths), "start": [[path[0][1], path[0][0], "E"] for path in paths]}
    document.update(numTaskFinished=0, actualPaths=actions, plannerPaths=actions, errors=[], events=[[[0, 3, "assigned"]] for _ in paths])
    members = ",\n".join(f" {json.dumps(key)}: {json.dumps(value)}" for key, value in document.items())
    return f"{{\n{members}\n}}\n"


WRITERS: dict[str, Callable[[Paths], str]] = {
    "csv": csv_text,
    "lacam": lacam_text,
    "lorr": lorr_text,
    "paths": paths_text,
    "schedule": schedule_text,
    "tracker": tracker_text,
}


def due_paths(name: str, paths: Paths) -> Paths:
    """The paths that a text of a format says: with turns as waits, or padded, where it can't say others."""
    return [with_turns(path)[1] for path in paths] if name == "lorr" else padded(paths) if name == "lacam" else paths


class NoReading(Exception):
    """A plain reader makes nothing of a text."""


def due(is_so: bool) -> None:
    if not is_so:
        raise NoReading


def matched(pattern: str, text: str) -> re.Match:
    found = re.fullmatch(pattern, text, re.ASCII)
    due(found is not None)
    return found


def lines_in(text: str) -> list[str]:
    """The lines of a text, whose last need not be ended."""
    text = text.replace("\r\n", "\n")
    return (text[:-1] if text.endswith("\n") else text).split("\n")


def without_blank_end(lines: list[str]) -> list[str]:
    while lines and not lines[-1].strip(" \t"):
        lines = lines[:-1]
    return lines


A_CELL = r"\((-?\d+),(-?\d+)\)"


def in_order(paths: dict[int, Path]) -> Paths:
    due(bool(paths) and sorted(paths) == list(range(len(paths))))
    return [paths[number] for number in range(len(paths))]


def read_paths(text: str, _: Paths) -> Paths:
    paths: dict[int, Path] = {}
    lines = without_blank_end(lines_in(text))
    for line in lines:
        found = matched(rf"Agent (\d+): ?({A_CELL}(?:->{A_CELL})*)(?:->)?", line.replace(", ", ","))
        due(int(found[1]) not in paths)
        paths[int(found[1])] = [(int(x), int(y)) for y, x in re.findall(A_CELL, found[2])]
    # A last line that looks cut beside others.
    due(text.endswith(("\n", "->")) or not any(line.endswith("->") for line in lines))
    return in_order(paths)


def cells_in(text: str) -> Path:
    text = text.replace(", ", ",")
    matched(rf"{A_CELL}(,{A_CELL})*,?", text)
    return [(int(x), int(y)) for x, y in re.findall(A_CELL, text)]


def read_lacam(text: str, _: Paths) -> Paths:
    lines, facts = without_blank_end(lines_in(text)), {}
    if lines[0].startswith(("0:(", "0: (")):
        facts = {"solution": ""}
    while "solution" not in facts:
        due(bool(lines))
        found = matched(r"([A-Za-z_][\w.-]*)=(.*)", lines.pop(0))
        due(found[1] not in facts)
        facts[found[1]] = found[2]
    rows = []
    for time, line in enumerate(lines):
        number, _, cells = line.partition(":")
        due(matched(r"\d+", number)[0] != "" and int(number) == time)
        rows.append(cells_in(cells))
    due(facts["solution"] == "" and bool(rows) and all(len(row) == len(rows[0]) for row in rows))
    due(facts.get("solved") != "0" and (not facts.get("starts") or cells_in(facts["starts"]) == rows[0]))
    due("agents" not in facts or int(matched(r"\d+", facts["agents"])[0]) == len(rows[0]))
    return [list(path) for path in zip(*rows)]


def read_schedule(text: str, _: Paths) -> Paths:
    lines, paths = without_blank_end(lines_in(text)), {}
    if lines[0] == "statistics:":
        lines.pop(0)
        while lines and re.fullmatch(r"  \w+: *[^\n]*", lines[0]):
            lines.pop(0)
    due(bool(lines) and lines.pop(0) == "schedule:")
    while lines:
        number = int(matched(r"  agent(\d+):", lines.pop(0))[1])
        due(number not in paths)
        paths[number] = []
        while lines and not lines[0].startswith("  agent"):
            due(len(lines) >= 3)
            x, y, time = (int(matched(f"{head}(-?\\d+)", lines.pop(0))[1]) for head in ("    - x: ", "      y: ", "      t: "))
            due(time == len(paths[number]))
            paths[number].append((x, y))
        due(bool(paths[number]))
    return in_order(paths)


def read_csv(text: str, _: Paths) -> Paths:
    lines, found = without_blank_end(lines_in(text)), {}
    due(lines.pop(0) in ("agent,time,x,y", "agent,t,x,y") and bool(lines))
    for line in lines:
        agent, time, x, y = (int(number) for number in matched(r"(\d+),(\d+),(-?\d+),(-?\d+)", line).groups())
        due(time not in found.setdefault(agent, {}))
        found[agent][time] = (x, y)
    # The only cell of an agent, which may be cut.
    due(text.endswith("\n") or len(found[agent]) > 1)
    return in_order({agent: in_order(cells) for agent, cells in found.items()})


def walked(start: Cell, steps: Sequence[Cell]) -> Path:
    path = [start]
    for dx, dy in steps:
        path.append((path[-1][0] + dx, path[-1][1] + dy))
    return path


def read_tracker(text: str, solved: Paths) -> Paths:
    """The paths from the starts of these, whichever way of up leads more of them to their ends, or keeps more of them in rows of a map."""
    lines, ranks = [matched("[udlrw]*", line)[0] for line in lines_in(text)], []
    while len(lines) > len(solved) and not lines[-1]:
        lines.pop()
    due(len(lines) <= len(solved) and (len(lines) in (1, len(solved)) or lines[-1] != ""))
    for up in (-1, 1):
        steps = {"u": (0, up), "d": (0, -up), "l": (-1, 0), "r": (1, 0), "w": (0, 0)}
        paths = [walked(path[0], [steps[letter] for letter in line]) for line, path in zip(lines, solved)]
        arrived = sum(path[-1] == other[-1] for path, other in zip(paths, solved))
        ranks.append((arrived, sum(all(0 <= y < MOST_SIDE for _, y in path) for path in paths), paths))
    (*one, first), (*other, second) = ranks
    due(one != other or first == second)
    return first if one >= other else second


def one_each(pairs: list) -> dict:
    due(len(dict(pairs)) == len(pairs))
    return dict(pairs)


def read_lorr(text: str, _: Paths) -> Paths:
    try:
        document = json.loads(text, object_pairs_hook=one_each)
        starts, actions = document["start"], document["actualPaths"]
    except (ValueError, KeyError, TypeError):
        raise NoReading from None
    due(len(starts) == len(actions) == document.get("teamSize", len(starts)) and len(starts) > 0)
    due(document.get("actionModel", "MAPF_T") == "MAPF_T")
    paths = []
    for (y, x, letter), text in zip(starts, actions):
        heading, steps = HEADINGS.index(letter), []
        for action in text.split(",") if text else []:
            due(action in ("F", "R", "C", "W"))
            steps.append(AHEAD[HEADINGS[heading]] if action == "F" else (0, 0))
            heading = (heading + {"R": 1, "C": 3}.get(action, 0)) % 4
        paths.append(walked((x, y), steps))
    return paths


READERS: dict[str, Callable[[str, Paths], Paths]] = {
    "csv": read_csv,
    "lacam": read_lacam,
    "lorr": read_lorr,
    "paths": read_paths,
    "schedule": read_schedule,
    "tracker": read_tracker,
}


def reading(name: str, text: bytes, solved: Paths) -> Optional[Paths]:
    """What a text says, by the plain reader of its format or shape, or nothing where it is none or no plan says it."""
    reader = SHAPES[name][3] if name in SHAPES else READERS[name]
    try:
        paths = reader(text.decode(), solved)
    except (NoReading, UnicodeDecodeError, ValueError, TypeError):
        return None
    cells = [cell for path in paths for cell in path]
    steps = [step_between(*pair) for path in paths for pair in zip(path, path[1:])]
    is_plan = all(-MOST_SIDE <= number < MOST_SIDE for cell in cells for number in cell) and all(step in ACTS for step in steps)
    is_plan = is_plan and all(number >= 0 for path in paths for number in path[0])
    return paths if is_plan else None


# Other shapes of these formats, and formats whose cells are numbers on a map of this width.
WIDTH = 64


def times_text(paths: Paths) -> str:
    return lacam_text(paths).partition("solution=\n")[2]


def yaml_text(paths: Paths) -> str:
    lines = [f"cost: {sum(map(len, paths))}", "schedule:"]
    for number, path in sorted(enumerate(paths), key=lambda pair: f"agent{pair[0]}"):
        lines.append(f"  agent{number}:")
        for time, (x, y) in enumerate(path):
            lines += [f"  - t: {time}", f"    x: {x}", f"    y: {y}"]
    return "".join(f"{line}\n" for line in lines)


def printed_text(paths: Paths) -> str:
    lines = (f"Agent {number} ({len(path) - 1} -->{len(path) - 1}): " for number, path in enumerate(paths))
    return "".join(f"{line}{''.join(f'{y * WIDTH + x}->' for x, y in path)}\n" for line, path in zip(lines, paths))


def rhcr_text(paths: Paths) -> str:
    lines = ("".join(f"{y * WIDTH + x},{time % 4},{time};" for time, (x, y) in enumerate(path)) for path in paths)
    return f"{len(paths)}\n" + "".join(f"{line}\n" for line in lines)


def read_yaml(text: str, _: Paths) -> Paths:
    lines, paths = without_blank_end(lines_in(text)), {}
    matched(r"cost: \d+", lines.pop(0))
    due(lines.pop(0) == "schedule:")
    last = 0
    while lines:
        last = int(matched(r"  agent(\d+):", lines.pop(0))[1])
        due(last not in paths)
        paths[last] = []
        while lines and lines[0].startswith("  - "):
            due(len(lines) >= 3)
            time, x, y = (int(matched(f"{head}(-?\\d+)", lines.pop(0))[1]) for head in ("  - t: ", "    x: ", "    y: "))
            due(time == len(paths[last]))
            paths[last].append((x, y))
        due(bool(paths[last]))
    due(text.endswith("\n") or len(paths[last]) > 1)
    return in_order(paths)


def cells_of_numbers(numbers: Sequence[str]) -> Path:
    return [(int(number) % WIDTH, int(number) // WIDTH) for number in numbers]


def read_printed(text: str, _: Paths) -> Paths:
    paths: dict[int, Path] = {}
    for line in without_blank_end(lines_in(text)):
        if line.startswith("Agent"):
            found = matched(r"Agent (\d+) \([^()>]*-->\s*(\d+)\): ?((?:\d+->)+)", line)
            due(int(found[1]) not in paths)
            paths[int(found[1])] = cells_of_numbers(re.findall(r"\d+", found[3]))
            due(len(paths[int(found[1])]) == int(found[2]) + 1)
    return in_order(paths)


def read_rhcr(text: str, _: Paths) -> Paths:
    lines, paths = without_blank_end(lines_in(text)), []
    due(int(matched(r"\d+", lines.pop(0))[0]) == len(lines) > 0)
    for line in lines:
        items = re.findall(r"(\d+),-?\d+,(\d+);", matched(r"(?:\d+,-?\d+,\d+;)+", line)[0])
        due([int(time) for _, time in items] == list(range(len(items))))
        paths.append(cells_of_numbers([number for number, _ in items]))
    return paths


# By a name of their own: the format, whether it needs the map, a writer and a reader.
SHAPES: dict[str, tuple[str, bool, Callable[[Paths], str], Callable[[str, Paths], Paths]]] = {
    "times": ("lacam", False, times_text, read_lacam),
    "printed": ("printed", True, printed_text, read_printed),
    "rhcr": ("rhcr", True, rhcr_text, read_rhcr),
    "yaml": ("schedule", False, yaml_text, read_yaml),
}
