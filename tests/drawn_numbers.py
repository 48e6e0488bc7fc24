"""Numbers of plans: each tool that writes a plan draws one, unless `--number` fixes it, so that nothing of an earlier run is heard in the next."""
import dataclasses
import pathlib
import sys
from typing import Iterator, Mapping, Sequence

from harness import ROOT, Harness, Outcome, compared, shown
from texts import BEHIND, HALL, LANE, TASKS, plan

TOOLS = ROOT / "tools"
# Two agents that go one cell east behind one another, as a planner writes it.
PATHS = b"Agent 0: (0,1)->(0,2)->\nAgent 1: (0,0)->(0,1)->\n"
TURNING = plan("0 0 e", "1 0 s", "1 1 w", "0 1 n")
FIXED = 12
# What calls `mapf.anew` as other programs do. Its last word may be a number.
ANEW = """
import pathlib, sys
sys.path.insert(0, sys.argv[1])
import mapf
number = map(int, sys.argv[3:])
pathlib.Path("o").write_text(mapf.anew("m", "p", "%.tape", *number, program=sys.argv[2]))
"""


@dataclasses.dataclass(frozen=True)
class Tool:
    """A call that writes a plan: its words, the texts that it reads, where the plan goes, and how its number is fixed."""

    words: Sequence[str]
    files: Mapping[str, bytes]
    output: str = "o"
    fixed: Sequence[str] = ("--number", str(FIXED))


LANES = {"m": LANE.encode(), "p": BEHIND.encode()}
TAPES = {"0.tape": b"", "1.tape": b""}
WRITERS: dict[str, Tool] = {
    "repair.py": Tool((str(TOOLS / "repair.py"), "m", "p", "-o", "o"), {"m": HALL.encode(), "p": TURNING.encode()}),
    "prove.py": Tool((str(TOOLS / "prove.py"), "m", "s", "2", "-o", "o", "proof"), {**LANES, "s": TASKS.replace(" ", "\t").encode()}),
    "convert.py, a planner's text": Tool((str(TOOLS / "convert.py"), "t", "-o", "o"), {"t": PATHS}),
    "convert.py, a plan": Tool((str(TOOLS / "convert.py"), "p", "-o", "o"), LANES),
    "convert.py, a plan in its own place": Tool((str(TOOLS / "convert.py"), "p", "-o", "p"), LANES, "p"),
    "handover.py": Tool((str(TOOLS / "handover.py"), "m", "p", "%.tape", "new", "--without", "1"), {**LANES, **TAPES}, "new/others.plan"),
    "mapf.anew": Tool(("-c", ANEW, str(TOOLS), "PROGRAM"), {**LANES, **TAPES}, fixed=(str(FIXED),)),
}


def written(harness: Harness, tool: Tool, *more: str) -> tuple[str, str]:
    """The number of the plan that a call writes, and the rest of it; what it told where there is none."""
    folder = harness.folder(tool.files)
    words = [str(harness.program) if word == "PROGRAM" else word for word in tool.words]
    ended = harness.run([sys.executable, *words, *more], folder=folder, more={"MAPF": str(harness.program)})
    text = read(folder / tool.output)
    if ended.status or not text:
        return "none", ended.err.decode()
    header, number, rest = text.split("\n", 2)
    return number, f"{header}\n{rest}"


def read(path: pathlib.Path) -> str:
    return path.read_text(encoding="ascii") if path.exists() else ""


def of_tool(harness: Harness, name: str, tool: Tool) -> Iterator[Outcome]:
    """That two calls draw the same number has a chance of one in four thousand millions."""
    ran = shown(tool.words)
    (one, text), (other, again) = written(harness, tool), written(harness, tool)
    numbers = [one, other, *numbers_read(tool)]
    wrote = (text == again, len(set(numbers)), text.startswith("mapf-plan 1\nagents "))
    yield compared(f"{name} draws a number", f"{ran}, which gave {one!r} {other!r} {text!r}", wrote, (True, len(numbers), True))
    fixed = {written(harness, tool, *tool.fixed) for _ in range(2)}
    yield compared(f"{name} with a number", ran, fixed, {(f"number {FIXED}", text)})


def numbers_read(tool: Tool) -> list[str]:
    """The number of the plan that a call reads, where it reads one."""
    return [tool.files["p"].decode().splitlines()[1]] if "p" in tool.words else []


def of_renumbering(harness: Harness) -> Iterator[Outcome]:
    """A plan under another number is the same plan; a text that is none is refused, and nothing is written."""
    renumbered, off = BEHIND.replace("number 7", "number 8"), plan("9 9 e", number=8)
    for name, text, words, due in (
        ("a plan is renumbered", BEHIND, "p --number 8", (0, renumbered, "convert: p is a plan, and has the number 8 now\n")),
        ("a plan that is cut", BEHIND[:-5], "p --number 8", (1, "", "p:5: ")),
        ("a plan that its map doesn't allow", plan("9 9 e"), "p --number 8 --map m", (0, off, "m allows no such plan: BadStart 0.")),
        ("a plan that isn't the scenario's", BEHIND, "p --number 8 --scen s", (1, "", "agent 0 starts in column 1, row 0, column 0, row 0 was due")),
    ):
        scenario = b"version 1\n0\tm\t3\t1\t0\t0\t1\t0\t1\n0\tm\t3\t1\t1\t0\t2\t0\t1\n"
        folder = harness.folder({"m": LANE.encode(), "p": text.encode(), "s": scenario})
        command = [sys.executable, str(TOOLS / "convert.py"), *words.split(), "--program", str(harness.program)]
        ended = harness.run(command, folder=folder)
        told = ended.err.decode()
        wrote = (ended.status, ended.out.decode(), due[2] if due[2] in told else told)
        yield compared(name, shown(command), wrote, due)


def outcomes(harness: Harness) -> Iterator[Outcome]:
    for name, tool in WRITERS.items():
        yield from of_tool(harness, name, tool)
    yield from of_renumbering(harness)
