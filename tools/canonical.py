"""Maps and scenarios, as the program writes them in canonical form."""
from mapf.faults import Failed
from mapf.program import FAULT, Program
from plan_formats.walks import Task
from refused import Refused


def text(program: Program, command: str, file: str) -> bytes:
    """The text of a map or of a scenario."""
    said = program.ask([command, "--", file], b"".join)
    if said.status == FAULT:
        raise Refused(f"{file}: `mapf {command}` says {said.words or 'nothing'}")
    if said.status:
        raise Failed(f"{file}: `mapf {command}` ended with status {said.status}: {said.words or 'nothing'}")
    return said.answer


def map_size(program: Program, file: str) -> tuple[int, int]:
    """The width and the height of a map."""
    _, height, width = text(program, "map", file).split(b"\n", 3)[:3]
    return int(width.split()[1]), int(height.split()[1])


def tasks(program: Program, file: str) -> list[Task]:
    """The starts and goals of a scenario's rows."""
    rows = [list(map(int, line.split(b"\t")[4:8])) for line in text(program, "scen", file).split(b"\n")[1:-1]]
    return [Task((row[0], row[1]), (row[2], row[3])) for row in rows]
