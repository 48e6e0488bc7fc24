"""What a planner wrote in place of a plan: tools/convert.py makes a plan of it, and says what it was read as."""
import dataclasses
import pathlib
import re
import subprocess
import sys
from typing import Optional

from mapf.program import Program
from refused import Refused
from showing.program import copied

CONVERTER = pathlib.Path(__file__).resolve().parent.parent / "convert.py"
PLAN = b"mapf-plan "
BAD_LINE = 2
READ_AS = re.compile(r"is read as (\w+)$", re.MULTILINE)


@dataclasses.dataclass(frozen=True)
class Converter:
    """How texts are converted: for which map, and perhaps from which format and for which scenario."""

    program: Program
    map: str
    source: Optional[str]
    scen: Optional[str]

    def plan_of(self, file: str, folder: pathlib.Path, name: str) -> tuple[str, str, str]:
        """A copy of a plan; or the plan of another text, the format of that, and what the converter told."""
        if not self.source and is_plan(file):
            return copied(file, folder, name), "", ""
        target = folder / name
        ended = self.run(file, target, [])
        if ended.returncode == BAD_LINE and self.scen:
            # It lacks the starts of the agents, which are the scenario's.
            ended = self.run(file, target, ["--scen", self.scen])
        told = ended.stderr.decode(errors="replace").rstrip("\n")
        if ended.returncode:
            raise Refused(told.rpartition("\n")[2] or f"{file}: tools/convert.py ended with status {ended.returncode}", ended.returncode)
        found = READ_AS.search(told)
        return str(target), self.source or (found[1] if found else "?"), told

    def run(self, file: str, target: pathlib.Path, more: list[str]) -> "subprocess.CompletedProcess[bytes]":
        source = ["--from", self.source] if self.source else []
        words = ["--map", self.map, "-o", str(target), "--program", str(self.program.path.absolute()), *source, *more, "--", file]
        return subprocess.run([sys.executable, str(CONVERTER), *words], stdin=subprocess.DEVNULL, capture_output=True, check=False)


def is_plan(file: str) -> bool:
    """Whether a file begins as a plan does. Of one that can't be read the program itself is to say why."""
    try:
        with open(file, "rb") as text:
            return text.read(len(PLAN)) == PLAN
    except OSError:
        return True
