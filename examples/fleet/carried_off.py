"""A robot that is lifted off the floor in the middle of a run, and what the others drive then: a plan of what is left, under another number."""
import subprocess
from typing import NoReturn, Sequence

from planning import Cell


class Unanswered(Exception):
    """No answer was read."""


class NoNewPlan(Exception):
    """There is no plan of what is left."""


class CarriedOff:
    """In the place of a robot that was lifted off and whose process is gone: it hears nothing and says nothing. The cells that it held stay held, since
    nobody can tell the others that they are free."""

    def __init__(self, held: tuple[Cell, ...]):
        self.held = held

    def go_on(self) -> bool:
        """It comes to no end."""
        return False

    def ask(self, line: str) -> NoReturn:
        raise Unanswered


def plan_of_others(program: str, files: Sequence[str], number: int, gone: int) -> str:
    """The text of a plan of what is left, without an agent. The files are the map, the plan, and the tapes, with `%` for an agent's number."""
    words = [program, "anew", *files, str(number), "--without", str(gone)]
    ended = subprocess.run(words, stdin=subprocess.DEVNULL, stdout=subprocess.PIPE, stderr=subprocess.PIPE, text=True, check=False)
    if ended.returncode:
        raise NoNewPlan(f"`{' '.join(words)}` says '{ended.stderr.strip()}'")
    return ended.stdout
