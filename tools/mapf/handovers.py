"""What follows from the tapes of a fleet: its plan cut behind all that was begun, and a new plan of what is left."""
from typing import Optional

from mapf.faults import Fault
from mapf.numbers import drawn_number
from mapf.program import AnyProgram, File, files, option, program_at
from mapf.program import number as as_word


def handover(map: File, plan: File, tapes: File, *, program: AnyProgram = None) -> str:
    """The text of a plan without what comes behind all moves that were begun by the tapes, by `mapf handover`: in the names of their files `%`
    stands for the agent's number. Each agent can be started again by it, and then by any plan that goes on from it."""
    return program_at(program).answer("handover", *files(map, plan, tapes))


def anew(map: File, plan: File, tapes: File, number: Optional[int] = None, *, without: Optional[int] = None, program: AnyProgram = None) -> str:
    """The text of a plan of what is left of another one by the tapes, by `mapf anew`: from the cells in which the begun moves end, perhaps without
    one agent. It has this number, or one that is drawn."""
    while True:
        new = drawn_number() if number is None else number
        try:
            return program_at(program).answer("anew", *option("without", without), *files(map, plan, tapes, as_word(new)))
        except Fault as fault:
            # The number that is drawn may be that of the plan.
            if number is not None or fault.name != "SameNumber":
                raise
