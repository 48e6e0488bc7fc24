"""The program mapf from Python: what it answers, as typed values.

    import mapf

    verdict = mapf.check("corner.map", "corner.plan", scen="corner.scen")
    print(verdict.accepted, verdict.cost)

Files are named by their paths. A plan that is rejected, a proof that is refused, an event that is refused: these are answers. A text that
has a fault raises `Fault`, with the name and the numbers that the program tells; a file, a device or a program that fails raises `Failed`.
Each call takes `program=PATH`. Without it the program is the one that the variable MAPF of the environment names, else the one
beside these tools, else `mapf` on the path.
"""
from mapf.agents import Agent, Tape, tape
from mapf.faults import Failed, Fault, FaultWords, StaleTape, StoreFailed
from mapf.fleets import AgentStatus, Status, lost, status
from mapf.handovers import anew, handover
from mapf.plans import Continuation, Dependencies, Need, Rotation, Visit, continues, cut, deps, path, visits
from mapf.program import Program, usual_program
from mapf.replies import Armed, Arrived, At, Between, Heard, May, Moving, Refused, Reply, Said, State
from mapf.runs import Ending, complete, run
from mapf.scenarios import Row, Rows, row, rows
from mapf.verdicts import Bound, Bounds, Optimality, Verdict, bound, check, optimal

__all__ = [
    *("Agent", "AgentStatus", "Armed", "Arrived", "At", "Between", "Bound", "Bounds", "Continuation"),
    *("Dependencies", "Ending", "Failed", "Fault", "FaultWords", "Heard", "May", "Moving", "Need", "Optimality"),
    *("Program", "Refused", "Reply", "Rotation", "Row", "Rows", "Said", "StaleTape", "State", "Status"),
    *("StoreFailed", "Tape", "Verdict", "Visit", "anew", "bound", "check", "complete", "continues", "cut"),
    *("deps", "handover", "lost", "optimal", "path", "row", "rows", "run", "status", "tape", "usual_program", "visits"),
]
