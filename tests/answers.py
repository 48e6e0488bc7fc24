"""Whole commands on texts, files and tapes: what each answers, and its status."""
from typing import Iterator, Mapping, Optional, Sequence

from harness import Ended, Harness, Outcome, compared, ended_as, shown
from texts import (
    BACK,
    BEHIND,
    CORNER,
    CORNER_WRITTEN,
    LANE,
    NOBODY,
    ONWARD,
    PROOF,
    RELAY,
    ROW,
    ROW_WRITTEN,
    SHORT,
    HALL,
    SQUARE,
    SWAP,
    TASKS,
    TURN,
    VERTEX,
    WALL,
    beside,
    events,
    plan,
    scen,
)

MAPS = [
    (CORNER, 0, CORNER_WRITTEN),
    (SHORT, 1, "ShortRow 6"),
    ("", 1, "BadHeader 1"),
    ("type octile\nheight 1\nwidth 2\nmap\n..", 0, "type octile\nheight 1\nwidth 2\nmap\n..\n"),
    ("type octile\nheight 1\nwidth 2\nmap\n", 1, "MissingRows 5"),
    ("type octile\nheight 1\nwidth 2\nmap\n.x\n", 1, "BadTerrain 5 2"),
    ("type octile\nheight 0\n", 1, "BadNumber 2"),
    ("type octile\nheight 2\nwidth x\n", 1, "BadNumber 3"),
    ("type octile\nheight 65536\n", 1, "TooLarge 2"),
    ("type octile\nheight 65535\nwidth 65\n", 1, "TooLarge 3"),
    ("type octile\nheight 2049\nwidth 2048\n", 1, "TooLarge 3"),
    (f"type octile\nheight {'9' * 1000}\n", 1, "TooLarge 2"),
    ("type octile\nheight 1\nwidth 2\nmap\n...\n", 1, "LongRow 5"),
    ("type octile\nheight 2\nwidth 2\nmap\n..\n", 1, "MissingRows 6"),
    ("type octile\nheight 1\nwidth 2\nmap\n..\n  \nx", 1, "TextAfter 7"),
]

# A map with a cell out of bounds: the cell, and what is answered.
ALL_TERRAIN = "type octile\r\nheight  2\nwidth 04\nmap\n.G@O\r\nTSW.\n\n"
BLOCKS = [
    *((CORNER, f"{x} {y}", 0, blocked) for x, y, blocked in (
        (0, 0, "type octile\nheight 2\nwidth 3\nmap\n@..\n.@.\n"), (2, 0, "type octile\nheight 2\nwidth 3\nmap\n..@\n.@.\n"),
        (0, 1, "type octile\nheight 2\nwidth 3\nmap\n...\n@@.\n"), (2, 1, "type octile\nheight 2\nwidth 3\nmap\n...\n.@@\n"),
        (1, 1, CORNER_WRITTEN),
    )),
    (ALL_TERRAIN, "1 0", 0, "type octile\nheight 2\nwidth 4\nmap\n.@@O\nTSW.\n"),
    (ALL_TERRAIN, "3 0", 0, "type octile\nheight 2\nwidth 4\nmap\n.G@@\nTSW.\n"),
    (ALL_TERRAIN, "1 1", 0, "type octile\nheight 2\nwidth 4\nmap\n.G@O\nT@W.\n"),
    (CORNER, "3 0", 1, "NoSuchCell 3 0"),
    (CORNER, "0 2", 1, "NoSuchCell 0 2"),
    (CORNER, "2 2", 1, "NoSuchCell 2 2"),
    (CORNER, "65535 65535", 1, "NoSuchCell 65535 65535"),
    # That of the text comes first.
    (SHORT, "9 9", 1, "ShortRow 6"),
    ("", "0 0", 1, "BadHeader 1"),
]

SCENS = [
    (ROW, 0, ROW_WRITTEN),
    ("version 1.0\n0 m.map 3 2 0 1 1 0 2.00000000\r\n", 0, ROW_WRITTEN),
    ("version 1\n0\tmy map.map\t3\t2\t0\t1\t1\t0\t2\n", 0, "version 1\n0\tmy map.map\t3\t2\t0\t1\t1\t0\t2\n"),
    ("version 1\n0 my map.map 3 2 0 1 1 0 2\n", 1, "FieldCount 2"),
    ("", 1, "NoVersion"),
    ("version 1\n\n0 m 3 2 0 1 1 0 2\n0 m 3 2 x 1 1 0 2\n", 1, "BadNumber 4 5"),
    ("version 1\n0 m 3 2 0 1 1 0\n", 1, "FieldCount 2"),
    ("version 1\n0 m 3 2 3 1 1 0 2\n", 1, "OutOfGrid 2"),
    ("version 1\n0 m 3 2 0 1 1 0 2.\n", 1, "BadLength 2"),
    (" " * 4096, 1, "NoVersion"),
    (" " * 4097, 1, "LineTooLong 1"),
]

TWO_SIZES = scen("q.map 2 2 0 0 1 1 1.41421356", "m.map 3 2 0 1 1 0 2")

# The map, the scenario, the row's number, the status, and the line or the fault.
ROWS = [
    (CORNER, scen("m.map 3 2 0 1 1 0 2"), 0, 0, "shortest 2 0 listed 2 agrees\n"),
    (CORNER, ROW, 0, 0, "shortest 2 0 listed 2.00000000 agrees\n"),
    (CORNER, TWO_SIZES, 1, 0, "shortest 2 0 listed 2 agrees\n"),
    (SQUARE, TWO_SIZES, 0, 0, "shortest 0 1 listed 1.41421356 agrees\n"),
    (SQUARE, scen("q.map 2 2 0 0 1 1 3"), 0, 1, "shortest 0 1 listed 3 differs\n"),
    (WALL, scen("w.map 3 1 0 0 2 0 2"), 0, 1, "unreachable\n"),
    (WALL, scen("w.map 3 1 1 0 1 0 0"), 0, 0, "shortest 0 0 listed 0 agrees\n"),
    (WALL, scen("w.map 3 1 0 0 2 0 2", "w.map 3 1 1 0 1 0 0"), 1, 0, "shortest 0 0 listed 0 agrees\n"),
    (WALL, scen("w.map 3 1 2 0 2 0 2"), 0, 1, "shortest 0 0 listed 2 differs\n"),
    (CORNER, ROW, 1, 1, "NoSuchRow"),
    (CORNER, scen(), 0, 1, "NoSuchRow"),
    (SQUARE, ROW, 1, 1, "NoSuchRow"),
    (SQUARE, ROW, 0, 1, "SizeDiffers 0"),
    (SQUARE, TWO_SIZES, 1, 1, "SizeDiffers 1"),
    (CORNER, scen("m.map 2 3 0 1 1 0 2"), 0, 1, "SizeDiffers 0"),
    (SHORT, ROW, 0, 1, "ShortRow 6"),
    (CORNER, scen("m.map 3 2 x 1 1 0 2"), 0, 1, "BadNumber 2 5"),
    (SHORT, "version 2\n", 7, 1, "ShortRow 6"),
]

# Plans on the map LANE, each with the status and the line, without `rejected ` in front.
VERDICTS = [
    (BEHIND, 0, "accepted agents 2 cost 2 makespan 1", '"agents":2,"cost":2,"makespan":1'),
    (SWAP, 1, "Swap 0 1 0", ""),
    (VERTEX, 1, "Vertex 0 1 2 0 0", ""),
    (NOBODY, 0, "accepted agents 0 cost 0 makespan 0", '"agents":0,"cost":0,"makespan":0'),
    (plan("2 0 -ww-", "0 0 ="), 1, "Vertex 0 1 3 0 0", ""),
    (plan("0 0 e", "1 0 w", "2 0 w"), 1, "Vertex 0 2 1 1 0", ""),
    (plan("0 1 ="), 1, "BadStart 0", ""),
    (plan("3 0 ="), 1, "BadStart 0", ""),
    (plan("0 0 w"), 1, "BadMove 0 0", ""),
    (plan("2 0 =", "0 0 -n"), 1, "BadMove 1 1", ""),
    (plan("2 0 --", "0 0 -e"), 0, "accepted agents 2 cost 2 makespan 2", '"agents":2,"cost":2,"makespan":2'),
]

ACCEPTED = "accepted agents 2 cost 2 makespan 1\n"

# Scenarios of the plan BEHIND on the map LANE.
FITS = [
    (TASKS, 0, ACCEPTED),
    (f"{TASKS}0 m.map 3 1 2 0 2 0 0\n", 0, ACCEPTED),
    (scen("m.map 3 1 0 0 1 0 1", "m.map 3 1 1 0 2 0 1"), 1, "rejected StartDiffers 0\n"),
    (scen("m.map 3 1 1 0 2 0 1"), 1, "rejected TooFewRows\n"),
    (scen("m.map 3 1 1 0 2 0 1", "m.map 3 1 0 0 2 0 2"), 1, "rejected GoalDiffers 1\n"),
    (scen("m.map 3 2 1 0 2 0 1", "m.map 3 1 0 0 1 0 1"), 1, "rejected SizeDiffers 0\n"),
    (scen(), 1, "rejected TooFewRows\n"),
    (scen("m.map 3 1 x 0 2 0 1"), 1, "BadNumber 2 5"),
]

# Maps and plans whose texts have a fault.
TEXT_FAULTS = [
    (LANE, plan("1 0 ex", "0 0 e"), "BadAct 4 12"),
    (LANE, "mapf-plan 2\n", "BadHeader 1"),
    (LANE, "mapf-plan 1\nnumber 7\n", "Unfinished 3"),
    (LANE, "mapf-plan 1\nnumber 07\n", "BadNumber 2"),
    (LANE, "mapf-plan 1\nnumber 7\nagents 10001\n", "TooMany 3"),
    (LANE, f"mapf-plan 1\nnumber 7\nagents 1\nagent 0 0 {'e' * 65_536}\n", "TooMany 4"),
    (LANE, "mapf-plan 1\nnumber 7\nagents 1\nagent 0 0\n", "BadAgent 4"),
    (LANE, f"{NOBODY}\n", "TextAfter 4"),
    ("type octile\nheight 1\nwidth 3\nmap\n..\n", "mapf-plan 2\n", "ShortRow 5"),
    ("", SWAP, "BadHeader 1"),
]

# Proofs for the plan BEHIND, and what is told of them: in a line the tests go by form, numbers, agents and steps, limits, what is there.
TREE = PROOF.replace("leaf\n", "")
PROOFS = [
    (f"{TREE}leaf\n", "optimal cost 2 nodes 1\n"),
    ("mapf-proof 1\nobjective makespan\nbound 0\nleaf\n", "bound 0 makespan 1 nodes 1\n"),
    (f"{TREE}at 0 65535 2 0\nleaf\nleaf\n", "optimal cost 2 nodes 3\n"),
    (f"{TREE}stays 1 0\nleaf\nleaf\n", "optimal cost 2 nodes 3\n"),
    ("mapf-proof 1\nobjective cost\nbound 3\nleaf\n", "refused LeafTooLow 4 2\n"),
    ("mapf-proof 1\nobjective cost\nbound 4294967295\nleaf\n", "refused LeafTooLow 4 2\n"),
    ("mapf-proof 1\nobjective cost\nbound 4\nstays 0 2\nleaf\nleaf\n", "refused LeafTooLow 6 2\n"),
    (f"{TREE}at 2 0 0 0\nleaf\nleaf\n", "refused NoSuchAgent 4\n"),
    (f"{TREE}vertex 0 2 0 9 9\n", "refused NoSuchAgent 4\n"),
    (f"{TREE}at 1 0 3 0\n", "refused OffMap 4\n"),
    (f"{TREE}goes 1 0 2 0 3 0\n", "refused OffMap 4\n"),
    (f"{TREE}swap 0 0 0 0 0 1 0\n", "BadNode 4"),
    (f"{TREE}swap 0 9 0 0 0 1 1\n", "BadNode 4"),
    (f"{TREE}swap 0 0 0 0 0 1 65536\n", "BadNumber 4"),
    (f"{TREE}swap 0 1 0 0 0 1\n", "BadNode 4"),
    (f"{TREE}leaf \n", "BadNode 4"),
    (f"{TREE}LEAF\n", "BadNode 4"),
    (f"{TREE}at 0 01 0 0\n", "BadNumber 4"),
    (f"{TREE}{'x' * 128}\n", "BadNode 4"),
    (f"{TREE}{'x' * 129}\n", "TooMany 4"),
    (f"{TREE}leaf", "Unfinished 4"),
    (f"{TREE}leaf\n\n", "TextAfter 5"),
    (f"{TREE}leaf\nleaf\n", "TextAfter 5"),
    (f"{TREE}at 0 0 0 0\nleaf\n", "Unfinished 6"),
    (TREE, "Unfinished 4"),
    ("mapf-proof 2\n", "BadHeader 1"),
    ("mapf-proof 1\nobjective costs\n", "BadHeader 2"),
    ("mapf-proof 1\nobjective cost\nbound\n", "BadHeader 3"),
    ("mapf-proof 1\nobjective cost\nbound 02\n", "BadNumber 3"),
    ("mapf-proof 1\nobjective cost\nbound 4294967296\n", "BadNumber 3"),
    ("", "Unfinished 1"),
]

# The commands that run a valid plan.
RUNNING = ("run M P E", "agent M P 0 T", "agent M P 65535 T")
# Commands that read the tapes of all agents, of whom there are none here.
OF_FLEETS = ("status M P no%", "lost M P no% 65535", "handover M P no%", "anew M P no% 7", "anew M P no% 7 --without 65535")

# Plans that are not valid on the map LANE: a verdict of `check` alone, and a fault of the other commands.
PLAN_FAULTS = [(SWAP, "Swap 0 1 0"), (VERTEX, "Vertex 0 1 2 0 0"), (plan("0 1 ="), "BadStart 0"), (plan("0 0 -n"), "BadMove 0 1")]

# Plans on the map LANE, and what is told of them: waits at an end count, and the first time comes before the first agent.
CONTINUATIONS = [
    (BEHIND, BEHIND, "continues from 2, adds 0 moves\n"),
    (BEHIND, ONWARD, "continues from 2, adds 2 moves\n"),
    (ONWARD, BEHIND, "Departs 0 4"),
    (NOBODY, NOBODY, "continues from 0, adds 0 moves\n"),
    (plan("1 0 =", "0 0 ="), BEHIND, "continues from 0, adds 2 moves\n"),
    (plan("1 0 e", "0 0 e"), ONWARD, "continues from 1, adds 2 moves\n"),
    (plan("1 0 e---", "0 0 e"), ONWARD, "Departs 0 4"),
    (plan("1 0 e---", "0 0 e-----"), BEHIND, "continues from 6, adds 0 moves\n"),
    (plan("1 0 e", "0 0 --"), plan("1 0 -e", "0 0 -"), "Departs 0 1"),
    (plan("2 0 =", "0 0 --"), plan("2 0 -w", "0 0 ="), "Departs 0 2"),
    (plan("2 0 =", "0 0 ---"), plan("2 0 --w", "0 0 ew"), "Departs 1 1"),
    (plan("2 0 =", "1 0 ="), plan("1 0 =", "2 0 ="), "Departs 0 0"),
    (plan("2 0 =", "1 0 ="), plan("2 0 =", "0 0 ="), "Departs 1 0"),
    (plan("2 0 =", number=0), plan("1 0 =", "0 0 =", number=4_294_967_295), "OtherNumber"),
    (plan("2 0 ="), plan("1 0 =", "0 0 ="), "OtherCount"),
    (BEHIND, NOBODY, "OtherCount"),
]

DEPS = [
    (LANE, BEHIND, "agents 2 moves 2 needs 1 rotations 0\nneed 1 0 0 1\n"),
    (LANE, BACK, "agents 2 moves 2 needs 0 rotations 0\n"),
    (
        SQUARE,
        TURN,
        "agents 4 moves 4 needs 4 rotations 1\nneed 0 0 1 1\nneed 1 0 2 1\nneed 2 0 3 1\nneed 3 0 0 1\nrotation 0 0 1 2 3\n",
    ),
    # The same agents turn once more, after a wait.
    (
        SQUARE,
        plan("0 0 e-s", "1 0 s-w", "1 1 w-n", "0 1 n-e"),
        "agents 4 moves 8 needs 8 rotations 2\nneed 0 0 1 1\nneed 0 1 1 2\nneed 1 0 2 1\nneed 1 1 2 2\nneed 2 0 3 1\nneed 2 1 3 2\n"
        "need 3 0 0 1\nneed 3 1 0 2\nrotation 0 0 1 2 3\nrotation 2 0 1 2 3\n",
    ),
    # Who comes back to a cell waits for whoever was there in between, and of two for the later one.
    (SQUARE, plan("0 0 e--w", "0 1 -ns"), "agents 2 moves 4 needs 2 rotations 0\nneed 0 1 1 2\nneed 1 0 0 1\n"),
    (
        HALL,
        plan("1 0 e-----w", "1 1 -ns", "0 0 ---ew"),
        "agents 3 moves 6 needs 3 rotations 0\nneed 0 1 2 2\nneed 1 0 0 1\nneed 2 0 1 2\n",
    ),
    # Each agent moves into the cell of the one before it in the plan.
    (
        SQUARE,
        plan("0 0 s", "1 0 w", "1 1 n", "0 1 e"),
        "agents 4 moves 4 needs 4 rotations 1\nneed 0 0 3 1\nneed 1 0 0 1\nneed 2 0 1 1\nneed 3 0 2 1\nrotation 0 0 3 2 1\n",
    ),
    # A rotation beside agents that only follow one another.
    (
        HALL,
        plan("2 1 n", "2 0 e", "0 0 e", "1 0 s", "1 1 w", "0 1 n"),
        "agents 6 moves 6 needs 5 rotations 1\nneed 0 0 1 1\nneed 2 0 3 1\nneed 3 0 4 1\nneed 4 0 5 1\nneed 5 0 2 1\nrotation 0 2 3 4 5\n",
    ),
    # Two rotations of one step, by least agent, and of two steps, by step.
    (
        HALL,
        plan("2 1 n", "0 0 e", "3 1 w", "1 0 s", "3 0 s", "1 1 w", "2 0 e", "0 1 n"),
        "agents 8 moves 8 needs 8 rotations 2\nneed 0 0 6 1\nneed 1 0 3 1\nneed 2 0 0 1\nneed 3 0 5 1\nneed 4 0 2 1\nneed 5 0 7 1\nneed 6 0 4 1\n"
        "need 7 0 1 1\nrotation 0 0 6 4 2\nrotation 0 1 3 5 7\n",
    ),
    (
        HALL,
        plan("2 1 -n", "3 1 -w", "3 0 -s", "2 0 -e", "0 0 e", "1 0 s", "1 1 w", "0 1 n"),
        "agents 8 moves 8 needs 8 rotations 2\nneed 0 0 3 1\nneed 1 0 0 1\nneed 2 0 1 1\nneed 3 0 2 1\nneed 4 0 5 1\nneed 5 0 6 1\nneed 6 0 7 1\n"
        "need 7 0 4 1\nrotation 0 4 5 6 7\nrotation 1 0 3 2 1\n",
    ),
    # A wait is no move.
    (LANE, plan("1 0 -e", "0 0 --e"), "agents 2 moves 2 needs 1 rotations 0\nneed 1 0 0 1\n"),
    (LANE, plan("0 0 ="), "agents 1 moves 0 needs 0 rotations 0\n"),
    (LANE, NOBODY, "agents 0 moves 0 needs 0 rotations 0\n"),
]

# Who comes into each cell of these plans, on the map and off it, and when.
VISITS = [
    (
        HALL,
        plan("1 0 e-----w", "1 1 -ns", "0 0 ---ew"),
        {
            "1 0": "visit 0 0 0\nvisit 1 1 2\nvisit 2 1 4\nvisit 0 2 7\n",
            "2 0": "visit 0 1 1\n",
            "1 1": "visit 1 0 0\nvisit 1 2 3\n",
            "0 0": "visit 2 0 0\nvisit 2 2 5\n",
            **dict.fromkeys(("0 1", "2 1", "3 0", "3 1", "4 0", "0 2", "65535 0", "0 65535", "65535 65535"), ""),
        },
    ),
    (SQUARE, TURN, {"1 0": "visit 1 0 0\nvisit 0 1 1\n", "0 0": "visit 0 0 0\nvisit 3 1 1\n", "1 2": ""}),
    # A blocked cell, an agent that waits, and nobody at all.
    (CORNER, plan("0 0 -e"), {"0 0": "visit 0 0 0\n", "1 0": "visit 0 1 2\n", "1 1": ""}),
    (LANE, NOBODY, {"0 0": "", "3 0": ""}),
]

# Where agents are: the map, the plan, the words behind them, and the lines.
PATHS = [
    (LANE, BEHIND, "", "0 1 0 0 0\n1 2 0 1 0\n2 2 0 1 0\n"),
    (LANE, BEHIND, " --agent 0", "0 1 0\n1 2 0\n2 2 0\n"),
    (LANE, BEHIND, " --agent 1", "0 0 0\n1 1 0\n"),
    (LANE, NOBODY, "", ""),
    # Agents that meet, exchange cells, stay, and come back.
    (LANE, VERTEX, "", "0 0 0 2 0\n1 0 0 1 0\n2 0 0 0 0\n"),
    (LANE, SWAP, "", "0 0 0 1 0\n1 1 0 0 0\n"),
    (LANE, plan("1 0 =", "1 0 ="), "", "0 1 0 1 0\n"),
    (LANE, BACK, "", "0 1 0 0 0\n1 2 0 0 0\n2 1 0 0 0\n"),
    (SQUARE, TURN, "", "0 0 0 1 0 1 1 0 1\n1 1 0 1 1 0 1 0 0\n"),
    (SQUARE, plan("0 1 n-es"), "", "0 0 1\n1 0 0\n2 0 0\n3 1 0\n4 1 1\n"),
    (SQUARE, plan("0 0 =", "1 1 wn-"), " --agent 0", "0 0 0\n"),
    # Land, grass and swamp join, and water joins water.
    ("type octile\nheight 2\nwidth 3\nmap\n.GS\nWW@\n", plan("0 0 eew", "0 1 e"), "", "0 0 0 0 1\n1 1 0 1 1\n2 2 0 1 1\n3 1 0 1 1\n"),
]
# What is wrong with single agents: the map, the plan, and the least of it.
PATH_FAULTS = [
    (LANE, plan("3 0 ="), "BadStart 0"),
    (LANE, plan("0 1 ="), "BadStart 0"),
    (LANE, plan("65535 65535 ="), "BadStart 0"),
    (WALL, plan("0 0 =", "1 0 ="), "BadStart 1"),
    (LANE, plan("0 0 w", "3 0 e"), "BadStart 1"),
    (LANE, plan("0 0 w"), "BadMove 0 0"),
    (LANE, plan("0 0 n"), "BadMove 0 0"),
    (LANE, plan("0 0 -s"), "BadMove 0 1"),
    (LANE, plan("0 0 eee"), "BadMove 0 2"),
    (WALL, plan("0 0 -e"), "BadMove 0 1"),
    (LANE, plan("0 0 eee", "1 0 ee"), "BadMove 1 1"),
    (LANE, plan("0 0 -w", "1 0 ee", "2 0 -n"), "BadMove 0 1"),
    (LANE, plan("1 0 ee", "1 0 ee"), "BadMove 0 1"),
    # Where agents meet before it, or exchange cells, and where a later one is worse.
    (LANE, plan("0 0 e-n", "1 0 w-"), "BadMove 0 2"),
    (LANE, plan("0 0 --n", "0 0 -----"), "BadMove 0 2"),
    ("type octile\nheight 1\nwidth 3\nmap\n.W.\n", plan("1 0 e"), "BadMove 0 0"),
    ("type octile\nheight 1\nwidth 3\nmap\n.SW\n", plan("0 0 ee"), "BadMove 0 1"),
]

ASKING = ["start 1", "start 0", "finish 0", "start 1"]
ASKED = ["refused Waits 0 1", "moving 2 0", "arrived 2 0", "refused Waits 0 1"]
HEARD = ["said 0 460100000000000700000001", "heard 0 1"]

# Runs that come to their end: the map, the plan, the events and their replies.
RUNS = [
    (LANE, BEHIND, ASKING, ASKED),
    (LANE, BEHIND, [*ASKING, "say 0", "deliver 1 0", "start 1"], [*ASKED, *HEARD, "moving 1 0"]),
    # A restart inside a move.
    (
        LANE,
        BEHIND,
        [*ASKING, "say 0", "deliver 1 0", "start 1", "restart 1", "finish 1"],
        [*ASKED, *HEARD, "moving 1 0", "between 0 0 1 0 done 0", "arrived 1 0"],
    ),
    # Messages that come late, and twice.
    (
        LANE,
        BACK,
        ["start 0", "finish 0", "say 0", "start 0", "finish 0", "say 0", "deliver 1 1", "deliver 1 0", "deliver 1 0"],
        ["moving 2 0", "arrived 2 0", HEARD[0], "moving 1 0", "arrived 1 0", "said 1 460100000000000700000002", *["heard 0 2"] * 3],
    ),
    # A torn record is as none; one that was stored counts, though its write failed.
    (
        LANE,
        BEHIND,
        ["tear 0 9", "start 0", "start 0", "restart 0", "start 0"],
        ["armed", "refused StoreFailed", "refused Broken", "at 1 0 done 0", "moving 2 0"],
    ),
    (LANE, BEHIND, ["tear 0 10", "start 0", "restart 0"], ["armed", "refused StoreFailed", "between 1 0 2 0 done 0"]),
    (
        LANE,
        BEHIND,
        ["start 0", "tear 0 9", "finish 0", "say 0", "restart 0", "say 0"],
        ["moving 2 0", "armed", "refused StoreFailed", "refused Broken", "between 1 0 2 0 done 0", "said 0 460100000000000700000000"],
    ),
    (
        LANE,
        BEHIND,
        ["start 0", "tear 0 10", "finish 0", "say 0", "restart 0", "say 0"],
        ["moving 2 0", "armed", "refused StoreFailed", "refused Broken", "at 2 0 done 1", "said 0 460100000000000700000001"],
    ),
    # What was heard is forgotten by a restart.
    (
        LANE,
        BEHIND,
        [*ASKING, "say 0", "deliver 1 0", "tear 1 3", "start 1", "restart 1", "start 1"],
        [*ASKED, *HEARD, "armed", "refused StoreFailed", "at 0 0 done 0", "refused Waits 0 1"],
    ),
    # A tear stands until a restart, and a second one replaces the first.
    (
        LANE,
        BEHIND,
        [
            *("tear 0 10", "finish 0", "tear 0 11", "tear 0 0", "start 0", "tear 0 5", "restart 0"),
            *("start 0", "start 0", "say 0", "finish 0", "finish 0", "start 0"),
        ],
        [
            "armed",
            "refused NotMoving",
            "refused BadTear",
            "armed",
            "refused StoreFailed",
            "armed",
            "at 1 0 done 0",
            "moving 2 0",
            "refused AlreadyMoving",
            "said 0 460100000000000700000000",
            "arrived 2 0",
            "refused NotMoving",
            "refused AtEnd",
        ],
    ),
    # A broken agent hears nothing.
    (
        LANE,
        BEHIND,
        ["say 1", "tear 0 1", "start 0", "deliver 0 1", "deliver 0 0", "finish 0", "say 0", "restart 0", "deliver 0 0", "deliver 1 0"],
        [
            "said 0 460100010000000700000000",
            "armed",
            "refused StoreFailed",
            "refused NoSuchMessage",
            *["refused Broken"] * 3,
            "at 1 0 done 0",
            *["heard 1 0"] * 2,
        ],
    ),
    # At version 1 an agent says nothing of what it has heard.
    (
        SQUARE,
        RELAY,
        ["start 0", "finish 0", "say 0", "deliver 1 0", "say 1", "deliver 2 1", "start 2"],
        ["moving 1 1", "arrived 1 1", *HEARD, "said 1 460100010000000700000000", "heard 1 0", "refused Waits 0 1"],
    ),
    # Nobody begins to turn.
    (SQUARE, TURN, [f"start {i}" for i in range(4)], [f"refused Waits {(i + 1) % 4} 1" for i in range(4)]),
    # Numbers that name nothing.
    (LANE, BEHIND, ["deliver 1 5", "tear 0 11", "start 9"], ["refused NoSuchMessage", "refused BadTear", "refused NoSuchAgent"]),
    (
        LANE,
        BEHIND,
        [
            *("finish 2", "say 65536", "restart 4294967295", "tear 2 11", "tear 1 4294967295"),
            *("deliver 0 18446744073709551615", "deliver 4294967295 18446744073709551615"),
        ],
        [*["refused NoSuchAgent"] * 4, "refused BadTear", "refused NoSuchMessage", "refused NoSuchAgent"],
    ),
    (LANE, NOBODY, ["start 0"], ["refused NoSuchAgent"]),
    (LANE, NOBODY, [], []),
    (LANE, BEHIND, ["start 9"] * 10_000, ["refused NoSuchAgent"] * 10_000),
    # Before the line there are 4,086 bytes, so that its LF is the byte 4,095, 4,096 or 4,097.
    *(
        (
            LANE,
            BEHIND,
            [*["start 9"] * 509, line, *["start 9"] * 600, "start 0"],
            [*["refused NoSuchAgent"] * 509, reply, *["refused NoSuchAgent"] * 600, "moving 2 0"],
        )
        for line, reply in (("finish 0", "refused NotMoving"), ("restart 0", "at 1 0 done 0"), ("tear 0 100", "refused BadTear"))
    ),
]

# The same where agents tell all that they know.
TOLD = "said 0 46020000000000070001000000000001"
TELLING_RUNS = [
    (LANE, BEHIND, [*ASKING, "say 0", "deliver 1 0", "start 1"], [*ASKED, TOLD, "heard 0 1", "moving 1 0"]),
    # A restarted agent tells of itself alone.
    (
        LANE,
        BEHIND,
        ["start 0", "finish 0", "say 0", "deliver 1 0", "start 1", "finish 1", "say 1", "restart 1", "say 1"],
        [
            *("moving 2 0", "arrived 2 0", TOLD, "heard 0 1", "moving 1 0", "arrived 1 0"),
            *("said 1 46020001000000070002000000000001000100000001", "at 1 0 done 1", "said 2 46020001000000070001000100000001"),
        ],
    ),
    # The third agent hears of the first by the second, and not by a message of the first's own.
    (
        SQUARE,
        RELAY,
        ["start 0", "finish 0", "say 0", "deliver 1 0", "say 1", "deliver 2 1", "start 2"],
        ["moving 1 1", "arrived 1 1", TOLD, "heard 0 1", "said 1 46020001000000070001000000000001", "heard 1 0", "moving 1 0"],
    ),
    # Numbers that name nobody and nothing, and a message without an entry.
    (
        LANE,
        BEHIND,
        ["say 2", "deliver 0 0", "say 1", "deliver 2 0", "deliver 0 0", "deliver 0 1"],
        [
            *("refused NoSuchAgent", "refused NoSuchMessage", "said 0 46020001000000070000", "refused NoSuchAgent", "heard 1 0"),
            "refused NoSuchMessage",
        ],
    ),
    # Nobody has finished anything.
    (LANE, BEHIND, ["say 0", "deliver 1 0"], ["said 0 46020000000000070000", "heard 0 0"]),
    (LANE, NOBODY, ["say 0"], ["refused NoSuchAgent"]),
]

# Texts of events of the plan BEHIND that have a fault: the text, the replies before it, and the fault.
EVENT_FAULTS = [
    (events("start 0", "jump"), "moving 2 0\n", "BadEvent 3"),
    (events("start 0", "jump", "finish 0"), "moving 2 0\n", "BadEvent 3"),
    (events("start 0")[:-1], "", "Unfinished 2"),
    (events("start 0", "finish 0")[:-1], "moving 2 0\n", "Unfinished 3"),
    (events("start 0", "", "finish 0"), "moving 2 0\n", "BadEvent 3"),
    (events("start 00"), "", "BadEvent 2"),
    (events("start 4294967296"), "", "BadEvent 2"),
    (events("deliver 0 18446744073709551616"), "", "BadEvent 2"),
    (events("start 0".ljust(64, "0")), "", "BadEvent 2"),
    (events("start 0", "jump", version=2), "moving 2 0\n", "BadEvent 3"),
    ("mapf-events 3\nstart 0\n", "", "NoHeader"),
    ("start 0\n", "", "NoHeader"),
    ("mapf-events 1", "", "NoHeader"),
    ("", "", "NoHeader"),
]

# Records of agent 0 of the plan BEHIND, of another plan and agent, of either alone, and bytes of none.
MOVING = bytes.fromhex("50010000000700000000")
STANDING = bytes.fromhex("50020000000700000001")
OTHER_PLAN = bytes.fromhex("50010000000800010000")
OTHER_PLAN_ALONE = bytes.fromhex("50010000000800000000")
OTHER_AGENT = bytes.fromhex("50010000000700010000")
ARRIVED_IN_OTHER_PLAN = bytes.fromhex("50020000000800000001")
ARRIVED_AS_OTHER = bytes.fromhex("50020000000700010001")
NOISE = b"\xff" * 10

# Tape files, and where agent 0 is by them.
OPENED = [
    (b"", "at 1 0 done 0"),
    (MOVING[:9], "at 1 0 done 0"),
    (NOISE[:9], "at 1 0 done 0"),
    (MOVING, "between 1 0 2 0 done 0"),
    (MOVING + STANDING[:9], "between 1 0 2 0 done 0"),
    (MOVING + NOISE[:9], "between 1 0 2 0 done 0"),
    (MOVING + STANDING, "at 2 0 done 1"),
    (MOVING + STANDING + NOISE[:1], "at 2 0 done 1"),
    (MOVING + STANDING + NOISE[:9], "at 2 0 done 1"),
]
REFUSED_TAPES = [
    (MOVING + STANDING + NOISE, "TooLong"),
    (MOVING + STANDING + MOVING, "TooLong"),
    (NOISE * 3, "TooLong"),
    (OTHER_PLAN + NOISE * 2, "TooLong"),
    (MOVING + MOVING, "Damaged 1"),
    (MOVING + MOVING + NOISE[:9], "Damaged 1"),
    (MOVING + NOISE, "Damaged 1"),
    (STANDING, "Damaged 0"),
    (NOISE, "Damaged 0"),
    (ARRIVED_IN_OTHER_PLAN, "Damaged 0"),
    (OTHER_PLAN, "WrongPlan 0"),
    (OTHER_PLAN + NOISE, "WrongPlan 0"),
    (MOVING + ARRIVED_IN_OTHER_PLAN, "WrongPlan 1"),
    (OTHER_PLAN_ALONE, "WrongPlan 0"),
    (OTHER_AGENT, "WrongAgent 0"),
    (MOVING + ARRIVED_AS_OTHER, "WrongAgent 1"),
]

# Lines for agent 0, their answers, and how many bytes its tape has then.
TURNS = [
    ("start", "moving 2 0", 10),
    ("say", "said 460100000000000700000000", 10),
    ("finish", "arrived 2 0", 20),
    ("say", "said 460100000000000700000001", 20),
    ("held", "at 2 0 done 1", 20),
    ("tell", "said 46020000000000070001000000000001", 20),
    ("start", "refused AtEnd", 20),
    ("hear 4601", "refused BadLength", 20),
    ("hear 4", "refused BadLine", 20),
    ("hear", "refused BadLine", 20),
    ("hear ", "refused BadLength", 20),
    ("held\r", "refused BadLine", 20),
    ("hear 460100000000000700000002", "refused TooMany", 20),
    ("hear 460100000000000800000001", "refused WrongPlan", 20),
    ("hear 460100090000000700000001", "refused NoSuchAgent", 20),
    ("hear 4602000000000007000000010", "refused BadLine", 20),
    ("hear 45010000000000070000 0001", "refused BadLine", 20),
    ("hear 450100000000000700000001", "refused BadMagic", 20),
    ("x" * 131_072, "refused BadLine", 20),
    ("x" * 131_073, "refused BadLine", 20),
    ("held", "at 2 0 done 1", 20),
]

# Lines for agent 1, which goes behind agent 0; old news changes nothing.
BEHIND_TURNS = [
    ("finish", "refused NotMoving"),
    ("start", "refused Waits 0 1"),
    ("hear 460100000000000700000000", "heard 0 0"),
    ("start", "refused Waits 0 1"),
    ("hear 460100000000000700000001", "heard 0 1"),
    ("hear 460100000000000700000000", "heard 0 1"),
    ("start", "moving 1 0"),
    ("held", "between 0 0 1 0 done 0"),
    ("start", "refused AlreadyMoving"),
    ("finish", "arrived 1 0"),
    ("say", "said 460100010000000700000001"),
    ("tell", "said 46020001000000070002000000000001000100000001"),
]

# The same where agent 0 tells all that it knows; what agent 1 hears of itself it does not tell.
TOLD_TURNS = [
    ("tell", "said 46020001000000070000"),
    ("hear 46020000000000070000", "heard 0 0"),
    ("start", "refused Waits 0 1"),
    ("hear 46020000000000070001000100000001", "heard 0 0"),
    ("tell", "said 46020001000000070000"),
    ("hear 46020001000000070001000000000001", "heard 1 1"),
    ("tell", "said 46020001000000070001000000000001"),
    ("start", "moving 1 0"),
    ("finish", "arrived 1 0"),
    ("tell", "said 46020001000000070002000000000001000100000001"),
]

# What is said to agent 0, which makes one move, by how many moves it has finished: how it answers, and by whom its tape is found to be an older one where it was kept.
STALE_WORDS: list[tuple[int, str, str, Optional[int]]] = [
    (0, "460100000000000700000000", "heard 0 0", None),
    (0, "460100000000000700000001", "heard 0 1", 0),
    (1, "460100000000000700000001", "heard 0 1", None),
    (0, "460100010000000700000001", "heard 1 1", None),
    (0, "46020000000000070000", "heard 0 0", None),
    (0, "46020000000000070001000000000001", "heard 0 1", 0),
    (1, "46020000000000070001000000000001", "heard 0 1", None),
    (0, "46020001000000070001000000000001", "heard 1 0", 1),
    (0, "46020001000000070002000000000001000100000001", "heard 1 1", 1),
    (1, "46020001000000070002000000000001000100000001", "heard 1 1", None),
    (0, "46020001000000070001000100000001", "heard 1 1", None),
    # What refuses the message comes first.
    (0, "460100000000000700000002", "refused TooMany", None),
    (0, "46020001000000070002000000000002000100000001", "refused TooMany", None),
    (0, "46020001000000070002000000000001000100000002", "refused TooMany", None),
    (0, "46020002000000070001000000000001", "refused NoSuchAgent", None),
    (0, "46020001000000070002000000000001000200000001", "refused NoSuchAgent", None),
    (0, "46020001000000080001000000000001", "refused WrongPlan", None),
    (0, "460100000000000800000001", "refused WrongPlan", None),
    (0, "46020001000000070002000100000001000000000001", "refused BadEntry 1", None),
    (0, "4602000100000007000100000000000100", "refused BadLength", None),
]

# Lines that are not understood.
NO_REQUESTS = [
    *(b"", b" ", b"\0", b"\xff", b"s", b"star", b"starts", b"Start", b"START", b" start", b"start ", b"start\r", b"start\0", b"start 0"),
    *(b"tell ", b"tell 0", b"tells", b"Tell", b"finish\t", b"say 0", b"held\r", b"known 0", b"restart", b"hear", b"hear\t4601", b"hear  4601", b"hear 4601 ", b"hear 4601\r"),
    *(b"hear 46 01", b"hear 0x4601", b"hear 4", b"hear 460", b"hear 4601000000000007000000zz", b"Hear 4601"),
]

# Messages that agent 0 refuses.
BAD_MESSAGES = [
    ("", "BadLength"),
    ("46", "BadLength"),
    ("00", "BadLength"),
    ("4601", "BadLength"),
    ("4701", "BadMagic"),
    ("4702", "BadMagic"),
    ("4602", "BadLength"),
    ("4603", "BadVersion"),
    ("4600", "BadVersion"),
    ("4601000000000007000000", "BadLength"),
    ("46010000000000070000000000", "BadLength"),
    ("460200000000000700", "BadLength"),
    ("4602000000000007000000", "BadLength"),
    ("460200000000000700000001", "BadLength"),
    ("46020000000000070001000000000000", "BadEntry 0"),
    ("46020000000000070002000100000001000000000001", "BadEntry 1"),
    ("46020000000000070002000000000001000000000001", "BadEntry 1"),
    ("46020000000000080001000200000009", "WrongPlan"),
    ("46020002000000070001000000000009", "NoSuchAgent"),
    ("46020000000000070002000000000009000200000001", "NoSuchAgent"),
    ("46020000000000070002000000000001000100000002", "TooMany"),
    ("460100000000000800000002", "WrongPlan"),
    ("460100020000000700000002", "NoSuchAgent"),
    ("46010000000000070000000A", "TooMany"),
    ("46010000000000070000000a", "TooMany"),
]

# Inputs whose last line may not be ended, and the answers.
LAST_LINES = [
    (b"", []),
    (b"\n", ["refused BadLine"]),
    (b"\n\n", ["refused BadLine"] * 2),
    (b"s", ["refused BadLine"]),
    (b"\r", ["refused BadLine"]),
    (b"held", ["at 1 0 done 0"]),
    (b"held\nheld", ["at 1 0 done 0"] * 2),
    (b"hear ", ["refused BadLength"]),
]

# Long lines: how each begins, what it goes on with, its length and its answer. The longest message has 131,066 digits.
LONG_LINES = [
    ("", "a", 131_071, "refused BadLine"),
    ("", "a", 131_072, "refused BadLine"),
    ("", "a", 131_073, "refused BadLine"),
    ("", "\r", 300_000, "refused BadLine"),
    ("held", " ", 131_073, "refused BadLine"),
    ("hear ", "0", 131_071, "refused BadMagic"),
    ("hear ", "0", 131_072, "refused BadLine"),
    ("hear ", "0", 131_073, "refused BadLine"),
]


def asked(harness: Harness, words: str, files: Mapping[str, str], due: Ended, name: str = "") -> Outcome:
    """Runs a command on files, and compares all that it did."""
    folder = harness.folder({file: text.encode() for file, text in files.items()})
    ended = harness.mapf(words.split(), folder=folder)
    ran = f"mapf {words}  with the files { {file: text[:300] for file, text in files.items()} !r}"
    return ended_as(name or words, ran, ended, due)


def answer(status: int, text: str) -> Ended:
    """A text that is written, or the name of a fault and its numbers."""
    return Ended(status, text.encode(), b"") if text.endswith("\n") or not text else Ended(status, b"", f"mapf: {text}\n".encode())


def of_maps_and_rows(harness: Harness) -> Iterator[Outcome]:
    for text, status, due in MAPS:
        yield asked(harness, "map M", {"M": text}, answer(status, due))
    for text, cell, status, due in BLOCKS:
        yield asked(harness, f"map M --block {cell}", {"M": text}, answer(status, due))
    for text, status, due in SCENS:
        yield asked(harness, "scen S", {"S": text}, answer(status, due))
    for map_text, scen_text, row, status, due in ROWS:
        yield asked(harness, f"row M S {row}", {"M": map_text, "S": scen_text}, answer(status, due))


def without_later_acts(text: str, time: int) -> str:
    """The text of a plan in which each agent has its first acts alone, so many."""
    lines = []
    for line in text.splitlines():
        word, *others = line.split(" ")
        if word == "agent":
            *place, acts = others
            line = " ".join([word, *place, acts.strip("=")[:time] or "="])
        lines.append(f"{line}\n")
    return "".join(lines)


def of_cuts(harness: Harness) -> Iterator[Outcome]:
    for text, _, fault, numbers in VERDICTS:
        for time in range(5):
            due = answer(0, without_later_acts(text, time)) if numbers else answer(1, fault)
            yield asked(harness, f"cut M P {time}", {"M": LANE, "P": text}, due)


def of_continuations(harness: Harness) -> Iterator[Outcome]:
    """Which fault is told where there are several: those of texts before those of plans, the old plan's before the new one's."""
    for map_text, text, fault in TEXT_FAULTS:
        for words, other in (("continues M P Q", "no plan"), ("continues M Q P", SWAP)):
            yield asked(harness, words, {"M": map_text, "P": text, "Q": other}, answer(1, fault))
    for text, fault in PLAN_FAULTS:
        for words, other in (("continues M P Q", plan("2 0 e")), ("continues M Q P", NOBODY), ("continues M P P", NOBODY)):
            yield asked(harness, words, {"M": LANE, "P": text, "Q": other}, answer(1, fault))
    for old, new, text in CONTINUATIONS:
        yield asked(harness, "continues M P Q", {"M": LANE, "P": old, "Q": new}, answer(0 if text.endswith("\n") else 1, text))


def of_proofs(harness: Harness) -> Iterator[Outcome]:
    """The faults of a map, of a plan's text and of a plan come before those of a proof, which is not read then."""
    for map_text, text, fault in TEXT_FAULTS:
        yield asked(harness, "optimal M P T", {"M": map_text, "P": text, "T": "no proof"}, answer(1, fault))
    for text, fault in PLAN_FAULTS:
        yield asked(harness, "optimal M P T --json", {"M": LANE, "P": text, "T": "no proof"}, answer(1, fault))
    for text, due in PROOFS:
        yield asked(harness, "optimal M P T", {"M": LANE, "P": BEHIND, "T": text}, answer(0 if due.startswith(("optimal", "bound")) else 1, due))


def of_checks(harness: Harness) -> Iterator[Outcome]:
    for text, status, words, numbers in VERDICTS:
        files = {"M": LANE, "P": text, "S": "no scenario"}
        line = f"{words}\n" if numbers else f"rejected {words}\n"
        as_json = f'{{"accepted":true,{numbers}}}\n' if numbers else f'{{"accepted":false,"fault":"{words}"}}\n'
        yield asked(harness, "check M P", files, answer(status, line))
        yield asked(harness, "check M P --json", files, answer(status, as_json))
        # A scenario is read only where the plan is valid.
        yield asked(harness, "check M P --scen S", files, answer(1, "NoVersion" if numbers else line))
    for text, status, due in FITS:
        files = {"M": LANE, "P": BEHIND, "S": text}
        yield asked(harness, "check M P --scen S", files, answer(status, due))
    for map_text, text, fault in TEXT_FAULTS:
        for words in ("check M P", "check M P --json", "check M P --scen S", "deps M P", "deps M P --cell 0 0", "path M P", "path M P --agent 9", "cut M P 9", *RUNNING, *OF_FLEETS):
            yield asked(harness, words, {"M": map_text, "P": text, "S": TASKS, "E": "no events"}, answer(1, fault))


def of_graphs_and_runs(harness: Harness) -> Iterator[Outcome]:
    for map_text, text, due in DEPS:
        yield asked(harness, "deps M P", {"M": map_text, "P": text}, answer(0, due))
    for map_text, text, cells in VISITS:
        for cell, due in cells.items():
            yield asked(harness, f"deps M P --cell {cell}", {"M": map_text, "P": text}, answer(0, due))
    for map_text, text, words, due in PATHS:
        yield asked(harness, f"path M P{words}", {"M": map_text, "P": text}, answer(0, due))
    for map_text, text, fault in PATH_FAULTS:
        for words in ("", " --agent 0", " --agent 65535"):
            yield asked(harness, f"path M P{words}", {"M": map_text, "P": text}, answer(1, fault))
    for text, count in ((NOBODY, 0), (BEHIND, 2), (SWAP, 2)):
        yield asked(harness, f"path M P --agent {count}", {"M": LANE, "P": text}, answer(1, "NoSuchAgent"))
    for text, fault in PLAN_FAULTS:
        for words in ("deps M P", "deps M P --cell 0 0", "cut M P 0", "cut M P 9", *RUNNING, *OF_FLEETS):
            yield asked(harness, words, {"M": LANE, "P": text, "E": "no events"}, answer(1, fault))
    for map_text, text, lines, replies in RUNS:
        files = {"M": map_text, "P": text, "E": events(*lines)}
        yield asked(harness, "run M P E", files, answer(0, "".join(f"{reply}\n" for reply in replies)))
    for map_text, text, lines, replies in TELLING_RUNS:
        files = {"M": map_text, "P": text, "E": events(*lines, version=2)}
        yield asked(harness, "run M P E", files, answer(0, "".join(f"{reply}\n" for reply in replies)))
    for text, replies, fault in EVENT_FAULTS:
        due = Ended(1, replies.encode(), f"mapf: {fault}\n".encode())
        yield asked(harness, "run M P E", {"M": LANE, "P": BEHIND, "E": text}, due)
    yield from beginnings_of_events(harness)


def beginnings_of_events(harness: Harness) -> Iterator[Outcome]:
    """Each beginning of a text of events is answered by the replies to its whole lines, and perhaps by a fault."""
    text = events(*ASKING)
    for length in range(len(text)):
        ended = text[:length].count("\n")
        fault = "NoHeader" if not ended else "" if text[:length].endswith("\n") else f"Unfinished {ended + 1}"
        replies = "".join(f"{reply}\n" for reply in ASKED[: max(ended - 1, 0)])
        due = Ended(1 if fault else 0, replies.encode(), f"mapf: {fault}\n".encode() if fault else b"")
        yield asked(harness, "run M P E", {"M": LANE, "P": BEHIND, "E": text[:length]}, due, f"run, the first {length} bytes of events")


def of_stale_tapes(harness: Harness) -> Iterator[Outcome]:
    """Somebody says that agent 0 has finished more moves than its tape has: over a kept tape it ends, and over any other it hears that as before."""
    for done, digits, reply, sender in STALE_WORDS:
        tape, at = ((MOVING + STANDING, "at 2 0 done 1") if done else (b"", "at 1 0 done 0"))
        given = lines(f"hear {digits}", "say", "held")
        heard = Ended(0, lines(at, reply, f"said 46010000000000070000000{done}", at), b"")
        ended = heard if sender is None else Ended(3, lines(at, f"refused StaleTape {sender} 1"), b"")
        for claim, due in (([], heard), (["--tape", "kept"], ended), *([] if done else [(["--tape", "new"], heard)])):
            kept = {"T.plan": beside("+" if tape else "-", BEHIND)} if "kept" in claim else {}
            folder = harness.folder({"M": LANE.encode(), "P": BEHIND.encode(), "T": tape, **kept})
            words = ["agent", "M", "P", "0", "T", *claim]
            found = harness.mapf(words, given, folder)
            name = f"agent 0, done {done}, {' '.join(claim)}, hears {digits}"
            yield compared(name, shown(["mapf", *words], given), (found, (folder / "T").read_bytes()), (due, tape))
    # On the way too, and behind what was heard; a last line needs no LF.
    files = {"M": LANE.encode(), "P": BEHIND.encode(), "T": MOVING, "T.plan": beside("+", BEHIND)}
    folder, words = harness.folder(files), ["agent", "M", "P", "0", "T", "--tape", "kept"]
    given = b"hear 460100010000000700000001\nhear 460100000000000700000001"
    due = Ended(3, lines("between 1 0 2 0 done 0", "heard 1 1", "refused StaleTape 0 1"), b"")
    yield ended_as("a stale tape of an agent on its way", shown(["mapf", *words], given), harness.mapf(words, given, folder), due)


def talked(harness: Harness, agent: int, tape: bytes, given: bytes, due: Ended, left: bytes) -> Outcome:
    """Runs an agent of the plan BEHIND over a tape file, and compares all that it did, and what the file has then."""
    folder = harness.folder({"M": LANE.encode(), "P": BEHIND.encode(), "T": tape})
    words = ["agent", "M", "P", str(agent), "T"]
    ended = harness.mapf(words, given, folder)
    ran = f"{shown(['mapf', *words], given)}  with the tape {tape.hex()}"
    outcome = ended_as(f"agent {agent}, tape {tape.hex() or 'empty'}", ran, ended, due)
    return outcome if outcome.fault else compared(outcome.name, f"{ran}, and looked at the tape", (folder / "T").read_bytes().hex(), left.hex())


def lines(*texts: str) -> bytes:
    return "".join(f"{text}\n" for text in texts).encode()


def of_agents(harness: Harness) -> Iterator[Outcome]:
    for tape, state in OPENED:
        yield talked(harness, 0, tape, b"", Ended(0, lines(state), b""), tape)
    for tape, fault in REFUSED_TAPES:
        yield talked(harness, 0, tape, b"start\n", Ended(1, b"", lines(f"mapf: {fault}")), tape)
    for agent in (2, 65535):
        yield talked(harness, agent, NOISE, b"start\n", Ended(1, b"", b"mapf: NoSuchAgent\n"), NOISE)
    for plan_text, agent, fault in ((BEHIND, 2, "NoSuchAgent"), (SWAP, 0, "Swap 0 1 0")):
        folder, words = harness.folder({"M": LANE.encode(), "P": plan_text.encode()}), ["agent", "M", "P", str(agent), "T"]
        ended = harness.mapf(words, b"start\n", folder)
        due = (Ended(1, b"", lines(f"mapf: {fault}")), False)
        yield compared(f"agent {agent}, {fault}: no tape is made", shown(["mapf", *words]), (ended, (folder / "T").exists()), due)
    # A record is written over a torn tail, and not behind it.
    yield talked(harness, 0, NOISE[:9], b"start\n", Ended(0, lines("at 1 0 done 0", "moving 2 0"), b""), MOVING)
    yield talked(harness, 0, MOVING + NOISE[:1], b"finish\n", Ended(0, lines("between 1 0 2 0 done 0", "arrived 2 0"), b""), MOVING + STANDING)
    asked_lines, answers, _ = zip(*TURNS)
    yield talked(harness, 0, b"", lines(*asked_lines), Ended(0, lines("at 1 0 done 0", *answers), b""), MOVING + STANDING)
    # A last line without its LF is answered too; the drive of a robot that was killed goes on by the tape.
    yield talked(harness, 0, MOVING, b"finish", Ended(0, lines("between 1 0 2 0 done 0", "arrived 2 0"), b""), MOVING + STANDING)
    given, replies = lines("start", "hear 460100000000000700000001", "start"), ("refused Waits 0 1", "heard 0 1", "moving 1 0")
    yield talked(harness, 1, b"", given, Ended(0, lines("at 0 0 done 0", *replies), b""), OTHER_AGENT)
    yield from line_after_line(harness)
    yield from lines_of_agents(harness)


def line_after_line(harness: Harness) -> Iterator[Outcome]:
    """An agent that is killed after each line goes on by its tape."""
    folder = harness.folder({"M": LANE.encode(), "P": BEHIND.encode()})
    for line, reply, size in TURNS[:5]:
        ended = harness.mapf(["agent", "M", "P", "0", "T"], lines(line), folder)
        last = ended.out.decode().splitlines()[1:]
        wrote = (ended.status, last, (folder / "T").read_bytes())
        yield compared(f"agent, the line {line} alone", f"mapf agent M P 0 T  with the line {line}", wrote, (0, [reply], (MOVING + STANDING)[:size]))


def lines_of_agents(harness: Harness) -> Iterator[Outcome]:
    """Lines that are no request, messages that are refused, last lines and long ones: none changes the tape."""
    at = "at 1 0 done 0"
    stored = OTHER_AGENT + ARRIVED_AS_OTHER
    for turns in (BEHIND_TURNS, TOLD_TURNS):
        given, answers = zip(*turns)
        yield talked(harness, 1, b"", lines(*given), Ended(0, lines("at 0 0 done 0", *answers), b""), stored)
    for line in NO_REQUESTS:
        yield talked(harness, 0, b"", line + b"\nheld\n", Ended(0, lines(at, "refused BadLine", at), b""), b"")
    for digits, name in BAD_MESSAGES:
        yield talked(harness, 0, b"", lines(f"hear {digits}", "held"), Ended(0, lines(at, f"refused {name}", at), b""), b"")
    for last, replies in LAST_LINES:
        yield talked(harness, 0, b"", last, Ended(0, lines(at, *replies), b""), b"")
    for begin, rest, length, reply in LONG_LINES:
        line = begin.ljust(length, rest).encode()
        for end, replies in ((b"", []), (b"\n", []), (b"\nheld", [at])):
            yield talked(harness, 0, b"", line + end, Ended(0, lines(at, reply, *replies), b""), b"")
    yield from digits_of_both_cases(harness)


def digits_of_both_cases(harness: Harness) -> Iterator[Outcome]:
    """Digits are read in either case, and written in lower case. The number of this plan is 00abcdef."""
    files = {"M": LANE, "P": plan("1 0 e-", "0 0 e", number=0xABCDEF)}
    given = lines("say", "hear 4601000000abcdef00000000", "hear 4601000000ABCDEF00000001", "hear 4601000100aBcDeF00000001")
    folder = harness.folder({name: text.encode() for name, text in files.items()})
    due = Ended(0, lines("at 1 0 done 0", "said 4601000000abcdef00000000", "heard 0 0", "heard 0 1", "heard 1 1"), b"")
    words = ["agent", "M", "P", "0", "T"]
    yield ended_as("digits of both cases", shown(["mapf", *words], given), harness.mapf(words, given, folder), due)


def outcomes(harness: Harness) -> Iterator[Outcome]:
    yield from of_maps_and_rows(harness)
    yield from of_checks(harness)
    yield from of_cuts(harness)
    yield from of_continuations(harness)
    yield from of_proofs(harness)
    yield from of_graphs_and_runs(harness)
    yield from of_agents(harness)
    yield from of_stale_tapes(harness)
