"""Wrong inputs of each format and each command, and what an explanation of each has to say. Written by hand."""
import dataclasses
import gzip
from typing import Union

from statuses import tape_of
from texts import SQUARE, TURN

Text = Union[str, bytes]

LAND = "type octile\nheight 2\nwidth 3\nmap\n...\n.@.\n"
SHORE = "type octile\nheight 1\nwidth 4\nmap\n..WW\n"
PAIR = "mapf-plan 1\nnumber 7\nagents 2\nagent 1 0 e-\nagent 0 0 e\n"
EVENTS = "mapf-events 1\nstart 0\n"
ROWS = "version 1\n0\ta.map\t3\t2\t0\t0\t2\t0\t2\n0\tb.map\t4\t4\t0\t0\t3\t0\t3\n"
TERRAIN = "A cell is one of . G (land) S (swamp) W (water) @ O (out of bounds) T (trees).\n"
# The first ten bytes of a tape: agent 0 of plan 7 moves, and has finished nothing.
RECORD = bytes.fromhex("50010000000700000000")


@dataclasses.dataclass(frozen=True)
class Wrong:
    """Words of a command, what stands in its file `wrong`, and what an explanation must hold."""

    words: str
    wrong: Text
    phrases: tuple[str, ...]


def plan(*agents: str) -> str:
    """A plan with these lines of agents."""
    return f"mapf-plan 1\nnumber 7\nagents {len(agents)}\n" + "".join(f"agent {agent}\n" for agent in agents)


def marked(number: int, line: str, mark: str) -> str:
    """A line as it is shown, with its mark."""
    return f"{number:>5} | {line}\n      | {mark}\n"


TWO = "type octile\nheight 1\nwidth 2\nmap\n"

MAPS = [
    Wrong("map wrong", "type octal\nheight 1\n", ("wrong:1, read as a map:\n", marked(1, "type octal", "^^^^^^^^^^"), "Line 1 must be `type octile`.\n")),
    Wrong("map wrong", "", ("The file is empty.\n", "The text ends before line 1.")),
    Wrong("map wrong", "type octile\nwidth 2\nheight 1\n", (marked(2, "width 2", "^^^^^^^"), "The height comes first, and then the width.\n")),
    Wrong("map wrong", "type octile\nheight 1\nwidth 2\n..\n", ("wrong:4, read", marked(4, "..", "^^"), "Line 4 must be `map`.\n")),
    Wrong("map wrong", "type octile\nheight one\n", (marked(2, "height one", "       ^^^"), "The height must be a number from 1 to 65535, in digits alone, and is `one`.\n")),
    Wrong("map wrong", "type octile\nheight 1\nwidth 0\n", (marked(3, "width 0", "      ^"), "and is `0`.\n")),
    Wrong("map wrong", "type octile\nheight 65536\n", (marked(2, "height 65536", "^^^^^^^^^^^^"), "at most 65535 each")),
    Wrong("map wrong", "type octile\nheight 2048\nwidth 2049\n", ("a map has at most 4194304 cells: 2049 times 2048 are 4196352.\n",)),
    Wrong("map wrong", TWO + ".x\n", ("wrong:5:2, read as a map:\n", marked(5, ".x", " ^"), "Cell 1 0 (its column and row, from 0) is `x`.\n", TERRAIN, "A wall is written `@` or `T`.\n")),
    Wrong("map wrong", TWO + "g.\n", (marked(5, "g.", "^"), "capital letters")),
    Wrong("map wrong", TWO + ".\0\n", (marked(5, ".\\x00", " ^^^^"), "is `\\x00`.\n")),
    Wrong("map wrong", TWO + ".\r.\n", (marked(5, ".\\x0d.", " ^^^^"), "A CR ends a line only before an LF.\n")),
    Wrong("map wrong", TWO + ".\n", (marked(5, ".", " ^"), "Row 0 (from 0) has 1 cells, and line 3 gives the width 2.\n")),
    Wrong("map wrong", TWO + "...\n", (marked(5, "...", "  ^"), "must end after 2 cells, the width that line 3 gives, and has 3.\n")),
    Wrong("map wrong", TWO, ("wrong:5, read", "The text ends after 0 rows, and line 2 gives the height 1.\n")),
    Wrong("map wrong", TWO + "..\n\n..\n", ("wrong:7, read", marked(7, "..", "^^"), "Behind the 1 rows that line 2 gives only empty lines may follow.\n")),
    Wrong("map wrong", b"\xef\xbb\xbf" + LAND.encode(), ("begins with a byte order mark (ef bb bf)", marked(1, "\\xef\\xbb\\xbftype octile", "^" * 23))),
    Wrong("map wrong", LAND.encode("utf-16"), ("looks like UTF-16",)),
    Wrong("map wrong", gzip.compress(LAND.encode(), mtime=0), ("packed by gzip: unpack it first, with `gunzip`.\n",)),
    Wrong("map wrong", "<!DOCTYPE html>\n", ("begins like HTML or XML",)),
    Wrong("map wrong", ROWS, ("The file begins like a scenario.\n",)),
    Wrong("map wrong", f"type octile\nheight 1\nwidth 200\nmap\n{'.' * 149}%{'.' * 50}\n", ("wrong:5:150, read", marked(5, f"..{'.' * 44}%{'.' * 27}..", f"{' ' * 46}^"), "Cell 149 0 ")),
    Wrong("check pair wrong", LAND, ("pair:1, read as a map:\n", "The file begins like a plan, and wrong like a map: the files may be in the wrong order.\n")),
]

SCENARIOS = [
    Wrong("scen wrong", "version 2\n", ("wrong:1, read as a scenario:\n", marked(1, "version 2", "^^^^^^^^^"), "The first line must be `version 1`.\n")),
    Wrong("scen wrong", "\n \n0 a.map 3 2 0 0 2 0 2\n", ("wrong:3, read", marked(3, "0 a.map 3 2 0 0 2 0 2", "^" * 21))),
    Wrong("scen wrong", " \n\n", ("There is no line with more than blanks.",)),
    Wrong("scen wrong", "version 1\n0 a.map 3 2 0 0 2 0\n", (marked(2, "0 a.map 3 2 0 0 2 0", f"{' ' * 19}^"), "The row has 8 fields, and must have nine", "spaces divide its fields")),
    Wrong("scen wrong", "version 1\n0\ta.map\t3 2\t0\t0\t2\t0\t2\n", ("The row has 8 fields", "only a tab divides two fields")),
    Wrong("scen wrong", "version 1\n0 my map 3 2 0 0 2 0 2\n", ("The row has 10 fields", marked(2, "0 my map 3 2 0 0 2 0 2", f"{' ' * 21}^"))),
    Wrong("scen wrong", "version 1\n0 a.map 3 0 0 0 2 0 2\n", (marked(2, "0 a.map 3 0 0 0 2 0 2", "          ^"), "Field 4, the height, is `0`, and must be a number from 1 to 65535, in digits alone.\n")),
    Wrong("scen wrong", "version 1\nx a.map 3 2 0 0 2 0 2\n", (marked(2, "x a.map 3 2 0 0 2 0 2", "^"), "Field 1, the bucket, is `x`")),
    Wrong("scen wrong", "version 1\n0 a.map 3 2 0 0 3 0 2\n", (marked(2, "0 a.map 3 2 0 0 3 0 2", f"{' ' * 16}^"), "The x of the goal must be below the row's width, 3:")),
    Wrong("scen wrong", "version 1\n0 a.map 3 2 0 2 2 0 2\n", ("The y of the start must be below the row's height, 2:",)),
    Wrong("scen wrong", "version 1\n0 a.map 3 2 0 0 2 0 2.\n", (marked(2, "0 a.map 3 2 0 0 2 0 2.", f"{' ' * 20}^^"), "The listed length must be 1 to 7 digits")),
    Wrong("scen wrong", f"version 1\n{' ' * 4097}\n", ("wrong:2, read", "A line has at most 4096 bytes.\n")),
    Wrong("scen wrong", LAND, ("The file begins like a map.\n",)),
]

PLANS = [
    Wrong("path land wrong", "mapf-plan 2\n", ("wrong:1, read as a plan:\n", marked(1, "mapf-plan 2", "^^^^^^^^^^^"), "Line 1 must be `mapf-plan 1`.")),
    Wrong("path land wrong", PAIR.replace("\n", "\r\n"), (marked(1, "mapf-plan 1\\x0d", f"{' ' * 11}^^^^"), "must end with LF alone: `sed -i 's/\\r$//'`")),
    Wrong("path land wrong", "mapf-plan 1\nno 7\n", (marked(2, "no 7", "^^^^"), "Line 2 must be `number`")),
    Wrong("path land wrong", "mapf-plan 1\nnumber 07\n", (marked(2, "number 07", "       ^^"), "`07` must be a number up to 4294967295: digits alone, without zeros in front.\n")),
    Wrong("path land wrong", "mapf-plan 1\nnumber 7\nagents two\n", (marked(3, "agents two", "       ^^^"), "`two` must be a number up to 10000")),
    Wrong("path land wrong", plan("x 0 e"), ("wrong:4, read", marked(4, "agent x 0 e", "      ^"), "a column or a row up to 65535")),
    Wrong("path land wrong", plan("0 70000 e"), (marked(4, "agent 0 70000 e", "        ^^^^^"), "`70000` must be")),
    Wrong("path land wrong", plan("0 0"), (marked(4, "agent 0 0", "         ^"), "The line of agent 0 must be", "where an agent has no act, `=` stands for them")),
    Wrong("path land wrong", plan("0  0 e"), ("One space stands between each two parts",)),
    Wrong("path land wrong", plan("0 0 e e"), (marked(4, "agent 0 0 e e", f"{' ' * 12}^"), "No space stands between the acts")),
    Wrong("path land wrong", plan("0 0 eE"), ("wrong:4:12, read", marked(4, "agent 0 0 eE", f"{' ' * 11}^"), "`E` is no act.", "small letters")),
    Wrong("path land wrong", plan("0 0 eR"), ("Up is n, down is s, left is w, right is e.\n",)),
    Wrong("path land wrong", "mapf-plan 1\nnumber 7\nagents 10001\n", (marked(3, "agents 10001", "^" * 12), "at most 10000 agents")),
    Wrong("path land wrong", plan("0 0 " + "-" * 65536), ("This agent has 65536 acts. An agent has at most 65535",)),
    Wrong("path land wrong", "mapf-plan 1\nnumber 7\nagents 2\nagent 0 0 e\n", ("wrong:5, read", "Line 3 announces 2 agents, and there are whole lines of 1.\n")),
    Wrong("path land wrong", plan("0 0 e")[:-1], (marked(4, "agent 0 0 e", f"{' ' * 11}^"), "an LF ends every line, the last one too")),
    # A planner's text in one line, short and long.
    Wrong("check land wrong", "Agent 0: (1,0)->(0,0)->", ("an LF ends every line", "`mapf-convert` (in a checkout `tools/convert.py`) makes a plan")),
    Wrong("check land wrong", "Agent 0: " + "(1,0)->" * 10_000, ("at most 65553 bytes", "`mapf-convert` (in a checkout `tools/convert.py`) makes a plan")),
    Wrong("path land wrong", PAIR + "\n", ("wrong:6, read", "Line 3 announces 2 agents, and nothing may follow their lines, not even an empty line.\n")),
    Wrong("path land wrong", '{"plan": []}\n', ("begins like JSON", "`mapf-convert` (in a checkout `tools/convert.py`) makes a plan")),
]

LISTS = [
    Wrong("run land pair wrong", "mapf-events 3\n", ("wrong:1, read as a list of events:\n", marked(1, "mapf-events 3", "^" * 13), "Line 1 must be `mapf-events 1` or `mapf-events 2`")),
    Wrong("run land pair wrong", EVENTS.replace("\n", "\r\n"), (marked(1, "mapf-events 1\\x0d", f"{' ' * 13}^^^^"), "LF alone")),
    Wrong("run land pair wrong", "mapf-events 1\nhalt 0\n", ("wrong:2, read", marked(2, "halt 0", "^^^^"), "`halt` is no event.")),
    Wrong("run land pair wrong", "mapf-events 1\nstart one\n", (marked(2, "start one", "      ^^^"), "This event is written `start I`")),
    Wrong("run land pair wrong", "mapf-events 1\nstart 00\n", (marked(2, "start 00", "      ^^"), "without zeros in front")),
    Wrong("run land pair wrong", "mapf-events 1\ndeliver 0\n", (marked(2, "deliver 0", "         ^"), "This event is written `deliver I M`")),
    Wrong("run land pair wrong", "mapf-events 1\ntear 0 5 5\n", (marked(2, "tear 0 5 5", "         ^"), "`tear I N`")),
    Wrong("run land pair wrong", f"mapf-events 1\nsay {'1' * 61}\n", ("A line has at most 64 bytes before its LF.\n",)),
    Wrong("run land pair wrong", "mapf-events 1\nstart 0", ("wrong:2, read as a list of events:\n", marked(2, "start 0", "       ^"), "an LF ends every line")),
]

COURSES = [
    Wrong("deps land wrong", plan("1 1 -"), ("wrong:4, a plan on the map land:\n", "Agent 0 starts in column 1, row 1, which is out of bounds (`@`).\n", "    0 ...\n    1 .a.\n")),
    Wrong("deps land wrong", plan("0 2 -"), ("which is off the map, whose columns are 0 to 2 and rows 0 to 1.\n", "Column 2, row 0 is free: the column comes first.\n")),
    Wrong("deps land wrong", plan("0 0 -", "2 0 ws"), ("wrong:5, a plan", "In step 1 agent 1 moves by `s`", "a agent 1")),
    Wrong("path land wrong", plan("1 0 -s"), ("In step 1 agent 0 moves by `s` to column 1, row 1, which is out of bounds (`@`).\n", "    0 .a.\n    1 .x.\n")),
    Wrong("path land wrong", plan("2 0 e"), ("moves by `e` to column 3, row 0, which is off the map",)),
    Wrong("path shore wrong", plan("0 0 ee"), ("which is water (`W`).\n", "Between land and water, and between swamp and water, there is no move.\n", "    0 .axW\n")),
    Wrong("deps land wrong", plan("0 0 e", "2 0 w"), ("At time 1 agents 0 and 1 are both in column 1, row 0.\n", "at time 0:\n    0 axb\n")),
    Wrong("deps land wrong", plan("1 0 =", "0 0 -e"), ("Agent 0 has no act left since time 0, and stays in its last cell for ever.\n",)),
    Wrong("bound land wrong --agents", plan("0 0 e", "2 0 w"), ("At time 1 agents 0 and 1 are both in column 1, row 0.\n", "at time 0:\n    0 axb\n")),
    Wrong("deps land wrong", plan("0 0 e", "1 0 w"), ("In step 0 agent 0 moves from 0 0 to 1 0, and agent 1 the other way", "at time 0:\n    0 ab.\n")),
]

# Commands that read the tapes of all agents.
OF_FLEETS = ("status land wrong no%", "lost land wrong no% 0", "handover land wrong no%", "anew land wrong no% 8", "anew land wrong no% 7 --without 9")

COMMANDS = [
    Wrong("row land wrong 2", ROWS, ("The last row of wrong is row 1: rows count from 0.\n",)),
    Wrong("row land wrong 0", "version 1\n", ("wrong has no row.\n",)),
    Wrong("row land wrong 1", ROWS, ("wrong:3, read as a scenario:\n", marked(3, "0 b.map 4 4 0 0 3 0 3", "        ^^^"), "Row 1 is of a map with width and height `4 4`, and land has 3 and 2.\n", "The row names the map `b.map`.\n")),
    Wrong("rows land wrong --from 3", ROWS, ("The last row of wrong is row 1: rows count from 0.\n",)),
    Wrong("rows land wrong --from 1 --straight", "version 1\n", ("wrong has no row.\n",)),
    Wrong("rows land wrong --to 0", "version 2\n", ("wrong:1, read as a scenario:\n", "The first line must be `version 1`.\n")),
    Wrong("path land wrong --agent 2", PAIR, ("The last agent of wrong is agent 1: agents count from 0.\n",)),
    Wrong("map nothing", "", ("nothing, to be read as a map: there is no such file.\nThe system says: No such file or directory (os error 2).\n",)),
    Wrong("check land wrong/plan", PAIR, ("wrong/plan, to be read as a plan: a part of its path is a file, and no folder.\nThe system says: Not a directory (os error 20).\n",)),
    Wrong("check land .", "", (". is a folder, and no file.\n",)),
    Wrong("agent land pair 0 wrong", b"x" * 10, ("wrong, a tape:\n", "Record 0, from byte 0 on: 78 78 78", "It must begin with 50 01 (moving), and end with 0")),
    Wrong("agent land pair 0 wrong", RECORD[:5] + b"\x08" + RECORD[6:], ("It is of plan 8, and this is plan 7.\n",)),
    Wrong("agent land pair 0 wrong", RECORD[:7] + b"\1" + RECORD[8:], ("It is of agent 1.\n",)),
    Wrong("agent land pair 0 wrong", RECORD * 3, ("It has 30 bytes: 3 whole records, and 0 bytes behind them.\n", "more records than two for each move")),
    Wrong("agent land pair 2 wrong", b"", ("The last agent of pair is agent 1",)),
    Wrong("agent land pair 0 nothing --tape kept", b"", ("nothing, a tape:\n", "`mapf agent` with `--tape kept`.\n", "Make no new one:")),
    Wrong("agent land pair 0 wrong --tape kept", b"", ("wrong, a tape:\nA record was stored on the tape,", "The tape is lost: make no new one.")),
    Wrong("agent land pair 0 wrong --tape new", b"", ("wrong, a tape:\nA record was stored on the tape,", "The tape is lost: make no new one.")),
    Wrong("agent land pair 0 bare --tape kept", b"", ("bare, a tape:\nWhat is beside the tape", "Look what that file is.")),
    Wrong(
        "agent land pair 0 wrong --tape kept",
        RECORD,
        (
            "wrong, a tape:\nThe tape belongs to another plan",
            "it gets a new tape.\nwrong.plan:6:\n" + marked(6, "agent 0 0 -e", "          ^"),
            "pair:5:\n" + marked(5, "agent 0 0 e", "          ^"),
            "At time 1 agent 1 is in column 0, row 0 by the old plan, and in column 1, row 0 by the new one.\n",
        ),
    ),
    Wrong("tape land pair 0 nothing", b"", ("nothing, a tape:\n", "`mapf tape` makes none", "Make no new one:")),
    Wrong("tape land pair 0 /dev/zero", b"", ("/dev/zero, to be read as a tape: it is a pipe or a device, and no file of bytes.\n",)),
    *(Wrong(words, plan("0 0 e", "1 0 w"), ("wrong:4, a plan on the map land:\n", "In step 0 agent 0 moves from 0 0 to 1 0")) for words in OF_FLEETS),
    Wrong("handover land pair no%", "", ("`mapf status`",)),
    Wrong("anew land pair no% 8", "", ("`mapf status` says",)),
    Wrong("anew land pair no% 7", "", ("number",)),
    Wrong("anew land pair no% 8 --without 2", "", ("The last agent of pair is agent 1",)),
    Wrong("anew land pair tape% 8", "", ("are not those of one run",)),
    *(Wrong(words, "", ("wrong:1, read as a plan:\nThe file is empty.\n",)) for words in OF_FLEETS),
    *(Wrong(words.replace("wrong", "nothing"), "", ("nothing, to be read as a plan: there is no such file.\n",)) for words in OF_FLEETS),
    *(Wrong(words.replace("land wrong", "wrong pair"), "type octal\n", ("wrong:1, read as a map:\n", "Line 1 must be `type octile`.\n")) for words in OF_FLEETS),
    Wrong("agent land pair 0 no/tape", b"", ("no/tape, to be read as a tape: there is no such file, and it can't be made: its folder is missing.\n",)),
    Wrong("agent land pair 0 wrong/tape", b"", ("a part of its path is a file, and no folder.\nThe system says: Not a directory (os error 20).\n",)),
    # Nobody makes files there, not even root.
    Wrong("agent land pair 0 /proc/tape", b"", ("it can't be made: its folder may not be written, or its disk has no room.\n",)),
    Wrong("agent land pair 0 wrong --tape new", RECORD, ("It has 10 bytes: 1 whole records", "`--tape kept`")),
    Wrong("agent land pair 0 .", b"", ("., to be read as a tape: it is a folder.\n",)),
]

LONG = "e" + "-" * 200
# Which of two plans it is, and where they differ. The file `pair` is the other plan.
CONTINUATIONS = [
    Wrong("continues land pair wrong", plan("0 0 e", "1 0 w"), ("wrong:4, a plan on the map land:\n", "In step 0 agent 0 moves from 0 0 to 1 0")),
    Wrong("continues land wrong pair", plan("0 0 e", "1 0 w"), ("wrong:4, a plan on the map land:\n", "In step 0 agent 0 moves from 0 0 to 1 0")),
    Wrong("continues land pair wrong", plan("1 0 e", "0 0 x"), ("wrong:5:11, read as a plan:\n", marked(5, "agent 0 0 x", "          ^"))),
    Wrong("continues land wrong pair", plan("1 0 e", "0 0 x"), ("wrong:5:11, read as a plan:\n", marked(5, "agent 0 0 x", "          ^"))),
    Wrong("continues land pair wrong", "", ("wrong:1, read as a plan:\nThe file is empty.\n",)),
    Wrong("continues land pair wrong", LAND, ("wrong:1, read as a plan:\n", "The file begins like a map.\n")),
    Wrong("continues wrong pair pair", "type octal\n", ("wrong:1, read as a map:\n", "Line 1 must be `type octile`.\n")),
    Wrong("continues land pair .", "", (". is a folder, and no file.\n",)),
    Wrong("continues land pair nothing", "", ("nothing, to be read as a plan: there is no such file.\n",)),
    Wrong("continues land wrong pair", PAIR.replace("7", "8"), ("wrong:2:\n" + marked(2, "number 8", "       ^") + "pair:2:\n" + marked(2, "number 7", "       ^") + "The new plan has another number than the old one.\n",)),
    Wrong("continues land pair wrong", plan("1 0 e-"), ("pair:3:\n" + marked(3, "agents 2", "       ^") + "wrong:3:\n" + marked(3, "agents 1", "       ^") + "The new plan has more or fewer agents than the old one.\n",)),
    Wrong(
        "continues land pair wrong",
        plan("1 0 -e", "0 0 ="),
        ("pair:4:\n" + marked(4, "agent 1 0 e-", "          ^") + "wrong:4:\n" + marked(4, "agent 1 0 -e", "          ^"), "At time 1 agent 0 is in column 2, row 0 by the old plan, and in column 1, row 0 by the new one.\n"),
    ),
    Wrong("continues land pair wrong", plan("1 0 e-", "0 0 ew"), (marked(5, "agent 0 0 e", "           ^"), marked(5, "agent 0 0 ew", "           ^"), "At time 2 agent 1 is in column 1, row 0 by the old plan")),
    Wrong("continues land pair wrong", plan("2 0 =", "0 0 ="), (marked(4, "agent 1 0 e-", "      ^^^"), marked(4, "agent 2 0 =", "      ^^^"), "At time 0 agent 0 is in column 1, row 0 by the old plan, and in column 2, row 0 by")),
    Wrong("continues land wrong pair", plan(f"1 0 {LONG}w", f"0 0 {LONG}w"), ("wrong:4:\n    4 | ..-", "At time 202 agent 0 is in column 1, row 0 by the old plan")),
]

# A check answers on standard output, and what it names is explained all the same.
REJECTED = [
    Wrong("check land wrong", plan("0 0 e", "2 0 w"), ("wrong:4, a plan on the map land:\n", "At time 1 agents 0 and 1 are both in column 1, row 0.\n", "at time 0:\n    0 axb\n")),
    Wrong("check land wrong --json", plan("0 0 e", "1 0 w"), ("In step 0 agent 0 moves from 0 0 to 1 0, and agent 1 the other way",)),
    Wrong("check land wrong --all", plan("0 0 e", "1 0 w"), ("In step 0 agent 0 moves from 0 0 to 1 0, and agent 1 the other way",)),
    Wrong("check square wrong --no-rotation", TURN, ("In this step the agents go round, each into the cell that the next one leaves",)),
    Wrong("check square wrong --no-rotation --all --json", TURN, ("In this step the agents go round, each into the cell that the next one leaves",)),
    Wrong("check land wrong", plan("1 1 -"), ("Agent 0 starts in column 1, row 1, which is out of bounds (`@`).\n",)),
    Wrong("check land pair --scen wrong", "version 1\n", ("The scenario has fewer rows than agents are due: as many as the plan has,",)),
    Wrong("check land pair --agents 3", "", ("The plan has more or fewer agents than are due: with `--agents` so many,",)),
]

# By what is read.
INPUTS = {"a map": MAPS, "a scenario": SCENARIOS, "a plan": PLANS, "events": LISTS, "a plan on a map": COURSES, "a command": COMMANDS, "a verdict": REJECTED, "two plans": CONTINUATIONS}
FILES = {"land": LAND, "shore": SHORE, "pair": PAIR, "rows": ROWS, "events": EVENTS, "square": SQUARE}
# Tapes by which agent 1 has gone where agent 0 still is.
FILES.update({"tape0": "", "tape1": tape_of(1, 1).decode()})
# Beside the tape `wrong` another plan is kept, and beside `bare` what is none of a tape.
FILES.update({"wrong.plan": f"mapf-tape 1 +\n{PAIR}".replace("0 0 e", "0 0 -e"), "bare": "", "bare.plan": PAIR})
