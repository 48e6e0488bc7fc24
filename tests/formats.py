"""The texts of maps, scenarios, plans and events: what is read, what is written, and the first fault of each."""
from typing import Iterator

from answers import answer, asked
from harness import Ended, Harness, Outcome
from texts import BEHIND, CORNER, CORNER_WRITTEN, LANE, NOBODY, ROW, ROW_WRITTEN, events, plan

# Whole map texts.
MAP_HEADERS = [
    ("", "BadHeader 1"),
    ("\r", "BadHeader 1"),
    ("\n", "BadHeader 1"),
    (" type octile\n", "BadHeader 1"),
    ("type octile x\n", "BadHeader 1"),
    ("typeoctile\n", "BadHeader 1"),
    ("Type octile\n", "BadHeader 1"),
    ("type\r octile\n", "BadHeader 1"),
    ("type octile\r\r\n", "BadHeader 1"),
    ("type octile\r \n", "BadHeader 1"),
    ("type octile\n", "BadHeader 2"),
    ("type octile\n\n", "BadHeader 2"),
    ("type octile\nheight\n", "BadHeader 2"),
    ("type octile\nheight \r\n", "BadHeader 2"),
    ("type octile\nheight2\n", "BadHeader 2"),
    ("type octile\nheight\r 2\n", "BadHeader 2"),
    ("type octile\nwidth 2\n", "BadHeader 2"),
    ("type octile\nheight 0\n", "BadNumber 2"),
    ("type octile\nheight -1\n", "BadNumber 2"),
    ("type octile\nheight 2 3\n", "BadNumber 2"),
    ("type octile\nheight 2x", "BadNumber 2"),
    ("type octile\nheight 2\r\r\n", "BadNumber 2"),
    ("type octile\nheight \r\r\n", "BadNumber 2"),
    ("type octile\nheight 65536\n", "TooLarge 2"),
    ("type octile\nheight 18446744073709551617\n", "TooLarge 2"),
    ("type octile\nheight 2\n", "BadHeader 3"),
    ("type octile\nheight 2\nheight 2\n", "BadHeader 3"),
    ("type octile\nheight 2\nwidth 00\n", "BadNumber 3"),
    ("type octile\nheight 2\nwidth x\n", "BadNumber 3"),
    ("type octile\nheight 1\nwidth 65536\n", "TooLarge 3"),
    ("type octile\nheight 65535\nwidth 65\n", "TooLarge 3"),
    ("type octile\nheight 2\nwidth 2\n", "BadHeader 4"),
    ("type octile\nheight 2\nwidth 2\nmap x\n", "BadHeader 4"),
    ("type octile\nheight 2\nwidth 2\nmap\r\r\n", "BadHeader 4"),
    ("type octile\nheight 2\nwidth 2\n map\n", "BadHeader 4"),
    ("type \t octile \t\r\nheight\t \t0001 \nwidth  01\t\nmap \r\n@", "type octile\nheight 1\nwidth 1\nmap\n@\n"),
]

# What stands behind the header of a map of one row of two cells.
MAP_ROWS = [
    ("..", "..\n"),
    ("..\n", "..\n"),
    ("..\r", "..\n"),
    ("..\r\n", "..\n"),
    ("GO\n \t\r\n\n\r", "GO\n"),
    ("", "MissingRows 5"),
    ("\r", "ShortRow 5"),
    ("\n", "ShortRow 5"),
    ("\r\n", "ShortRow 5"),
    (".", "ShortRow 5"),
    (".\r", "ShortRow 5"),
    (".\n.\n", "ShortRow 5"),
    (".\r\n", "ShortRow 5"),
    (".x\n", "BadTerrain 5 2"),
    ("x", "BadTerrain 5 1"),
    (" .\n", "BadTerrain 5 1"),
    (".g", "BadTerrain 5 2"),
    ("\r.\n", "BadTerrain 5 1"),
    (".\r.\n", "BadTerrain 5 2"),
    (".\r\r\n", "BadTerrain 5 2"),
    ("...\n", "LongRow 5"),
    ("..x", "LongRow 5"),
    (".. \n", "LongRow 5"),
    ("..\r.\n", "LongRow 5"),
    ("..\r\r\n", "LongRow 5"),
    ("..\n  \nx", "TextAfter 7"),
    ("..\n.", "TextAfter 6"),
    ("..\r\nx", "TextAfter 6"),
    ("..\n\r\n\rx", "TextAfter 7"),
    ("..\n\r\r\0", "TextAfter 6"),
]

# What stands behind the header of a map of two rows of two cells.
SECOND_ROWS = [
    ("..\n", "MissingRows 6"),
    ("..", "MissingRows 6"),
    ("..\r", "MissingRows 6"),
    ("..\n\r", "ShortRow 6"),
    ("..\n\n", "ShortRow 6"),
    ("..\n.T", "..\n.T\n"),
    ("..\n.T\n.", "TextAfter 7"),
]

# Scenario texts up to the version.
SCEN_VERSIONS = [
    ("", "NoVersion"),
    ("\n", "NoVersion"),
    (" \t\r\n\r", "NoVersion"),
    ("version", "NoVersion"),
    ("version \n", "NoVersion"),
    ("version1\n", "NoVersion"),
    ("version 2\n", "NoVersion"),
    ("version 1.00\n", "NoVersion"),
    ("version 1 x\n", "NoVersion"),
    ("Version 1\n", "NoVersion"),
    ("version 1\r\r\n", "NoVersion"),
    ("\n0 m 3 2 0 1 1 0 2\nversion 1\n", "NoVersion"),
    ("version\t1", "version 1\n"),
    (" version \t 1.0\t\r\n", "version 1\n"),
    ("\n \r\nversion 1\n\n", "version 1\n"),
    ("version 1\n \t \r", "version 1\n"),
]

# Lines behind the version of a scenario.
SCEN_ROWS = [
    ("0 m 3 2 0 1 1 0", "FieldCount 2"),
    ("0 m 3 2 0 1 1 0 2 x\n", "FieldCount 2"),
    ("x\n", "FieldCount 2"),
    ("\n\t\n0 m 3 2 0 1 1 0\n", "FieldCount 4"),
    ("0 my map.map 3 2 0 1 1 0 2\n", "FieldCount 2"),
    ("0 m 3 2 0 1 1 0\t2\n", "FieldCount 2"),
    ("0\tmy map.map\t3\t2\t0\t1\t1\t0\t2\n", "0\tmy map.map\t3\t2\t0\t1\t1\t0\t2\n"),
    (" 0 \t my map \t\t3\t2 \t0\t1\t1\t0\t2 \t\r\n", "0\tmy map\t3\t2\t0\t1\t1\t0\t2\n"),
    ("  0   m.map 3  2 0 1 1 0 2  ", "0\tm.map\t3\t2\t0\t1\t1\t0\t2\n"),
    ("0 m\r.map\0 3 2 0 1 1 0 2\n", "0\tm\r.map\0\t3\t2\t0\t1\t1\t0\t2\n"),
    ("007 m 003 02 00 01 1 0 0002.50\n", "7\tm\t3\t2\t0\t1\t1\t0\t2.50\n"),
    ("4294967295 m 65535 65535 65534 65534 0 0 9999999.999999999999\n", "4294967295\tm\t65535\t65535\t65534\t65534\t0\t0\t9999999.999999999999\n"),
    ("0 m 3 2 0 1 1 0 0000000.000000000001\n", "0\tm\t3\t2\t0\t1\t1\t0\t0.000000000001\n"),
    ("0 m 1 1 0 0 0 0 0\n\n1 n 2 1 1 0 0 0 1.0", "0\tm\t1\t1\t0\t0\t0\t0\t0\n1\tn\t2\t1\t1\t0\t0\t0\t1.0\n"),
    ("x m 3 2 0 1 1 0 2\n", "BadNumber 2 1"),
    ("4294967296 m 3 2 0 1 1 0 2\n", "BadNumber 2 1"),
    ("99999999999999999999 m 3 2 0 1 1 0 2\n", "BadNumber 2 1"),
    ("-1 m 3 2 0 1 1 0 2\n", "BadNumber 2 1"),
    ("0 m 0 2 0 1 1 0 2\n", "BadNumber 2 3"),
    ("0 m 65536 2 0 1 1 0 2\n", "BadNumber 2 3"),
    ("0 m 3x 2 0 1 1 0 2\n", "BadNumber 2 3"),
    ("0 m 3 000 0 1 1 0 2\n", "BadNumber 2 4"),
    ("0 m 3 65536 0 1 1 0 2\n", "BadNumber 2 4"),
    ("0 m 3 2 x y 1 0 2\n", "BadNumber 2 5"),
    ("0 m 3 2 0 1.0 1 0 2\n", "BadNumber 2 6"),
    ("0 m 3 2 3 1 +1 0 2\n", "BadNumber 2 7"),
    ("0 m 3 2 0 1 1 0x 2\n", "BadNumber 2 8"),
    ("0 m 3 2 3 1 1 0 2\n", "OutOfGrid 2"),
    ("0 m 3 2 0 2 1 0 2\n", "OutOfGrid 2"),
    ("0 m 3 2 0 1 3 0 x\n", "OutOfGrid 2"),
    ("0 m 3 2 0 1 1 2 2\n", "OutOfGrid 2"),
    ("0 m 3 2 99999999999999999999 1 1 0 2\n", "OutOfGrid 2"),
    ("0 m 3 2 65536 1 1 0 2\n", "OutOfGrid 2"),
    ("0 m 3 2 0 1 1 0 x\n", "BadLength 2"),
    ("0 m 3 2 0 1 1 0 2.\n", "BadLength 2"),
    ("0 m 3 2 0 1 1 0 .5\n", "BadLength 2"),
    ("0 m 3 2 0 1 1 0 12345678\n", "BadLength 2"),
    ("0 m 3 2 0 1 1 0 00000001\n", "BadLength 2"),
    ("0 m 3 2 0 1 1 0 1.1234567890123\n", "BadLength 2"),
    ("0 m 3 2 0 1 1 0 1.2.3\n", "BadLength 2"),
    ("0 m 3 2 0 1 1 0 1e3\n", "BadLength 2"),
    ("0 m 3 2 0 1 1 0 -1\n", "BadLength 2"),
    ("0 m 3 2 0 1 1 0 2\r\r\n", "BadLength 2"),
    ("0 m 3 2 0 1 1 0 2\nx\n", "FieldCount 3"),
    ("0 m 3 2 0 1 1 0 x\nx\n", "BadLength 2"),
]

# Whole plan texts that have a fault.
PLAN_HEADERS = [
    ("\n", "BadHeader 1"),
    ("mapf-plan 2\n", "BadHeader 1"),
    ("mapf-plan 1\r\n", "BadHeader 1"),
    ("mapf-plan 1 \n", "BadHeader 1"),
    ("mapf-plan 1", "Unfinished 1"),
    ("mapf-plan 1\nnumber7\n", "BadHeader 2"),
    ("mapf-plan 1\nnumber \n", "BadNumber 2"),
    ("mapf-plan 1\nnumber 07\n", "BadNumber 2"),
    ("mapf-plan 1\nnumber +7\n", "BadNumber 2"),
    ("mapf-plan 1\nnumber 7 \n", "BadNumber 2"),
    ("mapf-plan 1\nnumber 4294967296\n", "BadNumber 2"),
    ("mapf-plan 1\nnumber 7\nagent 1\n", "BadHeader 3"),
    ("mapf-plan 1\nnumber 7\nagents x\n", "BadNumber 3"),
    ("mapf-plan 1\nnumber 7\nagents 00\n", "BadNumber 3"),
    ("mapf-plan 1\nnumber 7\nagents 10001\n", "TooMany 3"),
    ("mapf-plan 1\nnumber 7\nagents 99999999999999999999999999\n", "TooMany 3"),
    ("mapf-plan 1\nnumber 7\nagents 0\n\n", "TextAfter 4"),
    ("mapf-plan 1\nnumber 7\nagents 0\nx", "TextAfter 4"),
]

# First lines of an agent that have a fault.
AGENT_LINES = [
    ("agent 1 0 ex", "BadAct 4 12"),
    ("agent 1 0 e=", "BadAct 4 12"),
    ("agent 1 0 ==", "BadAct 4 11"),
    ("agent 1 0 E", "BadAct 4 11"),
    ("agent 1 0 e\r", "BadAct 4 12"),
    ("agent 1 0 ", "BadAgent 4"),
    ("agent 1 0", "BadAgent 4"),
    ("agent 1  0 e", "BadAgent 4"),
    ("agent 1 0 e e", "BadAgent 4"),
    ("agents 1 0 e", "BadAgent 4"),
    (" agent 1 0 e", "BadAgent 4"),
    ("", "BadAgent 4"),
    ("agent x 0 e", "BadNumber 4"),
    ("agent 01 0 x", "BadNumber 4"),
    ("agent 0 -1 e", "BadNumber 4"),
    ("agent 65536 0 e", "BadNumber 4"),
    ("agent 0 65536 e", "BadNumber 4"),
]

# Whole texts of events.
EVENT_TEXTS = [
    ("", "NoHeader"),
    ("\n", "NoHeader"),
    ("mapf-events 1", "NoHeader"),
    ("mapf-events 1\r\n", "NoHeader"),
    ("mapf-events 1 \n", "NoHeader"),
    ("mapf-events 2", "NoHeader"),
    ("mapf-events 2\r\n", "NoHeader"),
    ("mapf-events 02\n", "NoHeader"),
    ("mapf-events 3\nsay 0\n", "NoHeader"),
    ("mapf-events 12\nsay 0\n", "NoHeader"),
    ("say 0\n", "NoHeader"),
    ("\nmapf-events 1\n", "NoHeader"),
    ("mapf-events 1\n", ""),
    ("mapf-events 1\nsay 0\nx\n", "BadEvent 3"),
    ("mapf-events 1\nsay 0\nx", "Unfinished 3"),
    ("mapf-events 1\nx\nsay 0", "BadEvent 2"),
    ("mapf-events 2\n", ""),
    ("mapf-events 2\nsay 0\nx\n", "BadEvent 3"),
    ("mapf-events 2\nmapf-events 2\n", "BadEvent 2"),
]

# Second lines of a text of events, each an event or a fault.
EVENT_LINES = [
    ("", "BadEvent 2"),
    ("start", "BadEvent 2"),
    ("start ", "BadEvent 2"),
    ("start 0 ", "BadEvent 2"),
    ("start  0", "BadEvent 2"),
    (" start 0", "BadEvent 2"),
    ("start\t0", "BadEvent 2"),
    ("start 0\r", "BadEvent 2"),
    ("Start 0", "BadEvent 2"),
    ("starts 0", "BadEvent 2"),
    ("start 00", "BadEvent 2"),
    ("start 01", "BadEvent 2"),
    ("start +1", "BadEvent 2"),
    ("start -1", "BadEvent 2"),
    ("start x", "BadEvent 2"),
    ("start 0 0", "BadEvent 2"),
    ("start 4294967295", ""),
    ("start 4294967296", "BadEvent 2"),
    ("deliver 0", "BadEvent 2"),
    ("deliver 0 ", "BadEvent 2"),
    ("deliver  0", "BadEvent 2"),
    ("deliver 0 0 0", "BadEvent 2"),
    ("deliver 4294967296 0", "BadEvent 2"),
    ("deliver 4294967295 18446744073709551615", ""),
    ("deliver 0 18446744073709551616", "BadEvent 2"),
    ("deliver 0 99999999999999999999999", "BadEvent 2"),
    ("deliver 0 00", "BadEvent 2"),
    ("tear 0 4294967295", ""),
    ("tear 0 4294967296", "BadEvent 2"),
    ("tear 0", "BadEvent 2"),
    ("restart 10", ""),
    ("finish 20", ""),
    ("says 0", "BadEvent 2"),
]

ONE_ROW = "type octile\nheight 1\nwidth 2\nmap\n"
TWO_ROWS = "type octile\nheight 2\nwidth 2\nmap\n"


def written(header: str, text: str) -> str:
    """What a command answers: the fault, or what is written behind this header."""
    return header + text if text.endswith("\n") or not text else text


def read(harness: Harness, command: str, text: str, due: str, name: str = "") -> Outcome:
    """Reads a text by the command that rewrites it."""
    is_text = due.endswith("\n") or not due
    return asked(harness, f"{command} T", {"T": text}, answer(0 if is_text else 1, due), name or f"{command}: {text[:60]!r}")


def first_of_corner(length: int) -> str:
    """What a beginning of the map CORNER is answered with: its lines end after 13, 23, 32, 37 and 42 bytes, and what a line has to say
    is whole before its CR."""
    faults = [(10, "BadHeader 1"), (20, "BadHeader 2"), (29, "BadHeader 3"), (34, "BadHeader 4")]
    faults += [(37, "MissingRows 5"), (39, "ShortRow 5"), (42, "MissingRows 6"), (44, "ShortRow 6")]
    return next((fault for last, fault in faults if length <= last), CORNER_WRITTEN)


def first_of_row(length: int) -> str:
    """What a beginning of the scenario ROW is answered with: its lines end after 13 and 45 bytes, and the last field begins after 33.
    Where the row is whole, the canonical text has three bytes fewer and an LF."""
    if length <= 8 or length == 10:
        return "NoVersion"
    if length <= 13:
        return "version 1\n"
    if length <= 33:
        return "FieldCount 2"
    return "BadLength 2" if length == 35 else f"{ROW_WRITTEN[:min(length - 3, 40)]}\n"


def of_maps(harness: Harness) -> Iterator[Outcome]:
    for text, due in MAP_HEADERS:
        yield read(harness, "map", text, due)
    for header, table in ((ONE_ROW, MAP_ROWS), (TWO_ROWS, SECOND_ROWS)):
        for text, due in table:
            yield read(harness, "map", header + text, written(header, due))
    for length in range(len(CORNER) + 1):
        yield read(harness, "map", CORNER[:length], first_of_corner(length))


def of_scenarios(harness: Harness) -> Iterator[Outcome]:
    for text, due in SCEN_VERSIONS:
        yield read(harness, "scen", text, due)
    for text, due in SCEN_ROWS:
        yield read(harness, "scen", f"version 1\n{text}", written("version 1\n", due))
    for length in range(len(ROW) + 1):
        yield read(harness, "scen", ROW[:length], first_of_row(length))
    # The LF is the byte 4,095, 4,096 or 4,097 of the text; a CR stands before it.
    row = "0\tm\t3\t2\t0\t1\t1\t0\t2\n"
    for length in range(4_093, 4_097):
        due = f"version 1\n{row}" if length < 4_096 else "LineTooLong 1"
        yield read(harness, "scen", f"{'version 1'.ljust(length)}\r\n{row}", due, f"scen: a version line of {length} bytes and a CR")
    for length in (4_080, 4_081):
        for end in ("\n", ""):
            line = f"0\t{'n' * length}\t3\t2\t0\t1\t1\t0\t2"
            due = f"version 1\n{line}\n" if length == 4_080 else "LineTooLong 2"
            yield read(harness, "scen", f"version 1\n{line}{end}", due, f"scen: a line of {len(line)} bytes")


def of_plans(harness: Harness) -> Iterator[Outcome]:
    def checked(text: str, due: str, name: str = "") -> Outcome:
        files = {"M": LANE, "P": text}
        return asked(harness, "check M P", files, answer(0 if due.startswith("accepted") else 1, due), name or f"check: {text[:60]!r}")

    for text, due in PLAN_HEADERS:
        yield checked(text, due)
    for line, due in AGENT_LINES:
        yield checked(f"mapf-plan 1\nnumber 7\nagents 2\n{line}\nagent 0 0 e\n", due)
    for length in range(len(BEHIND)):
        yield checked(BEHIND[:length], f"Unfinished {BEHIND[:length].count(chr(10)) + 1}")
    yield checked(plan("2 0 =", number=4294967295), "accepted agents 1 cost 0 makespan 0\n")
    # The greatest numbers that are read, and a start that is off the map by them.
    yield checked(plan("65535 0 ="), "rejected BadStart 0\n")
    yield checked(plan("0 65535 nesw-"), "rejected BadStart 0\n")
    # However many steps come before, a fault is that of its own.
    for step in range(70):
        waits = "-" * step
        yield checked(plan(f"0 0 {waits}w"), f"rejected BadMove 0 {step}\n")
        yield checked(plan(f"0 0 {waits}e", f"1 0 {waits}w"), f"rejected Swap 0 1 {step}\n")
        yield checked(plan("0 0 =", f"1 0 {waits}w"), f"rejected Vertex 0 1 {step + 1} 0 0\n")


def of_events(harness: Harness) -> Iterator[Outcome]:
    def ran(text: str, replies: str, fault: str, name: str = "") -> Outcome:
        due = answer(1 if fault else 0, fault)
        files = {"M": LANE, "P": NOBODY, "E": text}
        return asked(harness, "run M P E", files, Ended(due.status, replies.encode(), due.err), name or f"run: {text[:60]!r}")

    refused = "refused NoSuchAgent\n"
    for text, fault in EVENT_TEXTS:
        before = refused if fault.endswith(" 3") else ""
        yield ran(text, before, fault)
    for line, fault in EVENT_LINES:
        yield ran(events(line), "" if fault else refused, fault)
    for length, fault in ((64, "Unfinished 2"), (65, "BadEvent 2")):
        yield ran(events("0" * length)[:-1], "", fault, f"run: a last line of {length} bytes")
        yield ran("0" * length, "", "NoHeader", f"run: a first line of {length} bytes")


def outcomes(harness: Harness) -> Iterator[Outcome]:
    yield from of_maps(harness)
    yield from of_scenarios(harness)
    yield from of_plans(harness)
    yield from of_events(harness)
