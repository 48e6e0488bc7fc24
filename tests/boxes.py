"""The black boxes of examples/fleet: what check_boxes.py says of those that fleets write, and of damaged ones."""
import functools
import hashlib
import json
import pathlib
import re
import shutil
import sys
from typing import Any, Callable, Iterator, Sequence

from harness import ROOT, Ended, Harness, Outcome, compared, ended_as, shown

FLEET = ROOT / "examples" / "fleet"
CHECK = FLEET / "check_boxes.py"
WAREHOUSE = FLEET / "warehouse.map"
# Agent 0 goes from 1 0 to 2 0, and agent 1 behind it from 0 0 to 1 0; the plan has the number 9.
MAP, PLAN = ROOT / "examples" / "plain.map", ROOT / "examples" / "behind.plan"
NEWS, OTHERS_NEWS = "46020000000000090001000000000001", "46020001000000090001000000000001"
UNSAID = NEWS[:-1] + "2"
# Two agents: each line is what one was asked and answered, a hundredth of a second behind the one before.
TALK = f"""0 opens: at 1 0 done 0
1 opens: at 0 0 done 0
1 start: refused Waits 0 1
0 held: at 1 0 done 0
0 start: refused StoreFailed
0 ends: 3
0 opens: at 1 0 done 0
0 start
0 ends: -9
0 opens: between 1 0 2 0 done 0
0 tell: said 46020000000000090000
1 hear 46020000000000090000: heard 0 0
0 finish: arrived 2 0
0 tell: said {NEWS}
1 hear {NEWS}: heard 0 1
1 tell: said {OTHERS_NEWS}
0 hear {OTHERS_NEWS}: heard 1 0
1 hear 4602
1 opens: at 0 0 done 0
1 start: refused Waits 0 1
1 tell: said 46020001000000090000
1 hear {NEWS.upper()}: heard 0 1
1 hear 4701: refused BadMagic
1 hear {NEWS.replace("09", "08", 1)}: refused WrongPlan
1 start: moving 1 0
1 held: between 0 0 1 0 done 0
1 dance: refused BadLine
1 finish: arrived 1 0
1 start: refused AtEnd
0 hear {NEWS}: refused OutOfMemory
1 ends: 0
0 tell
0 ends: 0"""
# The same two by a plan in which each goes back behind that. They go over to it one by one, and each forgets then what it has heard.
LONGER = ROOT / "examples" / "onward.plan"
ALL_NEWS = "46020001000000090002000000000001000100000002"
CHANGE = f"""0 opens: at 1 0 done 0
1 opens: at 0 0 done 0
1 start: refused Waits 0 1
0 start: moving 2 0
0 finish: arrived 2 0
0 tell: said {NEWS}
0 start: refused AtEnd
1 hear {NEWS}: heard 0 1
1 may 2: may 1
1 start: refused StoreFailed
1 ends: 3
1 goes over: at 0 0 done 0
1 start: refused Waits 0 1
1 hear {NEWS}: heard 0 1
1 may 2: may 2
1 start: moving 1 0
1 finish: arrived 1 0
1 start: moving 0 0
1 finish: arrived 0 0
1 tell: said {ALL_NEWS}
0 hear {ALL_NEWS}: refused TooMany
0 ends: 0
0 goes over: at 2 0 done 1
0 start: refused Waits 1 2
0 hear {ALL_NEWS}: heard 1 2
0 start: moving 1 0
0 finish: arrived 1 0
0 start: refused AtEnd
1 ends: 0
0 ends: 0"""
CHANGED = "2 agents, 2 restarts, 0 kills, 22 calls, 0 unanswered, 0 of them stored, 1 failed writes, 2 said, 3 heard, 0 strangers' lines, 5 left out"
COUNTED = "2 agents, 3 restarts, 2 kills, 24 calls, 3 unanswered, 1 of them stored, 1 failed writes, 4 said, 4 heard, 3 strangers' lines"
AGREED = f"agreed: {COUNTED}\n"
# The status, and what is told in any case.
AGREES = (0, "agreed: ")
# Seconds from one line to the next.
EACH = 0.01
# Damage that is told as a difference: what is changed in the talk, and the lines that are due behind the place of the first difference.
DAMAGED: list[tuple[str, str, str, str]] = [
    ("a reply that was changed", "1 start: refused Waits 0 1\n0 held", "1 start: moving 1 0\n0 held",
     "agent 1 differs at 02, line 4 of 1.box|start|moving 1 0|refused Waits 0 1"),
    ("a refusal that was changed", "start: refused Waits 0 1\n1 tell", "start: refused Waits 0 2\n1 tell",
     "agent 1 differs at 19, line 15 of 1.box|start|refused Waits 0 2|refused Waits 0 1"),
    ("a message that nobody said", f"1 hear {NEWS}: heard 0 1\n1 tell", f"1 hear {UNSAID}: heard 0 1\n1 tell",
     f"agent 1 heard at 14 what nobody said: {UNSAID}|line 8 of 1.box|and 1 more"),
    ("a message that was not said", f"0 tell: said {NEWS}\n", "",
     f"agent 1 heard at 13 what can't have been said before, in whatever order: {NEWS}|line 8 of 1.box|and 1 more"),
    ("a message that was changed where it was said", f"1 tell: said {OTHERS_NEWS}", f"1 tell: said {OTHERS_NEWS[:-1]}2",
     f"agent 1 differs at 15, line 10 of 1.box|tell|said {OTHERS_NEWS[:-1]}2|said {OTHERS_NEWS}|and 1 more"),
    ("a record that was lost", "0 opens: between 1 0 2 0 done 0\n", "0 opens: at 1 0 done 0\n",
     "agent 0 differs at 12, line 17 of 0.box|finish|arrived 2 0|refused NotMoving|and 1 more"),
    ("a tape that went back", "1 ends: 0", "1 opens: at 0 0 done 0",
     "agent 1 differs at 30, line 35 of 1.box|(its first line)|at 0 0 done 0|at 1 0 done 1"),
    ("a start that was left out", "1 start: moving 1 0\n", "",
     "agent 1 differs at 24, line 25 of 1.box|held|between 0 0 1 0 done 0|at 0 0 done 0|and 2 more"),
    ("a finish that was left out", "0 finish: arrived 2 0\n", "",
     f"agent 0 differs at 12, line 17 of 0.box|tell|said {NEWS}|said 46020000000000090000"),
    ("a restart that was left out", "1 hear 4602\n1 opens: at 0 0 done 0\n", "",
     "agent 1 differs at 17, line 12 of 1.box|start|refused Waits 0 1|moving 1 0|and 2 more"),
    ("a call that was doubled", "1 start: moving 1 0\n", "1 start: moving 1 0\n1 start: moving 1 0\n",
     "agent 1 differs at 25, line 27 of 1.box|start|moving 1 0|refused AlreadyMoving"),
    ("a move to another cell", "1 start: moving 1 0\n", "1 start: moving 0 1\n",
     "agent 1 differs at 24, line 25 of 1.box|start|moving 0 1|moving 1 0"),
    ("another count that was heard", f"1 hear {NEWS}: heard 0 1", f"1 hear {NEWS}: heard 0 2",
     f"agent 1 differs at 14, line 8 of 1.box|hear {NEWS}|heard 0 2|heard 0 1"),
    ("another state of a restart", "1 hear 4602\n1 opens: at 0 0 done 0", "1 hear 4602\n1 opens: at 0 0 done 1",
     "agent 1 differs at 18, line 13 of 1.box|(its first line)|at 0 0 done 1|at 0 0 done 0"),
    ("another state that was held", "1 held: between 0 0 1 0 done 0", "1 held: at 0 0 done 0",
     "agent 1 differs at 25, line 27 of 1.box|held|at 0 0 done 0|between 0 0 1 0 done 0"),
    ("a failed write that was forgotten", "0 start: refused StoreFailed", "0 start: moving 2 0",
     "agent 0 differs at 06, line 9 of 0.box|(its first line)|at 1 0 done 0|between 1 0 2 0 done 0"),
    ("a failed write of a start that was refused", "1 start: refused Waits 0 1\n0 held", "1 start: refused StoreFailed\n0 held",
     "agent 1 differs at 02, line 4 of 1.box|start|refused StoreFailed|refused Waits 0 1|and 3 more"),
    ("a right line that was refused", "1 start: refused AtEnd", "1 start: refused BadLine",
     "agent 1 differs at 28, line 33 of 1.box|start|refused BadLine|refused AtEnd"),
    ("a stranger's message, refused for another reason", "1 hear 4701: refused BadMagic", "1 hear 4701: refused BadLength",
     "agent 1 differs at 22, line 21 of 1.box|hear 4701|refused BadLength|refused BadMagic"),
    ("a first line without what was stored", "0 start\n", "",
     "agent 0 differs at 08, line 12 of 0.box|(its first line)|between 1 0 2 0 done 0|at 1 0 done 0|and 2 more"),
]  # fmt: skip


def boxes_of(talk: str) -> dict[int, list[dict[str, Any]]]:
    """The lines of each agent's box."""
    boxes: dict[int, list[dict[str, Any]]] = {}
    process: dict[int, int] = {}
    sums = {path: hashlib.sha256(path.read_bytes()).hexdigest() for path in (MAP, PLAN, LONGER)}
    plans = {"opens": PLAN, "goes over": LONGER}
    for place, line in enumerate(talk.splitlines()):
        asked, _, answer = line[2:].partition(": ")
        agent, at = int(line[0]), round(place * EACH, 6)
        words: list[tuple[str, object]] = [("asked", asked)]
        if asked in plans:
            process[agent] = process.get(agent, agent * 100) + 1
            words = [("started", {"boot": "one", "map": sums[MAP], "plan": sums[plans[asked]]})]
        words += [("answered", answer)] if answer else []
        for word, value in [("ended", int(answer))] if asked == "ends" else words:
            boxes.setdefault(agent, []).append({"wall": at, "clock": at, "agent": agent, "process": process[agent], word: value})
    return boxes


def text_of(lines: Sequence[dict[str, Any]]) -> bytes:
    return "".join(f"{json.dumps(line)}\n" for line in lines).encode("ascii")


def files_of(talk: str) -> dict[str, bytes]:
    return {f"{agent}.box": text_of(lines) for agent, lines in boxes_of(talk).items()}


def asked(harness: Harness, files: dict[str, bytes], *more: str, plan: pathlib.Path = PLAN) -> Ended:
    """What is said of boxes with these bytes."""
    words = [sys.executable, str(CHECK), str(MAP), str(plan), *files, "--program", str(harness.program), *more]
    return harness.run(words, folder=harness.folder(files))


def due_of(told: str) -> bytes:
    """What is due of a difference, in short."""
    first, *rest = told.split("|")
    lines = [re.sub(r" at (\d\d)", r" at 1970-01-01 00:00:00.\g<1>0000", first)]
    names = [] if " heard at " in first else ["asked      ", "answered   ", "the rules  "]
    lines += [f"{name}{text}" for name, text in zip([*names, *[""] * len(rest)], rest)]
    return "".join(f"{line}\n" for line in lines).encode()


def of_damage(
    harness: Harness, talk: str, name: str, was: str, now: str, told: str
) -> list[Outcome]:
    if was not in talk:
        raise ValueError(f"{name}: {was!r} isn't in the talk")
    ended = asked(harness, files_of(talk.replace(was, now, 1)))
    return [ended_as(name, f"check_boxes.py of a talk with {now!r} in place of {was!r}", ended, Ended(1, due_of(told), b""))]


# What else is told of boxes


def held(harness: Harness, name: str, map_file: str, folder: pathlib.Path, due: tuple[int, str] = AGREES) -> Outcome:
    """Whether the boxes of a fleet's folder, beside which its plan lies, agree with the rules, or what else is told."""
    ended = asked_of(harness, map_file, folder)
    ran = f"check_boxes.py of {folder}, which told {ended.out[-1500:]!r} {ended.err[-800:]!r}"
    return compared(f"{name}: its boxes", ran, (ended.status, due[1] in ended.out.decode()), (due[0], True))


def asked_of(harness: Harness, map_file: str, folder: pathlib.Path) -> Ended:
    """The plan of the folder, but none that is beside a tape, and its boxes. Several plans that went on from one another are told by their numbers."""
    plans = [path for path in folder.glob("*.plan") if not path.with_suffix("").exists()]
    *earlier, last = sorted(plans, key=lambda path: (len(path.name), path.name))
    words = ["--earlier", *earlier] if earlier else []
    files = map(str, [last, *sorted(folder.glob("*.box")), *words])
    return harness.run([sys.executable, str(CHECK), map_file, *files, "--program", str(harness.program)])


EVENTS = """mapf-events 2
restart 0,restart 1,start 1,tear 0 0,start 0,restart 0,start 0,restart 0,say 0,deliver 1 0,finish 0,say 0,deliver 1 1,say 1,deliver 0 2
restart 1,start 1,say 1,deliver 1 1,start 1,finish 1,start 1
""".replace(",", "\n")
ACCOUNT = """agent 0, by 0.box
1970-01-01 00:00:00.060000  (process 2): at 1 0 done 0; it holds 1 0
1970-01-01 00:00:00.070000  start: no answer; it holds 1 0 and 2 0
1970-01-01 00:00:00.080000  (process 2) ended with signal 9
1970-01-01 00:00:00.090000  (process 3): between 1 0 2 0 done 0; it holds 1 0 and 2 0
1970-01-01 00:00:00.100000  tell: said 46020000000000090000; it holds 1 0 and 2 0
1970-01-01 00:00:00.120000  finish: arrived 2 0; it holds 2 0
1970-01-01 00:00:00.130000  tell: said 46020000000000090001000000000001; it holds 2 0
1970-01-01 00:00:00.160000  hear 46020001000000090001000000000001: heard 1 0; it holds 2 0
1970-01-01 00:00:00.290000  hear 46020000000000090001000000000001: refused OutOfMemory; it holds 2 0
1970-01-01 00:00:00.310000  tell: no answer; it holds 2 0
1970-01-01 00:00:00.320000  (process 3) ended with status 0
"""


def agreeing(name: str, harness: Harness, files: dict[str, bytes], due: str, *more: str) -> Outcome:
    return ended_as(name, f"check_boxes.py {' '.join(more)}", asked(harness, files, *more), Ended(0, due.encode(), b""))


def of_talk(harness: Harness) -> list[Outcome]:
    """What is said of boxes that are right."""
    files = files_of(TALK)
    outcomes = [agreeing("boxes that agree", harness, files, AGREED)]
    outcomes.append(agreeing("the last moments of an agent", harness, files, f"{ACCOUNT}{AGREED}", "--agent", "0", "--last", "11"))
    list_of_all = harness.folder() / "events"
    asked(harness, files, "--events", str(list_of_all))
    outcomes.append(compared("the list of events", "check_boxes.py --events", list_of_all.read_text(encoding="ascii"), EVENTS))
    return outcomes


def changed(files: dict[str, bytes], name: str, change: Callable[[dict[str, Any]], object]) -> dict[str, bytes]:
    """The files, in one of which each line was changed."""
    lines = [json.loads(line) for line in files[name].splitlines()]
    for line in lines:
        change(line)
    return {**files, name: text_of(lines)}


def of_times(harness: Harness) -> list[Outcome]:
    """In which order things stand."""
    files = files_of(TALK)
    at_once = {name: re.sub(rb'("wall"|"clock"): [0-9.]+', rb"\1: 7", text) for name, text in files.items()}
    early = changed(files, "0.box", lambda line: line.update(clock=line["clock"] + 0.05, wall=line["wall"] + 0.05))
    apart = changed(early, "1.box", lambda line: line.get("started", {}).update(boot="two"))
    later = "agent 1 heard at 11 what agent 0 said 0.040000 seconds later: 46020000000000090000|line 6 of 1.box|and 1 more"
    off = AGREED.replace("lines\n", "lines; clocks are off by 0.040 seconds or more\n")
    return [
        agreeing("all at one time", harness, at_once, AGREED),
        ended_as("what was heard too early on one machine", "check_boxes.py", asked(harness, early), Ended(1, due_of(later), b"")),
        agreeing("clocks of two machines", harness, apart, off),
    ]


def of_later_plans(harness: Harness) -> list[Outcome]:
    """Two agents that go over to a plan that goes on: one by one, and both by the old one."""
    earlier = ["--earlier", str(PLAN)]

    def told(name: str, talk: str, due: Ended, *more: str, plan: pathlib.Path = LONGER) -> Outcome:
        return ended_as(name, f"check_boxes.py {shown(more)}", asked(harness, files_of(talk), *more, plan=plan), due)

    agrees = Ended(0, f"agreed: {CHANGED}\n".encode(), b"")
    without = Ended(2, b"", f"check_boxes: 0.box: its agent was given another plan than {LONGER}\n".encode())
    moved = CHANGE.replace("0 start: moving 2 0", "0 start: refused Waits 1 1")
    unmoved = Ended(1, due_of("agent 0 differs at 04, line 6 of 0.box|finish|arrived 2 0|refused NotMoving|and 6 more"), b"")
    other = CHANGE.replace("1 start: refused Waits 0 1\n1 hear", "1 start: refused AtEnd\n1 hear")
    at_end = Ended(1, due_of("agent 1 differs at 12, line 15 of 1.box|start|refused AtEnd|refused Waits 0 1"), b"")
    return [
        told("boxes of two plans", CHANGE, agrees, *earlier),
        told("an earlier plan that isn't given", CHANGE, without),
        told("a move by an earlier plan that was refused", moved, unmoved, *earlier),
        told("a refusal by the last plan", other, at_end, *earlier),
        told("the last plan isn't used", TALK, Ended(0, AGREED.encode(), b""), "--earlier", str(LONGER), plan=PLAN),
    ]


def of_torn_boxes(harness: Harness) -> list[Outcome]:
    """Boxes whose robots were killed while they wrote, and a message whose saying was never answered."""
    files = files_of(TALK)
    lines = files["1.box"].splitlines(keepends=True)
    begun = next(place for place, line in enumerate(lines) if b'hear 4602"' in line)
    torn = b"".join([*lines[:begun], lines[begun][:40], b"\n", *lines[begun + 1 :], lines[0][:9]])
    due = AGREED.replace("24 calls, 3 unanswered", "23 calls, 2 unanswered")
    talk = TALK.replace(f"1 tell: said {OTHERS_NEWS}", "1 tell").replace("1 hear 4602\n", "")
    first = "tell: said 46020000000000090000"
    again = TALK.replace(f"0 {first}\n", "0 tell\n").replace("\n0 finish", f"\n0 ends: -9\n0 opens: between 1 0 2 0 done 0\n0 {first}\n0 finish")
    twice = "agreed: 2 agents, 4 restarts, 3 kills, 25 calls, 4 unanswered, 1 of them stored, 1 failed writes, 5 said, 4 heard, 3 strangers' lines\n"
    return [
        agreeing("a box that was torn", harness, {**files, "1.box": torn}, due),
        agreeing("a message whose saying wasn't answered", harness, files_of(talk), AGREED.replace("24 calls", "23 calls")),
        agreeing("a box in which nothing stands", harness, {**files, "2.box": b""}, AGREED),
        agreeing("a message that was said again", harness, files_of(again), twice),
    ]


def of_bad_boxes(harness: Harness) -> Iterator[Outcome]:
    """One clear line and a status, where nothing can be checked."""
    files = files_of(TALK)
    lines = files["1.box"].splitlines(keepends=True)

    def box(*parts: bytes) -> dict[str, bytes]:
        return {**files, "1.box": b"".join(parts)}

    none, other = "is no line of a box", b'{"wall": 1e99, "clock": 1, "agent": 1, "process": 101, "answered": "x"}\n'
    of_two = changed(files, "1.box", lambda line: line.update(agent=2))
    cases: list[tuple[str, dict[str, bytes], list[str], int, str]] = [
        ("a reply that was doubled", box(*lines[:4], lines[3], *lines[4:]), [], 2, "1.box: line 5 answers what nobody asked"),
        ("a reply that was left out", box(*lines[:3], *lines[4:]), [], 2, "1.box: line 4 asks before the line before it was answered"),
        ("a line that was asked and left out", box(*lines[:2], *lines[3:]), [], 2, "1.box: line 3 answers what nobody asked"),
        ("a start that was left out", box(*lines[1:]), [], 2, "1.box: line 1 is of a process that wasn't started: 101"),
        ("a later start that was left out", box(*lines[:11], *lines[12:]), [], 2, "line 12 is of a process that wasn't started: 102"),
        ("a line in two", box(*lines[:3], lines[3][:30], b"\n", lines[3][30:], *lines[4:]), [], 2, f"1.box: line 4 {none}"),
        ("two boxes in one file", box(*lines, files["0.box"]), [], 2, "1.box: line 35 is of agent 0, and those before of agent 1"),
        ("two boxes of an agent", {**files, "2.box": files["1.box"]}, [], 2, "2.box: it is a box of agent 1, as 1.box is"),
        ("no box", box(b"agent\n"), [], 2, "1.box: there is no line of a box"),
        ("an agent that is none", of_two, [], 2, f"1.box: it is of agent 2, and {PLAN} has 2 agents"),
        ("another plan", changed(files, "1.box", lambda line: line.get("started", {}).update(plan="0")), [], 2,
         f"1.box: its agent was given another plan than {PLAN}"),
        ("an agent without a box", files, ["--agent", "2"], 2, "no box is of agent 2"),
        ("no number", files, ["--agent", "two"], 2, "a number is wanted, and 'two' is none"),
        ("no program", files, ["--program", "./no"], 3, "./no: No such file or directory"),
        ("no folder for the events", files, ["--events", "no/events"], 3, "no/events: No such file or directory"),
        ("JSON of another kind", box(*lines[:3], other, *lines[4:]), [], 2, f"1.box: line 4 {none}"),
        ("JSON that is deep", box(*lines[:3], b"[" * 100_000 + b"\n", *lines[4:]), [], 2, f"1.box: line 4 {none}"),
    ]  # fmt: skip
    for name, given, more, status, told in cases:
        ended = asked(harness, given, *more)
        last = ended.err.decode().splitlines()[-1:]
        wrote = (ended.status, "".join(last).endswith(told), b"Traceback" in ended.err, ended.out)
        yield compared(name, f"check_boxes.py, which told {ended.err[-500:]!r}", wrote, (status, True, False, b""))


def of_other_files(harness: Harness) -> list[Outcome]:
    """A plan that is rejected has no runs, and a box that isn't there no lines."""
    swap, outcomes = ROOT / "examples" / "swap.plan", []
    rejected = f"{MAP} {swap}: `mapf check` says 'rejected Swap 0 1 0'"
    for plan, box, told in ((swap, "0.box", rejected), (PLAN, "no.box", "no.box: No such file or directory")):
        words = [sys.executable, str(CHECK), str(MAP), str(plan), box, "--program", str(harness.program)]
        ended = harness.run(words, folder=harness.folder(files_of(TALK)))
        outcomes.append(ended_as(told, shown(words), ended, Ended(2, b"", f"check_boxes: {told}\n".encode())))
    return outcomes


def of_an_older_tape(harness: Harness) -> list[Outcome]:
    """A tape of which an older copy was put back, by the answers of real agents."""
    folder, talk = harness.folder(), []
    tape, copy = folder / "tape", folder / "copy"
    for call, behind in (("start", (tape, copy)), ("finish", (copy, tape)), ("held", (tape, copy))):
        told = harness.mapf(["agent", str(MAP), str(PLAN), "0", "tape"], f"{call}\n".encode(), folder).out.decode().splitlines()
        talk += [f"0 opens: {told[0]}", f"0 {call}: {told[1]}", "0 ends: 0"]
        shutil.copyfile(*behind)
    due = due_of("agent 0 differs at 06, line 12 of 0.box|(its first line)|between 1 0 2 0 done 0|at 2 0 done 1|and 1 more")
    return [ended_as("an older copy of a tape", "check_boxes.py", asked(harness, files_of("\n".join(talk))), Ended(1, due, b""))]


def of_exchanged_boxes(harness: Harness) -> list[Outcome]:
    """Each agent's box is taken for the other's."""
    talk = "\n".join(f"{'10'[int(line[0])]}{line[1:]}" for line in TALK.splitlines())
    told = asked(harness, files_of(talk))
    due = (1, "agent 1 differs at 1970-01-01 00:00:00.000000, line 2 of 1.box")
    return [compared("two boxes that were exchanged", "check_boxes.py", (told.status, told.out.decode().partition("\n")[0]), due)]


def tests(harness: Harness) -> Iterator[Callable[[], Sequence[Outcome]]]:
    for damage in DAMAGED:
        yield functools.partial(of_damage, harness, TALK, *damage)
    for test in (of_talk, of_times, of_later_plans, of_torn_boxes, of_other_files, of_an_older_tape, of_exchanged_boxes):
        yield functools.partial(test, harness)
    yield lambda: list(of_bad_boxes(harness))
