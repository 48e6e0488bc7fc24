"""tools/watch.py: fleets whose tapes the test writes, stopped anywhere and going on; what is told
of them, which alarms there are, and how it ends."""
import functools
import json
import os
import pathlib
import random
import re
import time
from typing import Iterator, Mapping, Optional, Sequence

import live_gauges
import live_views
from harness import Ended, Harness, Outcome, compared, ended_as, put_program, shown, side_by_side
from statuses import random_fleet, tape_of, tapes_of
from texts import LANE, NOBODY, SHORT, plan
from watched_fleets import AGO, LIVE, LONG, ONCE, PATIENT, QUICK, TRAIN, Told, Watched, blocks
from watched_fleets import clock, clocks_since, held_until, masked, new_fleet, old_room, put
from watched_fleets import room_of, words_of

SHORT_SEEDS, LONG_SEEDS = range(1, 13), range(1, 201)
# A time of day before how long that is ago.
TIME = re.compile(r"(since|at) ((?:\S+ )?\S+) (?=\()")
NOTHING = "ALARM: nothing has moved since "
NO_FILE = "No such file or directory"


def of_fleet(harness: Harness, seed: int) -> list[Outcome]:
    """All that is told of a fleet that was stopped somewhere."""
    map_text, plan_text, fleet = random_fleet(random.Random(f"watching {seed}"), seed % 2 == 0)
    folder, times = old_room(harness, map_text, plan_text, fleet)
    told, begun = Told(plan_text, fleet, times), time.time()
    ended = harness.run(words_of(harness, *PATIENT), folder=folder)
    now = clocks_since(begun)

    def by_now(found: "re.Match[str]") -> str:
        return f"{found[1]} {'now' if found[2] in now else found[2]} "

    lines = [TIME.sub(by_now, line) for line in masked(ended.out.decode())]
    due = (1 if fleet.faults or told.circles else 0, told.all(), b"")
    ran = f"{ONCE} on {map_text!r}, {plan_text!r}"
    return [compared(f"a fleet, seed {seed}", ran, (ended.status, lines, ended.err), due)]


def of_many(harness: Harness) -> Iterator[Outcome]:
    """Of many of a kind the first are told."""
    folder = room_of(harness, LONG, plan(*(f"{agent} 0 =" for agent in range(13))), {})
    lines = harness.run(words_of(harness), folder=folder).out.decode().splitlines()
    due = [*(f"unknown {it}" for it in range(10)), "and 3 more unknown agents"]
    yield compared(
        "many tapes that aren't there", ONCE, [it.partition(":")[0] for it in lines[1:]], due
    )


def standing(harness: Harness) -> Iterator[Outcome]:
    """Nothing has moved for a while."""
    fleet = new_fleet()
    folder, times = old_room(harness, LONG, TRAIN, fleet)
    for limit, is_alarm in ((AGO - 100, True), (AGO + 100, False)):
        ended = harness.run(words_of(harness, "--alarm", str(limit)), folder=folder)
        alarm = [f"{NOTHING}{clock(times[0])} (..)"] if is_alarm else []
        due = (int(is_alarm), [*alarm, *Told(TRAIN, fleet, times).all()])
        yield compared(f"--alarm {limit}", ONCE, (ended.status, masked(ended.out.decode())), due)
    ended = harness.run(words_of(harness, "--live"), folder=room_of(harness, LANE, NOBODY, {}))
    due = (0, b"0 agents: all arrived\n")
    yield compared("a plan of nobody", LIVE, (ended.status, ended.out[9:]), due)


def going(harness: Harness) -> Iterator[Outcome]:
    """A fleet that goes on while it is watched: each state is told, and the end ends it."""
    fleet = new_fleet()
    folder, _ = old_room(harness, LONG, TRAIN, fleet)
    with Watched(harness, folder, *PATIENT) as watched:
        wrote, due = [watched.next("3 agents")], [Told(TRAIN, fleet).summary()]
        first = watched.next("root")
        for agent in (0, 0, 0, 0, 1, 1, 2, 1, 1, 2, 2, 2):
            fleet.agents[agent].records += 1
            put(folder, agent, fleet.agents[agent].records)
            wrote.append(watched.next("3 agents"))
            due.append(Told(TRAIN, fleet).summary())
        ended = watched.end()
    yield compared("each state", LIVE, [TIME.sub(r"\1 now ", it) for it in wrote], due)
    ready = "root 0 keeps 2: ready at 2 0, done 0 of 2, since "
    yield compared("for whom all wait at first", LIVE, first[: len(ready)], ready)
    yield compared("all have arrived", LIVE, ended, (0, b""))


def since_a_look(harness: Harness) -> Iterator[Outcome]:
    """A tape that is changed between two looks, whatever time its file has then."""
    folder, _ = old_room(harness, LONG, TRAIN, new_fleet())
    with Watched(harness, folder, *PATIENT) as watched:
        watched.next("root 0 keeps 2")
        before = time.time() - 1
        (folder / "new").write_bytes(tape_of(0, 1))
        os.utime(folder / "new", (before - AGO, before - AGO))
        (folder / "new").rename(folder / "0.tape")
        line = watched.next("root 0 keeps 2: moving 2 0 to 3 0, done 0 of 2, since ")
        is_now = line.split(" ")[-2:-1] in [[it] for it in clocks_since(before)]
        ended = watched.end(stops=True)
    yield compared("since when, by the look before", f"{LIVE}, which told {line!r}", is_now, True)
    yield compared("it is asked to end", LIVE, ended, (143, b""))


def alarms(harness: Harness) -> Iterator[Outcome]:
    """An alarm that comes, goes and comes; and one that ends it."""
    folder = room_of(harness, LONG, TRAIN, tapes_of(new_fleet()))
    with Watched(harness, folder, "--alarm", "0.6") as watched:
        wrote = [watched.next("ALARM")]
        put(folder, 0, 1)
        wrote += [watched.next("over"), watched.next("ALARM")]
    due = [NOTHING, f"over: {NOTHING}", NOTHING]
    found = [it[: len(line)] for it, line in zip(wrote, due)]
    yield compared("an alarm that comes, goes and comes", LIVE, found, due)
    put(folder, 0, 2)
    begun, words = time.monotonic(), ("--live", *QUICK, "--alarm", "0.6", "--alarm-ends")
    ended = harness.run(words_of(harness, *words), folder=folder)
    lasted = time.monotonic() - begun
    found = (ended.status, lasted >= 0.6, ended.out.count(b"ALARM"))
    yield compared("an alarm that ends it", shown(words), found, (1, True, 1))


def stuck(harness: Harness) -> Iterator[Outcome]:
    """A root that stands is an alarm, though others move; one that was just let go is none."""
    # Agent 1 waits for agent 0, and the last one goes on all the time.
    still = plan("2 0 ee", "1 0 ee", f"9 0 {29 * 'e'}")
    folder = room_of(harness, LONG, still, tapes_of(new_fleet(still)))
    begin = "ALARM: root 0 hasn't moved: ready at 2 0, done 0 of 2, since "
    with Watched(harness, folder, "--alarm", "2") as watched:
        alarm = ""
        for records in range(1, 58):
            put(folder, 2, records)
            watched.next("3 agents")
            # On a machine that is slow nothing may have moved for so long either.
            alarm = next((it for it in watched.lines if it.startswith("ALARM: root 0")), "")
            if alarm:
                break
        put(folder, 0, 1)
        over = watched.next("over: ALARM: root 0")
    wrote = (alarm[: len(begin)], over[: len(begin) + 6], begin in over)
    yield compared("a root that stands while others move", LIVE, wrote, (begin, f"over: {begin}", True))
    # It waited for long, and is let go just now: nothing is wrong with it.
    fleet = new_fleet()
    folder, times = old_room(harness, LONG, TRAIN, fleet)
    put(folder, 0, 4)
    ended = harness.run(words_of(harness, "--alarm", "1000"), folder=folder)
    found = (ended.status, [it for it in ended.out.decode().splitlines() if "ALARM" in it])
    yield compared("a root that was let go just now", ONCE, found, (0, []))


def gone(harness: Harness) -> Iterator[Outcome]:
    """A tape that was there and isn't any more."""
    folder, _ = old_room(harness, LONG, TRAIN, new_fleet())
    with Watched(harness, folder, *PATIENT) as watched:
        watched.next("3 agents")
        (folder / "1.tape").rename(folder / "away")
        alarm = watched.next("ALARM")
        (folder / "away").rename(folder / "1.tape")
        over = watched.next("over")
    due = "ALARM: tape 1 has disappeared, since "
    wrote = (alarm[: len(due)], over[: len(due) + 6])
    yield compared("a tape that disappears", LIVE, wrote, (due, f"over: {due}"))


# A fleet as an answer of `mapf status`: agent 0 has finished so many moves, and agent 1 is on its way.
ANSWER = """0 at {done} 0 done {done} of 9 ready
1 between 0 0 1 0 done 0 of 9
root 0 keeps 1
"""
ANSWERS = """#!/bin/sh
count=$(cat count)
if [ -e answer$((count + 1)) ]; then echo $((count + 1)) >count; fi
cat answer$count
exit 1
"""
# What is wrong with a whole fleet: its line, and the alarm.
PARTED = "PlansPart 0 1 4", "ALARM: the plans of agents 0 and 1 part at time 4"
TURNED = "NotOneRun 2", "ALARM: an agent has begun its move in rotation 2, which no run does"
EARLY = "NotOneRun 1 0 3", "ALARM: agent 1 has begun a move that waits until agent 0 has done 3"


def answering(harness: Harness, *answers: Sequence[str]) -> pathlib.Path:
    """A folder with a program that answers `mapf status` by one after another, and then by the last
    one. An answer has these faults, behind how many moves agent 0 has done."""
    folder = room_of(harness, LONG, TRAIN, {"count": b"0"})
    for number, (done, *faults) in enumerate(answers):
        text = ANSWER.format(done=done) + "".join(f"{it}\n" for it in faults)
        (folder / f"answer{number}").write_text(text)
    put_program(folder / "mapf", ANSWERS)
    return folder


def not_one_run(harness: Harness) -> Iterator[Outcome]:
    """Tapes that aren't of one run, in a single look and in looks behind one another."""
    words = (*PATIENT, "--program", "./mapf")
    for faults in ((PARTED,), (TURNED,), (EARLY,), (PARTED, EARLY, TURNED)):
        folder = answering(harness, ("2", *(line for line, _ in faults)))
        ended = harness.run(words_of(harness, *words), folder=folder)
        lines = [it for it in ended.out.decode().splitlines() if it.startswith("ALARM")]
        due = (1, sorted(told for _, told in faults), b"")
        yield compared(f"{faults}, once", ONCE, (ended.status, sorted(lines), ended.err), due)
    for line, told in (PARTED, TURNED):
        folder = answering(harness, ("2",), ("2", line))
        ended = harness.run(words_of(harness, *words, "--live", *QUICK, "--alarm-ends"), folder=folder)
        wrote = (ended.status, told.encode() in ended.out, (folder / "count").read_bytes())
        yield compared(f"{line}, at once", LIVE, wrote, (1, True, b"1\n"))


def read_early(harness: Harness) -> Iterator[Outcome]:
    """An agent whose tape was read before that of one that moved on meanwhile is no alarm."""
    line, told = EARLY
    looks = (("2", line), ("3",), ("2", line), ("2", line), ("3",))
    folder = answering(harness, *looks)
    with Watched(harness, folder, *PATIENT, "--program", "./mapf") as watched:
        over = watched.next("over: ALARM: agent")
    found = [it for it in watched.lines if "ALARM: agent" in it]
    places = [it[:28] for it in watched.lines if it.startswith("root 0") or it == told]
    root = "root 0 keeps 1: ready at {} 0"
    due = [root.format(it) for it in (2, 3, 2)] + [told[:28], root.format(3)]
    yield compared("a tape that was read early", LIVE, (found, over), ([told, over], f"over: {told}"))
    yield compared("the looks until then", LIVE, places[:4], due[:4])


def blocked(harness: Harness) -> Iterator[Outcome]:
    """A rotation that blocks is an alarm at the look that sees it."""
    turn = plan("0 0 -e", "1 0 -s", "1 1 -w", "0 2 nn")
    tall = "type octile\nheight 3\nwidth 2\nmap\n..\n..\n..\n"
    folder = room_of(harness, tall, turn, tapes_of(new_fleet(turn)))
    with Watched(harness, folder, *PATIENT, "--alarm-ends") as watched:
        before = watched.next("4 agents")
        put(folder, 3, 2)
        alarm, since = watched.next("ALARM"), watched.next("rotation")
        ended = watched.end()
    due = "4 agents: 0 arrived, 0 moving, 1 ready, 3 waiting"
    yield compared("before they have come", LIVE, before[: len(due)], due)
    wrote = (alarm, since[:26], *ended)
    due = (blocks(0, [0, 1, 2, 3]), "rotation 0 keeps 4, since ", 1, b"")
    yield compared("a rotation that blocks", f"{LIVE} --alarm-ends", wrote, due)


def older(harness: Harness) -> Iterator[Outcome]:
    """A tape that has fewer records than before, and then those of another plan."""
    folder, _ = old_room(harness, LONG, TRAIN, new_fleet())
    with Watched(harness, folder, *PATIENT) as watched:
        put(folder, 0, 3)
        wrote = [watched.next("3 agents: 0 arrived, 1 moving, 1 ready")[:38]]
        put(folder, 0, 1)
        wrote.append(watched.next("ALARM")[:63])
        put(folder, 0, 4)
        wrote.append(watched.next("over")[:69])
        before = len(watched.lines)
        (folder / "q").write_text(TRAIN.replace("number 7", "number 8"))
        (folder / "q").rename(folder / "p")
        wrote.append(watched.next("unknown 0")[:23])
        put(folder, 0, 0)
        wrote.append(watched.next("root 0 keeps 2: ready at 2 0")[:28])
        (folder / "2.tape").unlink()
        wrote.append(watched.next("unknown 2")[:17])
        alarms = [line for line in watched.lines[before:] if line.startswith("ALARM")]
    alarm = "ALARM: tape 0 is an older one: it had 3 records, and has 1, since"
    due = ["3 agents: 0 arrived, 1 moving, 1 ready", alarm[:63], f"over: {alarm}"[:69]]
    due += ["unknown 0: WrongPlan 0,", "root 0 keeps 2: ready at 2 0", "unknown 2: NoTape"]
    yield compared(
        "a tape that is an older one, and then a new plan", LIVE, (wrote, alarms), (due, [])
    )


def cut_off(harness: Harness) -> Iterator[Outcome]:
    """A copy of a tape that is cut off while it is read is no older one: the next look has it."""
    folder, _ = old_room(harness, LONG, TRAIN, new_fleet())
    put(folder, 0, 3)
    # Each look is told before the next one is due.
    with Watched(harness, folder, *PATIENT, "--every", "1.5") as watched:
        wrote = [watched.next("3 agents: 0 arrived, 1 moving, 1 ready")[:38]]
        put(folder, 0, 0)
        wrote.append(watched.next("3 agents: 0 arrived, 0 moving, 1 ready")[:38])
        put(folder, 0, 3)
        wrote.append(watched.next("3 agents: 0 arrived, 1 moving, 1 ready")[:38])
        wrote += [line for line in watched.lines if line.startswith("ALARM")]
    due = [f"3 agents: 0 arrived, {it} moving, 1 ready" for it in (1, 0, 1)]
    yield compared("a tape that was cut off", f"{LIVE} --every 1.5", wrote, due)


def box_line(wall: float, word: str, value: object) -> str:
    line = {"wall": wall, "clock": 5.0, "agent": 0, "process": 77, word: value}
    return json.dumps(line) + "\n"


def boxes(now: float) -> dict[str, bytes]:
    """Those of robots that have reported lately, never, long ago by a long line, behind which one
    was cut off, and whose agent has ended."""
    said, long = box_line(now, "asked", "say"), box_line(now - 200, "asked", f"hear {50000 * '00'}")
    texts = {
        "0.box": box_line(now - 300, "asked", "say") + said,
        "2.box": box_line(now - 300, "asked", "say") + long + said[:40],
        "3.box": box_line(now - 400, "asked", "say") + box_line(now - 100, "ended", -9),
    }
    return {name: text.encode() for name, text in texts.items()}


def silent(harness: Harness) -> Iterator[Outcome]:
    """Who hasn't reported for long, the longest first."""
    now, still = time.time(), plan(*(f"{agent} 0 =" for agent in range(4)))
    folder = room_of(harness, LONG, still, {**tapes_of(new_fleet(still)), **boxes(now)})
    due = [
        "4 agents: all arrived",
        f"silent 2: no report since {clock(now - 200)} (..)",
        f"silent 3: its agent ended with -9, no report since {clock(now - 100)} (..)",
        "silent 1: it has no box, since now (..)",
    ]
    for limit, those in (("50", due), ("150", [due[0], due[1], due[3]])):
        ended = harness.run(words_of(harness, "--boxes", "%.box", "--silent", limit), folder=folder)
        lines = masked(ended.out.decode())
        found = [TIME.sub(r"\1 now ", it) if "no box" in it else it for it in lines]
        yield compared(f"--silent {limit}", ONCE, (ended.status, found), (0, those))


def acts_in(page: pathlib.Path) -> bytes:
    return live_views.page_of(page)[1]["acts"]


def replaced(harness: Harness) -> Iterator[Outcome]:
    """A plan that is gone for a while, and then a longer one."""
    tapes = {f"{agent}.tape": tape_of(agent, 2) for agent in range(3)}
    folder = room_of(harness, LONG, TRAIN, tapes)
    with Watched(harness, folder, *PATIENT, "--page", "page.html") as watched:
        wrote = [watched.next("root")[:42]]
        (folder / "p").rename(folder / "q")
        wrote.append(watched.next("3 agents").split(";")[1])
        (folder / "q").write_text(plan("2 0 eee", "1 0 eee", "0 0 eee"))
        (folder / "q").rename(folder / "p")
        wrote.append(watched.next("root 0 keeps 2: ready at 3 0, done 1 of 3")[:42])
        acts = held_until(lambda: acts_in(folder / "page.html"), 9 * b"e")
    root = "root 0 keeps 2: ready at 3 0, done 1 of "
    due = [f"{root}2,", f" now p: {NO_FILE}", f"{root}3,"]
    yield compared("a plan that is replaced", LIVE, wrote, due)
    yield compared("the plan of its page then", f"{LIVE} --page page.html", acts, 9 * b"e")


# Calls that end with one line on standard error: what is done to the files, more words, the line,
# and the status.
REFUSED: tuple[tuple[Mapping[str, Optional[str]], Sequence[str], str, int], ...] = (
    ({"m": SHORT}, (), "mapf: ShortRow 6", 1),
    ({"p": "x\n"}, (), "mapf: BadHeader 1", 1),
    ({"p": plan("0 0 e", "1 0 w")}, ("--live",), "mapf: Swap 0 1 0", 1),
    ({"p": None}, ("--live",), f"p: {NO_FILE}", 3),
    ({"m": None}, (), f"m: {NO_FILE}", 3),
    ({}, ("--program", "no/mapf"), f"no/mapf can't be started: {NO_FILE}", 3),
    ({}, ("--page", "no/page"), f"no/page can't be written: {NO_FILE}", 3),
)
BAD_LINES = (
    *(("--every", "0"), ("--every", "soon"), ("--alarm", "-1"), ("--silent", "nan"), ("more",)),
    *(("--metrics", "70000", "--live"), ("--metrics", "0"), ("--stay",), ("--alarm-ends",)),
)


def refused(harness: Harness) -> Iterator[Outcome]:
    for files, words, told, status in REFUSED:
        texts = {"m": LANE, "p": plan("0 0 e"), **files}
        given = {name: text.encode() for name, text in texts.items() if text is not None}
        ended = harness.run(words_of(harness, *words), folder=harness.folder(given))
        due = Ended(status, b"", f"watch: {told}\n".encode())
        yield ended_as(f"refused: {told}", shown(words), ended, due)
    for line in BAD_LINES:
        ended = harness.run(words_of(harness, *line), folder=harness.folder())
        wrote = (ended.status, ended.out, ended.err[:6])
        yield compared(f"a bad command line: {' '.join(line)}", ONCE, wrote, (2, b"", b"usage:"))


PARTS = (
    cut_off,
    going,
    alarms,
    blocked,
    stuck,
    gone,
    not_one_run,
    read_early,
    older,
    since_a_look,
    silent,
    replaced,
    of_many,
    standing,
    refused,
)


def outcomes(harness: Harness) -> Iterator[Outcome]:
    seeds = LONG_SEEDS if harness.is_long else SHORT_SEEDS
    parts = [*PARTS, *live_gauges.PARTS, *live_views.PARTS]
    tests = [functools.partial(lambda part: list(part(harness)), part) for part in parts]
    yield from side_by_side(
        [*tests, *(functools.partial(of_fleet, harness, seed) for seed in seeds)]
    )
