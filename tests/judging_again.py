"""Calls of tools/judge.py on results that stand: what still holds is kept, all else is judged anew, whoever is stopped."""
import hashlib
import shlex
import subprocess
import time
from typing import Iterator, Mapping, Sequence

from harness import VERSION, Outcome, compared
from job_rooms import Room, stopped
from judge_jobs import COLUMNS, JOBS, TASKS, TEXTS, csv_of, differing
from texts import BEHIND, LANE, SWAP, WALL

# How many jobs there are while the judge is stopped again and again.
STOPPED = 24


def of_stops(room: Room) -> Iterator[Outcome]:
    """A judge that is killed again and again, its last line torn, has each job once at its end."""
    jobs = JOBS[-STOPPED:]
    room.file("stopped.list.csv", csv_of([job for job, _ in jobs]))
    # So slow that it is still at work when it is looked at, however busy the machine is.
    slow = room.script("slow", f'test "$1" = --version || sleep 0.1\nexec {shlex.quote(str(room.harness.program))} "$@"')
    words = room.words("stopped.list.csv", "-o", "stopped.csv", program=slow)
    turns, stops = stopped(room, words, "stopped.csv", b"lane.map,,torn.pl")
    yield compared("a judge that is killed again and again", f"judge.py stopped.list.csv, {turns} times", differing(room.rows("stopped.csv"), jobs), [])
    yield compared("how often it was killed", "judge.py stopped.list.csv", stops > 1, True)


# A change that takes the results of two jobs the ground, which results are judged anew for it, and what is said of them.
CHANGES: list[tuple[str, dict[str, str], tuple[str, str], str]] = [
    ("another plan", {"one.plan": SWAP}, ("rejected", "accepted"), "one.plan: another plan since"),
    ("another map", {"lane.map": WALL}, ("rejected", "rejected"), "one.plan: another map since"),
    ("another scenario", {"lane.scen": TEXTS["other.scen"]}, ("rejected", "rejected"), "two.plan: another scenario since"),
    ("another plan and scenario", {"one.plan": SWAP, "lane.scen": "version 1\n"}, ("rejected", "rejected"), "one.plan: another scenario and plan since"),
]
PAIR = [("lane.map", "lane.scen", "one.plan", ""), ("lane.map", "lane.scen", "two.plan", "")]


def short(rows: Sequence[Mapping[str, str]]) -> list[tuple[str, ...]]:
    return sorted((row["plan"], row["agents"], row["verdict"]) for row in rows)


def of_changes(room: Room) -> Iterator[Outcome]:
    """A result is of the files that were judged: of others it is made anew, and that is said."""
    room.file("pair.csv", csv_of(PAIR))
    for number, (name, files, (one, two), told) in enumerate(CHANGES):
        for file, text in {"one.plan": BEHIND, "two.plan": BEHIND, "lane.map": LANE, "lane.scen": TASKS}.items():
            room.file(file, text.encode())
        output = f"change{number}.csv"
        first = room.run("pair.csv", "-o", output)
        wrote = (first.status, short(room.rows(output)))
        yield compared(f"before {name}", "judge.py pair.csv", wrote, (0, [("one.plan", "", "accepted"), ("two.plan", "", "accepted")]))
        for file, text in files.items():
            room.file(file, text.encode())
        ended = room.run("pair.csv", "-o", output)
        wrote = (ended.status, short(room.rows(output)), told.encode() in ended.err)
        yield compared(name, f"judge.py pair.csv, which told {ended.err!r}", wrote, (0, [("one.plan", "", one), ("two.plan", "", two)], True))
    again = room.run("pair.csv", "-o", output)
    yield compared(f"behind {name}", "judge.py pair.csv", (b"2 of 2 jobs have a result" in again.err, b"anew" in again.err), (True, False))
    room.file("lane.map", LANE.encode())
    room.file("lane.scen", TASKS.encode())
    own = room.script("other", f'exec {shlex.quote(str(room.harness.program))} "$@"')
    for name, words, program in (("another program", [], own), ("another format asked for", ["--from", "paths"], ""), ("all faults asked for", ["--all"], "")):
        output = f"{name}.csv"
        room.run("pair.csv", "-o", output)
        ended = room.run("pair.csv", "-o", output, *words, program=program)
        yield compared(name, f"judge.py pair.csv, which told {ended.err!r}", (b"one.plan: another judge since" in ended.err, len(room.rows(output))), (True, 2))


def of_sums(room: Room) -> Iterator[Outcome]:
    """A result has the sums of what was judged, and says who did."""
    room.file("pair.csv", csv_of(PAIR))
    for name, text in (("one.plan", BEHIND), ("two.plan", SWAP)):
        room.file(name, text.encode())
    room.run("pair.csv", "-o", "sums.csv")
    found = sorted((row["plan"], *(row[f"{name}_sha256"] for name in ("map", "scenario", "plan"))) for row in room.rows("sums.csv"))
    sums = [hashlib.sha256(text.encode()).hexdigest() for text in (LANE, TASKS, BEHIND, SWAP)]
    yield compared("the sums of what was judged", "sha256sum", found, [("one.plan", *sums[:2], sums[2]), ("two.plan", *sums[:2], sums[3])])
    version = VERSION.partition("\n")[0]
    yield compared("who judged", "looked at sums.csv", [row["judge"].startswith(f"{version} ") for row in room.rows("sums.csv")], [True, True])


def of_columns(room: Room) -> Iterator[Outcome]:
    """A job is all of its columns. Those that are none of judge.py go through."""
    job = "lane.map,lane.scen,behind.plan"
    heading = "map,scenario,plan,agents"
    room.file("two.csv", f"{heading}\n{job},2\n".encode())
    room.run("two.csv", "-o", "counts.csv")
    room.file("both.csv", f"{heading}\n{job},3\n{job},2\n".encode())
    room.run("both.csv", "-o", "counts.csv")
    due = [("behind.plan", "2", "accepted"), ("behind.plan", "3", "rejected")]
    yield compared("a job more, of other agents", "judge.py both.csv", short(room.rows("counts.csv")), due)
    room.file("three.csv", f"{heading}\n{job},3\n".encode())
    ended = room.run("three.csv", "-o", "counts.csv")
    wrote = (short(room.rows("counts.csv")), b"behind.plan: the list says something else of it" in ended.err)
    yield compared("a job that says something else", "judge.py three.csv", wrote, (due[1:], True))
    room.file("swap.csv", f"{heading}\nlane.map,,swap.plan,\n".encode())
    room.run("swap.csv", "-o", "counts.csv")
    yield compared("another list", "judge.py swap.csv", short(room.rows("counts.csv")), [*due[1:], ("swap.plan", "", "rejected")])
    room.file("more.csv", f"planner,runtime,{heading}\nPIBT,0.250,{job},2\n".encode())
    room.file("more.jsonl", b'{"planner":"PIBT","runtime":0.250,"map":"lane.map","scenario":"lane.scen","plan":"behind.plan","agents":2}\n')
    for jobs, output in (("more.csv", "counts.csv"), ("more.jsonl", "counts.jsonl")):
        room.run(jobs, "-o", output)
        row = next(row for row in room.rows(output) if row["plan"] == "behind.plan")
        wrote = (row["planner"], row["runtime"], row["verdict"], list(row))
        yield compared(f"columns of {jobs} go through", f"judge.py {jobs}", wrote, ("PIBT", "0.250", "accepted", [*COLUMNS, "planner", "runtime"]))
        before = (room.folder / output).read_bytes()
        ended = room.run(jobs, "-o", output)
        yield compared(f"{jobs} once more", f"judge.py {jobs}", (b"1 of 1 jobs have" in ended.err, (room.folder / output).read_bytes() == before), (True, True))
    yield compared("the lines of other lists stay", "looked at counts.csv", short(room.rows("counts.csv")), [due[0], ("swap.plan", "", "rejected")])
    ended = room.run("swap.csv", "-o", "counts.csv", "--prune")
    wrote = (short(room.rows("counts.csv")), b"judge: 1 results are dropped, since their jobs are gone\n" in ended.err)
    yield compared("but where the list is all that there is", "judge.py swap.csv --prune", wrote, ([("swap.plan", "", "rejected")], True))
    room.file("halves.csv", f"{heading}\n{job},2\nlane.map,,swap.plan,\n".encode())
    room.run("halves.csv", "-o", "counts.csv")
    room.run("halves.csv", "-o", "counts.csv", "--prune", "--shard", "1/2")
    yield compared("jobs of another part aren't gone", "judge.py halves.csv --prune --shard 1/2", short(room.rows("counts.csv")), [due[0], ("swap.plan", "", "rejected")])


def of_stops_anew(room: Room) -> Iterator[Outcome]:
    """A judge that is killed while it judges anew has each job once at its end, and what still fitted is not lost meanwhile."""
    plans = [f"many{number}.plan" for number in range(8)]
    for plan in plans:
        room.file(plan, BEHIND.encode())
    room.file("many.csv", csv_of([("lane.map", "", plan, "2") for plan in plans]))
    slow = room.script("slower", f'test "$1" = --version || sleep 0.2\nexec {shlex.quote(str(room.harness.program))} "$@"')
    room.run("many.csv", "-o", "anew.csv", program=slow)
    for plan in plans[2:]:
        room.file(plan, SWAP.encode())
    process = subprocess.Popen(room.words("many.csv", "-o", "anew.csv", program=slow), cwd=room.folder, stderr=subprocess.PIPE, start_new_session=True)
    while process.poll() is None and not 2 <= [row["verdict"] for row in room.rows("anew.csv")].count("rejected") < 6:
        time.sleep(0.002)
    process.kill()
    process.communicate()
    rows = [(row["plan"], row["verdict"]) for row in room.rows("anew.csv")]
    due = {plan: "accepted" if plan in plans[:2] else "rejected" for plan in plans}
    stale = [row["fault"] for row in room.rows("anew.csv") if row["verdict"] == "stale"]
    wrote = ({plan for plan, _ in rows} == set(plans), [row for row in rows if row[1] not in (due[row[0]], "stale")], set(stale))
    yield compared("killed while it judges anew", "judge.py many.csv", wrote, (True, [], {"was accepted"}))
    ended = room.run("many.csv", "-o", "anew.csv", program=slow)
    yield compared("stale lines are told of", f"judge.py many.csv, which told {ended.err!r}", b": stale since a call before" in ended.err, True)
    yield compared("judged to its end", "judge.py many.csv", sorted((row["plan"], row["verdict"]) for row in room.rows("anew.csv")), sorted(due.items()))


def of_failures(room: Room) -> Iterator[Outcome]:
    """What has failed stands until it is asked for again."""
    jobs = [("lane.map", "", "behind.plan", ""), ("lane.map", "", "swap.plan", "")]
    room.file("failing.csv", csv_of(jobs))
    room.file("broken", b"")
    program = room.script("failing", f'test "$1" = check && test -e broken && exit 5\nexec {shlex.quote(str(room.harness.program))} "$@"')
    calls = (([], ["failed", "failed"]), ([], ["failed", "failed"]), (["--retry", "failed"], ["accepted", "rejected"]), (["--retry", "failed"], ["accepted", "rejected"]))
    for number, (words, due) in enumerate(calls):
        ended = room.run("failing.csv", "-o", "failing.out.csv", *words, program=program)
        (room.folder / "broken").unlink(missing_ok=True)
        found = sorted(row["verdict"] for row in room.rows("failing.out.csv"))
        told = (b"behind.plan: to be judged again" in ended.err, b"2 of 2 jobs have a result" in ended.err)
        yield compared(f"call {number} after a failure, {words}", f"judge.py failing.csv {words}", (ended.status, found, told), (0, due, (number == 2, number in (1, 3))))


def outcomes(room: Room) -> Iterator[Outcome]:
    yield from of_stops(room)
    yield from of_changes(room)
    yield from of_sums(room)
    yield from of_columns(room)
    yield from of_stops_anew(room)
    yield from of_failures(room)
