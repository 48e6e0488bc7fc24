"""tools/judge.py: one result a job with the right verdict, whatever the plans are and whoever is stopped."""
import csv
import functools
import json
import os
import re
from typing import Iterator, Sequence

import judging_again
import judging_costs
import judging_pages
import judging_planners
import judging_proofs
from harness import VERSION, Harness, Outcome, compared, shown, side_by_side
from job_rooms import Room
from judge_jobs import ACCEPTED, CLAIMED, COLUMNS, JOBS, TASKS, TEXTS, csv_of, differing, json_of, judge_room, verdicts
from texts import BEHIND, LANE

# Results of former judges: of one that kept no sums, of one that asked for no bounds, and of one that read no proofs.
OLDER = "map,scenario,plan,agents,verdict,fault,cost,makespan,seconds\nlane.map,,behind.plan,,accepted,,2,1,0.1\n"
FORMER_HEADING = "map,scenario,plan,agents,verdict,fault,cost,claimed,makespan,agents_found,seconds,map_sha256,scenario_sha256,plan_sha256,judge"
FORMER = f"{FORMER_HEADING},planner\nlane.map,,behind.plan,,accepted,,2,,1,2,0.1,a,,b,mapf 0.1.0,PIBT\n"
WITHOUT_PROOFS = ",".join(it for it in COLUMNS if not it.startswith(("proof", "proved", "bound")))
UNPROVED = f"{WITHOUT_PROOFS}\nlane.map,,behind.plan,,accepted,,2,2,1.0000,,1,1,yes,2,,,,,0.1,a,,b,mapf 0.1.0\n"
FORMERS = {"older": OLDER, "former": FORMER, "unproved": UNPROVED}
# Lists of jobs that are none.
BAD_LISTS = {
    "empty.csv": b"",
    "other.csv": b"map,file\nlane.map,behind.plan\n",
    "twice.csv": b"map,plan,map\nlane.map,behind.plan,lane.map\n",
    "taken.csv": b"map,plan,verdict\nlane.map,behind.plan,red\n",
    "unnamed.csv": b"map,plan,\nlane.map,behind.plan,red\n",
    "short.csv": b"map,plan\nlane.map\n",
    "long.csv": b"map,plan\nlane.map,behind.plan,2\n",
    "nameless.csv": b"map,plan\nlane.map,\n",
    "agents.csv": b"map,plan,agents\nlane.map,behind.plan,two\n",
    "many.csv": b"map,plan,agents\nlane.map,behind.plan,10001\n",
    "quote.csv": b'map,plan\n"lane.map,behind.plan\n',
    "bytes.csv": b"map,plan\n\xff,behind.plan\n",
    "no.jsonl": b"map\n",
    "list.jsonl": b'["lane.map"]\n',
    "deep.jsonl": b'{"map":{},"plan":"p"}\n',
    "bound.csv": b"map,plan,bound\nlane.map,behind.plan,low\n",
    "half.jsonl": b'{"map":"lane.map"}\n',
}
# The time that a job has where that is tested: far more than any of them needs.
SECONDS = 5


def judged(room: Room, name: str, words: Sequence[str], output: str, jobs=JOBS, status: int = 0) -> Outcome:
    ended = room.run(*words, "-o", output)
    ran = shown(["tools/judge.py", *words, "-o", output])
    if ended.status != status:
        return Outcome(name, f"ran    {ran}\n    wrote  {ended}\n    due    status {status}")
    return compared(name, ran, differing(room.rows(output), jobs), [])


def of_each_verdict(room: Room) -> Iterator[Outcome]:
    keys = [job for job, _ in JOBS]
    yield judged(room, "a list as CSV", [room.file("jobs.csv", csv_of(keys))], "results.csv")
    yield judged(room, "a list as JSON lines", [room.file("jobs.jsonl", json_of(keys))], "results.jsonl")
    yield compared("the columns of JSON lines", "looked at results.jsonl", list(room.rows("results.jsonl")[0]), COLUMNS)
    claimed = {row["plan"]: row["claimed"] for row in room.rows("results.csv") if row["claimed"]}
    yield compared("what texts claim", "looked at results.csv", claimed, CLAIMED)
    before = (room.folder / "results.csv").read_bytes()
    yield judged(room, "a list that is judged already", ["jobs.csv"], "results.csv")
    yield compared("it stays as it was", "looked at results.csv", (room.folder / "results.csv").read_bytes(), before)
    # A job that stands twice in a list has two results.
    yield judged(room, "a job more", [room.file("more.csv", csv_of([*keys, keys[0]]))], "results.csv", [*JOBS, JOBS[0]])
    for k in range(1, 4):
        yield judged(room, f"part {k} of 3", ["jobs.csv", "--shard", f"{k}/3"], f"part{k}.csv", JOBS[k - 1 :: 3])


def of_names(room: Room) -> Iterator[Outcome]:
    """Plans that are judged by their names."""
    for folder, names in (("maps", {"hall-1.map": LANE}), ("scens", {"hall-1-even-3.scen": TASKS}), ("plans", {}), ("MAPF-LNS2", {})):
        (room.folder / folder).mkdir()
        for name, text in names.items():
            room.file(f"{folder}/{name}", text.encode())
    plans = []
    for name, text in (("hall-1-even-3-2.plan", BEHIND), ("hall-1-even-3-2-lacam.txt", TEXTS["behind.lacam"]), ("hall-1-even-3-5", BEHIND)):
        plans.append(room.file(f"plans/{name}", text.encode()))
    files = ("maps/hall-1.map", "scens/hall-1-even-3.scen")
    due = [
        ((*files, plans[0], "2"), ACCEPTED),
        ((*files, plans[1], "2"), ACCEPTED),
    ]
    # Rows are counted before agents.
    fewer = [((*files, plans[2], "5"), ("rejected", "TooFewRows", "", ""))]
    yield judged(room, "plans by their names", ["--maps", "maps", "--scens", "scens", *plans], "names.csv", [*due, *fewer])
    due = [((files[0], "", *job[2:]), verdict) for job, verdict in [*due, (fewer[0][0], ("rejected", "AgentCount", "", ""))]]
    yield judged(room, "plans by their names, without scenarios", ["--maps", "maps", *plans], "free.csv", due)
    own = room.file("plans/2@hall-1", BEHIND.encode())
    words = ["--maps", "maps", "--pattern", "{agents}@{map}", own]
    yield judged(room, "names of another kind", words, "own.csv", [((files[0], "", own, "2"), ACCEPTED)])
    room.file("MAPF-LNS2/hall-1-even-3-2.txt", BEHIND.encode())
    words = ["--maps", "maps", "--pattern", "{planner}/{map}-{scen}-{number}-{agents}*", "MAPF-LNS2/hall-1-even-3-2.txt"]
    yield judged(room, "plans in folders of planners", words, "planners.csv", [((files[0], "", words[-1], "2"), ACCEPTED)])
    yield compared("their planners", "looked at planners.csv", [row["planner"] for row in room.rows("planners.csv")], ["MAPF-LNS2"])
    words = ["--maps", "maps", "--pattern", "{planner}-{map}-{scen}-{number}-{agents}*", room.file("PIBT-hall-1-even-3-2", BEHIND.encode())]
    yield judged(room, "plans by the names of planners", words, "begun.csv", [((files[0], "", words[-1], "2"), ACCEPTED)])
    yield compared("these planners", "looked at begun.csv", [row["planner"] for row in room.rows("begun.csv")], ["PIBT"])
    ended = room.run("--maps", "maps", "behind.plan", "-o", "none.csv")
    yield compared("a name of no such kind", "judge.py --maps maps behind.plan", (ended.status, b"behind.plan" in ended.err, ended.out), (1, True, b""))


def of_uploads(room: Room) -> Iterator[Outcome]:
    """A table of the tracker, whose rows have plans: with line ends of two kinds, none, the wrong cost, no plan, a dropped agent, a missed goal."""
    room.file("lane-even-1.scen", TASKS.encode())
    heading = "lower_cost,solution_cost,solution_plan,map_name,scen_type,type_id,agents,planner\n"
    cells = [("2", "r\nr\n"), ("2", "r\nr"), ("3", "r\\nr"), ("", ""), ("1", "r\n"), ("1", "r\nw"), ("1", "r"), ("", "rx\nr"), ("0", "\n")]
    rows = "".join(f'1,{cost},"{plan}",lane,even,1,2,PIBT\n' for cost, plan in cells)
    room.file("upload.csv", (heading + rows).encode())
    due = [
        ("2", "accepted", "", "2", "2"),
        ("5", "accepted", "", "2", "2"),
        ("7", "CostDiffers", "solution_cost is '3', 2 was due by its cells", "2", "3"),
        ("8", "unsolved", "upload.csv:8: the row has no plan: the planner found none, one was due", "", ""),
        ("9", "rejected", "GoalDiffers 1", "", "1"),
        ("11", "rejected", "GoalDiffers 1", "", "1"),
        ("13", "rejected", "AgentCount", "", "1"),
        ("14", "unreadable", "upload.csv:14:1: 'x' stands in the acts of agent 0, u, d, l, r or w was due", "", ""),
        ("16", "unsolved", "upload.csv:16: the row has no plan: the planner found none, one was due", "", "0"),
    ]
    for name, words in (("beside the table", []), ("in folders", ["--maps", ".", "--scens", "."])):
        output = f"upload {name}.csv"
        ended = room.run("upload.csv", *words, "-o", output)
        found = [(row["plan"].rpartition(":")[2], row["verdict"], row["fault"], row["cost"], row["claimed"]) for row in room.rows(output)]
        yield compared(f"a table of plans, maps {name}", f"judge.py upload.csv, which told {ended.err!r}", sorted(found), sorted(due))
        own = {(row["map"], row["scenario"], row["planner"], row["solution_cost"]) for row in room.rows(output) if row["plan"] == "upload.csv:2"}
        yield compared("its other columns", "judge.py upload.csv", own, {("lane.map", "lane-even-1.scen", "PIBT", "2")})
    ended = room.run(room.file("odd.csv", f'{heading}1,1,"r",../lane,even,1,1,PIBT\n'.encode()), "-o", "odd.out.csv")
    yield compared("a map's name that is none", "judge.py odd.csv", (ended.status, ended.err.startswith(b"judge: odd.csv:2: '../lane'")), (1, True))


def json_lines(table: str) -> bytes:
    """The rows of a table as JSON lines."""
    return "".join(f"{json.dumps(row)}\n" for row in csv.DictReader(table.splitlines())).encode()


def of_bad_lists(room: Room) -> Iterator[Outcome]:
    """Lists that are none, command lines that don't fit together, and results that can't be written."""
    lists = [[room.file(name, content), "-o", "none.csv"] for name, content in BAD_LISTS.items()]
    for name, (status, told, _) in zip(BAD_LISTS, room.many(lists)):
        said = told.startswith(f"judge: {name}:") and told.count("\n") == 1
        yield compared(name, f"judge.py {name}", (status, said), (1, True))
    yield compared("a list that is none", "looked for none.csv", (room.folder / "none.csv").exists(), False)
    lines = (
        (["jobs.csv"], 2),
        (["-o", "none.csv"], 2),
        (["jobs.csv", "jobs.csv", "-o", "none.csv"], 2),
        (["jobs.csv", "--shard", "0/3", "-o", "none.csv"], 2),
        (["jobs.csv", "--shard", "4/3", "-o", "none.csv"], 2),
        (["jobs.csv", "--seconds", "0", "-o", "none.csv"], 2),
        (["jobs.csv", "--processes", "0", "-o", "none.csv"], 2),
        (["jobs.csv", "--scens", "scens", "-o", "none.csv"], 2),
        (["no.csv", "-o", "none.csv"], 3),
        (["jobs.csv", "-o", "no/none.csv"], 3),
        (["jobs.csv", "-o", room.file("others.csv", b"a,b\n1,2\n")], 3),
        (["jobs.csv", "-o", room.file("others.jsonl", b'{"a":1}\n')], 3),
        (["jobs.csv", "--all=3", "-o", "none.csv"], 2),
        *((["jobs.csv", "-o", room.file(f"{name}.csv", text.encode())], 3) for name, text in FORMERS.items()),
        *((["jobs.csv", "-o", room.file(f"{name}.jsonl", json_lines(text))], 3) for name, text in FORMERS.items()),
    )
    for (words, status), (ended, told, out) in zip(lines, room.many([words for words, _ in lines])):
        wrote = (ended, bool(told), out, "is of an older judge" in told)
        yield compared(" ".join(words), shown(["tools/judge.py", *words]), wrote, (status, True, "", words[-1].partition(".")[0] in FORMERS))
    yield compared("a file of something else", "looked at others.csv", (room.folder / "others.csv").read_bytes(), b"a,b\n1,2\n")


# Programs that do something else than to judge, and what is said of their jobs.
PROGRAMS = [
    ("killed", "kill -9 $$", "`mapf check` ended by signal 9"),
    ("aborted", "kill -6 $$", "`mapf check` ended by signal 6"),
    ("silent", "exit 5", "`mapf check` ended with status 5"),
    ("lying", "echo accepted", "`mapf check` ended with status 0"),
    ("group", "kill -9 0", "ended by signal 9"),
    ("sleepy", "sleep 60", f"time limit of {SECONDS} seconds"),
    ("turning", 'test "$3" = --no-rotation || kill -9 $$\necho "rejected Rotation 0 0 1 2 3"; exit 1', "`mapf check` ended by signal 9"),
]


def of_program(room: Room, name: str, script: str, fault: str) -> list[Outcome]:
    program = room.script(name, f'test "$1" = --version && exec echo mapf 0\n{script}')
    ended = room.run("one.csv", "-o", f"{name}.csv", "--seconds", str(SECONDS), program=program)
    found = [row[3:5] for row in verdicts(room.rows(f"{name}.csv"))]
    return [compared(f"a program that is {name}", f"{script}, and told {ended.err!r}", (ended.status, found), (0, [("failed", fault)]))]


def of_processes(room: Room) -> Iterator[Outcome]:
    """Programs that crash, and jobs that take too long."""
    os.mkfifo(room.folder / "fifo")
    jobs = [("lane.map", "", "behind.plan", ""), ("lane.map", "", "fifo", "")]
    room.file("slow.csv", csv_of(jobs))
    room.file("one.csv", csv_of(jobs[:1]))
    due = [(jobs[0], ACCEPTED), (jobs[1], ("failed", f"time limit of {SECONDS} seconds", "", ""))]
    yield from side_by_side(
        [
            *(functools.partial(of_program, room, *program) for program in reversed(PROGRAMS)),
            lambda: [judged(room, "a plan that nobody writes", ["slow.csv", "--seconds", str(SECONDS)], "slow.out.csv", due)],
        ]
    )
    ended = room.run("one.csv", "-o", "unstarted.csv", program=str(room.folder / "no"))
    yield compared("a program that is not there", "judge.py one.csv", (ended.status, [row[3] for row in verdicts(room.rows("unstarted.csv"))]), (0, ["failed"]))


def of_gaps(room: Room) -> Iterator[Outcome]:
    """A schedule that leaves out times, as it stands and with waits."""
    items = "".join(f"    - x: {x}\n      y: 0\n      t: {time}\n" for x, time in ((0, 0), (1, 3)))
    room.file("gap.yaml", f"schedule:\n  agent0:\n{items}".encode())
    room.file("gap.csv", csv_of([("lane.map", "", "gap.yaml", "1")]))
    for words, due in (([], ("unreadable", "", "")), (["--fill-waits"], ("accepted", "3", "3"))):
        room.run("gap.csv", "-o", "gap.out.csv", *words)
        found = [(row["verdict"], row["cost"], row["makespan"]) for row in room.rows("gap.out.csv")]
        yield compared(f"a gap, with {words}", f"judge.py gap.csv {words}", found, [due])


def of_summaries(room: Room) -> Iterator[Outcome]:
    """What the results come to over all, by map and by planner, in lines and as a page; and what a list doesn't say."""
    lines = ["planner,map,scenario,plan,agents", "PIBT,lane.map,lane.scen,behind.plan,2", "<b>,lane.map,,swap.plan,", "PIBT,square.map,,turn.plan,4"]
    room.file("planners.csv", "".join(f"{line}\n" for line in lines).encode())
    ended = room.run("planners.csv", "-o", "planners.out.csv", "--page", "page.html")
    due = [
        f"{VERSION.partition(chr(10))[0]} judges 3 plans",
        "1 of 3 jobs don't say how many agents are due, as a column agents does: a plan that lacks an agent isn't seen there",
        "3 results: 2 accepted, 1 rejected; cost 6 of 6",
        "map lane.map: 1 accepted, 1 rejected; cost 2 of 2",
        "map square.map: 1 accepted; cost 4 of 4",
        "planner <b>: 1 rejected; cost 0 of 0",
        "planner PIBT: 2 accepted; cost 6 of 6",
        "planner PIBT, accepted: 2 agents 1 of 1 (100 %), 4 agents 1 of 1 (100 %)",
    ]
    yield compared("the summary", "judge.py planners.csv", ended.err.decode(), "".join(f"judge: {line}\n" for line in due))
    text = (room.folder / "page.html").read_text(encoding="utf-8")
    cells = re.findall(r"<td[^>]*>([^<]*)</td>", text)
    wrote = ("Swap 0 1 0" in cells, "planner &lt;b&gt;" in cells, "<b>" in text, "<script" in text, "http" in text, cells.count("accepted"))
    yield compared("a page of the results", "judge.py planners.csv --page page.html", wrote, (True, True, False, False, False, 2))
    numbers = re.findall(r'<td class="number">(1\.0000|Rotation [^<]*)</td>', text)
    yield compared("numbers on the right", "judge.py planners.csv --page page.html", numbers, ["1.0000", "1.0000"])


def outcomes(harness: Harness) -> Iterator[Outcome]:
    room = judge_room(harness)
    yield from of_each_verdict(room)
    yield from of_names(room)
    yield from of_uploads(room)
    yield from of_bad_lists(room)
    yield from of_processes(room)
    yield from of_summaries(room)
    yield from of_gaps(room)
    yield from judging_costs.outcomes(room)
    yield from judging_again.outcomes(room)
    yield from judging_planners.outcomes(room)
    yield from judging_proofs.outcomes(room)
    yield from judging_pages.outcomes(room)
