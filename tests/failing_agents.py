"""A program in place of mapf whose agents fail at times, as on a disk that is full or where processes are killed."""
import dataclasses
import pathlib
import sys

from harness import Harness, put_program

PROGRAM = """#!{python}
import os, random, subprocess, sys
program = {program!r}
if sys.argv[1] != "agent":
    os.execv(program, [program, *sys.argv[1:]])
if random.random() < {unopened}:
    print("mapf: TapeFailed", file=sys.stderr)
    sys.exit(3)

def tear(tape):
    size = os.path.getsize(tape) - random.randint(1, 10)
    os.truncate(tape, size)
    if size < 10:
        # No record was stored yet, and so there is no mark of one.
        with open(tape + ".plan", "r+b") as beside:
            beside.seek(12)
            beside.write(b"-")

# A robot's lock is the agent's too.
agent = subprocess.Popen([program, *sys.argv[1:]], stdin=subprocess.PIPE, stdout=subprocess.PIPE, close_fds=False)
first = agent.stdout.readline()
if not first:
    sys.exit(agent.wait())
sys.stdout.buffer.write(first)
sys.stdout.flush()
for line in sys.stdin.buffer:
    agent.stdin.write(line)
    agent.stdin.flush()
    answer, what = agent.stdout.readline(), ""
    if answer.startswith((b"moving", b"arrived")):
        what = random.choices(["", *{chances}], [1 - sum({chances}.values()), *{chances}.values()])[0]
    if what:
        agent.stdin.close()
        agent.wait()
        if what in ("torn", "lost"):
            tear(sys.argv[5])
        if what == "both":
            os.kill(os.getppid(), 9)
        if what in ("both", "killed", "torn"):
            os.kill(os.getpid(), 9)
        print("refused StoreFailed", flush=True)
        sys.exit(3)
    sys.stdout.buffer.write(answer)
    sys.stdout.flush()
"""


@dataclasses.dataclass(frozen=True)
class Chances:
    """How often an agent fails: its tape isn't opened; behind a record, before anybody is told of it, it is killed, with its robot or without; it
    is killed while the record is written; or it says that the record wasn't stored, which is so or not."""

    unopened: float = 0
    both: float = 0
    killed: float = 0
    torn: float = 0
    lost: float = 0
    stored: float = 0


def failing_program(harness: Harness, chances: Chances) -> pathlib.Path:
    program = harness.folder() / "mapf"
    kinds = dataclasses.asdict(chances)
    words = {"python": sys.executable, "program": str(harness.program), "unopened": kinds.pop("unopened"), "chances": kinds}
    put_program(program, PROGRAM.format(**words))
    return program
