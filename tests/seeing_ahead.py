"""A program in place of mapf whose agents don't know the question `may N`."""
import sys

from harness import Harness, put_program

PROGRAM = """#!{python}
import os, signal, subprocess, sys
program = {program!r}
if sys.argv[1] != "agent":
    os.execv(program, [program, *sys.argv[1:]])

# Who asks may be killed.
signal.signal(signal.SIGPIPE, signal.SIG_DFL)
# A lock is the agent's too.
words = [program, *sys.argv[1:]]
process = subprocess.Popen(words, stdin=subprocess.PIPE, stdout=subprocess.PIPE, close_fds=False)
answer = process.stdout.readline().decode()
if not answer:
    sys.exit(process.wait())
print(answer, end="", flush=True)
for line in sys.stdin:
    answer = "refused BadLine\\n"
    if not line.startswith("may"):
        process.stdin.write(line.encode())
        process.stdin.flush()
        answer = process.stdout.readline().decode()
    if not answer:
        break
    print(answer, end="", flush=True)
process.stdin.close()
sys.exit(process.wait())
"""


def program_that_does_not(harness: Harness) -> str:
    program = harness.folder() / "mapf"
    put_program(program, PROGRAM.format(python=sys.executable, program=str(harness.program)))
    return str(program)
