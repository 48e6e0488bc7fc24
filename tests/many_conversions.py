"""Runs tools/convert.py, judge.py or rows.py on many command lines in one process, since each process of its own would take longer than its work.

Usage: many_conversions.py < CALLS
Each line of the input is a JSON object with the words, and perhaps the folder in which the call is made and the tool's name; the answer is a line
with the status, standard error and standard output, as JSON.
"""
import contextlib
import io
import json
import os
import pathlib
import sys
import tempfile

sys.dont_write_bytecode = True
sys.path.insert(0, str(pathlib.Path(__file__).resolve().parent.parent / "tools"))
import convert  # noqa: E402
import judge  # noqa: E402
import rows  # noqa: E402

TOOLS = {"convert": convert.main, "judge": judge.main, "rows": rows.main}


def ran(words: list[str], folder: str = "", tool: str = "convert") -> tuple[int, str, str]:
    if folder:
        os.chdir(folder)
    told, out = io.StringIO(), os.dup(1)
    with tempfile.TemporaryFile() as file:
        os.dup2(file.fileno(), 1)
        with contextlib.redirect_stderr(told):
            try:
                status = TOOLS[tool](words)
            except SystemExit as left:
                status = left.code
        os.dup2(out, 1)
        os.close(out)
        file.seek(0)
        return status, told.getvalue(), file.read().decode("latin-1")


if __name__ == "__main__":
    for line in sys.stdin:
        print(json.dumps(ran(**json.loads(line))), flush=True)
