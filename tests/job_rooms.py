"""Folders of jobs, and calls of a tool that makes one table of them: tools/judge.py, or tools/rows.py."""
import csv
import io
import json
import os
import random
import signal
import subprocess
import sys
import time
from typing import Mapping, Sequence

import converting
from harness import ROOT, Ended, Harness, put_program

# How often a call is stopped.
STOPS = 8
Row = dict[str, str]


class Room:
    """A folder of texts, and calls of a tool in it."""

    def __init__(self, harness: Harness, tool: str, texts: Mapping[str, str]):
        self.harness = harness
        self.tool = tool
        self.folder = harness.folder({name: text.encode() for name, text in texts.items()})

    def file(self, name: str, content: bytes) -> str:
        (self.folder / name).write_bytes(content)
        return name

    def script(self, name: str, lines: str) -> str:
        """A program of the shell."""
        path = self.folder / name
        put_program(path, f"#!/bin/sh\n{lines}\n")
        return str(path)

    def words(self, *words: str, program: str = "") -> list[str]:
        return [sys.executable, str(ROOT / "tools" / f"{self.tool}.py"), "--jobs", "2", *words, "--program", program or str(self.harness.program)]

    def many(self, calls: Sequence[Sequence[str]]) -> list[tuple[int, str, str]]:
        """Calls that end before any job is begun, made by one process."""
        words = [[*call, "--processes", "2", "--program", str(self.harness.program)] if "--processes" not in call else call for call in calls]
        return converting.many(self.harness, [{"words": it, "folder": str(self.folder), "tool": self.tool} for it in words])

    def run(self, *words: str, program: str = "") -> Ended:
        return self.harness.run(self.words(*words, program=program), folder=self.folder)

    def rows(self, name: str) -> list[Row]:
        text = (self.folder / name).read_text(encoding="utf-8") if (self.folder / name).exists() else ""
        return [json.loads(line) for line in text.splitlines()] if name.endswith("l") else list(csv.DictReader(io.StringIO(text)))


def stopped(room: Room, words: Sequence[str], output: str, torn: bytes) -> tuple[int, int]:
    """Makes a call again and again, and stops it when it has come a few jobs further, perhaps with its last line torn, until it comes to its end.
    How often it was made, and stopped."""
    rng, path, stops = random.Random(39), room.folder / output, 0
    for turn in range(STOPS * 10):
        process = subprocess.Popen(words, cwd=room.folder, stderr=subprocess.PIPE, start_new_session=True)
        kind = rng.choice((signal.SIGKILL, signal.SIGTERM, signal.SIGINT))
        before = len(room.rows(output))
        while process.poll() is None and (len(room.rows(output)) < before + 3 or stops >= STOPS):
            time.sleep(0.002)
        if process.poll() is None:
            process.send_signal(kind)
            stops += 1
        process.communicate()
        if process.returncode == 0:
            break
        if kind == signal.SIGKILL and rng.random() < 0.5:
            with open(path, "ab") as file:
                file.write(torn)
    return turn + 1, stops
