#!/usr/bin/env python3
"""Writes down all messages of VDA 5050 that go over a broker, as lines of JSON: the time since 1970, the topic, and the payload as text. A line
without a topic says that it was connected just then, so that some before may be missing.

Usage: recorder.py HOST:PORT FILE
"""
import json
import sys
import time
from typing import Sequence

sys.dont_write_bytecode = True
import beside  # noqa: E402, F401
from addresses import address  # noqa: E402
from bus import Bus, Post  # noqa: E402
from leaving import heed_signals  # noqa: E402

PATIENCE, LOOK = 60, 1


def record(broker: str, path: str) -> None:
    bus = Bus(address(broker), "recorder", ["uagv/v2/#"])
    with open(path, "a", encoding="utf-8") as file:

        def note(post: Post) -> None:
            line = {"wall": round(time.time(), 6), "topic": post.topic, "payload": post.payload.decode(errors="replace")}
            file.write(f"{json.dumps(line)}\n")
            file.flush()

        bus.greet = lambda: note(Post("", b""))
        bus.reach(PATIENCE)
        while True:
            bus.work(LOOK)
            for post in bus.received():
                note(post)


def main(words: Sequence[str]) -> None:
    broker, path = words
    record(broker, path)


if __name__ == "__main__":
    heed_signals()
    main(sys.argv[1:])
