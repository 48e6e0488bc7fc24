#!/usr/bin/env python3
"""Vectors of `rows`, of `bound` with `check --bound`, of `check --all` and `--no-rotation`, and of `optimal`, by the plain models of scenarios.py, listing.py
and proving.py.

Usage: scenario_vectors.py KIND > vectors/KIND.jsonl      (KIND: rows, bound, faults, optimal)
The same vectors come each time.
"""
import itertools
import json
import sys
from typing import Callable, Iterator

sys.dont_write_bytecode = True
from listing import calls as fault_calls  # noqa: E402
from proving import calls as proof_calls  # noqa: E402
from scenarios import Call, bound_calls, row_calls  # noqa: E402

KINDS: dict[str, Callable[[int], Iterator[Call]]] = {"rows": row_calls, "bound": bound_calls, "faults": fault_calls, "optimal": proof_calls}
COUNT = 300


def vector(call: Call) -> str:
    words, files, due = call
    answer = {"status": due.status, "stdout": due.out.decode("latin-1"), "stderr": due.err.decode("latin-1")}
    return json.dumps({"words": words, "files": files, **answer})


def main(words: list[str]) -> int:
    if len(words) != 1 or words[0] not in KINDS:
        print(f"usage: scenario_vectors.py {{{','.join(KINDS)}}}", file=sys.stderr)
        return 2
    made = itertools.chain.from_iterable(KINDS[words[0]](seed) for seed in itertools.count(1))
    for call in itertools.islice(made, COUNT):
        print(vector(call))
    return 0


if __name__ == "__main__":
    sys.exit(main(sys.argv[1:]))
