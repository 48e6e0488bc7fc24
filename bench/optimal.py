"""Measures programs that check proofs that no plan costs less."""
import dataclasses
import pathlib
import subprocess
import sys
from typing import Sequence

import generate
import proofs
from plain_formats import plan_text
from timing import Bench, whole_peak_memory

TOOLS = pathlib.Path(__file__).resolve().parent.parent / "tools"


@dataclasses.dataclass(frozen=True)
class Pairs:
    """Agents of whom so many pairs cross, when they do, and how often the tree by these pairs comes
    up in a proof."""

    side: int
    agents: int
    count: int
    time: int
    copies: int


PAIRS = (Pairs(32, 20, 10, 11, 49), Pairs(512, 100, 9, 101, 1))
# Scenarios of so many agents on maps of such a side, by their seeds, of which the planner has so
# long for a proof. It is repeated until it has so many nodes.
PLANNED_SEEDS, PLANNED_SIDE, PLANNED_AGENTS = (1, 2, 3), 32, 20
PLANNED_SECONDS, PLANNED_NODES = 10, 100_000


def measure_proof(bench: Bench, name: str, texts: tuple[str, str, str]) -> None:
    """Measures programs that check a proof that no plan costs less, by its map, plan and text."""
    paths = bench.files("proof", "map", "plan", "proof")
    for path, text in zip(paths, texts):
        path.write_text(text)
    commands = bench.commands(["optimal", *map(str, paths)])
    measured = bench.measure_alike(f"optimal {name}", commands)
    most = [whole_peak_memory(it) for it in commands]
    nodes = texts[2].count("\n") - 3
    bench.report(f"optimal {name}", measured, most, ("proofs", f"{nodes:,} nodes, {name}"))


def map_of(rows: Sequence[str]) -> str:
    return "\n".join(["type octile", f"height {len(rows)}", f"width {len(rows[0])}", "map", *rows, ""])


def rows_of(map_text: str) -> list[str]:
    return map_text.split("\n")[4:-1]


def measure_pairs(bench: Bench, pairs: Pairs) -> None:
    side = pairs.side
    crossing = proofs.Crossing(side, pairs.count, pairs.time)
    rows = crossing.clear(rows_of(generate.map_text("sparse", side, side, 1)))
    walks = proofs.walks_beside(rows, crossing.walks(), 1, pairs.agents)
    bound = sum(len(walk) - 1 for walk in walks)
    tree = proofs.tree(crossing.split_lines())
    lines = proofs.repeated(tree, pairs.copies, rows, pairs.agents)
    texts = map_of(rows), plan_text(walks, 7), proofs.proof_text(bound, lines)
    measure_proof(bench, f"pairs of {pairs.agents} agents on {side} x {side}", texts)


def measure_planned(bench: Bench, seed: int) -> None:
    """Measures them with a proof of `tools/prove.py`."""
    side, agents = PLANNED_SIDE, PLANNED_AGENTS
    rows = rows_of(generate.map_text("dense", side, side, seed))
    paths = bench.files("planned", "map", "scen", "plan", "proof")
    paths[0].write_text(map_of(rows))
    paths[1].write_text(proofs.scenario_text(rows, seed, agents))
    words = [sys.executable, str(TOOLS / "prove.py"), str(paths[0]), str(paths[1])]
    words += [str(agents), "-o", *map(str, paths[2:]), "--seconds", str(PLANNED_SECONDS)]
    if subprocess.run(words, stdout=subprocess.DEVNULL).returncode not in (0, 1):
        sys.exit(f"there is no proof of a plan of scenario {seed}")
    head, tree = proofs.parts_of(paths[3].read_text())
    lines = proofs.repeated(tree, max(1, PLANNED_NODES // len(tree)), rows, agents)
    texts = map_of(rows), paths[2].read_text(), "\n".join([*head, *lines, ""])
    measure_proof(bench, f"planned, {agents} agents on {side} x {side}, scenario {seed}", texts)


def measure_proofs(bench: Bench) -> None:
    for pairs in PAIRS:
        measure_pairs(bench, pairs)
    for seed in PLANNED_SEEDS:
        measure_planned(bench, seed)
