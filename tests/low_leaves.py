"""Leaves of proofs that are too low, shown to people: what is asked of each agent, and what it costs at least.

All that is due here is reckoned by hand."""
from typing import Iterator, NamedTuple, Sequence

from harness import Ended, Harness, Outcome, ended_as, shown
from texts import HALL, plan

# Two that cross HALL, each in its own row.
CROSSING = plan("0 0 eee", "3 1 www")
SENTENCE = "Under what the nodes above the leaf ask, the agents by themselves cost so much at least, which is below the bound.\n"


class Leaf(NamedTuple):
    name: str
    map_text: str
    plan_text: str
    objective: str
    bound: int
    # The lines of the tree up to the leaf, which is the last.
    tree: str
    least: int
    said: str

    @property
    def line(self) -> int:
        """The line of the leaf, behind the head's three."""
        return 3 + len(self.tree.split(", "))

    @property
    def proof(self) -> str:
        return f"mapf-proof 1\nobjective {self.objective}\nbound {self.bound}\n" + self.tree.replace(", ", "\n") + "\n"


def row(width: int) -> str:
    """A map of two free rows."""
    return f"type octile\nheight 2\nwidth {width}\nmap\n" + f"{'.' * width}\n" * 2


def side_by_side_down(agents: int) -> str:
    """A plan in which each of so many goes from the upper row to the lower."""
    return plan(*(f"{agent} 0 s" for agent in range(agents)))


LEAVES = [
    Leaf(
        "the root",
        HALL,
        CROSSING,
        "cost",
        7,
        "leaf",
        6,
        "Agent 0 costs at least 3: nothing is asked of it.\n"
        "Agent 1 costs at least 3: nothing is asked of it.\n"
        "Together 6, and the bound is 7.\n",
    ),
    # Agent 0 waits once, and so does agent 1.
    Leaf(
        "what first children ask",
        HALL,
        CROSSING,
        "cost",
        9,
        "at 0 1 1 0, goes 0 0 0 0 0 1, stays 0 3, swap 0 1 1 0 1 1 1, vertex 1 0 2 1 1, leaf",
        8,
        "Agent 0 costs at least 4: it is not in 1 0 at time 1;\n"
        "  it does not go from 0 0 to 0 1 in step 0; its cost is above 3;\n"
        "  it does not go from 0 1 to 1 1 in step 1.\n"
        "Agent 1 costs at least 4: it is not in 1 1 at time 2.\n"
        "Together 8, and the bound is 9.\n",
    ),
    # The leaves before stand: agent 0 has no walk, or has to wait once.
    Leaf(
        "what second children ask, deep in a tree",
        HALL,
        CROSSING,
        "cost",
        7,
        "at 0 0 0 0, leaf, goes 0 0 0 0 1 0, leaf, stays 0 3, leaf, vertex 0 1 2 2 0, leaf, leaf",
        6,
        "Agent 0 costs at least 3: it is in 0 0 at time 0; it is in 0 0 at time 0;\n"
        "  it is in 1 0 at time 1; its cost is at most 3.\n"
        "Agent 1 costs at least 3: it is not in 0 0 at time 0;\n"
        "  it is not in 0 0 at time 0; it is not in 1 0 at time 1;\n"
        "  it does not go from 1 0 to 0 0 in step 0; it is not in 3 0 at time 3 or later;\n"
        "  it is not in 2 0 at time 2.\n"
        "Together 6, and the bound is 7.\n",
    ),
    # The leaf before stands: agent 1 has to wait once.
    Leaf(
        "the second child of a swap",
        HALL,
        CROSSING,
        "cost",
        7,
        "swap 1 0 1 2 1 1 1, leaf, leaf",
        6,
        "Agent 0 costs at least 3: it does not go from 1 1 to 2 1 in step 1.\n"
        "Agent 1 costs at least 3: nothing is asked of it.\n"
        "Together 6, and the bound is 7.\n",
    ),
    Leaf(
        "a makespan",
        HALL,
        CROSSING,
        "makespan",
        5,
        "at 0 1 1 0, leaf",
        4,
        "Agent 0 costs at least 4: it is not in 1 0 at time 1.\n"
        "Agent 1 costs at least 3: nothing is asked of it.\n"
        "The greatest is 4, and the bound is 5.\n",
    ),
    Leaf(
        "much of one agent",
        HALL,
        CROSSING,
        "cost",
        7,
        "".join(f"at 0 {time} 2 1, " for time in range(25)) + "leaf",
        6,
        "Agent 0 costs at least 3: it is not in 2 1 at time 0;\n"
        + "".join(f"  it is not in 2 1 at time {time}; it is not in 2 1 at time {time + 1};\n" for time in range(1, 19, 2))
        + "  it is not in 2 1 at time 19; and 5 more.\n"
        "Agent 1 costs at least 3: nothing is asked of it.\n"
        "Together 6, and the bound is 7.\n",
    ),
    Leaf(
        "30 agents, of two of whom something is asked",
        row(30),
        side_by_side_down(30),
        "cost",
        40,
        "at 4 1 4 1, at 9 0 0 0, leaf",
        31,
        "Agent 4 costs at least 2: it is not in 4 1 at time 1.\n"
        "Agent 9 costs at least 1: it is not in 0 0 at time 0.\n"
        "Nothing is asked of 28 agents: together at least 28.\n"
        "Together 31, and the bound is 40.\n",
    ),
    Leaf(
        "30 agents, and a makespan",
        row(30),
        side_by_side_down(30),
        "makespan",
        3,
        "at 4 1 4 1, leaf",
        2,
        "Agent 4 costs at least 2: it is not in 4 1 at time 1.\n"
        "Nothing is asked of 29 agents: the greatest is at least 1.\n"
        "The greatest is 2, and the bound is 3.\n",
    ),
    Leaf(
        "21 agents, of all of whom something is asked",
        row(21),
        side_by_side_down(21),
        "cost",
        22,
        "at 0 0 0 0, leaf, leaf",
        21,
        "Agent 0 costs at least 1: it is in 0 0 at time 0.\n"
        + "".join(f"Agent {agent} costs at least 1: it is not in 0 0 at time 0.\n" for agent in range(1, 20))
        + "Something is asked of 1 other agent: together at least 1.\n"
        "Together 21, and the bound is 22.\n",
    ),
    Leaf(
        "21 agents, of none of whom anything is asked",
        row(21),
        side_by_side_down(21),
        "cost",
        22,
        "leaf",
        21,
        "Nothing is asked of 21 agents: together at least 21.\nTogether 21, and the bound is 22.\n",
    ),
    Leaf("no agents", HALL, plan(), "cost", 1, "leaf", 0, "Together 0, and the bound is 1.\n"),
]


def told(leaf: Leaf, proof: str, said: str) -> Ended:
    """How `optimal` ends on the leaf, and what it says of it, with the proof's path."""
    words = f"refused LeafTooLow {leaf.line} {leaf.least}\n"
    return Ended(1, words.encode("ascii"), f"{proof}:{leaf.line}, read as a proof:\n{said}".encode("ascii"))


def explained(harness: Harness, leaf: Leaf) -> Sequence[Outcome]:
    """The leaf is shown behind what its fault means."""
    folder = harness.folder({"M": leaf.map_text.encode(), "P": leaf.plan_text.encode(), "T": leaf.proof.encode()})
    words = ["optimal", "M", "P", "T", "--explain"]
    ran = f"{shown(['mapf', *words])}  with T as {leaf.proof!r:.200}"
    return [ended_as(f"a leaf that is too low: {leaf.name}", ran, harness.mapf(words, folder=folder), told(leaf, "T", SENTENCE + leaf.said))]


def not_read_again(harness: Harness, leaf: Leaf) -> Iterator[Outcome]:
    """Where one of the files is a pipe, the leaf is left out; `-` is a file of that name."""
    texts = {"M": leaf.map_text.encode(), "P": leaf.plan_text.encode(), "T": leaf.proof.encode()}
    lineless = "It can't be read once more here, so its line isn't shown.\n" + SENTENCE
    for name, given in texts.items():
        for path, text, due in (
            ("/dev/stdin", given, told(leaf, "/dev/stdin", lineless) if name == "T" else told(leaf, "T", SENTENCE)),
            ("-", b"", told(leaf, "-" if name == "T" else "T", SENTENCE + leaf.said)),
        ):
            words = ["optimal", *(path if file == name else file for file in texts), "--explain"]
            folder = harness.folder({**texts, "-": given})
            yield ended_as(f"a leaf that is too low, where {name} is {path}", shown(["mapf", *words], text), harness.mapf(words, text, folder), due)


def outcomes(harness: Harness) -> Iterator[Outcome]:
    for leaf in LEAVES:
        yield from explained(harness, leaf)
    yield from not_read_again(harness, LEAVES[0])
