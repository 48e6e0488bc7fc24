"""Messages that an agent hears, of both versions: cut anywhere, and with each byte changed, beside a plain reading of the same bytes; and what agents
tell by what they heard."""
from typing import Iterator, Sequence

import free_ways
from harness import Harness, Outcome
from texts import BACK, BEHIND, LANE, plan

# A row of six free cells, and three agents on it that wait for nobody, with how many moves each makes.
LONG_LANE = "type octile\nheight 1\nwidth 6\nmap\n......\n"
APART = plan("0 0 e", "2 0 ew", "4 0 e")
MOVES = (1, 2, 1)

# Messages of agents that know of none, one, two and three of them, and one of version 1.
MESSAGES = [
    "46020001000000070000",
    "46020000000000070001000000000001",
    "46020002000000070002000100000001000200000001",
    "46020001000000070003000000000001000100000002000200000001",
    "460100010000000700000002",
]
# What agent 0 hears before each of them: a move of agent 1.
BEFORE = "460100010000000700000001"

Turns = Sequence[tuple[str, str]]

# Messages that agents say: agent 0 of one move, agent 2 of one move, and of both; and what agent 1 tells behind them.
FIRST, THIRD, BOTH = "460100000000000700000001", "460100020000000700000001", "46020002000000070002000000000001000200000001"
FIRST_TELLS = "46020000000000070001000000000001"
SECOND_TELLS = ("tell", "said 46020001000000070002000000000001000200000001")
NOTHING_TOLD = ("tell", "said 46020001000000070000")
ITSELF_TOLD = ("tell", "said 46020001000000070001000100000001")

# Dialogues: the map, the plan, the agent, and lines with their answers.
DIALOGUES: list[tuple[str, str, int, Turns]] = [
    # Others are heard in any order.
    (LONG_LANE, APART, 1, [(f"hear {FIRST}", "heard 0 1"), (f"hear {THIRD}", "heard 2 1"), SECOND_TELLS]),
    (LONG_LANE, APART, 1, [(f"hear {THIRD}", "heard 2 1"), (f"hear {FIRST}", "heard 0 1"), SECOND_TELLS]),
    (LONG_LANE, APART, 1, [(f"hear {THIRD}", "heard 2 1"), (f"hear {FIRST_TELLS}", "heard 0 1"), SECOND_TELLS]),
    (LONG_LANE, APART, 1, [(f"hear {BOTH}", "heard 2 1"), SECOND_TELLS]),
    # What others say of an agent is not what it says of itself. At last agent 2 tells of agent 1, and nothing of itself.
    (
        LONG_LANE,
        APART,
        1,
        [
            ("hear 460100010000000700000002", "heard 1 2"),
            NOTHING_TOLD,
            ("start", "moving 3 0"),
            NOTHING_TOLD,
            ("finish", "arrived 3 0"),
            ITSELF_TOLD,
            ("hear 46020002000000070001000100000002", "heard 2 0"),
            ITSELF_TOLD,
        ],
    ),
    # An agent that was heard to have made no move is not told of.
    (LONG_LANE, APART, 1, [("hear 460100000000000700000000", "heard 0 0"), NOTHING_TOLD, (f"hear {BOTH}", "heard 2 1"), SECOND_TELLS]),
    # Agent 1 has made both its moves, which lesser numbers don't change, and those beside them are heard.
    (
        LONG_LANE,
        APART,
        0,
        [
            ("hear 46020001000000070001000100000002", "heard 1 2"),
            ("hear 46020001000000070001000100000001", "heard 1 2"),
            ("hear 46020002000000070002000100000001000200000001", "heard 2 1"),
            ("hear 460100010000000700000000", "heard 1 2"),
            ("tell", "said 46020000000000070002000100000002000200000001"),
        ],
    ),
    # Old news comes late, and twice.
    (
        LANE,
        BACK,
        1,
        [("hear 460100000000000700000002", "heard 0 2"), *[("hear 460100000000000700000001", "heard 0 2")] * 2, ("start", "refused AtEnd")],
    ),
    # An agent hears of itself as of any other.
    (LANE, BEHIND, 0, [("hear 460100010000000700000002", "refused TooMany"), ("hear 460100000000000700000001", "heard 0 1")]),
]

# Messages that are not heard, each with all faults that come later too.
REFUSED = [
    ("46020003000000080002000300000009000300000001", "BadEntry 1"),
    ("46020003000000080001000300000009", "WrongPlan"),
    ("46020003000000070001000100000003", "NoSuchAgent"),
    ("46020003000000070000", "NoSuchAgent"),
    # An agent that there isn't, behind one with too many moves and behind one that could be heard of.
    ("46020002000000070002000100000003000300000001", "NoSuchAgent"),
    ("46020002000000070002000200000001ffff00000001", "NoSuchAgent"),
    # Too many moves, behind and before an entry that could be heard.
    ("46020002000000070002000100000002000200000002", "TooMany"),
    ("46020002000000070002000100000003000200000001", "TooMany"),
]


def number(digits: bytes) -> int:
    return int.from_bytes(digits, "big")


def entries_of(message: bytes) -> list[tuple[int, int]]:
    """Whom a message tells of, each with the number of finished moves."""
    if message[1] == 1:
        return [(number(message[2:4]), number(message[8:12]))]
    return [(number(message[at : at + 2]), number(message[at + 2 : at + 6])) for at in range(10, len(message), 6)]


def fault_of(message: bytes) -> str:
    """The first test that a message fails; empty where it is heard."""
    if len(message) < 2:
        return "BadLength"
    if message[0] != 0x46:
        return "BadMagic"
    if message[1] not in (1, 2):
        return "BadVersion"
    if len(message) != (12 if message[1] == 1 else 10 + 6 * number(message[8:10])):
        return "BadLength"
    entries, before = entries_of(message), -1
    for at, (agent, done) in enumerate(entries if message[1] == 2 else []):
        if done == 0 or agent <= before:
            return f"BadEntry {at}"
        before = agent
    if number(message[4:8]) != 7:
        return "WrongPlan"
    if any(agent >= len(MOVES) for agent in (number(message[2:4]), *(agent for agent, _ in entries))):
        return "NoSuchAgent"
    return "TooMany" if any(done > MOVES[agent] for agent, done in entries) else ""


class Hearer:
    """What agent 0 knows, that makes no move."""

    def __init__(self) -> None:
        self.known = [0] * len(MOVES)

    def turns(self, message: bytes) -> Turns:
        """It hears a message, and tells of others what it knows."""
        answer = f"refused {fault_of(message)}"
        if not fault_of(message):
            for agent, done in entries_of(message):
                self.known[agent] = max(done, self.known[agent])
            answer = f"heard {number(message[2:4])} {self.known[number(message[2:4])]}"
        others = [f"{agent:04x}{done:08x}" for agent, done in enumerate(self.known) if agent and done]
        return [(f"hear {message.hex()}", answer), ("tell", f"said 460200000000000700{len(others):02x}{''.join(others)}")]


def talk(harness: Harness, name: str, map_text: str, plan_text: str, agent: int, turns: Turns) -> Outcome:
    """The outcome of a dialogue with an agent over a new tape: the first answer that is not due."""
    folder = harness.folder({"M": map_text.encode(), "P": plan_text.encode()})
    ended = harness.mapf(["agent", "M", "P", str(agent), "T"], "".join(f"{line}\n" for line, _ in turns).encode(), folder)
    answers = ended.out.decode("latin-1").splitlines()[1:]
    for place, ((line, due), found) in enumerate(zip(turns, answers)):
        if found != due:
            return Outcome(name, f"ran    mapf agent M P {agent} T, and line {place + 1} was {line!r}\n    wrote  {found}\n    due    {due}")
    is_whole = (ended.status, ended.err, len(answers)) == (0, b"", len(turns))
    return Outcome(name, "" if is_whole else f"ran    mapf agent M P {agent} T\n    wrote  {len(answers)} answers to {len(turns)} lines, status {ended.status}")


def changed(message: bytes) -> list[bytes]:
    """Each beginning of a message, and the message with each of its bytes changed to each other one."""
    beginnings = [message[:length] for length in range(len(message) + 1)]
    bytes_changed = [message[:at] + bytes([byte]) + message[at + 1 :] for at in range(len(message)) for byte in range(256) if byte != message[at]]
    return beginnings + bytes_changed


def of_changed_messages(harness: Harness, digits: str) -> Iterator[Outcome]:
    """Those that are refused are heard one after another, since none changes what is known; each other one is heard by an agent of its own."""
    messages = changed(bytes.fromhex(digits))
    refused = Hearer()
    turns = [turn for message in [bytes.fromhex(BEFORE), *filter(fault_of, messages)] for turn in refused.turns(message)]
    yield talk(harness, f"{digits}, changed and refused", LONG_LANE, APART, 0, turns)
    for message in messages:
        if not fault_of(message):
            hearer = Hearer()
            turns = [*hearer.turns(bytes.fromhex(BEFORE)), *hearer.turns(message)]
            yield talk(harness, f"{digits}, changed to {message.hex()}", LONG_LANE, APART, 0, turns)


def outcomes(harness: Harness) -> Iterator[Outcome]:
    for digits in MESSAGES:
        yield from of_changed_messages(harness, digits)
    for map_text, plan_text, agent, turns in DIALOGUES:
        yield talk(harness, f"agent {agent}, {turns[0][0]}", map_text, plan_text, agent, turns)
    for before, told in (([], "00"), ([("hear 46020001000000070002000000000001000100000001", "heard 1 1")], "01000100000001")):
        turns = [*before, *(turn for digits, fault in REFUSED for turn in ((f"hear {digits}", f"refused {fault}"), ("tell", f"said 460200000000000700{told}")))]
        yield talk(harness, f"messages that are refused, {len(before)} heard", LONG_LANE, APART, 0, turns)
    yield from free_ways.outcomes(harness)
