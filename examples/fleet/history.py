"""A fleet's history: what the boxes of its agents have, as one list of events of a run.

An agent's answers come from its own tape and from what it heard. So beside the order of each agent's own turns one thing alone counts
between two agents: that a message is said before it is heard. What an agent refuses counts for
nothing, whoever has said it.

The list is in the order of the times at which answers came. Where all agents ran on one machine
since it was booted, they are by its own clock, which is taken to be right: what was heard before it
was said is a fault. Else they are by the clocks on the walls, which may be off: a hear that is too
early by them waits for what it heard.
"""
import dataclasses
import heapq
import itertools
import re
from typing import Collection, Iterable, Iterator, NamedTuple, Optional, Sequence

from agent import STORE_FAILED
from dialogues import BadBox, Box, Process, Turn
from journal import NONE, RIM, WHOLE

QUESTION, UNSAID, LEFT_OUT = "question", "unsaid", "left out"
NO_MEMORY = "refused OutOfMemory"
HEAR, SAID, HEARD = "hear ", "said ", "heard "
SAYS, WRITES = ("say", "tell"), ("start", "finish")
# What changes nothing.
ASKED = re.compile(r"held|may (?:0|[1-9]\d{0,9})", re.ASCII)
FREE = "may "
# How events of a run begin.
SAY, DELIVER, RESTART = "say ", "deliver ", "restart "
OF_NOBODY, TOO_EARLY = "what nobody said", "what can't have been said before, in whatever order"
STATE = re.compile(r"(?:at (\d{1,5}) (\d{1,5})|between(?: (?:\d{1,5})){4}) done (\d{1,5})", re.ASCII)
MOVING = re.compile(r"moving (\d{1,5} \d{1,5})", re.ASCII)


def state_after(state: str, answer: str) -> str:
    """What an agent holds behind an answer, as it says it itself; nothing where its first line didn't say it."""
    words, moving = state.split() or [""], MOVING.fullmatch(answer)
    if STATE.fullmatch(answer):
        return answer
    if moving and words[0] == "at":
        return f"between {words[1]} {words[2]} {moving[1]} done {words[4]}"
    if answer.startswith("arrived ") and words[0] == "between":
        return f"at {words[3]} {words[4]} done {int(words[6]) + 1}"
    return state


def records_of(state: str) -> int:
    """How many records a tape has that says so."""
    found = STATE.fullmatch(state)
    return 2 * int(found[3]) + (found[1] is None) if found else -1


@dataclasses.dataclass
class Step:
    """An entry of the list: an event of a run; a question, `held` or `may`; a message of which
    nobody knows that it was said; what an earlier plan alone answers; or none, where the line was
    refused."""

    turn: Turn
    event: str
    # The message that is said or heard.
    digits: str = ""
    # Why it can't be: what was heard that nobody had said.
    fault: str = ""
    # Whether a write that failed has stored its record; none where no write has failed.
    stored: Optional[bool] = None

    @property
    def events(self) -> list[str]:
        """What it is as events of a run. An event before that of a write makes it fail."""
        if self.event in ("", QUESTION, UNSAID, LEFT_OUT):
            return []
        size = None if self.stored is None else WHOLE if self.stored else NONE
        tear = [] if size is None else [f"tear {self.turn.agent} {size}"]
        return [*tear, self.event]


def digits_of(turn: Turn) -> str:
    """The message that a turn says or hears, if it does."""
    if turn.asked.startswith(HEAR):
        return turn.asked[len(HEAR) :].lower()
    if turn.asked in SAYS and (turn.answer or "").startswith(SAID):
        return (turn.answer or "")[len(SAID) :]
    return turn.unanswered


def written(turn: Turn, is_stored: bool) -> list[Step]:
    """A start or a finish. Whether its record was stored, where that wasn't answered, the next process has said."""
    event = f"{turn.asked} {turn.agent}"
    if turn.answer == STORE_FAILED:
        return [Step(turn, event, stored=is_stored)]
    # Where a process was killed in a write, and less than a record is left, nothing has happened but the restart behind it, as if the write
    # had been torn. Where the record is stored, the agent has done what it was asked, and only its answer is lost: no write has failed.
    return [Step(turn, event)] if turn.answer is not None or is_stored else []


def spoken(turn: Turn, said: Collection[str]) -> Step:
    """Another call. What is refused is no event, whether it was said or not."""
    digits = digits_of(turn)
    if turn.asked in SAYS:
        is_said = turn.answer is not None or turn.unanswered
        return Step(turn, f"{SAY}{turn.agent}" if is_said else UNSAID, digits)
    if ASKED.fullmatch(turn.asked):
        return Step(turn, QUESTION)
    if not (turn.answer or "").startswith(HEARD):
        return Step(turn, "")
    if digits in said:
        return Step(turn, f"{DELIVER}{turn.agent}", digits)
    return Step(turn, "", digits, OF_NOBODY)


def counts(turn: Turn) -> bool:
    """Whether a call that writes nothing has to stand in the list. Without an answer it has changed nothing that lasts."""
    if turn.answer is None:
        return turn.asked in SAYS
    return turn.answer != NO_MEMORY or not turn.asked.startswith(("tell", HEAR))


def hangs_on_plan(turn: Turn, is_stored: bool) -> bool:
    """Whether another plan that goes on may give another answer. By whichever plan it is, then, nobody has moved."""
    if turn.answer is None:
        return False
    is_failed_start = (turn.asked, turn.answer) == ("start", STORE_FAILED) and not is_stored
    return is_failed_start or turn.answer.startswith(RIM) or turn.asked.startswith(FREE)


def steps_of(box: Box, said: Collection[str] = ()) -> Iterator[Step]:
    """What happened to an agent, in order."""
    state, opened = "", box.opened
    for process, after in itertools.zip_longest(opened, opened[1:]):
        for turn in process.turns:
            if turn is process.turns[0]:
                yield Step(turn, f"{RESTART}{box.agent}")
            elif process.is_earlier and hangs_on_plan(turn, has_stored(state, after)):
                yield Step(turn, LEFT_OUT)
            elif turn.asked in WRITES:
                yield from written(turn, has_stored(state, after))
            elif counts(turn):
                yield spoken(turn, said)
            state = state_after(state, turn.answer or "")


def by_process(steps: Iterable[Step]) -> list[list[Step]]:
    """The steps of an agent, apart for each of its processes."""
    found: list[list[Step]] = []
    for step in steps:
        if step.event.startswith(RESTART):
            found.append([])
        found[-1].append(step)
    return found


def has_stored(state: str, after: Optional[Process]) -> bool:
    """Whether the next process found a record more. Where none follows, nothing hangs on it."""
    return after is not None and records_of(after.first or "") == records_of(state) + 1


class Said(NamedTuple):
    """A message: its number, as a run counts, who said it first, and when."""

    number: int
    agent: int
    at: float


class Order:
    """Puts the steps of all agents into one list."""

    def __init__(self, steps: Sequence[Sequence[Step]], is_one_clock: bool):
        self.steps, self.is_one_clock = [it for it in steps if it], is_one_clock
        # The next step of each agent that may go on, by its time, and of those that wait for a message.
        self.next = [(self.time(own[0]), agent, 0) for agent, own in enumerate(self.steps)]
        self.waiting: dict[str, list[tuple[float, int, int]]] = {}
        self.messages: dict[str, Said] = {}
        self.said = 0
        # How much earlier a message was heard than said, by the clocks.
        self.most_early = 0.0
        heapq.heapify(self.next)

    def time(self, step: Step) -> float:
        return step.turn.at.clock if self.is_one_clock else step.turn.at.wall

    def all(self) -> Iterator[Step]:
        while self.next or self.waiting:
            if not self.next:
                self._let_one_go()
            at = heapq.heappop(self.next)
            _, agent, place = at
            step = self.steps[agent][place]
            if step.event.startswith(DELIVER) and step.digits not in self.messages:
                self.waiting.setdefault(step.digits, []).append(at)
                continue
            self._take(step)
            yield step
            if place + 1 < len(self.steps[agent]):
                heapq.heappush(self.next, (self.time(self.steps[agent][place + 1]), agent, place + 1))

    def _take(self, step: Step) -> None:
        """Gives a message its number, or tells a hear which it was."""
        if step.event.startswith(SAY):
            self.messages.setdefault(step.digits, Said(self.said, step.turn.agent, self.time(step)))
            self.said += 1
            for at in self.waiting.pop(step.digits, []):
                heapq.heappush(self.next, at)
        elif step.event.startswith(DELIVER):
            said = self.messages[step.digits]
            early = said.at - self.time(step)
            self.most_early = max(self.most_early, early)
            step.event += f" {said.number}"
            if early > 0 and self.is_one_clock:
                step.fault = f"what agent {said.agent} said {early:.6f} seconds later"

    def _let_one_go(self) -> None:
        """All wait for one another: the first of them has heard what can't have been said before."""
        at, digits = min((at, digits) for digits, own in self.waiting.items() for at in own)
        self.waiting[digits].remove(at)
        if not self.waiting[digits]:
            del self.waiting[digits]
        step = self.steps[at[1]][at[2]]
        step.event, step.fault = "", TOO_EARLY
        heapq.heappush(self.next, at)


@dataclasses.dataclass
class History:
    """The list, and by how many seconds the clocks contradict it."""

    steps: list[Step]
    most_early: float

    def text(self) -> str:
        """A text of events, if all messages are of one version."""
        asked = {it.turn.asked for it in self.steps if it.event.startswith(SAY)}
        if len(asked) > 1:
            why = "these agents `say` and `tell`, and a run has one version of messages"
            raise BadBox(f"MixedVersions: {why}")
        events = [event for step in self.steps for event in step.events]
        return "\n".join([f"mapf-events {2 if 'tell' in asked else 1}", *events, ""])


def history_of(boxes: Sequence[Box]) -> History:
    """The list."""
    boots = {str(process.about.get("boot", "")) for box in boxes for process in box.processes}
    said = {digits_of(turn) for box in boxes for turn in box.calls if turn.asked in SAYS} - {""}
    steps = [list(steps_of(box, said)) for box in boxes]
    order = Order(steps, len(boots) == 1 and boots != {""})
    return History(list(order.all()), order.most_early)


def find_unanswered(boxes: Sequence[Box]) -> None:
    """Takes a message whose answer never came for said if somebody has heard it."""
    calls = [turn for box in boxes for turn in box.calls]
    missing = [turn for turn in calls if turn.answer is None and turn.asked in SAYS]
    heard = {step.digits for step in history_of(boxes).steps if step.fault} if missing else set()
    for turn in missing:
        digits = (turn.due or "").partition(SAID)[2]
        turn.unanswered = digits if digits in heard else ""
