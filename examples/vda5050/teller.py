"""The agent of a vehicle: asked and told by the master control, and started again whenever it ends."""
import contextlib
import time
from typing import Optional, Sequence

import beside  # noqa: F401
from agent import STALE_TAPE, STORE_FAILED, Agent, Ended, Unfit
from alarms import Alarm
from black_box import Note

# Seconds after which an agent that has ended is started again, and one that didn't start for a fault that may pass. Where its tape can't be stored the
# first double, up to these.
PAUSE, LATER, LONGEST_PAUSE = 0.05, 1.0, 30.0
# The status of a fault of files and devices; no start mends those below.
OF_FILES = 3
# What is taken for the answer of an agent that has ended.
GONE = "refused Gone"


class Teller:
    """What its agent has stored: how many moves it has finished, and whether it has begun one more."""

    def __init__(self, words: Sequence[str], files: Sequence[int], note: Note, alarm: Alarm):
        self.words, self.files, self.note, self.alarm = words, files, note, alarm
        self.agent: Optional[Agent] = None
        self.starts_at, self.pause = 0.0, PAUSE
        self.done, self.is_between, self.is_over = 0, False, False
        # How many moves behind the one that is begun would be allowed too, as far as that was asked.
        self.more: Optional[int] = None
        self.knows_may = True
        # Whether anything has changed since a start was refused.
        self.may_start = True
        # What it has said last, and what it has heard since it was started.
        self.said = b""
        self.heard: set[bytes] = set()

    def keep(self, now: float) -> bool:
        """Starts the agent where there is none, and answers whether that was done now."""
        if self.agent or self.is_over or now < self.starts_at:
            return False
        try:
            self.agent = Agent(self.words, self.files, self.note)
        except Ended:
            self.starts_at = now + PAUSE
            return False
        except Unfit as fault:
            self.alarm(f"{fault}: {fault.fault}")
            self.is_over, self.starts_at = fault.status != OF_FILES, now + LATER
            return False
        first = self.agent.first.split()
        self.done, self.is_between = int(first[-1]), first[0] == "between"
        self.may_start, self.more, self.knows_may, self.heard = True, None, True, set()
        self.say()
        return True

    def end(self) -> None:
        """Waits until the agent has ended, and has it started again a little later."""
        if self.agent:
            agent, self.agent = self.agent, None
            agent.end()
            self.starts_at = time.monotonic() + self.pause

    def try_plan(self) -> None:
        """Raises `Unfit` where its agent doesn't take the plan that is there now."""
        self.end()
        with contextlib.suppress(Ended):
            Agent(self.words, self.files, self.note).end()

    def go_over(self) -> None:
        """Has an agent started by another plan, whatever was wrong with the one before."""
        self.end()
        self.is_over = False

    def ask(self, line: str) -> list[str]:
        """The words of its answer. One whose tape failed ends, and one that was killed has."""
        answer = GONE
        if self.agent:
            with contextlib.suppress(Ended):
                answer = self.agent.ask(line)
            if answer.startswith(STALE_TAPE):
                self.alarm(f"its tape is an older one ({answer})")
                self.is_over = True
            if answer == STORE_FAILED:
                self.alarm(f"its tape can't be stored ({answer}); it stands, and tries again")
                self.pause = min(2 * self.pause, LONGEST_PAUSE)
            if self.is_over or answer in (GONE, STORE_FAILED):
                self.end()
        return answer.split()

    def start(self) -> bool:
        """Whether a move is begun now."""
        if not self.is_between and self.may_start:
            self.is_between = self.ask("start")[0] == "moving"
            self.pause = PAUSE if self.is_between else self.pause
            self.may_start, self.more = False, None
        return self.is_between

    def finish(self) -> bool:
        """Says that the move that was begun is done, and answers whether that is stored."""
        if not self.is_between or self.ask("finish")[0] != "arrived":
            return False
        self.done, self.is_between, self.may_start, self.more = self.done + 1, False, True, None
        self.pause = PAUSE
        self.say()
        return True

    def allowed(self, ahead: int) -> int:
        """Up to which cell of its path the vehicle may drive. What is allowed once stays so."""
        if not self.is_between:
            return self.done
        if self.more is None:
            self.more = self._look_ahead(ahead)
        return self.done + 1 + self.more

    def farthest(self, ahead: int) -> int:
        """The cell of its path beyond which its vehicle can't have been let go before: not at all before the first move was begun."""
        return self.done + self.is_between + ahead if self.done or self.is_between else 0

    def _look_ahead(self, ahead: int) -> int:
        """How many of the next moves would be allowed by what the agent knows. One of an older program doesn't understand the question."""
        answer = self.ask(f"may {ahead}") if ahead and self.knows_may else [""]
        self.knows_may = self.knows_may and answer[0] != "refused"
        return int(answer[1]) if answer[0] == "may" else 0

    def say(self) -> None:
        answer = self.ask("say")
        if answer[0] == "said":
            self.said = bytes.fromhex(answer[1])

    def hear(self, message: bytes) -> None:
        """Gives it what another has said, unless it has heard that already."""
        if not self.agent or not message or message in self.heard:
            return
        answer = self.ask(f"hear {message.hex()}")
        if answer[0] == "heard":
            self.heard.add(message)
            self.may_start, self.more = True, None
        elif self.agent:
            self.alarm(f"its agent refuses a message ({' '.join(answer)})")
