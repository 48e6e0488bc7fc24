#!/usr/bin/env python3
"""Checks what the black boxes of a fleet have: whether its agents answered as the event rules say.

Usage: check_boxes.py MAP PLAN BOX.. [--earlier PLAN..] [--agent N [--last N]] [--events FILE] [--program PATH]

A BOX is what `robot.py --box` wrote; its earlier files, BOX.1, BOX.2 and so on, are read where they lie beside it. MAP and PLAN are the files by
which the fleet was driven, with tapes that were new.

Each agent is judged by its own state: `mapf agent` is asked the same on another tape, and has to
give the same answers. Somebody of the fleet must have said before what an agent heard, by `say` or
by `tell`. What an agent refused may come from anywhere.

With --agent the last moments of an agent come first: what it was asked, what it answered, and what
it held then by the rules. Where plans went on from one another, PLAN is the last one, and the
others stand behind --earlier. By these an agent may refuse what it may do by the last one: such
answers are left out.

--events writes one list of events for `mapf run`, which has one version of messages.
Where some agents `say` and others `tell`, the script writes no list: it says MixedVersions.

Status 0: they agree, in one line. 1: they don't; the first difference is shown whole. 2: a bad command line; or boxes that can't be read,
don't go together, or don't fit the map and the plan. 3: another file or the program failed.
"""
import argparse
import collections
import dataclasses
import datetime
import os
import pathlib
import subprocess
import sys
import tempfile
from typing import Iterator, Optional, Sequence

sys.dont_write_bytecode = True
from agent import STALE_TAPE, STORE_FAILED  # noqa: E402
from black_box import digest  # noqa: E402
from dialogues import OPENED, BadBox, Box, Moment, Process, Turn, read_boxes  # noqa: E402
from given import number_in  # noqa: E402
from history import DELIVER, LEFT_OUT, SAY, WRITES, History, Step  # noqa: E402
from history import by_process, find_unanswered, history_of, state_after, steps_of  # noqa: E402
from journal import WHOLE  # noqa: E402
from leaving import heed_signals  # noqa: E402
from program import usual_program  # noqa: E402

DIFFER, UNFIT, FAILED = 1, 2, 3
# The status of an agent that has found its tape to be an older one.
STALE = 3
# How many calls of an agent are shown, and the most that may be asked for.
LAST, MOST = 20, 999_999_999
# How much of a line is shown in an account.
SHOWN = 60
# What is answered where a record is stored.
STORES = ("moving ", "arrived ")
# Where files are in memory. The program syncs each record, which takes a disk milliseconds.
MEMORY = "/dev/shm"


class Failed(Exception):
    """The program has failed."""


def number(word: str) -> int:
    found = number_in(word, MOST)
    if found is None:
        raise argparse.ArgumentTypeError(f"a number is wanted, and '{word[:40]}' is none")
    return found


def read_words(words: Sequence[str]) -> argparse.Namespace:
    parser = argparse.ArgumentParser(prog="check_boxes.py", description=__doc__, formatter_class=argparse.RawDescriptionHelpFormatter)
    parser.add_argument("map", metavar="MAP")
    parser.add_argument("plan", metavar="PLAN")
    parser.add_argument("boxes", nargs="+", metavar="BOX", help="the box of a robot; whose box isn't given is taken to have said nothing")
    parser.add_argument("--earlier", nargs="+", default=[], metavar="PLAN", help="plans by which the fleet was driven before")
    parser.add_argument("--agent", type=number, metavar="N", help="shows what this agent was asked last")
    parser.add_argument("--last", type=number, default=LAST, metavar="N", help="how many calls of it are shown (%(default)s)")
    about = "writes all there, as a text of events for `mapf run`, if messages have one version"
    parser.add_argument("--events", type=pathlib.Path, metavar="FILE", help=about)
    parser.add_argument("--program", default=usual_program(), metavar="PATH", help="the program mapf (%(default)s)")
    return parser.parse_args(words)


class Rules:
    """What the program answers."""

    def __init__(self, given: argparse.Namespace, folder: str):
        self.program, self.files = given.program, [given.map, given.plan]
        self.folder = pathlib.Path(folder)

    def _lines(self, words: Sequence[str], text: bytes = b"", last: int = 0) -> list[str]:
        """What a command writes. It has to end with status 0 or this last one."""
        try:
            ended = subprocess.run([self.program, *words], input=text, capture_output=True, check=False)
        except OSError as fault:
            raise Failed(f"{self.program}: {fault.strerror}") from None
        if ended.returncode not in (0, last):
            told = (ended.stderr or ended.stdout).decode(errors="replace").partition("\n")[0]
            raise (BadBox if ended.returncode == 1 else Failed)(f"{' '.join(self.files)}: `mapf {words[0]}` says '{told}'")
        return ended.stdout.decode("ascii").splitlines()

    def agents(self) -> int:
        """How many there are. A plan that isn't accepted has no runs."""
        return int(self._lines(["check", *self.files])[0].split()[2])

    def hold(self, box: Box) -> None:
        """Puts beside each answer of a box the one that is due."""
        tape = self.folder / str(box.agent)
        for steps in by_process(steps_of(box)):
            self._replay(tape, list(until_its_end(steps)))

    def _replay(self, tape: pathlib.Path, steps: Sequence[Step]) -> None:
        """Asks an agent what a process was asked. Where a write failed, the tape is left as the
        next process found it."""
        asked = [it.turn for it in steps if it.event != LEFT_OUT]
        for turn, reply in zip(asked, self._talk(tape, asked)):
            turn.due = reply
        for turn in (it.turn for it in steps if it.event == LEFT_OUT):
            turn.due = turn.answer
        last = steps[-1].turn
        if is_stale(last):
            due = self._of_a_kept_tape(tape, asked[0], last)
            last.due = due if due.startswith(STALE_TAPE) else last.due
        elif steps[-1].stored is not None and (last.due or "").startswith(STORES):
            last.due = STORE_FAILED
            if not steps[-1].stored:
                os.truncate(tape, tape.stat().st_size - WHOLE)

    def _talk(self, tape: pathlib.Path, turns: Sequence[Turn], *more: str) -> list[str]:
        """What an agent answers, first by its first line. An older tape ends it."""
        text = "".join(f"{it.asked}\n" for it in turns[1:]).encode(errors="replace")
        words = ["agent", *self.files, str(turns[0].agent), str(tape), *more]
        found = self._lines(words, text, STALE if more else 0)
        if len(found) != len(turns):
            raise Failed(f"`mapf agent` answers {len(turns)} lines by {len(found)}")
        return found

    def _of_a_kept_tape(self, tape: pathlib.Path, first: Turn, asked: Turn) -> str:
        """The answer where the tape has to be a kept one. Then there is another file beside it, so
        the agent gets a copy."""
        with tempfile.TemporaryDirectory(dir=self.folder) as folder:
            kept = pathlib.Path(folder) / "tape"
            self._talk(kept, [first], "--tape", "new")
            kept.write_bytes(tape.read_bytes())
            return self._talk(kept, [first, asked], "--tape", "kept")[-1]


def is_stale(turn: Turn) -> bool:
    return (turn.answer or "").startswith(STALE_TAPE)


def until_its_end(steps: Sequence[Step]) -> Iterator[Step]:
    """What a process may answer: behind a failed write, or an older tape, it answers nothing."""
    for step in steps:
        yield step
        if step.stored is not None or is_stale(step.turn):
            return


@dataclasses.dataclass(frozen=True)
class Judged:
    """A step, and what its agent holds then by the rules."""

    step: Step
    state: str

    @property
    def differs(self) -> bool:
        return bool(self.step.fault) or self.step.turn.answer not in (None, self.step.turn.due)


def judged(history: History) -> Iterator[Judged]:
    states: dict[int, str] = collections.defaultdict(str)
    for step in history.steps:
        agent = step.turn.agent
        states[agent] = state_after(states[agent], step.turn.due or "")
        yield Judged(step, states[agent])


def hold_boxes(given: argparse.Namespace, boxes: Sequence[Box], agents: int) -> None:
    """They have to be of this map and these plans, of which not all processes have the last one. What an agent didn't take counts for nothing."""
    due = {"map": [digest(given.map)], "plan": [*map(digest, [given.plan, *given.earlier])]}
    for box in boxes:
        if box.agent >= agents:
            raise BadBox(f"{box.path}: it is of agent {box.agent}, and {given.plan} has {agents} agents")
        for process in box.opened:
            for name, values in due.items():
                if process.about.get(name, values[0]) not in values:
                    raise BadBox(f"{box.path}: its agent was given another {name} than {getattr(given, name)}")
            process.is_earlier = process.about.get("plan", due["plan"][0]) != due["plan"][0]


# What is told


def clock(at: Moment) -> str:
    return datetime.datetime.fromtimestamp(at.wall, datetime.timezone.utc).strftime("%Y-%m-%d %H:%M:%S.%f")


def shown(text: Optional[str]) -> str:
    """A line as it was, where it can be shown."""
    return "no answer" if text is None else text if text.isascii() and text.isprintable() else ascii(text)


def difference(it: Judged, box: Box) -> Iterator[str]:
    step, turn = it.step, it.step.turn
    if step.fault:
        yield f"agent {turn.agent} heard at {clock(turn.at)} {step.fault}: {step.digits}"
        yield box.place(turn.line)
        return
    yield f"agent {turn.agent} differs at {clock(turn.at)}, {box.place(turn.line)}"
    yield f"asked      {shown(turn.asked) if turn.asked != OPENED else '(its first line)'}"
    yield f"answered   {shown(turn.answer)}"
    yield f"the rules  {shown(turn.due)}"


def is_killed(process: Process, is_last: bool) -> bool:
    """By a signal; or with its robot, which then couldn't say how it ended."""
    return process.status is None and not is_last or (process.status or 0) < 0


def summary(boxes: Sequence[Box], agents: int, history: History) -> str:
    """What agrees, counted."""
    calls = [turn for box in boxes for turn in box.calls]
    unanswered = sum(turn.answer is None for turn in calls)
    stored = sum(it.turn.answer is None and it.turn.asked in WRITES for it in history.steps)
    counts = {
        "restarts": sum(max(len(box.opened) - 1, 0) for box in boxes),
        "kills": sum(is_killed(it, it is box.processes[-1]) for box in boxes for it in box.processes),
        "calls": len(calls),
        "unanswered": unanswered,
        "of them stored": stored,
        "failed writes": sum(turn.answer == STORE_FAILED for turn in calls),
        "said": sum(it.event.startswith(SAY) for it in history.steps),
        "heard": sum(it.event.startswith(DELIVER) for it in history.steps),
        "strangers' lines": sum(not it.event for it in history.steps),
    }
    left_out = sum(it.event == LEFT_OUT for it in history.steps)
    counts.update({"left out": left_out} if left_out else {})
    who = f"{agents} agents" if len(boxes) == agents else f"{len(boxes)} of {agents} agents"
    told = ", ".join([who, *(f"{count:,} {name}" for name, count in counts.items())])
    return f"agreed: {told}" + (f"; clocks are off by {history.most_early:.3f} seconds or more" if history.most_early > 0 else "")


def holds(state: str) -> str:
    """What an agent holds, if that is known."""
    words = state.split()
    behind = f" and {' '.join(words[3:5])}" if words[:1] == ["between"] else ""
    return f"; it holds {' '.join(words[1:3])}{behind}" if words else ""


def cut(text: str) -> str:
    return text if len(text) <= SHOWN else f"{text[:SHOWN]}.. ({len(text)} bytes)"


def told_of_a_turn(turn: Turn, process: int, it: Optional[Judged], state: str) -> str:
    name = cut(shown(turn.asked)) if turn.asked != OPENED else f"(process {process})"
    due = f"by the rules {cut(shown(turn.due))}"
    wrong = f"; {it.step.fault or due}" if it and it.differs else ""
    return f"{clock(turn.at)}  {name}: {cut(shown(turn.answer))}{wrong}{holds(state)}"


def account(box: Box, last: int, found: Sequence[Judged]) -> Iterator[str]:
    """The last moments of an agent."""
    by_line = {it.step.turn.line: it for it in found if it.step.turn.agent == box.agent}
    state, lines = "", []
    for process in box.processes:
        for turn in process.turns:
            it = by_line.get(turn.line)
            state = it.state if it else state
            lines.append(told_of_a_turn(turn, process.number, it, state))
        if process.over:
            status = process.status or 0
            how = f"signal {-status}" if status < 0 else f"status {status}"
            lines.append(f"{clock(process.over)}  (process {process.number}) ended with {how}")
        else:
            lines.append(f"{'':26}  (process {process.number}) its end isn't in the box")
    yield f"agent {box.agent}, by {box.path}"
    yield from lines[-last:] if last else []


def check(given: argparse.Namespace, folder: str) -> int:
    boxes = read_boxes(given.boxes)
    rules = Rules(given, folder)
    agents = rules.agents()
    hold_boxes(given, boxes, agents)
    for box in boxes:
        rules.hold(box)
    find_unanswered(boxes)
    history = history_of(boxes)
    if given.events:
        given.events.write_text(history.text(), encoding="ascii")
    found = list(judged(history))
    by_agent = {box.agent: box for box in boxes}
    if given.agent is not None:
        if given.agent not in by_agent:
            raise BadBox(f"no box is of agent {given.agent}")
        print("\n".join(account(by_agent[given.agent], given.last, found)))
    wrong = [it for it in found if it.differs]
    if not wrong:
        print(summary(boxes, agents, history))
        return 0
    print("\n".join(difference(wrong[0], by_agent[wrong[0].step.turn.agent])))
    if len(wrong) > 1:
        print(f"and {len(wrong) - 1} more")
    return DIFFER


def main(words: Sequence[str]) -> int:
    given = read_words(words)
    try:
        room = MEMORY if os.access(MEMORY, os.W_OK | os.X_OK) else None
        with tempfile.TemporaryDirectory(prefix="mapf-boxes-", dir=room) as folder:
            return check(given, folder)
    except BadBox as fault:
        why, status = str(fault), UNFIT
    except Failed as fault:
        why, status = str(fault), FAILED
    except OSError as fault:
        why, status = f"{fault.filename or given.events or 'standard output'}: {fault.strerror or fault}", FAILED
    print(f"check_boxes: {why}", file=sys.stderr)
    return status


if __name__ == "__main__":
    heed_signals()
    sys.exit(main(sys.argv[1:]))
