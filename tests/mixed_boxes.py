"""Black boxes of fleets in which some agents say messages of version 1 and others tell those of
version 2, and of agents that refuse what nobody of the fleet has said."""
import functools
from typing import Callable, Iterator, Sequence

from boxes import CHANGE, CHANGED, LONGER, MAP, NEWS, OTHERS_NEWS, PLAN, TALK, UNSAID
from boxes import agreeing, asked, files_of, of_damage
from harness import Ended, Harness, Outcome, compared, ended_as, shown

# Agent 0 says messages of version 1 and, in its last process, tells those of version 2. Agent 1
# tells, and at its end says.
OLD_NEWS, OTHERS_OLD_NEWS = "460100000000000900000001", "460100010000000900000001"
BOTH_NEWS = "46020000000000090002000000000001000100000001"
STRANGERS_NEWS = NEWS.replace("09", "08", 1)
MIXED = f"""0 opens: at 1 0 done 0
1 opens: at 0 0 done 0
1 start: refused Waits 0 1
1 tell: said 46020001000000090000
0 hear 46020001000000090000: heard 1 0
0 start: refused StoreFailed
0 ends: 3
0 opens: at 1 0 done 0
0 start: moving 2 0
0 say: said 460100000000000900000000
1 hear 460100000000000900000000: heard 0 0
0 finish
0 ends: -9
0 opens: at 2 0 done 1
0 say: said {OLD_NEWS}
1 hear {OLD_NEWS}: heard 0 1
1 tell: said {OTHERS_NEWS}
0 hear {OTHERS_NEWS}: heard 1 0
1 opens: at 0 0 done 0
1 hear {STRANGERS_NEWS}: refused WrongPlan
1 may 1: may 0
1 start: refused Waits 0 1
0 ends: 0
0 opens: at 2 0 done 1
0 tell: said {NEWS}
1 hear {NEWS}: heard 0 1
1 may 1: may 1
1 start: moving 1 0
1 held: between 0 0 1 0 done 0
1 finish: arrived 1 0
1 say: said {OTHERS_OLD_NEWS}
0 hear {OTHERS_OLD_NEWS}: heard 1 1
0 tell: said {BOTH_NEWS}
1 hear {BOTH_NEWS}: heard 0 1
1 tell
0 ends: 0
1 ends: 0"""
MIXED_COUNTED = (
    "agreed: 2 agents, 4 restarts, 2 kills, 26 calls, 2 unanswered, 1 of them stored, "
    "1 failed writes, 7 said, 7 heard, 1 strangers' lines\n"
)
# A fleet of version 1.
SAYING = f"""0 opens: at 1 0 done 0
1 opens: at 0 0 done 0
1 start: refused Waits 0 1
0 start: moving 2 0
0 finish: arrived 2 0
0 say: said {OLD_NEWS}
1 hear {OLD_NEWS}: heard 0 1
1 start: moving 1 0
1 finish: arrived 1 0
1 say: said {OTHERS_OLD_NEWS}
0 hear {OTHERS_OLD_NEWS}: heard 1 1
0 ends: 0
1 ends: 0"""
# What agent 1 refuses, whoever has said it: damaged messages, those of another run, and others.
REFUSED = f"""1 hear : refused BadLength
1 hear 46: refused BadLength
1 hear 4: refused BadLine
1 hear what: refused BadLine
1 hear 5301{OLD_NEWS}: refused BadMagic
1 hear 46030000000000090000: refused BadVersion
1 hear {OLD_NEWS}00: refused BadLength
1 hear {NEWS}00: refused BadLength
1 hear 46020000000000090001000000000000: refused BadEntry 0
1 hear 46020000000000090002000100000001000000000001: refused BadEntry 1
1 hear 460100000000000800000001: refused WrongPlan
1 hear {STRANGERS_NEWS}: refused WrongPlan
1 hear 460100070000000900000000: refused NoSuchAgent
1 hear 46020000000000090001000700000001: refused NoSuchAgent
1 hear 460100000000000900000002: refused TooMany
1 hear {UNSAID}: refused TooMany
1 start: refused Waits 0 1
1 hear {OTHERS_OLD_NEWS}: refused StaleTape 1 1
1 ends: 3
1 opens: at 0 0 done 0
1 hear 46020000000000090001000100000001: refused StaleTape 0 1
1 ends: 3
1 opens: at 0 0 done 0
"""
TWO = (
    b"check_boxes: MixedVersions: these agents `say` and `tell`, "
    b"and a run has one version of messages\n"
)
# Damage that is told as a difference, as in boxes.py.
MIXED_DAMAGED: list[tuple[str, str, str, str]] = [
    ("an answer that was changed", "1 finish: arrived 1 0", "1 finish: arrived 2 0",
     "agent 1 differs at 29, line 30 of 1.box|finish|arrived 2 0|arrived 1 0"),
    ("an older message, heard as a newer one", f"1 hear {NEWS}", f"1 hear {OLD_NEWS[:-1]}0",
     f"agent 1 differs at 25, line 22 of 1.box|hear {OLD_NEWS[:-1]}0|"
     "heard 0 1|heard 0 0|and 5 more"),
    ("what was said in the other version alone", f"0 say: said {OLD_NEWS}\n", "",
     f"agent 1 heard at 14 what nobody said: {OLD_NEWS}|line 10 of 1.box"),
    ("what was told behind its hearing", f"0 tell: said {NEWS}\n1 hear {NEWS}: heard 0 1",
     f"1 hear {NEWS}: heard 0 1\n0 tell: said {NEWS}",
     f"agent 1 heard at 24 what agent 0 said 0.010000 seconds later: {NEWS}|line 22 of 1.box"),
    ("a move whose need isn't met", "1 start: refused Waits 0 1\n0 ends",
     "1 start: moving 1 0\n0 ends",
     "agent 1 differs at 21, line 20 of 1.box|start|moving 1 0|refused Waits 0 1"),
    ("a need that was met and refused", "1 start: moving 1 0", "1 start: refused Waits 0 1",
     "agent 1 differs at 27, line 26 of 1.box|start|refused Waits 0 1|moving 1 0"),
    ("a record that was lost", "0 opens: at 2 0 done 1\n0 tell", "0 opens: at 1 0 done 0\n0 tell",
     "agent 0 differs at 23, line 24 of 0.box|(its first line)|at 1 0 done 0|at 2 0 done 1"),
    ("a record behind a kill that was lost", "0 opens: at 2 0 done 1\n0 say",
     "0 opens: between 1 0 2 0 done 0\n0 say",
     f"agent 0 differs at 14, line 19 of 0.box|say|said {OLD_NEWS}|said {OLD_NEWS[:-1]}0|"
     "and 3 more"),
    ("a way that a refused message would have freed", "1 may 1: may 0", "1 may 1: may 1",
     "agent 1 differs at 20, line 18 of 1.box|may 1|may 1|may 0"),
    ("a right message that was refused", f"1 hear {NEWS}: heard 0 1",
     f"1 hear {NEWS}: refused WrongPlan",
     f"agent 1 differs at 25, line 22 of 1.box|hear {NEWS}|refused WrongPlan|heard 0 1"),
    ("a wrong number that was told", f"0 tell: said {BOTH_NEWS}", f"0 tell: said {BOTH_NEWS[:-1]}2",
     f"agent 0 differs at 32, line 30 of 0.box|tell|said {BOTH_NEWS[:-1]}2|said {BOTH_NEWS}|"
     "and 1 more"),
    ("a wrong number that was said", f"1 say: said {OTHERS_OLD_NEWS}",
     f"1 say: said {OTHERS_OLD_NEWS[:-1]}0",
     f"agent 1 differs at 30, line 32 of 1.box|say|said {OTHERS_OLD_NEWS[:-1]}0|"
     f"said {OTHERS_OLD_NEWS}|and 1 more"),
    ("a message of the other version", f"0 say: said {OLD_NEWS}", f"0 say: said {NEWS}",
     f"agent 0 differs at 14, line 19 of 0.box|say|said {NEWS}|said {OLD_NEWS}|and 1 more"),
    ("a failed write that was forgotten", "0 start: refused StoreFailed", "0 start: moving 2 0",
     "agent 0 differs at 07, line 9 of 0.box|(its first line)|at 1 0 done 0|"
     "between 1 0 2 0 done 0|and 1 more"),
    ("what was heard before a restart", "1 opens: at 0 0 done 0\n1 hear",
     "1 held: at 0 0 done 0\n1 hear",
     "agent 1 differs at 20, line 18 of 1.box|may 1|may 0|may 1|and 3 more"),
    ("an answer behind a failed write", "0 ends: 3\n", "0 held: at 1 0 done 0\n0 ends: 3\n",
     "agent 0 differs at 06, line 8 of 0.box|held|at 1 0 done 0|no answer"),
]  # fmt: skip
# The same of what agent 1 refused, in a fleet of version 1.
REFUSED_DAMAGED: list[tuple[str, str, str, str]] = [
    ("another reason", "0: refused BadEntry 0", "0: refused WrongPlan",
     "agent 1 differs at 10, line 20 of 1.box|hear 46020000000000090001000000000000|"
     "refused WrongPlan|refused BadEntry 0"),
    ("what is refused, and was heard", f"1 hear {UNSAID}: refused TooMany",
     f"1 hear {UNSAID}: heard 0 2",
     f"agent 1 heard at 17 what nobody said: {UNSAID}|line 34 of 1.box"),
    ("what nobody said, and is right", f"1 hear {UNSAID}: refused TooMany",
     f"1 hear {NEWS}: heard 0 1",
     f"agent 1 heard at 17 what nobody said: {NEWS}|line 34 of 1.box|and 4 more"),
    ("what nobody said, and is refused in vain", f"1 hear {UNSAID}: refused",
     f"1 hear {NEWS}: refused",
     f"agent 1 differs at 17, line 34 of 1.box|hear {NEWS}|refused TooMany|heard 0 1|and 4 more"),
    ("an older tape that is none", f"1 hear {OTHERS_OLD_NEWS}: refused StaleTape 1 1",
     f"1 hear {OTHERS_OLD_NEWS[:-1]}0: refused StaleTape 1 0",
     f"agent 1 differs at 19, line 38 of 1.box|hear {OTHERS_OLD_NEWS[:-1]}0|"
     "refused StaleTape 1 0|heard 1 0"),
]  # fmt: skip


def answered(harness: Harness, talk: str) -> list[str]:
    """A talk by agent, with what real agents answer on tapes of their own. They aren't asked what
    couldn't be stored."""
    folder, told = harness.folder(), []
    for agent in sorted({line[0] for line in talk.splitlines()}):
        words = ["agent", str(MAP), str(PLAN), agent, f"{agent}.tape", "--tape"]
        harness.mapf([*words, "new"], folder=folder)
        for process in talk_of(talk, agent).split(f"{agent} opens: ")[1:]:
            lines = process.splitlines()[1:]
            questions = [line[2:].partition(": ")[0] for line in lines if is_asked(line)]
            given = "".join(f"{line}\n" for line in questions).encode("ascii")
            ended = harness.mapf([*words, "kept"], given, folder)
            first, *answers = ended.out.decode().splitlines()
            told += [f"{agent} opens: {first}"]
            told += [f"{agent} {line}: {answer}" for line, answer in zip(questions, answers)]
    return told


def talk_of(talk: str, agent: str) -> str:
    return "".join(f"{line}\n" for line in talk.splitlines() if line[0] == agent)


def is_asked(line: str) -> bool:
    return not line[2:].startswith("ends") and not line.endswith("refused StoreFailed")


def with_refused(talk: str) -> str:
    """The talk, in which agent 1 refuses at its beginning what may come from anywhere."""
    return talk.replace("1 start: refused Waits 0 1\n", REFUSED, 1)


def of_mixed(harness: Harness) -> list[Outcome]:
    """Some agents say messages of version 1, and some tell those of version 2."""
    due = [line for agent in "01" for line in talk_of(MIXED, agent).splitlines() if is_asked(line)]
    told = [line if line in due else line.partition(": ")[0] for line in answered(harness, MIXED)]
    lost = MIXED.replace(f"0 say: said {OLD_NEWS}", "0 say\n0 opens: at 2 0 done 1")
    over = CHANGE.replace(f"tell: said {NEWS}", f"say: said {OLD_NEWS}")
    over = over.replace(f"hear {NEWS}", f"hear {OLD_NEWS}")
    earlier = ["--earlier", str(PLAN)]
    ended = asked(harness, files_of(over), *earlier, plan=LONGER)
    counted = MIXED_COUNTED.replace("4 restarts, 2 kills", "5 restarts, 3 kills")
    counted = counted.replace("2 unanswered", "3 unanswered")
    folder = harness.folder()
    listed = asked(harness, files_of(MIXED), "--events", str(folder / "events"))
    return [
        compared("the mixed fleet as real agents answer", "mapf agent", told, due),
        agreeing("a mixed fleet", harness, files_of(MIXED), MIXED_COUNTED),
        agreeing("a mixed fleet, a saying wasn't answered", harness, files_of(lost), counted),
        ended_as("a mixed fleet of two plans", f"check_boxes.py {shown(earlier)}", ended,
                 Ended(0, f"agreed: {CHANGED}\n".encode(), b"")),
        ended_as("a list of two versions", "check_boxes.py --events", listed, Ended(2, b"", TWO)),
        compared("no list is left", "check_boxes.py --events", list(folder.iterdir()), []),
    ]  # fmt: skip


def of_refused(harness: Harness) -> list[Outcome]:
    """What an agent refuses need not have been said by anybody, in fleets of either version."""
    lines = filter(is_asked, talk_of(with_refused(SAYING), "1").splitlines())
    told = [line for line in answered(harness, with_refused(SAYING)) if line[0] == "1"]
    outcomes = [compared("what real agents refuse", "mapf agent", told, [*lines])]
    for name, talk in (("says", SAYING), ("tells", TALK), ("is mixed", MIXED)):
        ended = asked(harness, files_of(with_refused(talk)))
        wrote, due = (ended.status, ended.out[:8], ended.err), (0, b"agreed: ", b"")
        ran = f"check_boxes.py, which told {ended.out!r}"
        outcomes.append(compared(f"refusals in a fleet that {name}", ran, wrote, due))
    list_of_all = harness.folder() / "events"
    asked(harness, files_of(with_refused(SAYING)), "--events", str(list_of_all))
    ended = harness.mapf(["run", str(MAP), str(PLAN), str(list_of_all), "--complete"])
    wrote = (ended.status, ended.out.endswith(b"complete 0\n"))
    beside = compared("the list beside refusals", f"mapf run: {ended!r}", wrote, (0, True))
    return [*outcomes, beside]


def tests(harness: Harness) -> Iterator[Callable[[], Sequence[Outcome]]]:
    for talk, damages in ((MIXED, MIXED_DAMAGED), (with_refused(SAYING), REFUSED_DAMAGED)):
        for damage in damages:
            yield functools.partial(of_damage, harness, talk, *damage)
    yield functools.partial(of_mixed, harness)
    yield functools.partial(of_refused, harness)
