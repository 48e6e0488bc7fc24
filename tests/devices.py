"""Files, outputs and inputs that fail, and what is out before what: on real files, pipes and terminals."""
import functools
import os
import pathlib
import pty
import resource
import shlex
import signal
import subprocess
import time
import tty
from typing import Iterator, Optional, Sequence

import command_lines
import help_texts
from harness import LONGEST, VERSION, Ended, Harness, Outcome, compared, ended_as, has_terminals, side_by_side
from statuses import tape_of
from texts import BEHIND, CORNER, CORNER_WRITTEN, LANE, NOBODY, ONWARD, PROOF, ROW, ROW_WRITTEN, SHORT, SQUARE, SWAP, TASKS, TURN, events

FILES = {
    "M": LANE.encode(),
    "C": CORNER.encode(),
    "B": SHORT.encode(),
    "P": BEHIND.encode(),
    "X": SWAP.encode(),
    "Y": ONWARD.encode(),
    "S": ROW.encode(),
    "F": TASKS.encode(),
    "E": events("start 1", "start 0", "finish 0", "start 1").encode(),
    "J": events("start 0", "jump").encode(),
    "O": NOBODY.encode(),
    "Q": SQUARE.encode(),
    "R": TURN.encode(),
    "Z": PROOF.encode(),
    # The tapes of all agents of P: one moves, and nothing is kept of the other yet.
    "J0": tape_of(0, 1),
    "J1": b"",
}
REPLIES = "refused Waits 0 1\nmoving 2 0\narrived 2 0\nrefused Waits 0 1\n"

# Commands, and all that each writes.
WRITING = [
    ("map C", CORNER_WRITTEN),
    ("map C --block 2 0", "type octile\nheight 2\nwidth 3\nmap\n..@\n.@.\n"),
    ("scen S", ROW_WRITTEN),
    ("row C S 0", "shortest 2 0 listed 2.00000000 agrees\n"),
    ("rows C S", "0 shortest 2 0 listed 2.00000000 agrees\nrows 1 agree 1 differ 0 unreachable 0 size 0\n"),
    ("rows C S --straight", "0 least 2\nrows 1 sum 2 greatest 2 unreachable 0 size 0\n"),
    ("bound M P --agents", "agent 0 cost 1 of 1\nagent 1 cost 1 of 1\ncost 2 of 2 makespan 1 of 1\n"),
    ("check M X --all", "rejected Swap 0 1 0\nfaults 1 agents 2\n"),
    ("check M P --bound", "accepted agents 2 cost 2 of 2 makespan 1 of 1\n"),
    ("check M P", "accepted agents 2 cost 2 makespan 1\n"),
    ("check M P --json", '{"accepted":true,"agents":2,"cost":2,"makespan":1}\n'),
    ("check M X", "rejected Swap 0 1 0\n"),
    ("check M P --scen F", "accepted agents 2 cost 2 makespan 1\n"),
    ("deps M P", "agents 2 moves 2 needs 1 rotations 0\nneed 1 0 0 1\n"),
    ("deps M P --cell 1 0", "visit 0 0 0\nvisit 1 1 1\n"),
    ("path M P", "0 1 0 0 0\n1 2 0 1 0\n2 2 0 1 0\n"),
    ("path M P --agent 1", "0 0 0\n1 1 0\n"),
    ("cut M P 1", "mapf-plan 1\nnumber 7\nagents 2\nagent 1 0 e\nagent 0 0 e\n"),
    ("continues M P Y", "continues from 2, adds 2 moves\n"),
    ("optimal M P Z", "optimal cost 2 nodes 1\n"),
    ("run M P E", REPLIES),
    ("run M P J", "moving 2 0\n"),
    ("run M O E --complete", "refused NoSuchAgent\n" * 4 + "complete 0\n"),
    ("run Q R J --complete", "refused Waits 1 1\n"),
    ("run Q R E --complete", "refused Waits 2 1\nrefused Waits 1 1\nrefused NotMoving\nrefused Waits 2 1\nblocked 0\n"),
    ("agent M P 0 T", "at 1 0 done 0\n"),
    ("status M P J%", "0 between 1 0 2 0 done 0 of 1\n1 at 0 0 done 0 of 1 waits 0 1\nroot 0 keeps 1\n"),
    ("status M P no%", "0 NoTape\n1 NoTape\n"),
    ("lost M P J% 0", "at 1 0 done 0\nat 2 0 done 1\n"),
    ("handover M P J%", "mapf-plan 1\nnumber 7\nagents 2\nagent 1 0 e\nagent 0 0 e\n"),
    ("anew M P J% 8", "mapf-plan 1\nnumber 8\nagents 2\nagent 2 0 =\nagent 0 0 e\n"),
    ("anew M P J% 8 --without 0", "mapf-plan 1\nnumber 8\nagents 1\nagent 0 0 e\n"),
    ("--version", VERSION),
]
# Commands with a fault, and the line of it.
FAULTY = [
    ("map B", "mapf: ShortRow 6\n"),
    ("map C --block 3 0", "mapf: NoSuchCell 3 0\n"),
    ("scen M", "mapf: NoVersion\n"),
    ("row C S 1", "mapf: NoSuchRow\n"),
    ("rows C S --from 2", "mapf: NoSuchRow\n"),
    ("bound M X", "mapf: Swap 0 1 0\n"),
    ("check M M", "mapf: BadHeader 1\n"),
    ("deps M X", "mapf: Swap 0 1 0\n"),
    ("deps M X --cell 1 0", "mapf: Swap 0 1 0\n"),
    ("path M P --agent 2", "mapf: NoSuchAgent\n"),
    ("cut M X 1", "mapf: Swap 0 1 0\n"),
    ("continues M Y P", "mapf: Departs 0 4\n"),
    ("optimal M P P", "mapf: BadHeader 1\n"),
    ("run M X E", "mapf: Swap 0 1 0\n"),
    ("run M X E --complete", "mapf: Swap 0 1 0\n"),
    ("agent M P 2 T", "mapf: NoSuchAgent\n"),
    ("status M X J%", "mapf: Swap 0 1 0\n"),
    ("lost M P J% 2", "mapf: NoSuchAgent\n"),
    ("handover M P J0%", "mapf: BadTape 0\n"),
    ("anew M P J% 7", "mapf: SameNumber\n"),
    ("anew M P J% 8 --without 2", "mapf: NoSuchAgent\n"),
    ("anew M P no% 8", "mapf: BadTape 0\n"),
]

# What such commands end with, where it is another status than 0 or a fault too.
STATUSES = {
    "status M P no%": (1, ""),
    "check M X": (1, ""),
    "check M X --all": (1, ""),
    "run M P J": (1, "mapf: BadEvent 3\n"),
    "run Q R J --complete": (1, "mapf: BadEvent 3\n"),
    "run Q R E --complete": (1, ""),
}
# How a shell closes streams.
CLOSED = ["<&-", ">&-", "2>&-", "<&- >&-", "<&- 2>&-", ">&- 2>&-", "<&- >&- 2>&-"]

# Streams of other kinds, and what an agent and a map over them end with.
ODD_STREAMS = [
    ("agent M P 0 T < /dev/null", Ended(0, b"at 1 0 done 0\n", b"")),
    ("agent M P 0 T < empty", Ended(0, b"at 1 0 done 0\n", b"")),
    ("agent M P 0 T < .", Ended(3, b"at 1 0 done 0\n", b"mapf: ReadFailed\n")),
    ("agent M P 0 T 0> empty", Ended(3, b"at 1 0 done 0\n", b"mapf: ReadFailed\n")),
    ("agent M P 0 T 1< M", Ended(3, b"", b"mapf: WriteFailed\n")),
    ("map C 1< M", Ended(3, b"", b"mapf: WriteFailed\n")),
    ("map B 2< M", Ended(1, b"", b"")),
    ("map C < .", Ended(0, CORNER_WRITTEN.encode(), b"")),
    ("map /dev/stdin < empty", Ended(1, b"", b"mapf: BadHeader 1\n")),
    ("map /dev/stdin < C", Ended(0, CORNER_WRITTEN.encode(), b"")),
]

# Commands that read a folder.
UNREADABLE = [
    *("map D", "map D --block 0 0", "scen D", "row D S 0", "row C D 0", "check D P", "check M D", "check M P --scen D"),
    *("deps D P", "deps M D", "deps M D --cell 1 0", "path D P", "path M D", "cut D P 0", "cut M D 0", "continues D P Y", "continues M D Y", "continues M P D", "optimal D P Z", "optimal M D Z", "optimal M P D", "run D P E", "run M D E", "run M P D", "run M P D --complete", "agent D P 0 T", "agent M D 0 T"),
    *("status D P J%", "status M D J%", "lost D P J% 0", "lost M D J% 0", "handover D P J%", "handover M D J%", "anew D P J% 8", "anew M D J% 8"),
]
# Commands with a file that is not there, and one in front of it, which is opened all the same, or behind it, which is not.
OPENED = [
    *(("row M no 0", "M"), ("check M no", "M"), ("check M P --scen no", "M"), ("check M P --scen no", "P")),
    *(("deps M no", "M"), ("path M no", "M"), ("cut M no 0", "M"), ("continues M no Y", "M"), ("continues M P no", "P"), ("optimal M no Z", "M"), ("optimal M P no", "P"), ("run M no E", "M"), ("run M P no", "P"), ("agent M no 0 T", "M")),
    *(("status M no J%", "M"), ("lost M no J% 0", "M"), ("handover M no J%", "M"), ("anew M no J% 8", "M")),
]
NOT_OPENED = [
    *(("row no S 0", "S"), ("check no P", "P"), ("check M no --scen F", "F"), ("deps no P", "P"), ("path no P", "P"), ("cut no P 0", "P"), ("continues M no Y", "Y"), ("optimal M no Z", "Z")),
    *(("run no P E", "P"), ("run M no E", "E"), ("agent no P 0 T", "P")),
    *(("status no P J%", "P"), ("status M no J%", "J0"), ("lost no P J% 0", "P"), ("lost M no J% 0", "J0"), ("handover no P J%", "P"), ("handover M no J%", "J0"), ("anew no P J% 8", "P"), ("anew M no J% 8", "J0")),
]


def limited(harness: Harness, words: Sequence[str], folder: pathlib.Path, most: int, **streams) -> subprocess.CompletedProcess:
    """Runs a command in whose files no write goes past so many bytes."""

    def limit() -> None:
        # Past the limit a write fails, in place of a signal.
        signal.signal(signal.SIGXFSZ, signal.SIG_IGN)
        resource.setrlimit(resource.RLIMIT_FSIZE, (most, most))

    return subprocess.run([str(harness.program), *words], cwd=folder, preexec_fn=limit, timeout=LONGEST, **streams)


def cut_short(harness: Harness, words: str, most: int, to_error: bool) -> Ended:
    """Runs a command, one of whose outputs is a file that takes so many bytes at most. Answers what that file has then."""
    folder = harness.folder(FILES)
    with open(folder / "written", "wb") as file:
        streams = {"stdout": subprocess.PIPE, "stderr": file} if to_error else {"stdout": file, "stderr": subprocess.PIPE}
        ran = limited(harness, words.split(), folder, most, stdin=subprocess.DEVNULL, **streams)
    written = (folder / "written").read_bytes()
    return Ended(ran.returncode, ran.stdout, written) if to_error else Ended(ran.returncode, written, ran.stderr)


def outputs_that_end(harness: Harness) -> Iterator[Outcome]:
    """An output that takes only so many bytes has just these, and the status says that it failed."""
    for words, text in WRITING:
        for most in range(len(text)):
            ended, due = cut_short(harness, words, most, False), Ended(3, text[:most].encode(), b"mapf: WriteFailed\n")
            yield ended_as(f"{words}, an output of {most} bytes", f"mapf {words} > a file of {most} bytes at most", ended, due)
    for words, line in FAULTY:
        for most in range(len(line)):
            ended, due = cut_short(harness, words, most, True), Ended(1, b"", line[:most].encode())
            yield ended_as(f"{words}, an error output of {most} bytes", f"mapf {words} 2> a file of {most} bytes at most", ended, due)


def by_shell(harness: Harness, line: str, folder: pathlib.Path) -> Ended:
    """Runs the program by a line of the shell, for what the shell does with its outputs."""
    return harness.run(["sh", "-c", f"{shlex.quote(str(harness.program))} {line}"], folder=folder)


def outputs_that_are_full(harness: Harness) -> Iterator[Outcome]:
    """A full device, and a pipe that nobody reads."""
    folder = harness.folder(FILES)
    due = Ended(3, b"", b"mapf: WriteFailed\n")
    writing = [*(words for words, _ in WRITING), "help", "help check"]
    for words in writing:
        yield ended_as(f"{words}, to a closed pipe", f"mapf {words} | (no reader)", to_nobody(harness, words, folder), due)
    if not os.path.exists("/dev/full"):
        yield Outcome("outputs to a full device", lacks="/dev/full")
        return
    for words in writing:
        full = f"{words} > /dev/full"
        yield ended_as(full, f"mapf {full}", by_shell(harness, full, folder), due)
    for words, _ in FAULTY:
        full = f"{words} 2> /dev/full"
        yield ended_as(full, f"mapf {full}", by_shell(harness, full, folder), Ended(1, b"", b""))


def to_nobody(harness: Harness, words: str, folder: pathlib.Path, are_both: bool = False) -> Ended:
    """Runs a command whose output, or both, is a pipe that has no reader any more."""
    reading, writing = os.pipe()
    os.close(reading)
    try:
        how = {"cwd": folder, "stdin": subprocess.DEVNULL, "stdout": writing, "stderr": writing if are_both else subprocess.PIPE}
        ran = subprocess.run([str(harness.program), *words.split()], timeout=LONGEST, **how)
    finally:
        os.close(writing)
    return Ended(ran.returncode, b"", ran.stderr or b"")


def calls() -> Iterator[tuple[str, Ended]]:
    """Commands, and all that each does where nothing fails."""
    for words, text in WRITING:
        status, fault = STATUSES.get(words, (0, ""))
        yield words, Ended(status, text.encode(), fault.encode())
    for words, line in FAULTY:
        yield words, Ended(1, b"", line.encode())
    yield "help deps", Ended(0, help_texts.DEPS.encode(), b"")
    yield "help check", Ended(0, help_texts.CHECK.encode(), b"")
    for words, told in command_lines.WHOLE.items():
        yield words, Ended(2, b"", told)


def streams_that_are_not_there(harness: Harness, words: str, whole: Ended) -> list[Outcome]:
    """Any of the three streams closed, both outputs full, and both a pipe that nobody reads: the status says whether an output failed. A file that
    is opened then has the place of a stream, and still no more is written to it."""
    outcomes = []
    for closed in CLOSED:
        is_closed = ">&-" in closed.split()
        status = 3 if is_closed and whole.out else whole.status
        err = b"" if "2>&-" in closed else b"mapf: WriteFailed\n" if status == 3 else whole.err
        due = Ended(status, b"" if is_closed else whole.out, err)
        folder = harness.folder(FILES)
        outcomes.append(ended_as(f"{words} {closed}", f"mapf {words} {closed}", by_shell(harness, f"{words} {closed}", folder), due))
        left = {path.name: path.read_bytes() for path in folder.iterdir()}
        outcomes.append(compared(f"{words} {closed}, the files", f"mapf {words} {closed}", {"T": b"", **left}, {"T": b"", **FILES}))
    folder = harness.folder(FILES)
    due = Ended(3 if whole.out else whole.status, b"", b"")
    ended = to_nobody(harness, words, folder, are_both=True)
    outcomes.append(ended_as(f"{words}, both outputs to nobody", f"mapf {words} 2>&1 | (no reader)", ended, due))
    if os.path.exists("/dev/full"):
        full = f"{words} > /dev/full 2>&1"
        outcomes.append(ended_as(full, f"mapf {full}", by_shell(harness, full, folder), due))
    return outcomes


def odd_streams(harness: Harness) -> Iterator[Outcome]:
    """Streams that are a folder, an empty file, or open for the other direction alone."""
    for line, due in ODD_STREAMS:
        folder = harness.folder({**FILES, "empty": b""})
        yield ended_as(line, f"mapf {line}", by_shell(harness, line, folder), due)


def inputs_that_fail(harness: Harness) -> Iterator[Outcome]:
    """A folder can be opened and not be read."""
    due = Ended(3, b"", b"mapf: ReadFailed\n")
    for words in UNREADABLE:
        folder = harness.folder(FILES)
        (folder / "D").mkdir()
        yield ended_as(words, f"mapf {words}  with a folder D", harness.mapf(words.split(), folder=folder), due)
        yield compared(f"{words} makes no tape", f"mapf {words}", (folder / "T").exists(), False)
    if not has_terminals():
        yield Outcome("an agent's input that fails", lacks="terminal")
        return
    for given, answers in ((b"", ""), (b"start\nfin", "moving 2 0\n"), (b"start\nfinish\n", "moving 2 0\narrived 2 0\n")):
        ended = over_a_line_that_breaks(harness, given)
        due = Ended(3, f"at 1 0 done 0\n{answers}".encode(), b"mapf: ReadFailed\n")
        yield ended_as(f"agent, its input fails behind {given!r}", f"mapf agent M P 0 T  with the input {given!r}, which then fails", ended, due)


def over_a_line_that_breaks(harness: Harness, given: bytes) -> Ended:
    """Runs an agent whose input gives these bytes and then fails: it reads a terminal's far end, whose near end is closed."""
    far, near = pty.openpty()
    tty.setraw(near)
    how = {"cwd": harness.folder(FILES), "stdin": far, "stdout": subprocess.PIPE, "stderr": subprocess.PIPE}
    with subprocess.Popen([str(harness.program), "agent", "M", "P", "0", "T"], **how) as process:
        os.close(far)
        os.write(near, given)
        os.close(near)
        out, err = process.communicate(timeout=LONGEST)
    return Ended(process.returncode, out, err)


def is_opened(harness: Harness, words: str, name: str) -> Optional[bool]:
    """Whether a command opens this file, here a pipe, before it finds that another one is not there. None where it says something else."""
    folder = harness.folder(FILES)
    os.replace(folder / name, folder / "kept")
    os.mkfifo(folder / name)
    how = {"cwd": folder, "stdin": subprocess.DEVNULL, "stdout": subprocess.PIPE, "stderr": subprocess.PIPE}
    with subprocess.Popen([str(harness.program), *words.split()], **how) as process:
        opened = False
        for _ in range(100 * LONGEST):
            try:
                # Fails as long as nobody has opened it for reading.
                os.close(os.open(folder / name, os.O_WRONLY | os.O_NONBLOCK))
                opened = True
                break
            except OSError:
                if process.poll() is not None:
                    break
                time.sleep(0.01)
        _, err = process.communicate(timeout=LONGEST)
    return opened if (process.returncode, err) == (3, b"mapf: OpenFailed\n") else None


def order_of_files(harness: Harness) -> Iterator[Outcome]:
    """All files are opened in the order of the words, and before any is read."""
    for table, is_due in ((OPENED, True), (NOT_OPENED, False)):
        for words, name in table:
            ran = f"mapf {words}  with a pipe for {name}"
            yield compared(f"{words}: is {name} opened?", ran, is_opened(harness, words, name), is_due)


def order_of_outputs(harness: Harness) -> Iterator[Outcome]:
    """Replies are out before the line of a fault; an answer of an agent is out before its next line is waited for."""
    folder = harness.folder(FILES)
    ended = by_shell(harness, "run M P J 2>&1", folder)
    yield ended_as("replies before a fault", "mapf run M P J 2>&1", ended, Ended(1, b"moving 2 0\nmapf: BadEvent 3\n", b""))
    how = {"cwd": folder, "stdin": subprocess.PIPE, "stdout": subprocess.PIPE}
    with subprocess.Popen([str(harness.program), "agent", "M", "P", "0", "T"], **how) as process:
        told = [process.stdout.readline()]
        for line in (b"start\n", b"finish\n", b"held\n"):
            process.stdin.write(line)
            process.stdin.flush()
            told.append(process.stdout.readline())
        process.stdin.close()
    due = [b"at 1 0 done 0\n", b"moving 2 0\n", b"arrived 2 0\n", b"at 2 0 done 1\n"]
    yield compared("answers before the next line", "mapf agent M P 0 T, line after line", told, due)


def stores_that_fail(harness: Harness) -> Iterator[Outcome]:
    """A tape file that takes only so many bytes: the answer says so, the status is 3, and the file has whole records and a tail."""
    moving, standing = bytes.fromhex("50010000000700000000"), bytes.fromhex("50020000000700000001")
    for most in range(20):
        folder, words = harness.folder(FILES), ["agent", "M", "P", "0", "T"]
        ran = limited(harness, words, folder, most, input=b"start\nfinish\nheld\n", capture_output=True)
        answers = "at 1 0 done 0\n" + ("" if most < 10 else "moving 2 0\n") + "refused StoreFailed\n"
        name = f"a tape file of {most} bytes"
        command = f"mapf agent M P 0 T  with the lines start, finish and held, and a tape of {most} bytes at most"
        yield ended_as(name, command, Ended(ran.returncode, ran.stdout, ran.stderr), Ended(3, answers.encode(), b""))
        yield compared(f"{name}, looked into", command, (folder / "T").read_bytes().hex(), (moving + standing)[:most].hex())
        again = harness.mapf(words, folder=folder)
        state = "at 1 0 done 0\n" if most < 10 else "between 1 0 2 0 done 0\n"
        yield ended_as(f"{name}, opened again", command, again, Ended(0, state.encode(), b""))


# How an agent may ask for its tape.
CLAIMS = [[], ["--tape", "new"], ["--tape", "kept"]]
# A file that may be read and not written, by anybody.
READ_ONLY = "/sys/kernel/notes"


def tapes_in_use(harness: Harness) -> Iterator[Outcome]:
    """One process holds a tape until it ends, by itself or killed; another one leaves the file alone."""
    moving = bytes.fromhex("50010000000700000000")
    for claim in CLAIMS:
        folder, words = harness.folder(FILES), ["agent", "M", "P", "0", "T"]
        how = {"cwd": folder, "stdin": subprocess.PIPE, "stdout": subprocess.PIPE}
        with subprocess.Popen([str(harness.program), *words, "--tape", "new"], **how) as process:
            told = [process.stdout.readline()]
            process.stdin.write(b"start\n")
            process.stdin.flush()
            told.append(process.stdout.readline())
            others = [harness.mapf([*words, *claim], b"start\n", folder), (folder / "T").read_bytes()]
            process.stdin.write(b"held\n")
            process.stdin.flush()
            told.append(process.stdout.readline())
            process.kill()
        command = f"mapf {' '.join([*words, *claim])}  while another process is on T"
        yield compared(f"a tape in use {claim}", command, others, [Ended(3, b"", b"mapf: TapeInUse\n"), moving])
        due = [b"at 1 0 done 0\n", b"moving 2 0\n", b"between 1 0 2 0 done 0\n"]
        yield compared(f"a tape in use {claim}, the process that holds it", command, told, due)
        again = harness.mapf([*words, "--tape", "kept"], folder=folder)
        yield ended_as(f"a tape {claim} that was in use", f"{command}, killed", again, Ended(0, due[2], b""))


def tapes_that_are_no_files(harness: Harness) -> Iterator[Outcome]:
    """Pipes, devices, folders and files that can't be written are refused at once, before the first line."""
    for claim in CLAIMS:
        folder = harness.folder(FILES)
        os.mkfifo(folder / "pipe")
        os.symlink("/dev/zero", folder / "link")
        for name in ["pipe", "link", "/dev/null", "/dev/full", "/dev", ".", *([READ_ONLY] if os.path.isfile(READ_ONLY) else [])]:
            words = ["agent", "M", "P", "0", name, *claim]
            ended = harness.mapf(words, b"start\n", folder)
            yield ended_as(" ".join(words), f"mapf {' '.join(words)}", ended, Ended(3, b"", b"mapf: OpenFailed\n"))
        for name in ["pipe", "link", "/dev/null", "/dev", "."]:
            words = ["tape", "M", "P", "0", name]
            yield ended_as(" ".join(words), f"mapf {' '.join(words)}", harness.mapf(words, folder=folder), Ended(3, b"", b"mapf: OpenFailed\n"))
        os.symlink("real", folder / "other")
        words = ["agent", "M", "P", "0", "other", "--tape", "new"]
        yield ended_as("a link to a tape", f"mapf {' '.join(words)}", harness.mapf(words, folder=folder), Ended(0, b"at 1 0 done 0\n", b""))
        yield compared("a link to a tape, looked at", f"mapf {' '.join(words)}", (folder / "real").read_bytes(), b"")


def moved(folder: pathlib.Path, how: str) -> None:
    """Takes the tape of a running agent from under its name, which is T; for `link` T is a link to a tape."""
    tape = folder / "T"
    if how == "copied":
        (folder / "new").write_bytes(tape.read_bytes())
        (folder / "new").replace(tape)
    elif how == "removed":
        tape.unlink()
    elif how == "renamed":
        tape.rename(folder / "away")
    elif how == "linked":
        tape.rename(folder / "away")
        os.link(folder / "away", tape)
    elif how == "pointed":
        (folder / "other").write_bytes((folder / "real").read_bytes())
        os.symlink("other", folder / "link")
        (folder / "link").replace(tape)
    elif how == "barred":
        tape.unlink()
        os.symlink("T", tape)


# What is done to a tape beside its agent, and whether its name still names it.
MOVES = [("copied", False), ("removed", False), ("renamed", False), ("pointed", False), ("barred", False), ("linked", True), ("left", True)]


def tapes_that_move(harness: Harness) -> Iterator[Outcome]:
    """Nothing is stored in a file that the tape's name doesn't name any more: the agent says that the store failed, and ends."""
    moving, standing = bytes.fromhex("50010000000700000000"), bytes.fromhex("50020000000700000001")
    for how, stays in MOVES:
        for claim in CLAIMS[:2]:
            folder, words = harness.folder(FILES), ["agent", "M", "P", "0", "T", *claim]
            if how == "pointed":
                os.symlink("real", folder / "T")
            streams = {"cwd": folder, "stdin": subprocess.PIPE, "stdout": subprocess.PIPE, "stderr": subprocess.PIPE}
            with subprocess.Popen([str(harness.program), *words], **streams) as process:
                told = [process.stdout.readline()]
                process.stdin.write(b"start\n")
                process.stdin.flush()
                told.append(process.stdout.readline())
                with open(folder / "T", "rb") as held:
                    moved(folder, how)
                    rest, errors = process.communicate(b"say\nfinish\nheld\n")
                    kept = held.read()
            said, status = b"said 460100000000000700000000\n", 0 if stays else 3
            last = b"arrived 2 0\nat 2 0 done 1\n" if stays else b"refused StoreFailed\n"
            due = ([b"at 1 0 done 0\n", b"moving 2 0\n"], said + last, b"", status, moving + standing if stays else moving)
            command = f"mapf {' '.join(words)}  while its tape is {how}"
            yield compared(f"a tape that is {how} {claim}", command, (told, rest, errors, process.returncode, kept), due)


def outcomes(harness: Harness) -> Iterator[Outcome]:
    yield from outputs_that_end(harness)
    yield from outputs_that_are_full(harness)
    yield from side_by_side(functools.partial(streams_that_are_not_there, harness, *call) for call in calls())
    yield from odd_streams(harness)
    yield from inputs_that_fail(harness)
    yield from order_of_files(harness)
    yield from order_of_outputs(harness)
    yield from stores_that_fail(harness)
    yield from tapes_in_use(harness)
    yield from tapes_that_are_no_files(harness)
    yield from tapes_that_move(harness)
