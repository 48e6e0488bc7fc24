"""completions/mapf.bash: it offers the commands and options that the help of the program lists, and
nothing else. And tools/commands.py, which writes it, and README's table too."""
import pathlib
import re
import shutil
import sys
from typing import Iterator, Mapping, Sequence

from harness import ROOT, Ended, Harness, Outcome, compared, ended_as, put_program

# Asks for the offers to the last word of a command line, as bash does.
ASK = """
source "$1" && shift
COMP_WORDS=("$@") COMP_CWORD=$(($# - 1))
_mapf && printf '%s\\n' "${COMPREPLY[@]}"
"""


TOOL = ROOT / "tools" / "commands.py"
README, BASH = "README.md", "completions/mapf.bash"
# The help of a program that is made up: what it says behind `help` and these words.
MADE_UP = {
    "": """Walks

Usage: mapf <COMMAND>

Commands:
  walk  Walks | or stands
  stay  Stays where it is
  help  Print this message

Options:
  -h, --help  Print help

  bees are no command
""",
    "walk": """Walks | or stands

Usage: mapf walk [OPTIONS] <way> [home]...

Arguments:
  <way>  The way

Options:
      --pace <pace>      How fast it goes: slow, even or quick
      --turn <turn>      Where it turns: l or r
      --mark <X> <Y>     Where it stops: a column and a row
      --day              Goes on and on
      --quiet            Says nothing
  -h, --help             Print help

Options are free.
""",
    "stay": """Stays where it is

Usage: mapf stay [OPTIONS]

Options:
      --quiet  Says nothing
  -h, --help   Print help
""",
    "help": "Print this message\n\nUsage: mapf help [COMMAND]...\n",
    "faults": "Of a way:\n  TooFar: It is.\n  Bad line: It is.\nOf all:\n  TooFar way: It is.\n",
}
# What bash offers then, and the rows.
OFFERED = {
    "": ["walk", "stay", "help", "-h", "--help"],
    "help ": ["walk", "stay", "help", "faults", "Bad", "TooFar"],
    "walk -": ["--pace", "--turn", "--mark", "--day", "--quiet", "-h", "--help"],
    "walk --pace ": ["slow", "even", "quick"],
    "walk W --turn r": ["r"],
    "walk --mark -": [],
    "walk ": [],
    "stay -": ["--quiet", "-h", "--help"],
    "stay --pace -": ["--quiet", "-h", "--help"],
    "stop -": [],
}
ROWS = r"""
| Command | What it does |
|---|---|
| `walk <way> [home]... [--pace slow\|even\|quick] [--turn l\|r] [--mark <X> <Y>] [--day]` | Walks \| or stands |
| `stay` | Stays where it is |
| `help [COMMAND]...` | Print this message |

"""
BEGIN, END = "<!-- The table is written by tools/commands.py. -->", "<!-- Here the table ends. -->"
PAGE = f"# mapf\n\n{BEGIN}\n{{}}{END}\n\nMore.\n"
# What is told where nothing can be made: the help or README.md in its place, and the status.
UNMADE: list[tuple[Mapping[str, str], str, str]] = [
    ({"": "Walks\n"}, PAGE, "`mapf help` lists no commands"),
    ({"walk": "Walks\n"}, PAGE, "`mapf help walk` has no line of its usage"),
    (
        {"stay": "Stays\n\nUsage: mapf stay\n\nOptions:\n  quiet  Is it\n"},
        PAGE,
        "`mapf help stay`: no option stands in the line '  quiet  Is it'",
    ),
    ({}, f"{END}\n{BEGIN}\n", f"README.md has no table between the lines '{BEGIN}' and '{END}'"),
    ({}, "# mapf\n", f"README.md has no table between the lines '{BEGIN}' and '{END}'"),
]


def offered(harness: Harness, words: Sequence[str], file: pathlib.Path = ROOT / BASH) -> list[str]:
    ended = harness.run(["bash", "-c", ASK, "bash", str(file), "mapf", *words])
    if ended.status or ended.err:
        return [f"status {ended.status}: {ended.err.decode()}"]
    return sorted(ended.out.decode().split())


def made_up(harness: Harness, texts: Mapping[str, str], page: str) -> pathlib.Path:
    """A folder with a program that has this help, a page, and no completion."""
    folder = harness.folder({f"help {name}".strip(): it.encode() for name, it in texts.items()})
    (folder / README).write_text(page)
    (folder / "completions").mkdir()
    program = folder / "program"
    put_program(program, '#!/bin/sh\ncat "${0%/*}/$*"\n')
    return folder


def write(harness: Harness, folder: pathlib.Path, *words: str) -> Ended:
    program = folder / "program"
    given = ["--root", str(folder), "--program", str(program), *words]
    return harness.run([sys.executable, str(TOOL), *given])


def of_checkout(harness: Harness) -> Iterator[Outcome]:
    """What stands in the checkout is what the program under test makes."""
    ended = harness.run([sys.executable, str(TOOL), "--check", "--program", str(harness.program)])
    yield ended_as("what is made of help", f"{TOOL.name} --check", ended, Ended(0, b"", b""))


def of_made_up(harness: Harness) -> Iterator[Outcome]:
    """A command more is offered and has its row, and nothing else is touched."""
    folder = made_up(harness, MADE_UP, PAGE.format(""))
    why = "is not as the program's help: tools/commands.py writes it"
    due = Ended(1, f"commands: {BASH} {why}\ncommands: {README} {why}\n".encode(), b"")
    ended = write(harness, folder, "--check")
    yield ended_as("what isn't made yet", f"{TOOL.name} --check", ended, due)
    left = ((folder / README).read_text(), (folder / BASH).exists())
    yield compared("nothing is written", f"{TOOL.name} --check", left, (PAGE.format(""), False))
    for words in ((), ("--check",)):
        ended = write(harness, folder, *words)
        yield ended_as("what is made", f"{TOOL.name} {words}", ended, Ended(0, b"", b""))
    yield compared("the rows", TOOL.name, (folder / README).read_text(), PAGE.format(ROWS))
    for words, due in OFFERED.items():
        found = offered(harness, words.split(" "), folder / BASH)
        yield compared(f"made up: mapf {words}", f"Tab behind 'mapf {words}'", found, sorted(due))


def of_unmade(harness: Harness) -> Iterator[Outcome]:
    """What is told where nothing can be made, and nothing is then."""
    for texts, page, told in UNMADE:
        folder = made_up(harness, {**MADE_UP, **texts}, page)
        due = Ended(1, b"", f"commands: {told}\n".encode())
        yield ended_as(told, TOOL.name, write(harness, folder), due)
        left = (folder / README).read_text(), (folder / BASH).exists()
        yield compared(f"nothing is written: {told}", TOOL.name, left, (page, False))
    folder = made_up(harness, {}, PAGE)
    why = "`mapf help` ended with status 1"
    for told in (why, f"{folder / 'program'} can't be started: No such file or directory"):
        due = Ended(3, b"", f"commands: {told}\n".encode())
        yield ended_as(told, TOOL.name, write(harness, folder), due)
        (folder / "program").unlink(missing_ok=True)


def listed(help_text: str, heading: str) -> list[str]:
    """The first words of the lines under a heading of a help text."""
    found = re.search(rf"^{heading}:\n((?:  .*\n)+)", help_text, re.MULTILINE)
    return re.findall(r"^ +(\S+)", found[1], re.MULTILINE) if found else []


def options(help_text: str) -> list[str]:
    found = re.search(r"^Options:\n((?:  .*\n)+)", help_text, re.MULTILINE)
    return re.findall(r"(?<=[ ,])--?[a-zA-Z-]+", "".join(line[:26] for line in found[1].splitlines(True))) if found else []


def outcomes(harness: Harness) -> Iterator[Outcome]:
    yield from of_checkout(harness)
    yield from of_unmade(harness)
    if not shutil.which("bash"):
        yield Outcome("completions", lacks="bash")
        return

    yield from of_made_up(harness)

    def offers(words: str, due: Sequence[str]) -> Outcome:
        asked = words.split(" ")
        return compared(f"mapf {words}", f"Tab behind 'mapf {words}'", offered(harness, asked), sorted(due))

    text = harness.mapf(["help"]).out.decode()
    commands = listed(text, "Commands")
    yield compared("commands", "mapf help", len(commands) > 8 and "help" in commands, True)
    yield offers("", [*commands, *options(text)])
    yield offers("-", options(text))
    faults = re.findall(r"(?m)^  (\w+)", harness.mapf(["help", "faults"]).out.decode())
    yield compared("faults", "mapf help faults", len(set(faults)) > 50 and "NoTape" in faults, True)
    yield offers("help ", [*commands, "faults", *set(faults)])
    yield offers("help Wrong", ["WrongAgent", "WrongPlan"])
    for command in commands:
        yield offers(command[:-1], [it for it in commands if it.startswith(command[:-1])])
        if command == "help":
            continue
        own = options(harness.mapf(["help", command]).out.decode())
        yield compared(f"options of {command}", f"mapf help {command}", "--help" in own, True)
        for words in (f"{command} -", f"{command} M -"):
            yield offers(words, own)
        for option in own:
            yield offers(f"{command} {option[:3]}", [it for it in own if it.startswith(option[:3])])
        # A file is due, also behind `--`, where no word is an option.
        for words in (f"{command} ", f"{command} M", f"{command} -- -"):
            yield offers(words, [])
    yield offers("agent M P 0 T --tape ", ["kept", "new"])
    yield offers("agent --tape n", ["new"])
    # So bash divides --tape=n.
    yield offers("agent M P 0 T --tape =", ["kept", "new"])
    yield offers("agent --tape = n", ["new"])
    for words in ("check M P --scen ", "check M P --scen -", "check M P --agents ", "check M P --agents = ", "deps M P --cell ", "path M P --agent "):
        yield offers(words, [])
