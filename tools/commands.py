#!/usr/bin/env python3
"""Writes what is made of the program's help: completions/mapf.bash, and the table in README.md.

Usage: commands.py [--check] [--program PATH] [--root FOLDER]

`mapf help`, `mapf help COMMAND` and `mapf help faults` are the one definition of each command. Of
an option whose line there ends with `: new or kept`, these are the values. The table stands between
two lines of README.md, and has the options of each command but those that every command has.
`--check` writes nothing, and says which file would be another.

Status 0: done, or nothing would be another. 1: a file would be another, or the help or README.md is
not as it is due. 2: a bad command line. 3: the program or a file failed.
"""
import argparse
import dataclasses
import pathlib
import re
import sys
import textwrap
from typing import Sequence

sys.dont_write_bytecode = True
import product  # noqa: E402
from mapf import faults  # noqa: E402
from mapf.program import Program  # noqa: E402
from whole_file import draft  # noqa: E402

BASH, README = "completions/mapf.bash", "README.md"
# Between these lines of README.md stands the table.
BEGIN = "<!-- The table is written by tools/commands.py. -->"
END = "<!-- Here the table ends. -->"
DIFFERS, FAILED = 1, 3
# Whose words are commands and faults.
HELP = "help"
FAULTS = "faults"
# `  -h, --help             Print help`, `      --cell <X> <Y>  Writes who comes into this cell`.
OPTION = re.compile(r" {2,6}(-\w)?(?:, )?(--[\w-]+)?((?: <[^>]+>)*)(?:  +(.*))?")
# `What the tape has to be: new or kept`
CHOICES = re.compile(r": (\w+(?:, \w+)* or \w+)$")
WIDTH = 100

COMPLETION = """\
# What bash offers where Tab is pressed behind `mapf`, as tools/commands.py makes it of the help of
# the program. `source` it, or put it as ~/.local/share/bash-completion/completions/mapf.

_mapf() {{
    local word=${{COMP_WORDS[COMP_CWORD]}} before=${{COMP_WORDS[COMP_CWORD - 1]}}
    local command='' offers='' at
    local commands='{commands}'
    local faults='{faults}'
    COMPREPLY=()
    # bash takes the = of --name=VALUE for a word of its own.
    if [[ $word == = ]]; then
        word=''
    elif [[ $before == = && COMP_CWORD -gt 1 ]]; then
        before=${{COMP_WORDS[COMP_CWORD - 2]}}
    fi
    for ((at = 1; at < COMP_CWORD; at++)); do
        # Behind this each word is a file or a number.
        [[ ${{COMP_WORDS[at]}} == -- ]] && return 0
        [[ -z $command && ${{COMP_WORDS[at]}} != -* ]] && command=${{COMP_WORDS[at]}}
    done
    case $command:$before in
{values}
    esac
    case $command in
{offers}
    esac
    # Where a file is due, options are offered to those alone who begin one.
    if [[ $word == -* || -z $command || $command == {help} ]]; then
        mapfile -t COMPREPLY < <(compgen -W "$offers" -- "$word")
    fi
}}

# Where nothing is offered, bash offers files.
complete -o default -F _mapf mapf
"""
# Lines of it: a value that is a file or a number, one of some words, and the words of a command.
ANY_VALUE = "        {where}) return 0 ;;"
ONE_OF = "        {where}) mapfile -t COMPREPLY < <(compgen -W '{words}' -- \"$word\"); return ;;"
OFFERS = "        {command}) offers={words} ;;"


class Fault(Exception):
    """Why nothing can be made, and the status."""

    def __init__(self, told: str, status: int = DIFFERS) -> None:
        super().__init__(told)
        self.status = status


@dataclasses.dataclass(frozen=True)
class Option:
    """An option: its names, what stands for its values, and these where they are fixed words."""

    names: tuple[str, ...]
    values: tuple[str, ...]
    choices: tuple[str, ...]

    def __str__(self) -> str:
        values = ("|".join(self.choices),) if self.choices else self.values
        return " ".join([self.names[-1], *values])


@dataclasses.dataclass(frozen=True)
class Command:
    """A command: what it does in a line, its usage, and its options."""

    name: str
    about: str
    usage: str
    options: tuple[Option, ...]


@dataclasses.dataclass(frozen=True)
class Commands:
    """All commands, the options of the program itself, and the names of faults."""

    commands: tuple[Command, ...]
    options: tuple[Option, ...]
    faults: tuple[str, ...]


class Help:
    """The help of a program."""

    def __init__(self, program: pathlib.Path) -> None:
        self.program = Program(program)

    def text(self, *words: str) -> str:
        """What `help` says behind these words."""
        line = [HELP, *words]
        try:
            said = self.program.ask(line, b"".join)
        except faults.Failed as failed:
            raise Fault(str(failed), FAILED) from None
        if said.status:
            raise Fault(f"`mapf {' '.join(line)}` ended with status {said.status}", FAILED)
        return said.answer.decode()

    def section(self, heading: str, *words: str) -> list[str]:
        """The lines under a heading of a text, none where there is no such heading."""
        found = re.search(rf"^{heading}:\n((?:  .*\n)*)", self.text(*words), re.MULTILINE)
        return found[1].splitlines() if found else []

    def options(self, *words: str) -> tuple[Option, ...]:
        found = []
        for line in self.section("Options", *words):
            option = OPTION.fullmatch(line)
            if not option or not (option[1] or option[2]):
                asked = " ".join(["mapf", HELP, *words])
                raise Fault(f"`{asked}`: no option stands in the line '{line}'")
            choices = CHOICES.search(option[4] or "")
            found.append(Option(
                tuple(filter(None, option.group(1, 2))),
                tuple(re.findall(r"<[^>]+>", option[3])),
                tuple(re.split(", | or ", choices[1])) if choices else (),
            ))
        return tuple(found)

    def command(self, name: str) -> Command:
        about, _, rest = self.text(name).partition("\n")
        usage = re.search(r"^Usage: mapf (.+)$", rest, re.MULTILINE)
        if not usage:
            raise Fault(f"`mapf {HELP} {name}` has no line of its usage")
        return Command(name, about, usage[1], self.options(name))

    def commands(self) -> Commands:
        names = [line.split()[0] for line in self.section("Commands")]
        if not names:
            raise Fault(f"`mapf {HELP}` lists no commands")
        faults = re.findall(r"^  (\w+)", self.text(FAULTS), re.MULTILINE)
        own = tuple(map(self.command, names))
        return Commands(own, self.options(), tuple(sorted(set(faults))))


def words_of(options: Sequence[Option]) -> str:
    """The names of options, the short ones of each first."""
    return " ".join(name for option in options for name in option.names)


def values(commands: Sequence[Command]) -> list[str]:
    """The lines for words that are values of an option."""
    free: list[str] = []
    lines = []
    for command in commands:
        for option in filter(lambda option: option.values, command.options):
            where = f"{command.name}:{option.names[-1]}"
            if option.choices:
                lines.append(ONE_OF.format(where=where, words=" ".join(option.choices)))
            else:
                free.append(where)
    return [ANY_VALUE.format(where=" | ".join(free))] * bool(free) + lines


def offers(known: Commands) -> list[str]:
    """The lines for words that are none: those of the program, and of each command."""
    lines = [("''", f'"$commands {words_of(known.options)}"')]
    for it in known.commands:
        offered = '"$commands faults $faults"' if it.name == HELP else f"'{words_of(it.options)}'"
        lines.append((it.name, offered))
    return [OFFERS.format(command=name, words=words) for name, words in lines]


def completion(known: Commands) -> str:
    """The text of completions/mapf.bash."""
    indent = {"subsequent_indent": 8 * " ", "initial_indent": 20 * " "}
    faults = textwrap.fill(" ".join(known.faults), WIDTH, **indent).strip()
    return COMPLETION.format(
        commands=" ".join(it.name for it in known.commands),
        faults=faults,
        values="\n".join(values(known.commands)),
        offers="\n".join(offers(known)),
        help=HELP,
    )


def table(known: Commands) -> str:
    """A row for each command: its usage, with its own options, and what it does."""
    with_options = [it.options for it in known.commands if it.options]
    common = set(with_options[0]).intersection(*with_options) if with_options else set()
    lines = ["| Command | What it does |", "|---|---|"]
    for it in known.commands:
        own = "".join(f" [{option}]" for option in it.options if option not in common)
        usage = it.usage.replace(" [OPTIONS]", "") + own
        lines.append("| `{}` | {} |".format(*(it.replace("|", "\\|") for it in (usage, it.about))))
    return "\n".join(lines)


def with_table(readme: str, rows: str) -> str:
    """README.md with this table."""
    begin, end = readme.find(f"{BEGIN}\n"), readme.find(f"\n{END}\n")
    if not 0 <= begin < end:
        raise Fault(f"{README} has no table between the lines '{BEGIN}' and '{END}'")
    return f"{readme[: begin + len(BEGIN)]}\n\n{rows}\n{readme[end:]}"


def made(root: pathlib.Path, known: Commands) -> dict[str, bytes]:
    """The files that are made, each with its text."""
    try:
        readme = (root / README).read_text(encoding="utf-8")
    except UnicodeDecodeError:
        raise Fault(f"{README} is no text in UTF-8") from None
    texts = {BASH: completion(known), README: with_table(readme, table(known))}
    return {name: text.encode() for name, text in texts.items()}


def differing(root: pathlib.Path, texts: dict[str, bytes]) -> list[str]:
    """The files that have another text, or aren't there."""
    files = {name: root / name for name in texts}
    return [it for it, file in files.items() if not file.exists() or file.read_bytes() != texts[it]]


def write(root: pathlib.Path, texts: dict[str, bytes]) -> None:
    for name, text in texts.items():
        with draft([text], root / name) as it:
            it.put()


def read_words(words: Sequence[str]) -> argparse.Namespace:
    how = argparse.RawDescriptionHelpFormatter
    parser = argparse.ArgumentParser(prog="commands.py", description=__doc__, formatter_class=how)
    parser.add_argument("--check", action="store_true", help="writes nothing, and compares")
    of_checkout = {"type": pathlib.Path, "default": product.ROOT / "mapf"}
    parser.add_argument("--program", metavar="PATH", help="asks this program", **of_checkout)
    root = {"type": pathlib.Path, "default": product.ROOT}
    parser.add_argument("--root", metavar="FOLDER", help="writes in this folder", **root)
    return parser.parse_args(words)


def main(words: Sequence[str]) -> int:
    given = read_words(words)
    try:
        texts = made(given.root, Help(given.program).commands())
        others = differing(given.root, texts)
        if not given.check:
            write(given.root, {name: texts[name] for name in others})
            return 0
    except Fault as fault:
        print(f"commands: {fault}", file=sys.stderr)
        return fault.status
    except OSError as fault:
        print(f"commands: {fault.filename}: {fault.strerror}", file=sys.stderr)
        return FAILED
    for name in others:
        print(f"commands: {name} is not as the program's help: tools/commands.py writes it")
    return DIFFERS if others else 0


if __name__ == "__main__":
    sys.exit(main(sys.argv[1:]))
