"""Manual pages, made of what help says."""
import dataclasses
import re
from typing import Iterable, Iterator, Sequence

COMMANDS, TOOLS = "COMMANDS", "TOOLS"
# Headings of help, and of its manual.
HEADINGS = {
    "Commands": COMMANDS,
    "Arguments": "ARGUMENTS",
    "positional arguments": "ARGUMENTS",
    "Options": "OPTIONS",
    "options": "OPTIONS",
    # As Python's argparse wrote it up to 3.9.
    "optional arguments": "OPTIONS",
    "Status": "EXIT STATUS",
    "Example": "EXAMPLES",
}
DESCRIPTION, STATUSES, EXAMPLES = "DESCRIPTION", "EXIT STATUS", "EXAMPLES"
# In which order they stand.
ORDER = (DESCRIPTION, COMMANDS, TOOLS, "ARGUMENTS", "OPTIONS", STATUSES, EXAMPLES)
HEADING = re.compile(r"([A-Za-z][a-z ]*):$")
# `  -o FILE, --output FILE  where it goes`, and its lines behind the first.
ENTRY = re.compile(r" {2,6}(\S.*?)(?: {2,}(.*))?$")
DEEP = 7
# As Python's argparse wrote an option of two names up to 3.12, in place of `-o, --output FILE`.
NAMED_TWICE = re.compile(r"(-[\w-]+) ([^,]+), (--[\w-]+) \2$")
# A sentence of an exit status in the docstring of a tool.
STATUS = "Status 0:"
USAGE = "Usage: "
# What the typesetter takes for something else than the sign, in a file or on a terminal.
SIGNS = {"\\": "\\e", "-": "\\-", "`": "\\(ga", "'": "\\(aq", "^": "\\(ha", "~": "\\(ti"}


@dataclasses.dataclass(frozen=True)
class Manual:
    """What a manual page is called, in one line what it is of, how it is called, and its sections: each a heading with lines of help."""

    name: str
    about: str
    usage: Sequence[str]
    sections: Sequence[tuple[str, Sequence[str]]]


def set_in_type(text: str) -> str:
    """A text as the typesetter reads it."""
    return "".join(SIGNS.get(sign, sign) for sign in text)


def lines_of(lines: Sequence[str]) -> str:
    """Lines of text, none of which is taken for a request."""
    return "".join(("\\&" if line.startswith(".") else "") + set_in_type(line) + "\n" for line in lines)


def verbatim(lines: Sequence[str]) -> str:
    return f".nf\n{lines_of(lines)}.fi\n"


def paragraphs(lines: Sequence[str]) -> Iterator[str]:
    """Lines as paragraphs; those that stand further in are kept as they are."""
    block: list[str] = []
    for line in [*lines, ""]:
        is_kept = line.startswith(" ")
        if block and (not line or is_kept != block[0].startswith(" ")):
            yield verbatim(block) if block[0].startswith(" ") else lines_of(block)
            block = []
        if line:
            block.append(line)


def entries(lines: Sequence[str]) -> Iterator[tuple[str, str]]:
    """The entries of a list of options, commands or statuses, each with what is said of it."""
    head, about = "", ""
    for line in lines:
        found = ENTRY.match(line)
        if found and len(line) - len(line.lstrip()) < DEEP and not is_going_on(line, about):
            if head:
                yield head, about
            head, about = NAMED_TWICE.sub(r"\1, \3 \2", found[1]), found[2] or ""
        else:
            about = f"{about} {line.strip()}".strip()
    if head:
        yield head, about


def is_going_on(line: str, about: str) -> bool:
    """Whether a line goes on with what is said of the status before it."""
    return bool(about) and line.startswith("     ") and not line.lstrip().startswith("-")


def listed(lines: Sequence[str]) -> str:
    return "".join(f".TP\n.B {set_in_type(head)}\n{lines_of([about])}" for head, about in entries(lines))


def section(heading: str, lines: Sequence[str]) -> str:
    if heading not in ORDER or heading == EXAMPLES:
        body = verbatim(lines)
    elif lines[0].startswith("  "):
        body = listed(lines)
    else:
        body = ".PP\n".join(paragraphs(lines))
    return f".SH {heading}\n{body}"


def page(manual: Manual, version: str, day: str) -> str:
    """The manual page in the language of man."""
    head = f'.TH {set_in_type(manual.name.upper())} 1 {day} "mapf {set_in_type(version)}" "Multi\\-agent path finding"\n'
    name = f".SH NAME\n{set_in_type(manual.name)} \\- {set_in_type(manual.about)}\n"
    usage = f".SH SYNOPSIS\n{verbatim(manual.usage)}"
    return "".join([head, name, usage, *(section(*it) for it in manual.sections)])


def sections_of(lines: Sequence[str]) -> list[tuple[str, list[str]]]:
    """The lines of help under their headings; what stands under none is a description. Sections of one heading are put together."""
    found: dict[str, list[str]] = {}
    heading = DESCRIPTION
    for place, line in enumerate(lines):
        begun = HEADING.match(line)
        is_after_gap = place == 0 or not lines[place - 1]
        if begun and begun[1] in HEADINGS:
            heading = HEADINGS[begun[1]]
        else:
            if is_after_gap and not line.startswith(" "):
                heading = STATUSES if line.startswith(STATUS) else DESCRIPTION
            found.setdefault(heading, []).append(line)
    return [(heading, trimmed(found[heading])) for heading in ORDER if any(found.get(heading, ()))]


def trimmed(lines: Sequence[str]) -> list[str]:
    """Lines without the empty ones around them."""
    return "\n".join(lines).strip("\n").split("\n")


def lowered(sentence: str) -> str:
    """A sentence as a part of another one."""
    return sentence[:1].lower() + sentence[1:].rstrip(".")


def of_command(name: str, text: str) -> Manual:
    """The manual of a command, of what `mapf help COMMAND` says; of the program itself, of what `mapf help` does."""
    about, _, rest = text.partition("\n")
    usage = next(line for line in rest.splitlines() if line.startswith(USAGE))
    lines = [line for line in rest.splitlines() if line != usage]
    return Manual(name, lowered(about), [usage.removeprefix(USAGE)], sections_of(trimmed(lines)))


def of_tool(name: str, text: str) -> Manual:
    """The manual of a tool, of what its `--help` says: behind argparse's own lines of usage its docstring, and its options."""
    about, _, rest = text.partition("\n\n")[2].partition("\n")
    lines = trimmed(rest.splitlines())
    begin = next((place for place, line in enumerate(lines) if line.startswith(USAGE)), 0)
    end = next((place for place, line in enumerate(lines[begin:], begin) if not line), begin)
    usage = [line[len(USAGE) :] if line.startswith((USAGE, " " * len(USAGE))) else line for line in lines[begin:end]]
    first = re.split(r"(?<=\w)\.(?: |$)", about)[0]
    return Manual(name, lowered(first), usage, sections_of([*lines[:begin], *lines[end:]]))


def with_tools(manual: Manual, tools: Iterable[Manual]) -> Manual:
    """The manual of the program with the tools beside it, each of which has a manual of its own."""
    lines = [f"  {tool.name}  {tool.about}" for tool in tools]
    place = next(place for place, (heading, _) in enumerate(manual.sections, 1) if heading == COMMANDS)
    return dataclasses.replace(manual, sections=[*manual.sections[:place], (TOOLS, lines), *manual.sections[place:]])


def with_command(manual: Manual, text: str) -> Manual:
    """The manual of a tool that has the name of a command of the program, whose help stands behind it."""
    lines = trimmed(text.splitlines())
    return dataclasses.replace(manual, sections=[*manual.sections, (f"THE COMMAND {manual.name.replace('-', ' ').upper()}", lines)])
