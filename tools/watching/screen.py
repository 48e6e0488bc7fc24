"""Where looks are told: drawn anew in place on a terminal, else as lines behind one another."""
import shutil
import sys
from typing import Sequence, Union

from watching.told import Line
from watching.times import Moment, shown_time

# Up by so many lines; all behind the cursor goes.
UP, CLEAR = "\x1b[{}A", "\x1b[J"
USUAL = (80, 24)


class Terminal:
    """The lines of the last look stand below the title, and those of the next take their place."""

    def __init__(self, title: str) -> None:
        self.title, self.height = title, 0

    def show(self, lines: Sequence[Line], at: Moment) -> None:
        width, height = shutil.get_terminal_size(USUAL)
        texts = [f"{self.title} at {shown_time(at, at)}", *map(str, lines)]
        if len(texts) >= height:
            texts = [*texts[: max(height - 2, 1)], f"and {len(texts) - height + 2} more lines"]
        up = UP.format(self.height) if self.height else ""
        # A line that is as wide as the terminal would take two.
        shown = "".join(f"{text[: max(width - 1, 1)]}\n" for text in texts)
        sys.stdout.write(f"{up}\r{CLEAR}{shown}")
        sys.stdout.flush()
        self.height = len(texts)


class Log:
    """Each line behind the time of its look, and only those that the look before hadn't."""

    def __init__(self) -> None:
        self.last: Sequence[Line] = ()

    def show(self, lines: Sequence[Line], at: Moment) -> None:
        over = [f"over: {it}" for it in self.last if it.is_alarm and it not in lines]
        new = [str(it) for it in lines if it not in self.last]
        for text in [*over, *new]:
            sys.stdout.write(f"{shown_time(at, at)} {text}\n")
        sys.stdout.flush()
        self.last = lines


class Plain:
    """All lines, as they are."""

    def show(self, lines: Sequence[Line], _: Moment) -> None:
        sys.stdout.write("".join(f"{it}\n" for it in lines))
        sys.stdout.flush()


Screen = Union[Terminal, Log, Plain]


def screen_of(is_live: bool, title: str) -> Screen:
    """Where looks are told here."""
    if not is_live:
        return Plain()
    return Terminal(title) if sys.stdout.isatty() else Log()
