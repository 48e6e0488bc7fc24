"""What is wrong and doesn't end a process: a line on standard error."""
import collections
import sys
from typing import Callable, Deque

# Takes what is wrong.
Alarm = Callable[[str], None]
# So many things that are wrong are told once each, however often they come.
REMEMBERED = 8


class Alarms:
    """What is wrong with one robot or vehicle."""

    def __init__(self, who: str):
        self.who = who
        self.told: Deque[str] = collections.deque(maxlen=REMEMBERED)

    def say(self, what: str) -> None:
        print(f"{self.who}: {what}", file=sys.stderr, flush=True)

    def tell(self, what: str) -> None:
        """Says so once, until enough else is wrong."""
        if what not in self.told:
            self.told.append(what)
            self.say(what)
