"""Puts the page together: one text with its style, its script and all that it shows."""
import base64
import dataclasses
import functools
import html
import itertools
import pathlib
import string
import zlib
from array import array
from typing import Iterator, Optional, Sequence

from in_scripts import as_json
from showing.live import Live
from showing.sides import Side
from showing.verdicts import Ground, in_words

PARTS = pathlib.Path(__file__).resolve().parent.parent / "show_page"
# The scripts in their order. They share one scope.
SCRIPTS = ("data", "words", "plan", "log", "run", "live", "ground", "view", "marks", "signs", "drawing", "panel", "controls", "picture", "main")

# How the parts of a second plan are called.
BESIDE = "beside "


@dataclasses.dataclass(frozen=True)
class Shown:
    """All that a page shows."""

    names: dict[str, str]
    ground: Ground
    side: Side
    beside: Optional[Side] = None
    live: Optional[Live] = None

    @property
    def end(self) -> int:
        """The last time of both."""
        return max(self.side.end, self.beside.end if self.beside else 0)


def sections(shown: Shown) -> Iterator[tuple[str, bytes]]:
    """What there is much of, each part by its name."""
    yield "terrain", shown.ground.rows
    yield from sections_of(shown.side)
    if shown.beside:
        yield from ((f"{BESIDE}{name}", part) for name, part in sections_of(shown.beside))


def sections_of(side: Side) -> Iterator[tuple[str, bytes]]:
    courses, waits, run = side.courses, side.waits, side.run
    yield "starts", little(array("i", itertools.chain.from_iterable(courses.starts)))
    yield "lengths", little(array("i", map(len, courses.acts)))
    yield "acts", b"".join(courses.acts)
    yield "needs", little(waits.agents)
    yield "more", little(waits.more)
    yield "rotations", little(array("i", (it for line in waits.rotations for it in (line[0], len(line) - 1, *line[1:]))))
    yield "events", b"\n".join(run.events) if run else b""
    yield "replies", b"\n".join(run.replies) if run else b""


def little(numbers: array) -> bytes:
    """The bytes of numbers, the least first, on any machine."""
    copy = array(numbers.typecode, numbers)
    if array("H", [1]).tobytes()[0] == 0:
        copy.byteswap()
    return copy.tobytes()


def facts(shown: Shown, parts: Sequence[tuple[str, bytes]]) -> dict[str, object]:
    """What there is little of, and how long each of the other parts is."""
    own = {"names": shown.names, "width": shown.ground.width, "height": shown.ground.height, "sizes": {name: len(part) for name, part in parts}}
    live = shown.live and dataclasses.asdict(shown.live)
    return {**own, **facts_of(shown.side, shown), "beside": shown.beside and facts_of(shown.beside, shown), "live": live}


def facts_of(side: Side, shown: Shown) -> dict[str, object]:
    run = side.run
    return {
        "name": side.name,
        "source": side.source,
        "agents": len(side.courses.starts),
        "end": side.courses.end,
        "verdict": {name: value for name, value in side.verdict.items() if name != "faults"},
        "words": words_of(side, shown),
        "faults": [dataclasses.asdict(fault) for fault in side.faults],
        "isValid": side.is_valid,
        "told": side.courses.told,
        "run": run and {"version": run.version, "events": len(run.events), "ending": run.ending, "left": run.left},
    }


def words_of(side: Side, shown: Shown) -> str:
    """The verdict, with the plan's name where there are two; or how the fleet is."""
    if shown.live:
        return shown.live.words
    words = in_words(side.verdict, side.faults, shown.names.get("scen", ""))
    return f"{side.name}: {words}" if shown.beside else words


@functools.lru_cache(maxsize=1)
def packed(parts: tuple[tuple[str, bytes], ...]) -> str:
    """All parts, each filled up to a whole number of four bytes, compressed, as text. Those of a
    fleet that is watched stay the same from page to page."""
    whole = b"".join(part + bytes(-len(part) % 4) for _, part in parts)
    press = zlib.compressobj(9, zlib.DEFLATED, -zlib.MAX_WBITS)
    return base64.b64encode(press.compress(whole) + press.flush()).decode()


def read_part(name: str) -> str:
    return (PARTS / name).read_text(encoding="ascii")


def page(shown: Shown) -> Iterator[str]:
    """The text of the page, in ASCII alone."""
    parts = tuple(sections(shown))
    title = " \u00b7 ".join(shown.names.values())
    fields = {
        "title": html.escape(title),
        "words": html.escape(words_of(shown.side, shown)),
        "other": html.escape(words_of(shown.beside, shown)) if shown.beside else "",
        "style": read_part("page.css"),
        "facts": as_json(facts(shown, parts)),
        "data": packed(parts),
        "script": "".join(read_part(f"{name}.js") for name in SCRIPTS),
    }
    text = string.Template(read_part("page.html")).substitute(fields)
    yield text.encode("ascii", "xmlcharrefreplace").decode()
