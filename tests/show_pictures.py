"""Pictures of tools/show.py, as Pillow reads them back, where it is here."""
from __future__ import annotations

import dataclasses
import functools
import importlib.util
import pathlib
from typing import Callable, Iterator, Sequence

import show_pages
from harness import Ended, Outcome, compared, ended_as, shown, side_by_side

# How long a frame is seen, in milliseconds: of a plan, of a run, and the last one.
OF_A_STEP, OF_AN_EVENT, LAST = 120, 600, 2000
# A palette has 255 colours: how far a part of one pixel may be off, and of all of them on average.
MOST_OFF, MOST_OFF_ALL = 64, 1.0
# How far plain ground, which most of a picture is, may be off: nobody sees it.
MOST_OFF_GROUND = 3


def has_pillow() -> bool:
    return importlib.util.find_spec("PIL") is not None


@dataclasses.dataclass(frozen=True)
class Read:
    """A picture as it is seen: its frames, and how long each is."""

    format: str
    has_palette: bool
    frames: Sequence
    delays: Sequence[int]
    is_repeated: bool


def read(file: pathlib.Path) -> Read:
    from PIL import Image, ImageSequence

    with Image.open(file) as found:
        kind, has_palette = found.format, found.mode == "P"
        is_repeated = found.info.get("loop") == 0
        frames, delays = [], []
        for it in ImageSequence.Iterator(found):
            frames.append(it.convert("RGB"))
            delays.append(it.info.get("duration", 0))
    return Read(kind, has_palette, frames, delays, is_repeated)


def off(one, other) -> tuple[int, float]:
    """How far two pictures' pixels are from one another: at the most, and on average."""
    from PIL import ImageChops, ImageStat

    differing = ImageChops.difference(one, other)
    return max(most for _, most in differing.getextrema()), max(ImageStat.Stat(differing).mean)


Show = Callable[..., Ended]


def still(show: Show, folder: pathlib.Path) -> list[Outcome]:
    call = ["hall.map", "nobody.plan", "--png", "0", "--width", "500", "-o", "a.png"]
    ended, found = show(*call), read(folder / "a.png")
    (wide, high), kind = found.frames[0].size, (found.format, found.has_palette, len(found.frames))
    ground = max(found.frames[0].getcolors(wide * high))[1]
    near = all(abs(part - due) <= MOST_OFF_GROUND for part, due in zip(ground, show_pages.LAND))
    size = (400 < wide <= 500, 200 < high < 500)
    return [
        ended_as("a picture", shown(call), ended, Ended(0, b"", b"")),
        compared("its kind", shown(call), kind, ("PNG", True, 1)),
        compared("its size", shown(call), size, (True, True)),
        compared("most of it is plain ground", shown(call), near or ground, True),
    ]


def marked(show: Show, folder: pathlib.Path) -> list[Outcome]:
    """Each fault of the time has its mark, and none of another time. Cells are 96 wide, behind margins of 28."""
    found = []
    for time, due in ((0, [False] * 3), (1, [True, True, False])):
        call = ["hall.map", "pairs.plan", "--png", str(time), "-o", f"pairs{time}.png"]
        ended, picture = show(*call), read(folder / f"pairs{time}.png").frames[0]
        places = [(28 + 96 * x + 2, 28 + 96 * y + 10) for x, y in ((1, 0), (1, 1), (2, 0))]
        seen = [all(abs(part - whole) <= MOST_OFF for part, whole in zip(picture.getpixel(it), show_pages.FAULT)) for it in places]
        found.append(compared(f"the faults at time {time}", shown(call), (ended, seen), (Ended(0, b"", b""), due)))
    return found


def beside(show: Show, folder: pathlib.Path, other: str) -> list[Outcome]:
    """A picture of two plans has twice the same map above its lines just where they are alike."""
    call = ["hall.map", "keys.plan", "--beside", other, "--png", "3", "-o", f"{other}.png"]
    ended, whole = show(*call), read(folder / f"{other}.png").frames[0]
    wide, high = whole.size[0] // 2, whole.size[1] * 2 // 3
    halves = [whole.crop((left, 0, left + wide, high)).tobytes() for left in (0, wide)]
    wrote, due = (ended, halves[0] == halves[1]), (Ended(0, b"", b""), other == "keys.plan")
    return [compared(f"a picture of two plans, the other {other}", shown(call), wrote, due)]


def moving(
    show: Show, folder: pathlib.Path, name: str, words: list[str], delays: list[int]
) -> list[Outcome]:
    """Four frames a step of a plan, one an event of a run, and both ends. The last is the picture
    of the last time."""
    call = [*words, "-o", f"{name}.gif"]
    last = [*words[:-3], "--png", words[-1], "-o", f"{name}.png"]
    ended = show(*call)
    found = read(folder / f"{name}.gif")
    seen = [it.tobytes() for it in found.frames]
    show(*last)
    most, average = off(found.frames[-1], read(folder / f"{name}.png").frames[0])
    is_like = most <= MOST_OFF and average <= MOST_OFF_ALL
    kind = (found.format, found.has_palette, found.is_repeated)
    return [
        ended_as(f"a moving picture of a {name}", shown(call), ended, Ended(0, b"", b"")),
        compared(f"its kind: {name}", shown(call), kind, ("GIF", True, True)),
        compared(f"how long its frames are seen: {name}", shown(call), found.delays, delays),
        compared(f"it moves: {name}", shown(call), len(set(seen)), len(delays)),
        compared(f"its last frame: {name}", shown(last), is_like or (most, average), True),
    ]


def no_such_time(show: Show, words: list[str], told: str) -> list[Outcome]:
    ended, due = show(*words, "-o", "b.png"), Ended(1, b"", f"{told}\n".encode())
    return [ended_as(f"a time that isn't there: {' '.join(words)}", shown(words), ended, due)]


def outcomes(show: Show, folder: pathlib.Path) -> Iterator[Outcome]:
    run, end = ["lane.map", "behind.plan", "run.events"], len(show_pages.RUN)
    of_plan, of_run = 4 * [OF_A_STEP] + [LAST], 6 * [OF_AN_EVENT] + [LAST]
    turning, running = ["square.map", "turn.plan", "--gif", "0", "1"], [*run, "--gif", "2", "8"]
    late, later = ["lane.map", "behind.plan", "--png", "3"], [*run, "--gif", "0", "99"]
    last = "show: the last time is"
    yield from side_by_side([
        functools.partial(still, show, folder),
        functools.partial(marked, show, folder),
        functools.partial(beside, show, folder, "keys.plan"),
        functools.partial(beside, show, folder, "train.plan"),
        functools.partial(moving, show, folder, "plan", turning, of_plan),
        functools.partial(moving, show, folder, "run", running, of_run),
        functools.partial(moving, show, folder, "moment", [*turning[:-2], "1", "1"], [LAST]),
        functools.partial(no_such_time, show, late, f"{last} 2, and 3 is wanted"),
        functools.partial(no_such_time, show, later, f"{last} {end}, and 99 is wanted"),
    ])
