"""Pictures of a page: the browser draws them, and Pillow writes them with a palette, which makes
a PNG a third as large as one with every shade."""
from __future__ import annotations

import base64
import dataclasses
import io
from typing import Iterable, Iterator, Sequence

from mapf.faults import Failed
from refused import Refused
from showing.browser import Browser

try:
    from PIL import Image, ImageChops
except ImportError:
    # A page needs none of it.
    Image = ImageChops = None

WIDTH, LEAST_WIDTH, MOST_WIDTH = 800, 100, 4000
MOST_FRAMES = 600
# Of a plan a step is drawn in so many frames, and each event of a run in one.
FRAMES_A_STEP = 4
# How long a frame is seen, in milliseconds: of a plan, of a run, and the last one.
OF_A_STEP, OF_AN_EVENT, LAST = 120, 600, 2000
# The palette of a GIF is made of so many of its frames, and its last place is no colour: there the
# pixel is as in the frame before.
SAMPLES, KEPT = 5, 255
MOST_COLOURS = 255
# A palette is bettered until no more than one pixel of so many would change.
STEADY = 1000


@dataclasses.dataclass(frozen=True)
class Kind:
    """What a picture is like."""

    width: int
    is_dark: bool

    def words(self, time: float) -> str:
        return f"{time}, {self.width}, {'true' if self.is_dark else 'false'}"


def hold_pillow() -> None:
    """Refuses to make pictures where nothing writes them."""
    if not Image:
        install = "`apt install python3-pil`, or `pip install pillow`"
        raise Failed(f"there is no Pillow here, and a picture needs it: {install}")


def hold_time(time: float, end: int) -> None:
    """Refuses a time behind the last one."""
    if time > end:
        raise Refused(f"show: the last time is {end}, and {time:g} is wanted")


def frame(browser: Browser, time: float, kind: Kind) -> Image.Image:
    """What the page draws of a time, with every shade."""
    mark, _, drawn = str(browser.value(f"show.picture({kind.words(time)})")).partition(",")
    if mark != "data:image/png;base64":
        raise Failed("the browser draws no picture")
    with Image.open(io.BytesIO(base64.b64decode(drawn))) as found:
        return found.convert("RGB")


def with_palette(whole: Image.Image) -> Image.Image:
    """A picture of the colours that it has most, each other shade as the one that differs least."""
    steady = 1 + whole.width * whole.height // STEADY
    return whole.quantize(MOST_COLOURS, Image.MEDIANCUT, steady, dither=Image.NONE)


def picture(browser: Browser, time: float, kind: Kind) -> bytes:
    """A PNG of a time."""
    out = io.BytesIO()
    with_palette(frame(browser, time, kind)).save(out, "PNG", optimize=True)
    return out.getvalue()


def times_of(first: float, last: float, is_run: bool) -> list[float]:
    parts = 1 if is_run else FRAMES_A_STEP
    count = int((last - first) * parts)
    if count + 2 > MOST_FRAMES:
        told = f"{count + 1} frames from {first:g} to {last:g} are too many"
        raise Refused(f"show: {told}, at most {MOST_FRAMES} are drawn")
    times = [first + number / parts for number in range(count + 1)]
    return times if times[-1] == last else [*times, last]


def common_palette(samples: Sequence[Image.Image]) -> list[int]:
    """One palette for pictures of one size."""
    width, height = samples[0].size
    sheet = Image.new("RGB", (width, height * len(samples)))
    for place, it in enumerate(samples):
        sheet.paste(it, (0, height * place))
    colours = with_palette(sheet).getpalette()[: 3 * MOST_COLOURS]
    # No pixel is nearer to a second place of the first colour.
    return colours + colours[:3] * (KEPT + 1 - len(colours) // 3)


def changes(frames: Iterable[Image.Image], palette: list[int]) -> Iterator[Image.Image]:
    """The first frame, and of each other one the pixels that differ from the frame before."""
    # Pillow takes a colour for the least one that has the same six upper bits in each part.
    least = Image.new("P", (1, 1))
    least.putpalette([part & 0xFC for part in palette])
    before = None
    for it in frames:
        places = it.quantize(palette=least, dither=Image.NONE)
        now = shown = Image.frombytes("L", it.size, places.tobytes())
        if before:
            differs = ImageChops.difference(now, before).point([0] + [255] * 255)
            shown = Image.composite(now, Image.new("L", it.size, KEPT), differs)
        before = now.copy()
        shown.putpalette(palette)
        yield shown


def moving_picture(browser: Browser, first: float, last: float, kind: Kind) -> bytes:
    """A GIF from one time to another, shown again and again."""
    is_run = bool(browser.value("show.isRun"))
    times = times_of(first, last, is_run)
    some = sorted({(len(times) - 1) * it // (SAMPLES - 1) for it in range(SAMPLES)})
    palette = common_palette([frame(browser, times[place], kind) for place in some])
    frames = changes((frame(browser, time, kind) for time in times), palette)
    delays = [OF_AN_EVENT if is_run else OF_A_STEP] * (len(times) - 1) + [LAST]
    seen = {"duration": delays, "loop": 0, "disposal": 1}
    colours = {"palette": bytes(palette), "transparency": KEPT}
    out = io.BytesIO()
    next(frames).save(out, "GIF", save_all=True, append_images=frames, **seen, **colours)
    return out.getvalue()
