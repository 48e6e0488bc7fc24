// Pictures of a moment, for other programs.

// How wide a picture is at least, so that its words have room, and how high a line of them.
const LEAST_PICTURE = 420, LINE = 18;
// How many times as high as wide it is at most.
const MOST_HIGH = 3;

/** A text in lines that are no wider than this, but for the last. */
function wrapped(context, text, width, most) {
  const lines = [""];
  for (const word of text.split(" ")) {
    const longer = `${lines[lines.length - 1]} ${word}`.trim();
    if (context.measureText(longer).width <= width || lines.length === most) lines[lines.length - 1] = longer;
    else lines.push(word);
  }
  return lines;
}

/** A picture of a moment, by itself: the map as large as fits, and a line below it. Of two plans the maps stand side by side. */
class Picture {
  constructor(show, time, width, isDark) {
    this.show = show;
    this.time = time;
    this.colours = coloursOf(isDark ? "dark" : "light");
    const { sides } = show, box = show.box(), wide = box.right - box.left, high = box.bottom - box.top, each = width / sides.length;
    const [besides, above] = [MARGINS.left + MARGINS.right, MARGINS.top + MARGINS.bottom];
    this.scale = Math.min(MOST_FITTED, (each - besides) / wide, MOST_HIGH * each / high);
    this.each = Math.round(Math.max(Math.min(width, LEAST_PICTURE) / sides.length, wide * this.scale + besides));
    this.width = this.each * sides.length;
    this.lines = this.width < 640 ? 2 : 1;
    this.below = LINE * (this.lines * sides.length + (show.world.isRun ? 1 : 0)) + 10;
    this.high = Math.round(high * this.scale + above);
    this.height = this.high + this.below;
    this.box = box;
  }

  drawn() {
    const context = this.canvasOf(this.width, this.height);
    context.fillStyle = this.colours.card;
    context.fillRect(0, 0, this.width, this.height);
    this.show.sides.forEach((side, place) => {
      const before = side.world.time;
      side.world.seek(Math.min(this.time, side.world.end));
      context.drawImage(this.mapOf(side).canvas, place * this.each, 0);
      this.drawLines(context, side, place);
      side.world.seek(before);
    });
    return context;
  }

  canvasOf(width, height) {
    const canvas = document.createElement("canvas");
    [canvas.width, canvas.height] = [width, height];
    return canvas.getContext("2d", { alpha: false });
  }

  /** The map of a side with its agents. */
  mapOf(side) {
    const context = this.canvasOf(this.each, this.high), view = new View();
    view.fit(this.box, this.each, this.high);
    side.drawing.draw(context, view, this.each, this.high, 1, this.colours, this.show.wishes);
    return context;
  }

  drawLines(context, { facts, faults, world }, place) {
    const { show, width, high, colours, lines } = this, top = high + 5 + place * lines * LINE;
    context.fillStyle = colours.ink;
    context.textAlign = "left";
    context.textBaseline = "middle";
    context.font = "13px system-ui, \"DejaVu Sans\", sans-serif";
    const seen = faults.seenIn(world), shown = seen.length ? seen : faults.all.slice(0, 1);
    const words = faultsInWords(shown, 1) || world.inWords().split(" Last:")[0], name = show.sides.length > 1 ? `${facts.name}: ` : "";
    wrapped(context, `${name}${words}`, width - 20, lines).forEach((line, row) => context.fillText(line, 10, top + (row + 0.5) * LINE, width - 20));
    if (!world.isRun) return;
    const count = Math.floor(this.time);
    const last = count ? `${world.log.events[count - 1]}  \u2192  ${world.log.replies[count - 1].slice(0, 60)}` : "before the first event";
    context.font = "13px ui-monospace, \"DejaVu Sans Mono\", monospace";
    context.fillText(last, 10, this.height - 5 - 0.5 * LINE, width - 20);
  }

  /** The picture as a PNG, in an address that holds it. */
  address() {
    return this.drawn().canvas.toDataURL("image/png");
  }
}
