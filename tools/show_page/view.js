// Which part of the map is seen, and how large.

const MOST_SCALE = 160;
// The numbers of columns and rows stand at the left and at the top, and buttons at the right, or on a small screen at the top.
const MARGINS = { left: 28, top: 28, right: 14, bottom: 14 }, SMALL = 600, BUTTONS = 60, MOST_FITTED = 96;

/** The margins of the page, which has buttons. */
function marginsOf(width) {
  return width < SMALL ? { ...MARGINS, top: BUTTONS + MARGINS.top } : { ...MARGINS, right: BUTTONS };
}

class View {
  constructor() {
    // Where the left upper corner of the map stands, and how large a cell is, in pixels.
    this.x = this.y = 0;
    this.scale = 1;
  }

  /** Shows a rectangle of cells whole, between margins. */
  fit(box, width, height, { left, top, right, bottom } = MARGINS) {
    const wide = box.right - box.left, high = box.bottom - box.top;
    const [spaceX, spaceY] = [Math.max(20, width - left - right), Math.max(20, height - top - bottom)];
    this.scale = Math.max(0.001, Math.min(spaceX / wide, spaceY / high, MOST_FITTED));
    this.x = left + (spaceX - wide * this.scale) / 2 - box.left * this.scale;
    this.y = top + (spaceY - high * this.scale) / 2 - box.top * this.scale;
    this.least = Math.min(this.scale, 4) / 2;
  }

  /** Zooms around a point that stays where it is. */
  zoom(factor, x, y) {
    const scale = Math.max(this.least, Math.min(MOST_SCALE, this.scale * factor));
    this.x = x - (x - this.x) * scale / this.scale;
    this.y = y - (y - this.y) * scale / this.scale;
    this.scale = scale;
  }

  move(x, y) {
    this.x += x;
    this.y += y;
  }

  /** Brings a cell into the middle. */
  centre(x, y, width, height) {
    this.x = width / 2 - (x + 0.5) * this.scale;
    this.y = height / 2 - (y + 0.5) * this.scale;
  }

  /** The middle of a cell, or of a place between cells, in pixels. */
  pixel(x, y) {
    return [this.x + (x + 0.5) * this.scale, this.y + (y + 0.5) * this.scale];
  }

  /** The place between cells of a pixel. */
  place(x, y) {
    return [(x - this.x) / this.scale - 0.5, (y - this.y) / this.scale - 0.5];
  }

  key() {
    return `${this.x} ${this.y} ${this.scale}`;
  }
}
