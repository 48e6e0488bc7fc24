// The map: its terrain as tiles of one pixel a cell, and more of it where cells are large.

const TILE = 1024;
// From this size of a cell on its sides and signs are drawn, and from the next on the numbers of columns and rows.
const SIDES_FROM = 7, SIGNS_FROM = 12, NUMBERS_FROM = 9;
// How high the band is on which the numbers of columns stand.
const BAND = 16;
const TREES = 84, SWAMP = 83, WATER = 87, LAND = [46, 71];

class Ground {
  constructor(facts, terrain) {
    this.width = facts.width;
    this.height = facts.height;
    this.terrain = terrain;
    this.tiles = null;
    this.colours = null;
  }

  /** The tiles in these colours. */
  tilesIn(colours) {
    if (this.colours !== colours) {
      this.colours = colours;
      this.tiles = [];
      for (let top = 0; top < this.height; top += TILE) {
        for (let left = 0; left < this.width; left += TILE) this.tiles.push(this.tile(left, top, colours));
      }
    }
    return this.tiles;
  }

  tile(left, top, colours) {
    const wide = Math.min(TILE, this.width - left), high = Math.min(TILE, this.height - top);
    const canvas = new OffscreenCanvas(wide, high);
    const context = canvas.getContext("2d");
    const image = context.createImageData(wide, high);
    const pixels = new Uint32Array(image.data.buffer);
    const table = this.table(colours);
    for (let y = 0; y < high; y += 1) {
      const row = (top + y) * this.width + left;
      for (let x = 0; x < wide; x += 1) pixels[y * wide + x] = table[this.terrain[row + x]];
    }
    context.putImageData(image, 0, 0);
    return { canvas, left, top, wide, high };
  }

  table(colours) {
    const table = new Uint32Array(256).fill(asPixel(colours.wall));
    for (const code of LAND) table[code] = asPixel(colours.land);
    table[TREES] = asPixel(colours.trees);
    table[SWAMP] = asPixel(colours.swamp);
    table[WATER] = asPixel(colours.water);
    return table;
  }

  /** The columns and rows that are seen, the last ones excluded. */
  seen(view, width, height) {
    const most = (value, limit) => Math.max(0, Math.min(limit, value));
    return {
      left: most(Math.floor(-view.x / view.scale), this.width),
      right: most(Math.ceil((width - view.x) / view.scale), this.width),
      top: most(Math.floor(-view.y / view.scale), this.height),
      bottom: most(Math.ceil((height - view.y) / view.scale), this.height),
    };
  }

  draw(context, view, width, height, colours) {
    context.fillStyle = colours.off;
    context.fillRect(0, 0, width, height);
    context.imageSmoothingEnabled = view.scale < 1;
    for (const tile of this.tilesIn(colours)) {
      const [x, y] = [view.x + tile.left * view.scale, view.y + tile.top * view.scale];
      const [wide, high] = [tile.wide * view.scale, tile.high * view.scale];
      if (x < width && y < height && x + wide > 0 && y + high > 0) context.drawImage(tile.canvas, x, y, wide, high);
    }
    const seen = this.seen(view, width, height);
    if (view.scale >= SIDES_FROM) this.drawSides(context, view, seen, colours);
    if (view.scale >= SIGNS_FROM) this.drawSigns(context, view, seen, colours);
    context.strokeStyle = colours.edge;
    context.lineWidth = 1;
    context.strokeRect(view.x - 0.5, view.y - 0.5, this.width * view.scale + 1, this.height * view.scale + 1);
  }

  drawSides(context, view, seen, colours) {
    context.strokeStyle = colours.grid;
    context.lineWidth = 1;
    context.beginPath();
    for (let x = Math.max(seen.left, 1); x < seen.right; x += 1) {
      context.moveTo(Math.round(view.x + x * view.scale) + 0.5, view.y + seen.top * view.scale);
      context.lineTo(Math.round(view.x + x * view.scale) + 0.5, view.y + seen.bottom * view.scale);
    }
    for (let y = Math.max(seen.top, 1); y < seen.bottom; y += 1) {
      context.moveTo(view.x + seen.left * view.scale, Math.round(view.y + y * view.scale) + 0.5);
      context.lineTo(view.x + seen.right * view.scale, Math.round(view.y + y * view.scale) + 0.5);
    }
    context.stroke();
  }

  drawSigns(context, view, seen, colours) {
    context.strokeStyle = colours.glyph;
    context.fillStyle = colours.glyph;
    context.lineWidth = Math.max(1, view.scale / 18);
    context.beginPath();
    for (let y = seen.top; y < seen.bottom; y += 1) {
      for (let x = seen.left; x < seen.right; x += 1) {
        const code = this.terrain[y * this.width + x];
        if (code === TREES || code === SWAMP || code === WATER) {
          sketch(context, code, view.x + x * view.scale, view.y + y * view.scale, view.scale);
        }
      }
    }
    context.stroke();
  }
}

/** A sign of a terrain in a cell: a tree, stalks, or waves. */
function sketch(context, code, x, y, size) {
  const go = (px, py) => context.moveTo(x + px * size, y + py * size);
  const line = (px, py) => context.lineTo(x + px * size, y + py * size);
  if (code === TREES) {
    go(0.5, 0.2); line(0.78, 0.68); line(0.22, 0.68); line(0.5, 0.2);
    go(0.5, 0.68); line(0.5, 0.84);
  } else if (code === SWAMP) {
    for (const px of [0.3, 0.5, 0.7]) { go(px, 0.62); line(px, 0.38); }
    go(0.2, 0.66); line(0.8, 0.66);
  } else {
    for (const py of [0.4, 0.64]) {
      go(0.18, py);
      context.quadraticCurveTo(x + 0.34 * size, y + (py - 0.16) * size, x + 0.5 * size, y + py * size);
      context.quadraticCurveTo(x + 0.66 * size, y + (py + 0.16) * size, x + 0.82 * size, y + py * size);
    }
  }
}

/** A colour `#rrggbb` as a pixel, the least byte red. */
function asPixel(colour) {
  const number = parseInt(colour.slice(1, 7), 16);
  return (0xff000000 | (number & 255) << 16 | (number & 0xff00) | number >> 16) >>> 0;
}

/** The numbers of columns and rows, along the sides of the map that are seen. Where the map reaches there, they stand on a band above it. */
function drawNumbers(context, view, ground, width, height, colours) {
  if (view.scale < 2) return;
  const seen = ground.seen(view, width, height);
  const every = [1, 2, 5, 10, 20, 50, 100, 200].find((it) => it * view.scale >= 22) || 500;
  context.font = `${NUMBERS_FROM + 1}px system-ui, "DejaVu Sans", sans-serif`;
  context.textBaseline = "middle";
  const wide = context.measureText(seen.bottom).width + 6, top = Math.max(view.y, BAND), left = Math.max(view.x, wide);
  context.fillStyle = colours.off;
  if (view.y < BAND) context.fillRect(0, 0, width, BAND);
  if (view.x < wide) context.fillRect(0, 0, wide, height);
  context.fillStyle = colours.faint;
  context.textAlign = "center";
  for (let x = Math.ceil(seen.left / every) * every; x < seen.right; x += every) {
    const place = view.x + (x + 0.5) * view.scale;
    if (place > left) context.fillText(x, place, top - BAND / 2);
  }
  context.textAlign = "right";
  for (let y = Math.ceil(seen.top / every) * every; y < seen.bottom; y += every) {
    const place = view.y + (y + 0.5) * view.scale;
    if (place > top) context.fillText(y, left - 4, place);
  }
}
