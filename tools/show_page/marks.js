// What is drawn of agents, faults, waits and messages. All of it can be told apart by its form, too.

// Colours that can be told apart by the colour-blind; vermilion is left to faults.
const AGENT_COLOURS = ["#56b4e9", "#e69f00", "#009e73", "#f0e442", "#0072b2", "#cc79a7"];
const INK_ON = ["#10151b", "#10151b", "#ffffff", "#10151b", "#ffffff", "#10151b"];
const COLOUR_NAMES = "card ink faint edge accent land grid wall trees swamp water glyph off fault ring wait letter halo".split(" ");
const SQUARES_BELOW = 6;

/** The colours of a theme, by their names. */
const coloursOf = (() => {
  const known = {};
  return (theme) => {
    if (!known[theme]) {
      const root = document.documentElement, before = root.dataset.theme;
      root.dataset.theme = theme;
      const style = getComputedStyle(root);
      known[theme] = Object.fromEntries(COLOUR_NAMES.map((name) => [name, style.getPropertyValue(`--${name}`).trim()]));
      known[theme].theme = theme;
      root.dataset.theme = before;
    }
    return known[theme];
  };
})();

function radiusOf(scale) {
  return Math.max(2, 0.36 * scale);
}

/** Small pictures that are drawn many times, each around its middle, known by their keys. */
const sprite = (() => {
  const known = new Map();
  return (key, side, dots, draw) => {
    const whole = `${key} ${side.toFixed(1)} ${dots}`;
    if (!known.has(whole)) {
      if (known.size > 2000) known.clear();
      const canvas = new OffscreenCanvas(Math.ceil(side * dots), Math.ceil(side * dots));
      const context = canvas.getContext("2d");
      context.setTransform(dots, 0, 0, dots, canvas.width / 2, canvas.height / 2);
      draw(context);
      known.set(whole, { canvas, side: canvas.width / dots });
    }
    return known.get(whole);
  };
})();

function drawSprite(context, { canvas, side }, x, y) {
  context.drawImage(canvas, x - side / 2, y - side / 2, side, side);
}

function agentSprite(hue, look, radius, dots, colours) {
  const key = `agent ${hue} ${look & (WAITS | BROKEN | HOME)} ${colours.theme}`;
  return sprite(key, 2 * radius + 6, dots, (context) => drawBody(context, hue, look, radius, colours));
}

function letterSprite(size, isLost, dots, colours) {
  return sprite(`letter ${isLost} ${colours.theme}`, 2 * size, dots, (context) => drawLetter(context, 0, 0, size, isLost, colours));
}

/** An agent around the origin: a disc, hollow where it waits, a square with a cross where it is broken. */
function drawBody(context, hue, look, radius, colours) {
  const line = Math.max(1, radius / 7);
  context.beginPath();
  if (look & BROKEN) context.rect(-0.86 * radius, -0.86 * radius, 1.72 * radius, 1.72 * radius);
  else context.arc(0, 0, radius - line / 2, 0, 2 * Math.PI);
  context.fillStyle = look & (WAITS | BROKEN) ? colours.card : AGENT_COLOURS[hue];
  context.fill();
  context.lineWidth = look & WAITS ? 2.4 * line : look & BROKEN ? 2 * line : line;
  context.strokeStyle = look & BROKEN ? colours.fault : look & WAITS ? AGENT_COLOURS[hue] : colours.theme === "dark" ? "#0d0f12" : "#1d2126";
  context.stroke();
  if (look & WAITS) {
    context.lineWidth = 0.8 * line;
    context.strokeStyle = colours.ink;
    context.beginPath();
    context.arc(0, 0, radius, 0, 2 * Math.PI);
    context.stroke();
  }
  if (look & BROKEN) {
    context.lineWidth = 1.4 * line;
    context.globalAlpha = 0.75;
    context.beginPath();
    for (const side of [-1, 1]) {
      context.moveTo(-0.86 * radius, -0.86 * side * radius);
      context.lineTo(0.86 * radius, 0.86 * side * radius);
    }
    context.stroke();
    context.globalAlpha = 1;
  }
}

/** The number of an agent in its middle. */
function drawNumber(context, agent, look, x, y, radius, colours) {
  const text = String(agent), hue = agent % AGENT_COLOURS.length;
  const size = radius * (text.length < 3 ? 1.05 : text.length < 4 ? 0.82 : 0.66);
  context.font = `600 ${size}px system-ui, "DejaVu Sans", sans-serif`;
  const isHollow = look & (WAITS | BROKEN);
  if (isHollow) {
    context.lineWidth = Math.max(2, size / 4);
    context.strokeStyle = colours.card;
    context.strokeText(text, x, y + size * 0.06);
  }
  context.fillStyle = isHollow ? colours.ink : INK_ON[hue];
  context.fillText(text, x, y + size * 0.06);
}

/** Both cells of each moving agent of a colour, as one band. */
function drawBands(context, bands, hue, scale) {
  context.strokeStyle = AGENT_COLOURS[hue];
  context.lineCap = "round";
  context.globalAlpha = 0.42;
  context.lineWidth = 0.84 * scale;
  context.beginPath();
  for (const [from, to] of bands) {
    context.moveTo(...from);
    context.lineTo(...to);
  }
  context.stroke();
  context.globalAlpha = 1;
  context.lineCap = "butt";
}

/** The place in which an agent's path ends: a diamond in its colour. */
function drawGoal(context, x, y, hue, scale, colours, number) {
  const half = Math.max(3, 0.38 * scale);
  context.beginPath();
  context.moveTo(x, y - half);
  context.lineTo(x + half, y);
  context.lineTo(x, y + half);
  context.lineTo(x - half, y);
  context.closePath();
  context.lineWidth = Math.max(1, scale / 12) + 1.4;
  context.strokeStyle = colours.faint;
  context.stroke();
  context.lineWidth = Math.max(1, scale / 12);
  context.strokeStyle = AGENT_COLOURS[hue];
  context.stroke();
  if (scale >= 22) {
    context.font = `${0.26 * scale}px system-ui, "DejaVu Sans", sans-serif`;
    context.fillStyle = colours.ink;
    context.fillText(number, x, y + 0.015 * scale);
  }
}

/** A line with a head from one place to the other, which begins and ends short of them. */
function drawArrow(context, from, to, line, colour, [short, shortEnd] = [0, 0], dashes = []) {
  const [dx, dy] = [to[0] - from[0], to[1] - from[1]];
  const length = Math.hypot(dx, dy);
  if (length < short + shortEnd + 1) return;
  const [ux, uy] = [dx / length, dy / length];
  const end = [to[0] - ux * shortEnd, to[1] - uy * shortEnd], head = Math.min(3.2 * line + 4, length / 2);
  context.strokeStyle = context.fillStyle = colour;
  context.lineWidth = line;
  context.setLineDash(dashes);
  context.beginPath();
  context.moveTo(from[0] + ux * short, from[1] + uy * short);
  context.lineTo(end[0] - ux * head * 0.8, end[1] - uy * head * 0.8);
  context.stroke();
  context.setLineDash([]);
  context.beginPath();
  context.moveTo(...end);
  context.lineTo(end[0] - ux * head - uy * head / 2, end[1] - uy * head + ux * head / 2);
  context.lineTo(end[0] - ux * head + uy * head / 2, end[1] - uy * head - ux * head / 2);
  context.fill();
}

/** A bent line with a head, from beside one place to beside the other: a step of an exchange. */
function drawBentArrow(context, from, to, radius, scale, colours) {
  const [dx, dy] = [to[0] - from[0], to[1] - from[1]], length = Math.hypot(dx, dy) || 1;
  const [sx, sy] = [dy / length, -dx / length], out = 1.05 * radius, bent = radius + 0.5 * scale;
  const begin = [from[0] + sx * out, from[1] + sy * out], end = [to[0] + sx * out, to[1] + sy * out];
  const middle = [(from[0] + to[0]) / 2 + sx * bent, (from[1] + to[1]) / 2 + sy * bent];
  const away = Math.hypot(end[0] - middle[0], end[1] - middle[1]) || 1, line = Math.max(2, scale / 18), head = 3.2 * line + 4;
  const [ux, uy] = [(end[0] - middle[0]) / away, (end[1] - middle[1]) / away];
  for (const [more, colour] of [[3, colours.halo], [0, colours.fault]]) {
    context.strokeStyle = context.fillStyle = colour;
    context.lineWidth = line + more;
    context.lineJoin = "round";
    context.beginPath();
    context.moveTo(...begin);
    context.quadraticCurveTo(...middle, end[0] - ux * head * 0.7, end[1] - uy * head * 0.7);
    context.stroke();
    context.beginPath();
    context.moveTo(...end);
    context.lineTo(end[0] - ux * head - uy * head / 2, end[1] - uy * head + ux * head / 2);
    context.lineTo(end[0] - ux * head + uy * head / 2, end[1] - uy * head - ux * head / 2);
    context.closePath();
    context.fill();
    if (more) context.stroke();
  }
  context.lineJoin = "miter";
}

/** From an agent that waits to the one for whom it waits. */
function drawWait(context, from, to, radius, colours) {
  const line = Math.max(1.4, radius / 7);
  drawArrow(context, from, to, line + 2, colours.halo, [radius, radius]);
  drawArrow(context, from, to, line, colours.wait, [radius, radius], [3 * line, 2 * line]);
}

/** A restart: most of a circle with a head, which fades. */
function drawRestart(context, x, y, radius, fresh, colours) {
  context.globalAlpha = 0.25 + 0.75 * fresh;
  context.strokeStyle = context.fillStyle = colours.accent;
  context.lineWidth = Math.max(1.6, radius / 5);
  const around = 1.28 * radius + 1;
  context.beginPath();
  context.arc(x, y, around, -0.35 * Math.PI, 1.35 * Math.PI);
  context.stroke();
  const head = Math.max(4, 0.45 * radius);
  const [hx, hy] = [x + around * Math.cos(-0.35 * Math.PI), y + around * Math.sin(-0.35 * Math.PI)];
  context.beginPath();
  context.moveTo(hx - 0.9 * head, hy - 0.75 * head);
  context.lineTo(hx + 0.75 * head, hy - 0.55 * head);
  context.lineTo(hx - 0.25 * head, hy + 0.8 * head);
  context.fill();
  context.globalAlpha = 1;
}

/** A message: an envelope; one that nobody hears has a cross through it. */
function drawLetter(context, x, y, size, isLost, colours) {
  const wide = size, high = 0.68 * size;
  context.fillStyle = colours.card;
  context.strokeStyle = isLost ? colours.fault : colours.letter;
  context.lineWidth = Math.max(1, size / 9);
  context.beginPath();
  context.rect(x - wide / 2, y - high / 2, wide, high);
  context.fill();
  context.moveTo(x - wide / 2, y - high / 2);
  context.lineTo(x, y + high / 10);
  context.lineTo(x + wide / 2, y - high / 2);
  if (isLost) {
    context.moveTo(x - 0.7 * wide, y + 0.8 * high);
    context.lineTo(x + 0.7 * wide, y - 0.8 * high);
  }
  context.stroke();
}

/** A cell that a fault speaks of, seen from far away too. */
function drawFaultCell(context, x, y, scale, colours) {
  const size = Math.max(scale, 4);
  const [left, top] = [x - size / 2, y - size / 2];
  context.save();
  context.beginPath();
  context.rect(left, top, size, size);
  context.globalAlpha = 0.22;
  context.fillStyle = colours.fault;
  context.fill();
  context.globalAlpha = 1;
  context.clip();
  context.strokeStyle = colours.fault;
  context.lineWidth = Math.max(1, scale / 22);
  context.beginPath();
  for (let at = -size; at < size; at += Math.max(5, size / 6)) {
    context.moveTo(left + at, top + size);
    context.lineTo(left + at + size, top);
  }
  context.stroke();
  context.restore();
  const line = Math.max(2, scale / 14);
  context.strokeStyle = colours.fault;
  context.lineWidth = line;
  context.strokeRect(left + line / 2, top + line / 2, size - line, size - line);
  if (scale < 14) {
    context.beginPath();
    context.arc(x, y, 16, 0, 2 * Math.PI);
    context.stroke();
  }
}

/** A ring around an agent: of a fault, or of the one that was chosen. */
function drawHalo(context, x, y, radius, colour, colours) {
  const line = Math.max(2, radius / 7);
  for (const [width, stroke] of [[line + 2.5, colours.halo], [line, colour]]) {
    context.lineWidth = width;
    context.strokeStyle = stroke;
    context.beginPath();
    context.arc(x, y, radius + line / 2 + 0.5, 0, 2 * Math.PI);
    context.stroke();
  }
}

/** A rotation: a ring through the cells of its agents. */
function drawRing(context, places, scale, colours) {
  context.strokeStyle = colours.ring;
  context.lineJoin = "round";
  context.lineWidth = Math.max(3, 0.6 * scale);
  context.globalAlpha = 0.5;
  context.beginPath();
  places.forEach((place, number) => (number ? context.lineTo(...place) : context.moveTo(...place)));
  context.closePath();
  context.stroke();
  context.globalAlpha = 1;
  context.lineJoin = "miter";
}

/** The heads of a ring lie above the agents. */
function drawRingHeads(context, places, scale, colours) {
  places.forEach((place, number) => {
    const next = places[(number + 1) % places.length];
    const [dx, dy] = [next[0] - place[0], next[1] - place[1]];
    const half = 0.14 * scale, tip = [place[0] + 0.62 * dx, place[1] + 0.62 * dy], back = [place[0] + 0.4 * dx, place[1] + 0.4 * dy];
    const [sx, sy] = [-dy / scale * half * 1.4, dx / scale * half * 1.4];
    context.beginPath();
    context.moveTo(...tip);
    context.lineTo(back[0] + sx, back[1] + sy);
    context.lineTo(back[0] - sx, back[1] - sy);
    context.closePath();
    context.fillStyle = colours.ring;
    context.strokeStyle = colours.halo;
    context.lineWidth = 3;
    context.stroke();
    context.fill();
  });
}
