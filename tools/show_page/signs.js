// The legend: each sign as it is drawn, beside what it means.

const SIGN_WIDTH = 44, SIGN_HEIGHT = 26;

/** What the legend shows of a terrain. */
function terrainSign(code) {
  return (context, colours) => {
    const name = code === TREES ? "trees" : code === SWAMP ? "swamp" : code === WATER ? "water" : code ? "land" : "wall";
    context.fillStyle = colours[name];
    context.fillRect(0, 0, SIGN_WIDTH, SIGN_HEIGHT);
    if (code === TREES || code === SWAMP || code === WATER) {
      context.strokeStyle = colours.glyph;
      context.lineWidth = 1.4;
      context.beginPath();
      sketch(context, code, (SIGN_WIDTH - SIGN_HEIGHT) / 2, 0, SIGN_HEIGHT);
      context.stroke();
    }
  };
}

function agentSign(look, number = 3) {
  return (context, colours) => {
    const [x, y] = [SIGN_WIDTH / 2, SIGN_HEIGHT / 2];
    context.translate(x, y);
    drawBody(context, number, look, 10, colours);
    context.translate(-x, -y);
    drawNumber(context, number, look, x, y, 10, colours);
  };
}

/** An agent with something around it. */
function markedSign(look, mark) {
  return (context, colours) => {
    drawBodyAt(context, SIGN_WIDTH / 2, SIGN_HEIGHT / 2, 3, look, 7, colours);
    mark(context, SIGN_WIDTH / 2, SIGN_HEIGHT / 2, 7, colours);
  };
}

const haloSign = (name) => markedSign(0, (context, x, y, radius, colours) => drawHalo(context, x, y, radius, colours[name], colours));
const restartSign = markedSign(0, (context, x, y, radius, colours) => drawRestart(context, x, y, radius, 1, colours));
const goalSign = (context, colours) => drawGoal(context, SIGN_WIDTH / 2, SIGN_HEIGHT / 2, 3, 26, colours, 3);
const waitSign = (context, colours) => drawWait(context, [2, SIGN_HEIGHT / 2], [42, SIGN_HEIGHT / 2], 4, colours);
const letterSign = (isLost) => (context, colours) => drawLetter(context, SIGN_WIDTH / 2, SIGN_HEIGHT / 2, 17, isLost, colours);
const ringSign = (context, colours) => drawRing(context, [[10, 5], [34, 5], [34, 21], [10, 21]], 7, colours);
const faultSign = (context, colours) => drawFaultCell(context, SIGN_WIDTH / 2, SIGN_HEIGHT / 2, 24, colours);

function movingSign(context, colours) {
  drawBands(context, [[[13, SIGN_HEIGHT / 2], [31, SIGN_HEIGHT / 2]]], 0, 18);
  drawBodyAt(context, 20, SIGN_HEIGHT / 2, 0, 0, 7, colours);
}

/** The signs of a page: a drawing and its meaning, of what there can be on it. */
function signsOf(sides, terrain) {
  const has = (...codes) => codes.some((code) => terrain.includes(code)), worlds = sides.map((it) => it.world);
  const { isRun, isLive, isDriven } = worlds[0], saysWaits = isRun || worlds.some((it) => it.courses.needs.length > 0);
  const hasFaults = sides.some((it) => it.faults.all.length > 0);
  return [
    [true, agentSign(0), "an agent"],
    [true, goalSign, "where its path ends"],
    [isDriven, movingSign, "moving: it holds both cells"],
    [isRun, agentSign(WAITS), "waiting: a start was refused"],
    [isLive, agentSign(WAITS), "waiting for another agent"],
    [saysWaits, waitSign, "from who waits to whom it waits for"],
    [isRun, agentSign(BROKEN), "broken: a write failed"],
    [isLive, agentSign(BROKEN), "no tape that can be taken: nobody knows where it is"],
    [isRun, restartSign, "restarted a short while ago"],
    [isRun, letterSign(false), "a message on its way"],
    [isRun, letterSign(true), "a message that nobody hears"],
    [worlds.some((it) => it.rotations.length > 0), ringSign, "a rotation: who turn round together"],
    [hasFaults, faultSign, "a cell of a fault"],
    [hasFaults, haloSign("fault"), "an agent of a fault"],
    [true, haloSign("ink"), "the agent that you chose"],
    [has(64, 79), terrainSign(0), "out of bounds"],
    [has(TREES), terrainSign(TREES), "trees"],
    [has(SWAMP), terrainSign(SWAMP), "swamp"],
    [has(WATER), terrainSign(WATER), "water"],
  ].filter(([isThere]) => isThere).map(([, draw, text]) => [draw, text]);
}

function drawBodyAt(context, x, y, hue, look, radius, colours) {
  context.translate(x, y);
  drawBody(context, hue, look, radius, colours);
  context.translate(-x, -y);
}

/** Fills the legend in these colours. */
function drawSigns(list, signs, colours) {
  list.replaceChildren();
  for (const [draw, text] of signs) {
    const canvas = document.createElement("canvas"), dots = window.devicePixelRatio || 1;
    canvas.width = SIGN_WIDTH * dots;
    canvas.height = SIGN_HEIGHT * dots;
    canvas.setAttribute("aria-hidden", "true");
    const context = canvas.getContext("2d");
    context.setTransform(dots, 0, 0, dots, 0, 0);
    context.fillStyle = colours.land;
    context.fillRect(0, 0, SIGN_WIDTH, SIGN_HEIGHT);
    context.textAlign = "center";
    context.textBaseline = "middle";
    draw(context, colours);
    list.append(made("dt", "", canvas), made("dd", "", text));
  }
}
