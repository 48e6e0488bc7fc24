// One picture of a moment: the map, and on it all that is seen.

const NUMBER_FROM = 7, NEAR = 0.2, ASIDE = 0.25;
// Where more messages are on their way, they are drawn smaller, and their lines faintly.
const MANY_LETTERS = 16;

/** Keeps the picture of the map and the goals for as long as they are seen from the same place. */
class Backdrop {
  constructor(ground, courses) {
    this.ground = ground;
    this.courses = courses;
    this.canvas = new OffscreenCanvas(1, 1);
    this.key = "";
  }

  draw(context, view, width, height, dots, colours, hasGoals) {
    const key = `${view.key()} ${width} ${height} ${dots} ${colours.theme} ${hasGoals}`;
    if (key !== this.key) {
      this.key = key;
      this.canvas.width = Math.round(width * dots);
      this.canvas.height = Math.round(height * dots);
      const own = this.canvas.getContext("2d");
      own.setTransform(dots, 0, 0, dots, 0, 0);
      this.ground.draw(own, view, width, height, colours);
      if (hasGoals && view.scale >= SQUARES_BELOW) this.drawGoals(own, view, width, height, colours);
    }
    context.setTransform(1, 0, 0, 1, 0, 0);
    context.drawImage(this.canvas, 0, 0);
  }

  drawGoals(own, view, width, height, colours) {
    own.textAlign = "center";
    own.textBaseline = "middle";
    for (let agent = 0; agent < this.courses.count; agent += 1) {
      const [x, y] = this.courses.goal(agent);
      if (isSeen(view, x, y, width, height)) drawGoal(own, ...view.pixel(x, y), agent % AGENT_COLOURS.length, view.scale, colours, agent);
    }
  }
}

/** Whether a place between cells is on a picture, or nearly so. */
function isSeen(view, x, y, width, height) {
  const [px, py] = view.pixel(x, y), edge = 2 * view.scale + 20;
  return px > -edge && py > -edge && px < width + edge && py < height + edge;
}

class Drawing {
  constructor(ground, world, faults) {
    this.world = world;
    this.faults = faults;
    this.seen = [];
    this.besides = new Map();
    this.ground = ground;
    this.backdrop = new Backdrop(ground, world.courses);
    this.course = { agent: -1, path: null };
  }

  /** Draws the moment to which the world was brought. */
  draw(context, view, width, height, dots, colours, wishes) {
    this.backdrop.draw(context, view, width, height, dots, colours, wishes.goals);
    Object.assign(this, { context, view, width, height, dots, colours, wishes });
    this.radius = radiusOf(view.scale);
    context.setTransform(dots, 0, 0, dots, 0, 0);
    context.textAlign = "center";
    context.textBaseline = "middle";
    this.seen = this.faults.seenIn(this.world);
    this.besides = this.besidesOf(this.seen);
    // A cell that two faults speak of is drawn once.
    const cells = new Map(this.seen.flatMap((it) => it.cells).map((cell) => [cell.join(), cell]));
    for (const cell of cells.values()) drawFaultCell(context, ...view.pixel(...cell), view.scale, colours);
    const rings = this.world.turning().map((it) => this.ringPlaces(it));
    for (const places of rings) drawRing(context, places, view.scale, colours);
    if (wishes.agent >= 0) this.drawCourse(wishes.agent);
    this.drawBands();
    if (this.world.isRun && wishes.letters) this.drawLetters();
    this.drawAgents();
    for (const places of rings) if (view.scale >= 10) drawRingHeads(context, places, view.scale, colours);
    this.drawFaults();
    this.drawRun();
    if (wishes.agent >= 0) this.drawChosen(wishes.agent);
    drawNumbers(context, view, this.ground, width, height, colours);
  }

  isSeen(x, y) {
    return isSeen(this.view, x, y, this.width, this.height);
  }

  /** Two agents of a fault that share a place are drawn beside one another: to which side each goes. */
  besidesOf(faults) {
    const { moment } = this.world, besides = new Map();
    for (const { agents: [one, other] } of faults) {
      if (other === undefined || Math.hypot(moment.x[other] - moment.x[one], moment.y[other] - moment.y[one]) >= NEAR) continue;
      if (!besides.has(one)) besides.set(one, -1);
      if (!besides.has(other)) besides.set(other, 1);
    }
    return besides;
  }

  place(agent) {
    const { moment } = this.world;
    return this.view.pixel(moment.x[agent] + ASIDE * (this.besides.get(agent) || 0), moment.y[agent]);
  }

  radiusOf(agent) {
    return this.besides.has(agent) ? 0.68 * this.radius : this.radius;
  }

  ringPlaces(rotation) {
    return Array.from(rotation.agents, (agent) => this.view.pixel(...this.world.courses.cell(agent, rotation.step)));
  }

  /** The whole path of an agent, dashed, and where it has been, as a line. */
  drawCourse(agent) {
    const { context, view, world, colours } = this, { courses, moment } = world;
    if (this.course.agent !== agent) {
      const path = new Path2D();
      for (let time = 0; time <= courses.lengths[agent]; time += 1) path.lineTo(...courses.cell(agent, time));
      this.course = { agent, path };
    }
    context.save();
    context.setTransform(this.dots * view.scale, 0, 0, this.dots * view.scale, this.dots * (view.x + view.scale / 2), this.dots * (view.y + view.scale / 2));
    context.lineJoin = context.lineCap = "round";
    for (const [width, colour] of [[4, colours.halo], [2, colours.ink]]) {
      context.lineWidth = width / view.scale;
      context.setLineDash(colour === colours.ink ? [1 / view.scale, 5 / view.scale] : []);
      context.strokeStyle = colour;
      context.stroke(this.course.path);
    }
    context.setLineDash([]);
    context.lineWidth = 3.5 / view.scale;
    context.strokeStyle = colours.ink;
    context.beginPath();
    const now = this.stepOf(agent);
    for (let time = 0; time <= now; time += 1) context.lineTo(...courses.cell(agent, time));
    context.lineTo(moment.x[agent], moment.y[agent]);
    context.stroke();
    context.restore();
    drawGoal(context, ...view.pixel(...courses.goal(agent)), agent % AGENT_COLOURS.length, view.scale, colours, agent);
  }

  /** Up to which time of its path an agent has come. */
  stepOf(agent) {
    const { world } = this, { courses } = world;
    return world.isDriven ? courses.stepOf(agent, world.finished(agent)) : Math.min(Math.floor(world.time), courses.lengths[agent]);
  }

  drawBands() {
    const { moment } = this.world, { view } = this;
    if (view.scale < SQUARES_BELOW) return;
    const bands = AGENT_COLOURS.map(() => []);
    for (let agent = 0; agent < moment.count; agent += 1) {
      if (moment.look[agent] & MOVES && this.isSeen(moment.fromX[agent], moment.fromY[agent])) {
        bands[agent % bands.length].push([view.pixel(moment.fromX[agent], moment.fromY[agent]), view.pixel(moment.toX[agent], moment.toY[agent])]);
      }
    }
    bands.forEach((those, hue) => drawBands(this.context, those, hue, view.scale));
  }

  drawAgents() {
    if (this.view.scale < SQUARES_BELOW) this.drawSquares();
    else this.drawDiscs();
  }

  /** From far away agents are squares that can still be seen. */
  drawSquares() {
    const { context, view, colours } = this, { moment } = this.world;
    const side = Math.max(3, view.scale);
    const fills = [...AGENT_COLOURS, colours.fault];
    fills.forEach((fill, hue) => {
      context.fillStyle = fill;
      context.beginPath();
      for (let agent = 0; agent < moment.count; agent += 1) {
        const isMine = moment.look[agent] & BROKEN ? hue === AGENT_COLOURS.length : hue === agent % AGENT_COLOURS.length;
        if (isMine && this.isSeen(moment.x[agent], moment.y[agent])) {
          const [x, y] = this.place(agent);
          context.rect(x - side / 2, y - side / 2, side, side);
        }
      }
      context.fill();
    });
  }

  drawDiscs() {
    const { context, dots, colours } = this, { moment } = this.world;
    for (let agent = 0; agent < moment.count; agent += 1) {
      if (!this.isSeen(moment.x[agent], moment.y[agent])) continue;
      const [x, y] = this.place(agent), look = moment.look[agent], radius = this.radiusOf(agent);
      drawSprite(context, agentSprite(agent % AGENT_COLOURS.length, look, radius, dots, colours), x, y);
      if (this.radius >= NUMBER_FROM) drawNumber(context, agent, look, x, y, radius, colours);
    }
  }

  /** Who has a fault, and the steps that it speaks of. */
  drawFaults() {
    const { context, view, colours, radius } = this;
    const line = Math.max(2, view.scale / 16), agents = new Set(this.seen.flatMap((it) => it.agents));
    for (const agent of agents) drawHalo(context, ...this.place(agent), this.radiusOf(agent), colours.fault, colours);
    for (const { steps } of this.seen) {
      for (const [from, to] of steps) {
        const ends = [view.pixel(...from), view.pixel(...to)];
        if (steps.length > 1) {
          drawBentArrow(context, ...ends, radius, view.scale, colours);
        } else {
          drawArrow(context, ...ends, line + 3, colours.halo, [radius, 0]);
          drawArrow(context, ...ends, line, colours.fault, [radius, 0]);
        }
      }
    }
  }

  /** What only a run and a fleet have: waits and restarts. */
  drawRun() {
    const { context, world, radius, colours } = this, { moment } = world;
    if (!world.isDriven) return;
    for (let agent = 0; agent < moment.count; agent += 1) {
      if (moment.waitsFor[agent] >= 0) drawWait(context, this.place(agent), this.place(moment.waitsFor[agent]), radius, colours);
      if (moment.fresh[agent] > 0) drawRestart(context, ...this.place(agent), radius, moment.fresh[agent], colours);
    }
  }

  /** The messages, below the agents. Where there are many, those of the agent that was chosen stand out. */
  drawLetters() {
    const { radius, wishes } = this;
    const letters = this.world.letters(), isMany = letters.length > MANY_LETTERS;
    const standsOut = (it) => !isMany || it.sender === wishes.agent || it.receiver === wishes.agent;
    const sent = letters.filter((it) => it.receiver >= 0);
    this.drawWays(sent.filter((it) => !standsOut(it)), false);
    this.drawWays(sent.filter(standsOut), true);
    const size = Math.max(7, Math.min(18, (isMany ? 0.6 : 0.9) * radius));
    for (const letter of letters) this.drawLetterAt(letter, isMany && standsOut(letter) ? 1.3 * size : size);
  }

  /** The lines on which messages go. */
  drawWays(letters, isClear) {
    const { context, colours } = this;
    context.strokeStyle = colours.letter;
    context.globalAlpha = isClear ? 0.9 : 0.2;
    context.lineWidth = isClear ? 1.4 : 1;
    context.setLineDash(isClear ? [2, 3] : []);
    context.beginPath();
    for (const { sender, receiver } of letters) {
      context.moveTo(...this.place(sender));
      context.lineTo(...this.place(receiver));
    }
    context.stroke();
    context.setLineDash([]);
    context.globalAlpha = 1;
  }

  drawLetterAt({ sender, receiver, part, isHeard }, size) {
    const { context, radius, dots, colours } = this, [x, y] = this.place(sender);
    if (receiver < 0) {
      // It comes off, and fades.
      context.globalAlpha = 1 - 0.8 * part;
      drawSprite(context, letterSprite(size, true, dots, colours), x + 1.1 * radius, y - radius - 0.4 * size + part * radius);
      context.globalAlpha = 1;
      return;
    }
    const [toX, toY] = this.place(receiver), share = 0.12 + 0.76 * part;
    drawSprite(context, letterSprite(size, !isHeard && part > 0.8, dots, colours), x + share * (toX - x), y + share * (toY - y));
  }

  /** The agent that was chosen, and for whom it waits. */
  drawChosen(agent) {
    const { context, colours, radius, world } = this;
    const need = world.openNeed(agent);
    if (need) {
      drawWait(context, this.place(agent), this.place(need.agent), radius, colours);
      drawHalo(context, ...this.place(need.agent), radius, colours.faint, colours);
    }
    drawHalo(context, ...this.place(agent), this.radiusOf(agent), colours.ink, colours);
  }
}
