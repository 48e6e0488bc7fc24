// A plan, time by time: what is seen at a moment.

// What is seen of an agent, one bit each.
const MOVES = 1, WAITS = 2, BROKEN = 4, HOME = 8, ARMED = 16;

/** What is seen of all agents at a moment. */
class Moment {
  constructor(count) {
    this.count = count;
    this.look = new Uint8Array(count);
    // Where the agent is drawn, the cell that it holds, and the other one while it moves.
    this.x = new Float64Array(count);
    this.y = new Float64Array(count);
    this.fromX = new Int32Array(count);
    this.fromY = new Int32Array(count);
    this.toX = new Int32Array(count);
    this.toY = new Int32Array(count);
    // For whom it waits, or -1; and how lately it restarted, from 1 down to 0.
    this.waitsFor = new Int32Array(count).fill(-1);
    this.fresh = new Float32Array(count);
  }

  /** The cells that an agent holds. */
  held(agent) {
    const cells = [[this.fromX[agent], this.fromY[agent]]];
    if (this.look[agent] & MOVES) cells.push([this.toX[agent], this.toY[agent]]);
    return cells;
  }
}

class PlanWorld {
  constructor(courses, rotations) {
    this.courses = courses;
    this.end = courses.end;
    this.isRun = this.isDriven = this.isLive = false;
    this.rotations = rotations;
    this.moment = new Moment(courses.count);
    this.marks = [];
    this.seek(0);
  }

  seek(time) {
    this.time = time;
    const { courses, moment } = this;
    const step = Math.floor(time), part = time - step;
    for (let agent = 0; agent < moment.count; agent += 1) {
      const here = courses.place(agent, step), next = courses.place(agent, step + 1);
      const x = courses.xs[here], y = courses.ys[here];
      moment.fromX[agent] = x;
      moment.fromY[agent] = y;
      moment.toX[agent] = courses.xs[next];
      moment.toY[agent] = courses.ys[next];
      moment.x[agent] = x + part * (moment.toX[agent] - x);
      moment.y[agent] = y + part * (moment.toY[agent] - y);
      moment.look[agent] = (part > 0 && courses.isMove(agent, step) ? MOVES : 0) | (step >= courses.lengths[agent] ? HOME : 0);
    }
  }

  /** The rotations that turn now. */
  turning() {
    const step = Math.floor(this.time);
    return this.rotations.filter((it) => it.step === step);
  }

  /** How many moves an agent has finished. */
  finished(agent) {
    return this.courses.finished(agent, Math.floor(this.time));
  }

  /** For whom the selected agent's next move waits still. */
  openNeed(agent) {
    const need = this.courses.need(agent, this.finished(agent));
    return need && this.finished(need.agent) < need.moves ? need : null;
  }

  /** The moment in a line. */
  inWords() {
    const { courses } = this;
    const step = Math.floor(this.time);
    let home = 0, moving = 0;
    for (let agent = 0; agent < courses.count; agent += 1) {
      if (step >= courses.lengths[agent]) home += 1;
      else if (courses.isMove(agent, step)) moving += 1;
    }
    const rest = courses.count - home - moving;
    const moves = `${counted(moving, "agent moves", "agents move")} in this step, ${shownNumber(rest)} wait, ${shownNumber(home)} at the end`;
    const turning = this.turning().map((it) => ` Agents ${listed(it.agents)} turn round together.`);
    return `Time ${shownNumber(this.time)} of ${shownNumber(this.end)}: ${moves}.${turning.join("")}`;
  }

  /** What there is to say of an agent: a list of texts and elements. */
  about(agent, choose) {
    const { courses } = this;
    const done = this.finished(agent);
    const lines = [`${courses.inWords(agent)}, and is there from time ${shownNumber(courses.lengths[agent])} on`];
    lines.push(`now in ${shownCell(courses.cell(agent, Math.floor(this.time)))}, ${counted(done, "move", "moves")} finished`);
    for (let move = done; move < Math.min(done + 3, courses.moves[agent]); move += 1) lines.push(this.needLine(agent, move, choose));
    if (done === courses.moves[agent]) lines.push("it makes no more moves");
    return lines;
  }

  needLine(agent, move, choose) {
    const step = this.courses.stepOf(agent, move), need = this.courses.need(agent, move);
    const line = made("span", "", `move ${shownNumber(move)}, in step ${shownNumber(step)}, to ${shownCell(this.courses.cell(agent, step + 1))}`);
    if (!this.courses.needs.length) return line;
    if (!need) line.append(": waits for nobody");
    else line.append(": waits until ", choose(need.agent), ` has finished ${counted(need.moves, "move", "moves")}`);
    return line;
  }
}
