"use strict";
// What the page shows, as it was packed.

const NOBODY = 65535;
const STEP_X = { 110: 0, 101: 1, 115: 0, 119: -1, 45: 0 };
const STEP_Y = { 110: -1, 101: 0, 115: 1, 119: 0, 45: 0 };
const STAYS = 45;

/** The bytes that a text in base64 stands for. */
function bytesOf(text) {
  const letters = atob(text);
  const bytes = new Uint8Array(letters.length);
  for (let place = 0; place < bytes.length; place += 1) bytes[place] = letters.charCodeAt(place);
  return bytes;
}

/** All sections, each by its name. */
async function unpack(sizes) {
  const packed = bytesOf(document.getElementById("data").textContent);
  const stream = new Blob([packed]).stream().pipeThrough(new DecompressionStream("deflate-raw"));
  const whole = await new Response(stream).arrayBuffer();
  const sections = {};
  let begin = 0;
  for (const [name, size] of Object.entries(sizes)) {
    sections[name] = new Uint8Array(whole, begin, size);
    begin += Math.ceil(size / 4) * 4;
  }
  return sections;
}

/** The numbers of a section. Every machine with a browser has the least byte first. */
function numbersOf(section, kind) {
  return new kind(section.buffer, section.byteOffset, section.byteLength / kind.BYTES_PER_ELEMENT);
}

function linesOf(section) {
  return section.byteLength ? new TextDecoder().decode(section).split("\n") : [];
}

/** Where each agent is at each time, and for whom its moves wait. */
class Courses {
  constructor(facts, sections) {
    this.count = facts.agents;
    this.end = facts.end;
    this.lengths = numbersOf(sections.lengths, Int32Array);
    this.acts = sections.acts;
    this.needs = numbersOf(sections.needs, Uint16Array);
    this.more = numbersOf(sections.more, Uint16Array);
    const all = this.acts.length + this.count;
    this.xs = new Int32Array(all);
    this.ys = new Int32Array(all);
    // By agent: where its acts, its cells and its moves begin, and how many moves it has.
    this.firstAct = new Int32Array(this.count);
    this.firstCell = new Int32Array(this.count);
    this.firstMove = new Int32Array(this.count);
    this.moves = new Int32Array(this.count);
    this.walk(numbersOf(sections.starts, Int32Array));
  }

  walk(starts) {
    let act = 0, cell = 0, move = 0;
    for (let agent = 0; agent < this.count; agent += 1) {
      let x = starts[2 * agent], y = starts[2 * agent + 1];
      this.firstAct[agent] = act;
      this.firstCell[agent] = cell;
      this.firstMove[agent] = move;
      for (let time = 0; ; time += 1) {
        this.xs[cell] = x;
        this.ys[cell] = y;
        cell += 1;
        if (time === this.lengths[agent]) break;
        const code = this.acts[act];
        act += 1;
        x += STEP_X[code];
        y += STEP_Y[code];
        if (code !== STAYS) move += 1;
      }
      this.moves[agent] = move - this.firstMove[agent];
    }
  }

  /** The place, in the arrays of cells, of where an agent is at a time. */
  place(agent, time) {
    return this.firstCell[agent] + Math.min(time, this.lengths[agent]);
  }

  cell(agent, time) {
    const place = this.place(agent, time);
    return [this.xs[place], this.ys[place]];
  }

  goal(agent) {
    return this.cell(agent, this.lengths[agent]);
  }

  inWords(agent) {
    return `goes from ${shownCell(this.cell(agent, 0))} to ${shownCell(this.goal(agent))} in ${counted(this.moves[agent], "move", "moves")}`;
  }

  /** Whether an agent moves in a step. */
  isMove(agent, step) {
    return step < this.lengths[agent] && this.acts[this.firstAct[agent] + step] !== STAYS;
  }

  /** How many moves an agent has finished at a time. */
  finished(agent, time) {
    let count = 0;
    for (let step = Math.min(time, this.lengths[agent]) - 1; step >= 0; step -= 1) count += this.isMove(agent, step) ? 1 : 0;
    return count;
  }

  /** The step in which an agent makes its move of this number. */
  stepOf(agent, move) {
    for (let step = 0, left = move; step < this.lengths[agent]; step += 1) {
      if (this.isMove(agent, step)) {
        if (left === 0) return step;
        left -= 1;
      }
    }
    return this.lengths[agent];
  }

  /** For whom a move waits, and how many moves that agent must have finished; or null. */
  need(agent, move) {
    if (!this.needs.length || move >= this.moves[agent]) return null;
    const place = this.firstMove[agent] + move;
    const other = this.needs[place];
    return other === NOBODY ? null : { agent: other, moves: (move + this.more[place]) % 65536 };
  }
}

/** The faults of a plan, and which of them are seen at a moment of its world. */
class Faults {
  constructor(all) {
    this.all = all;
    this.byTime = new Map();
    for (const it of all) {
      if (!this.byTime.has(it.time)) this.byTime.set(it.time, []);
      this.byTime.get(it.time).push(it);
    }
  }

  /** Those of the time that is shown. A run has no times of its plan: what is wrong with that is seen always. */
  seenIn(world) {
    return world.isRun ? this.all : this.byTime.get(Math.floor(world.time)) || [];
  }
}

/** The rotations, each with its step and its agents, in the order in which they are listed. */
function rotationsOf(section) {
  const numbers = numbersOf(section, Int32Array);
  const rotations = [];
  for (let place = 0; place < numbers.length; ) {
    const count = numbers[place + 1];
    rotations.push({ number: rotations.length, step: numbers[place], agents: numbers.subarray(place + 2, place + 2 + count) });
    place += 2 + count;
  }
  return rotations;
}
