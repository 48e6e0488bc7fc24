// A run, event by event: what is seen behind the events that have been answered.

// Of each agent: its cell, the one that it moves into, what is seen of it, for whom it waits and for how many of its moves, how many it has
// finished itself, how often it restarted, behind which event last, and behind which its move began.
const X = 0, Y = 1, TO_X = 2, TO_Y = 3, LOOK = 4, WAIT_FOR = 5, WAIT_MOVES = 6, DONE = 7, RESTARTS = 8, RESTARTED = 9, BEGAN = 10, STRIDE = 11;
// For how many events one that restarted, or a message that nobody hears, is seen.
const LEAST_SEEN = 3, MOST_SEEN = 24;

class RunWorld {
  constructor(courses, rotations, log, facts) {
    this.courses = courses;
    this.log = log;
    this.end = log.kind.length;
    this.isRun = this.isDriven = true;
    this.isLive = false;
    this.rotations = rotations;
    const [word, number] = facts.ending.split(" ");
    this.blocking = word === "blocked" ? [rotations[Number(number)]] : [];
    this.post = new Post(log);
    this.moment = new Moment(courses.count);
    this.seen = Math.min(MOST_SEEN, Math.max(LEAST_SEEN, Math.round(this.end / 40)));
    // Behind which event each move ends; of a move that never does, 0.
    this.ends = new Int32Array(this.end);
    this.marks = [];
    this.replay();
    this.ending = endingInWords(facts, courses.moves.every((moves, agent) => this.finished(agent) === moves));
    this.seek(0);
  }

  /** Answers all events once, and keeps a state now and then, from which any other is soon reached. */
  replay() {
    const { courses, log } = this;
    this.state = new Int32Array(STRIDE * courses.count);
    for (let agent = 0; agent < courses.count; agent += 1) {
      const [x, y] = courses.cell(agent, 0);
      this.state.set([x, y, x, y, courses.moves[agent] ? 0 : HOME, -1, 0, 0, 0, -1, -1], STRIDE * agent);
    }
    this.every = Math.max(512, 4 * courses.count);
    this.kept = [];
    this.count = 0;
    for (let event = 0; event < this.end; event += 1) {
      if (event % this.every === 0) this.kept.push(this.state.slice());
      const began = this.log.who[event] < 0 ? -1 : this.state[STRIDE * log.who[event] + BEGAN];
      if (log.reply[event] === ARRIVED && began >= 0) this.ends[began] = event;
      if (log.isFailure(event) || log.kind[event] === RESTART) this.marks.push(event + 1);
      this.apply(event);
    }
    if (!this.kept.length) this.kept.push(this.state.slice());
    this.count = this.end;
  }

  apply(event) {
    const { log, state } = this;
    if (log.who[event] < 0) return;
    const at = STRIDE * log.who[event], first = 5 * event, { numbers } = log;
    switch (log.reply[event]) {
      case MOVING:
        state[at + TO_X] = numbers[first];
        state[at + TO_Y] = numbers[first + 1];
        state[at + LOOK] = (state[at + LOOK] | MOVES) & ~(WAITS | HOME);
        state[at + WAIT_FOR] = -1;
        state[at + BEGAN] = event;
        break;
      case ARRIVED:
        this.stand(at, numbers[first], numbers[first + 1], state[at + DONE] + 1);
        break;
      case HEARD:
        if (state[at + WAIT_FOR] === numbers[first] && numbers[first + 1] >= state[at + WAIT_MOVES]) this.waitNoMore(at);
        break;
      case AT:
        this.restart(at, event);
        this.stand(at, numbers[first], numbers[first + 1], numbers[first + 2]);
        break;
      case BETWEEN:
        this.restart(at, event);
        state.set(numbers.subarray(first, first + 4), at);
        state[at + LOOK] = (state[at + LOOK] | MOVES) & ~HOME;
        if (state[at + BEGAN] < 0) state[at + BEGAN] = event;
        state[at + DONE] = numbers[first + 4];
        break;
      case IS_ARMED:
        state[at + LOOK] |= ARMED;
        break;
      case REFUSED:
        this.refuse(at, event);
        break;
      default:
    }
    if (state[at + DONE] === this.courses.moves[log.who[event]] && !(state[at + LOOK] & MOVES)) state[at + LOOK] |= HOME;
  }

  stand(at, x, y, done) {
    this.state.set([x, y, x, y], at);
    this.state[at + LOOK] &= ~(MOVES | HOME);
    this.state[at + DONE] = done;
    this.state[at + BEGAN] = -1;
  }

  waitNoMore(at) {
    this.state[at + LOOK] &= ~WAITS;
    this.state[at + WAIT_FOR] = -1;
  }

  restart(at, event) {
    this.waitNoMore(at);
    this.state[at + LOOK] &= ~(BROKEN | ARMED);
    this.state[at + RESTARTS] += 1;
    this.state[at + RESTARTED] = event;
  }

  refuse(at, event) {
    const { log, state } = this;
    if (log.reason[event] === FOR_OTHER) {
      state[at + LOOK] |= WAITS;
      state[at + WAIT_FOR] = log.numbers[5 * event];
      state[at + WAIT_MOVES] = log.numbers[5 * event + 1];
    } else if (log.reason[event] === STORE_FAILED || log.reason[event] === IS_BROKEN) {
      state[at + LOOK] = (state[at + LOOK] | BROKEN) & ~ARMED;
    }
  }

  seek(time) {
    this.time = time;
    const count = Math.floor(time);
    const kept = Math.min(Math.floor(count / this.every), this.kept.length - 1);
    if (count < this.count || kept * this.every > this.count) {
      this.state.set(this.kept[kept]);
      this.count = kept * this.every;
    }
    for (; this.count < count; this.count += 1) this.apply(this.count);
    this.look();
  }

  look() {
    const { moment, state, time } = this;
    for (let agent = 0, at = 0; agent < moment.count; agent += 1, at += STRIDE) {
      const part = this.partOf(at);
      moment.fromX[agent] = state[at + X];
      moment.fromY[agent] = state[at + Y];
      moment.toX[agent] = state[at + TO_X];
      moment.toY[agent] = state[at + TO_Y];
      moment.x[agent] = state[at + X] + part * (state[at + TO_X] - state[at + X]);
      moment.y[agent] = state[at + Y] + part * (state[at + TO_Y] - state[at + Y]);
      moment.look[agent] = state[at + LOOK];
      moment.waitsFor[agent] = state[at + LOOK] & WAITS ? state[at + WAIT_FOR] : -1;
      const since = time - state[at + RESTARTED] - 1;
      moment.fresh[agent] = state[at + RESTARTED] >= 0 && since < this.seen ? 1 - since / this.seen : 0;
    }
  }

  /** How far a moving agent is drawn on its way: nobody says where it is, but it has to be at the end when it arrives. */
  partOf(at) {
    const began = this.state[at + BEGAN];
    if (!(this.state[at + LOOK] & MOVES) || began < 0) return 0;
    const ends = this.ends[began], since = this.time - began - 1;
    return ends ? Math.min(1, 0.15 + 0.85 * since / (ends - began)) : Math.min(0.5, 0.15 + since / 20);
  }

  turning() {
    return this.blocking;
  }

  finished(agent) {
    return this.state[STRIDE * agent + DONE];
  }

  openNeed(agent) {
    const at = STRIDE * agent;
    return this.state[at + LOOK] & WAITS ? { agent: this.state[at + WAIT_FOR], moves: this.state[at + WAIT_MOVES] } : null;
  }

  /** The messages under way, from whom to whom and how far; and those that nobody hears. */
  letters() {
    const count = Math.floor(this.time), { log, post } = this;
    const part = (from, to) => (this.time - from - 1) / (to - from);
    const found = post.underWay(count).map((it) => {
      const [from, to] = [post.from[it], post.to[it]];
      return { sender: log.who[from], receiver: log.who[to], part: part(from, to), isHeard: log.reply[to] === HEARD };
    });
    const lost = post.lostLately(count, this.seen).map((from) => {
      return { sender: log.who[from], receiver: -1, part: part(from, from + this.seen), isHeard: false };
    });
    return [...found, ...lost];
  }

  inWords() {
    const { moment } = this;
    const having = (bit) => moment.look.reduce((sum, look) => sum + (look & bit ? 1 : 0), 0);
    const parts = [[MOVES, "on the way"], [WAITS, "waiting"], [HOME, "at the end"]].map(([bit, words]) => `${shownNumber(having(bit))} ${words}`);
    if (having(BROKEN)) parts.push(`${shownNumber(having(BROKEN))} broken`);
    const count = Math.floor(this.time);
    const last = count ? ` Last: ${this.log.events[count - 1]}: ${this.log.replies[count - 1].slice(0, 60)}.` : "";
    return `${shownNumber(count)} of ${counted(this.end, "event", "events")}: ${parts.join(", ")}.${last}`;
  }

  about(agent, choose) {
    const at = STRIDE * agent, { courses, state } = this;
    const look = state[at + LOOK];
    const lines = [`${courses.inWords(agent)}, of which it has finished ${shownNumber(state[at + DONE])}`];
    const cells = this.moment.held(agent).map(shownCell);
    lines.push(look & MOVES ? `is on its way from ${cells[0]} to ${cells[1]}, and holds both cells` : `stands in ${cells[0]}`);
    if (look & BROKEN) lines.push("is broken: a write failed, and it has not been restarted since");
    if (look & ARMED) lines.push("its next write will be torn");
    if (look & WAITS) {
      const line = made("span", "", "was refused a start: it waits to hear that ", choose(state[at + WAIT_FOR]));
      line.append(` has finished ${counted(state[at + WAIT_MOVES], "move", "moves")} (${counted(this.finished(state[at + WAIT_FOR]), "is", "are")} by now)`);
      lines.push(line);
    } else {
      lines.push(...this.coming(agent, choose));
    }
    if (state[at + RESTARTS]) lines.push(`restarted ${counted(state[at + RESTARTS], "time", "times")}`);
    return lines;
  }

  /** For whom the move that comes next has to wait. */
  coming(agent, choose) {
    const at = STRIDE * agent, move = this.state[at + DONE] + (this.state[at + LOOK] & MOVES ? 1 : 0);
    const need = this.courses.need(agent, move);
    if (move >= this.courses.moves[agent]) return [];
    if (!need) return [`its move ${shownNumber(move)} will wait for nobody`];
    return [made("span", "", `its move ${shownNumber(move)} has to hear that `, choose(need.agent), ` has finished ${counted(need.moves, "move", "moves")}`)];
  }
}
