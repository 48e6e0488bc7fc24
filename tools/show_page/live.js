// A fleet as its tapes say that it is now, and how the page comes to be the next one.

const KEPT = `mapf-live ${location.pathname}`;
// While somebody types or drags, the page waits so long, in milliseconds.
const BUSY = 500;
const MARKS = { moving: MOVES, waits: WAITS, unknown: BROKEN, arrived: HOME, ready: 0 };

class LiveWorld {
  constructor(courses, rotations, live) {
    this.courses = courses;
    this.rotations = rotations;
    this.live = live;
    this.end = 0;
    this.time = 0;
    this.isRun = false;
    this.isDriven = true;
    this.isLive = true;
    this.isAlarmed = live.told.some((it) => it.is_alarm) || live.agents.some((it) => it.fault);
    this.marks = [];
    this.blocking = live.blocking.map((number) => rotations[number]);
    this.moment = new Moment(courses.count);
    live.agents.forEach((it, agent) => this.place(it, agent));
  }

  /** A moving agent is drawn between its cells: nobody says how far it is. */
  place(it, agent) {
    const { moment } = this;
    [moment.fromX[agent], moment.fromY[agent], moment.toX[agent], moment.toY[agent]] = [it.x, it.y, it.to_x, it.to_y];
    moment.x[agent] = (it.x + it.to_x) / 2;
    moment.y[agent] = (it.y + it.to_y) / 2;
    moment.look[agent] = MARKS[it.keeping];
    moment.waitsFor[agent] = it.waits_for ?? -1;
  }

  seek() {}

  turning() {
    return this.blocking;
  }

  finished(agent) {
    return this.live.agents[agent].done;
  }

  openNeed(agent) {
    const it = this.live.agents[agent];
    return it.waits_for === null ? null : { agent: it.waits_for, moves: it.until };
  }

  inWords() {
    return `${this.live.clock}: ${this.live.told.find((it) => !it.is_alarm).text}`;
  }

  about(agent, choose) {
    const it = this.live.agents[agent], { courses } = this;
    if (it.fault) return [courses.inWords(agent), `its tape: ${it.fault}, ${it.since}. Nobody knows where it is; it is drawn where it was last seen, or starts`];
    const cells = this.moment.held(agent).map(shownCell);
    const lines = [`${courses.inWords(agent)}, of which it has finished ${shownNumber(it.done)}`];
    lines.push(it.keeping === "moving" ? `is on its way from ${cells[0]} to ${cells[1]}, and holds both cells, ${it.since}` : `stands in ${cells[0]}, ${it.since}`);
    if (it.keeping === "ready") lines.push("is ready: its next move waits for nobody, once it has heard of all");
    if (it.waits_for !== null) {
      const moves = `has finished ${counted(it.until, "move", "moves")} (${counted(this.finished(it.waits_for), "is", "are")} by now)`;
      lines.push(made("span", "", "waits until ", choose(it.waits_for), ` ${moves}`));
    }
    return lines;
  }
}

/** The lines that are told of a fleet, each of an agent with a button for it. */
function toldInLines(told, choose) {
  return told.map((it) => {
    const line = made("li", it.is_alarm ? "alarm" : "", it.text);
    if (it.agent !== null) line.append(" ", choose(it.agent));
    return line;
  });
}

/** Brings the page to the one that is there next, as it is seen now. */
class Renewal {
  constructor(show) {
    this.show = show;
    this.live = show.facts.live;
    this.takeUp();
    addEventListener("pagehide", () => this.keep());
    if (this.live.every) setTimeout(() => this.renew(), 1000 * this.live.every);
    document.getElementById("age").textContent = `as of ${this.live.clock}`;
    this.tellAge();
  }

  /** Says so where the page that is there is an old one: nobody writes it anew. */
  tellAge() {
    const age = Date.now() / 1000 - this.live.written, { every, clock } = this.live;
    if (every && age > 5 + 3 * every) {
      const trouble = document.getElementById("trouble");
      trouble.hidden = false;
      trouble.textContent = `This is of ${clock}, ${shownNumber(Math.floor(age))} seconds ago: the page isn't written anew. Does mapf-watch still run?`;
    }
  }

  isBusy() {
    return document.activeElement.matches("input") || this.show.controls.pointers.size > 0;
  }

  renew() {
    if (this.isBusy()) setTimeout(() => this.renew(), BUSY);
    else location.reload();
  }

  keep() {
    const { view, wishes, theme, isWhole } = this.show;
    const open = [...document.querySelectorAll("details[open]")].map((it) => it.id);
    const kept = { view: [view.x, view.y, view.scale], wishes, theme, isWhole, open, scroll: document.getElementById("side").scrollTop };
    try {
      sessionStorage.setItem(KEPT, JSON.stringify(kept));
    } catch {
      // Where nothing may be kept, each page is seen from its beginning.
    }
  }

  /** What the page before has kept, or null. */
  kept() {
    try {
      return JSON.parse(sessionStorage.getItem(KEPT));
    } catch {
      return null;
    }
  }

  takeUp() {
    const kept = this.kept();
    this.isTakenUp = Boolean(kept);
    if (!kept) return;
    const { show } = this;
    show.setTheme(kept.theme);
    for (const it of kept.open) document.getElementById(it).open = true;
    show.wishes = { ...show.wishes, ...kept.wishes };
    if (kept.wishes.agent >= show.agents) show.wishes.agent = -1;
    if (!kept.isWhole) [show.view.x, show.view.y, show.view.scale] = kept.view;
    show.isWhole = kept.isWhole;
    show.touch();
    document.getElementById("side").scrollTop = kept.scroll;
  }
}
