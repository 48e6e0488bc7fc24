// What stands beside the drawing: the fault, rotations, events, and the agent that was chosen.

const ROWS = 9, MOST_TURNS = 6;
// The most letters of an event and of a reply that the list makes room for.
const MOST_EVENT = 20, MOST_LISTED = 30;

class Panel {
  constructor(sides, act) {
    this.sides = sides;
    this.world = sides[0].world;
    // What a click asks for: `seek` a time, `choose` an agent.
    this.act = act;
    this.element = (name) => document.getElementById(name);
    for (const [place, side] of sides.entries()) {
      this.element(place ? "other" : "verdict").className = `verdict ${side.faults.all.length || side.world.isAlarmed ? "bad" : "good"}`;
      this.showSource(side);
      this.showFaults(side);
      this.showTurns(side);
    }
    if (this.world.isRun) this.showRun();
    if (this.world.isLive) this.showFleet();
  }

  /** The name of a plan as a heading, where there are two. */
  nameOf({ facts }, behind = "") {
    return this.sides.length > 1 ? `${facts.name}${behind}` : "";
  }

  showSource({ facts: { name, source } }) {
    if (!source) return;
    this.element("source").hidden = false;
    this.element("source").append(made("p", "", `${name} was converted: it has the format ${source}.`));
  }

  showFaults(side) {
    const { facts, faults: { all: [first, ...others] } } = side, section = this.element("faults");
    if (!first) return;
    section.hidden = false;
    section.append(made("h2", "", `${this.nameOf(side, ": ")}Rejected`));
    if (others.length) section.append(made("p", "", first.words));
    const show = button(this.world.isRun ? "Show" : `Show time ${shownNumber(first.time)}`, () => this.act.showFault(first), "to the first fault");
    section.append(made("p", "row", made("code", "", first.said), ...(first.cells.length ? [show] : [])));
    if (others.length) section.append(made("ol", "others", ...others.map((it) => made("li", "", this.toFault(it)))));
    if (facts.verdict.more) section.append(made("p", "", "There are more faults than are listed here."));
    const faint = (text) => section.append(made("p", "faint", text));
    if (facts.told) faint("Of such a plan no path is answered. The paths are drawn as the text of the plan gives them.");
    if (facts.isValid) return;
    if (this.act.facts.names.events) faint("A plan that is rejected has no runs, so the events are not shown.");
    else faint("Of a plan that is rejected it isn't said who waits for whom.");
  }

  /** A line of the list of faults, which goes to this one. */
  toFault(fault) {
    return button(fault.words, () => this.act.showFault(fault), fault.said);
  }

  showTurns(side) {
    const { rotations } = side.world, section = this.element("turns");
    if (!rotations.length) return;
    section.hidden = false;
    section.append(made("h2", "", `${this.nameOf(side, ": ")}${counted(rotations.length, "rotation", "rotations")}`));
    section.append(made("p", "", "Each of its agents moves into the cell of the next one, all in one step. "
      + "Agents that wait for one another can't begin that: no run of this plan comes to its end."));
    for (const it of rotations.slice(0, MOST_TURNS)) {
      const line = made("p", "", `Step ${shownNumber(it.step)}: agents ${listed(it.agents)} `);
      if (!this.world.isDriven) line.append(button("Show", () => this.act.seek(it.step), "to this rotation"));
      section.append(line);
    }
    const more = rotations.length - MOST_TURNS;
    if (more > 0) section.append(made("p", "faint", `and ${shownNumber(more)} more: the key r goes to the next one`));
  }

  showFleet() {
    this.element("fleet").hidden = false;
    this.element("told").replaceChildren(...toldInLines(this.world.live.told, (agent) => this.toAgent(agent)));
  }

  showRun() {
    this.element("events").hidden = false;
    this.element("ending").textContent = this.world.ending;
    this.makeRoom();
    const list = this.element("rows");
    this.rows = Array.from({ length: Math.min(ROWS, this.world.end) }, () => {
      const row = button("", () => this.act.seek(Number(row.dataset.event) + 1));
      row.append(made("span", "number"), made("span", ""), made("span", ""));
      list.append(made("li", "", row));
      return row;
    });
  }

  /** Makes the list wide enough for all events and replies whole, but for messages. */
  makeRoom() {
    const { log } = this.world;
    const longest = (lines, most) => Math.min(most, lines.reduce((length, line) => Math.max(length, line.length), 0));
    const letters = [shownNumber(this.world.end).length, longest(log.events, MOST_EVENT)];
    letters.push(longest(log.replies.filter((_, event) => log.reply[event] !== SAID), MOST_LISTED));
    const { style } = document.documentElement;
    style.setProperty("--columns", `${letters[0]}ch ${letters[1]}ch minmax(0, 1fr)`);
    style.setProperty("--letters", letters.reduce((sum, it) => sum + it));
  }

  /** Brings everything to the moment. While it plays, what is read aloud is left alone. */
  update(chosen, isPlaying) {
    const now = this.element("now");
    now.setAttribute("aria-live", isPlaying ? "off" : "polite");
    this.put(now, this.sides.map((side) => this.momentOf(side)).join("\n"));
    if (this.world.isRun) this.updateRows();
    this.updateAgent(chosen);
  }

  /** The moment of a plan in words, with the faults of this time. */
  momentOf(side) {
    const { world, faults } = side, seen = world.isRun ? [] : faults.seenIn(world);
    return `${this.nameOf(side, ": ")}${[world.inWords(), faultsInWords(seen)].filter(Boolean).join(" ")}`;
  }

  put(element, text) {
    if (element.textContent !== text) element.textContent = text;
  }

  updateRows() {
    const { world } = this, current = Math.floor(world.time) - 1;
    const first = Math.max(0, Math.min(current - Math.floor(ROWS / 2), world.end - this.rows.length));
    this.rows.forEach((row, place) => {
      const event = first + place, [number, what, reply] = row.children;
      row.dataset.event = event;
      row.classList.toggle("current", event === current);
      row.setAttribute("aria-current", event === current ? "step" : "false");
      reply.classList.toggle("refused", world.log.reply[event] === REFUSED);
      this.put(number, shownNumber(event + 1));
      this.put(what, world.log.events[event]);
      this.put(reply, world.log.replies[event]);
    });
    this.updateEvent(current);
  }

  updateEvent(current) {
    const key = `event ${current}`;
    const box = this.element("event");
    if (box.dataset.key === key) return;
    box.dataset.key = key;
    if (current < 0) {
      box.replaceChildren(made("span", "faint", "before the first event"));
      return;
    }
    const { log, post } = this.world;
    const isRefused = log.reply[current] === REFUSED;
    const event = made("div", "", `${shownNumber(current + 1)}. ${log.events[current]}`);
    const lines = [event, made("div", isRefused ? "reply refused" : "reply", log.replies[current])];
    if (log.reply[current] === SAID) lines.push(made("div", "faint", this.heardInWords(log.who[current], post.hearers(current))));
    box.replaceChildren(...lines);
  }

  heardInWords(sender, hearers) {
    if (!hearers.length) return "heard by nobody";
    const all = Array.from({ length: this.world.courses.count }, (_, agent) => agent);
    const others = all.filter((it) => it !== sender && !hearers.includes(it));
    return `heard later by ${listed(hearers)}${others.length ? `; not by ${listed(others)}` : ""}`;
  }

  updateAgent(agent) {
    const about = this.element("about");
    const key = `${agent} ${Math.floor(this.act.time)}`;
    if (about.dataset.key === key) return;
    about.dataset.key = key;
    if (agent < 0) {
      const text = this.act.agents ? "Click an agent, or type its number." : "The plan has no agents.";
      about.replaceChildren(made("p", "faint", text));
      return;
    }
    about.replaceChildren(made("p", "", made("strong", "", `Agent ${agent}`)), ...this.sides.flatMap((side) => this.aboutIn(side, agent)));
  }

  /** What there is to say of an agent in one plan. */
  aboutIn(side, agent) {
    const name = this.nameOf(side), head = name ? [made("p", "faint", name)] : [];
    if (agent >= side.world.courses.count) return [...head, made("p", "", "has no such agent")];
    const lines = side.world.about(agent, (other) => this.toAgent(other)).map((it) => made("li", "", it));
    return [...head, made("ul", "", ...lines)];
  }

  toAgent(agent) {
    return button(`agent ${agent}`, () => this.act.choose(agent), "chooses this agent");
  }
}
