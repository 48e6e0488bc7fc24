// The page: brings the world to a time, and draws it when something has changed.

const SPEEDS = [0.25, 0.5, 1, 2, 4, 8, 16, 32, 64, 128, 256, 512, 1024, 2048, 4096];
// A whole plan, or a whole run, is first played in about so many seconds, and never faster than in so few.
const PLAYED_IN = 60, AT_LEAST_IN = 8;
const THEMES = ["auto", "light", "dark"];
const FAULT_SCALE = 34;
// How the parts of a second plan are called.
const BESIDE = "beside ";
// While it plays, what stands beside the drawing changes no more often than so, in milliseconds.
const PANEL_EACH = 100;

/** A plan or a run of it, and where it is drawn. */
class Side {
  constructor(facts, sections, ground, canvas) {
    const courses = new Courses(facts, sections), rotations = rotationsOf(sections.rotations);
    this.facts = facts;
    this.world = worldOf(facts, sections, courses, rotations);
    this.faults = new Faults(facts.faults);
    this.drawing = new Drawing(ground, this.world, this.faults);
    this.canvas = canvas;
    this.context = canvas.getContext("2d", { alpha: false });
  }
}

/** A fleet that is driven now, a run, or the plan by itself. */
function worldOf(facts, sections, courses, rotations) {
  if (facts.live) return new LiveWorld(courses, rotations, facts.live);
  if (!facts.run) return new PlanWorld(courses, rotations);
  return new RunWorld(courses, rotations, new Log(linesOf(sections.events), linesOf(sections.replies), courses.count), facts.run);
}

/** The plan of the page, and perhaps another one beside it. */
function sidesOf(facts, sections, ground) {
  const sides = [new Side(facts, sections, ground, document.getElementById("map"))];
  if (!facts.beside) return sides;
  const own = Object.entries(sections).filter(([name]) => name.startsWith(BESIDE)).map(([name, part]) => [name.slice(BESIDE.length), part]);
  sides.push(new Side(facts.beside, Object.fromEntries(own), ground, document.getElementById("beside")));
  document.getElementById("stage").classList.add("two");
  for (const [place, name] of ["caption", "other-caption"].entries()) {
    document.getElementById(name).textContent = sides[place].facts.name;
    document.getElementById(name).hidden = false;
  }
  sides[1].canvas.hidden = false;
  return sides;
}

class Show {
  constructor(facts, sections) {
    this.facts = facts;
    this.ground = new Ground(facts, sections.terrain);
    this.sides = sidesOf(facts, sections, this.ground);
    [{ world: this.world, drawing: this.drawing, canvas: this.canvas }] = this.sides;
    this.faults = this.sides.flatMap((it) => it.faults.all);
    this.rotations = this.sides.flatMap((it) => it.world.rotations).sort((one, other) => one.step - other.step);
    this.end = Math.max(...this.sides.map((it) => it.world.end));
    this.agents = Math.max(...this.sides.map((it) => it.world.courses.count));
    this.time = 0;
    this.view = new View();
    this.wishes = { goals: true, letters: true, agent: -1 };
    this.playing = false;
    this.frames = 0;
    this.told = 0;
    this.slider = document.getElementById("slider");
    this.slider.max = this.end;
    this.panel = new Panel(this.sides, this);
    this.signs = signsOf(this.sides, sections.terrain);
    this.offerSpeeds();
    this.setTheme("auto");
    for (const name of ["first", "back", "play", "on", "last", "slider", "speed"]) document.getElementById(name).disabled = !this.end;
    for (const name of ["sooner", "later"]) document.getElementById(name).disabled = !this.world.marks.length;
    for (const name of ["buttons", "line", "pace"]) document.getElementById(name).hidden = this.world.isLive;
    this.controls = new Controls(this);
    new ResizeObserver(() => this.resize()).observe(this.canvas);
    matchMedia("(prefers-color-scheme: dark)").addEventListener("change", () => this.setTheme(this.theme));
    this.resize();
  }

  offerSpeeds() {
    document.getElementById("unit").textContent = this.world.isRun ? "Events a second" : "Steps a second";
    const most = Math.max(8, this.end / AT_LEAST_IN), usual = Math.max(this.world.isRun ? 1 : 2, this.end / PLAYED_IN);
    this.speeds = SPEEDS.filter((it) => it <= most);
    const select = document.getElementById("speed");
    for (const speed of this.speeds) select.add(new Option(`${shownNumber(speed, 2)}/s`, speed));
    this.setSpeed(this.speeds.find((it) => it >= usual) || this.speeds[this.speeds.length - 1]);
  }

  setSpeed(speed) {
    this.speed = speed;
    document.getElementById("speed").value = speed;
  }

  faster(by) {
    const place = this.speeds.indexOf(this.speed) + by;
    this.setSpeed(this.speeds[Math.max(0, Math.min(this.speeds.length - 1, place))]);
  }

  // Time

  seek(time, isPlaying = false) {
    if (!isPlaying) this.pause();
    this.bringTo(time);
    this.touch();
  }

  /** Brings each side to a time, or to its end where that is before it. */
  bringTo(time) {
    this.time = Math.max(0, Math.min(this.end, time));
    for (const { world } of this.sides) world.seek(Math.min(world.end, this.time));
  }

  step(by) {
    this.seek(by > 0 ? Math.floor(this.time) + 1 : Math.ceil(this.time) - 1);
  }

  toggle() {
    if (this.playing) this.pause();
    else this.play();
  }

  play() {
    if (!this.end) return;
    if (this.time >= this.end) this.bringTo(0);
    this.playing = true;
    this.before = 0;
    this.showPlaying();
  }

  pause() {
    this.playing = false;
    this.showPlaying();
  }

  showPlaying() {
    const play = document.getElementById("play");
    play.classList.toggle("playing", this.playing);
    play.setAttribute("aria-label", this.playing ? "Pause" : "Play");
    this.told = 0;
    this.touch();
  }

  toMark(by) {
    const { time, world: { marks } } = this;
    const found = by > 0 ? marks.find((it) => it > time) : marks.filter((it) => it < time).pop();
    if (found !== undefined) this.seek(found);
  }

  toRotation() {
    const { rotations, time } = this;
    const next = rotations.find((it) => it.step > time) || rotations[0];
    if (next && !this.world.isDriven) this.seek(next.step);
  }

  /** To the next time that has a fault, or to the first one. */
  toFault() {
    const faults = [...this.faults].sort((one, other) => one.time - other.time);
    this.showFault(this.world.isRun ? faults[0] : faults.find((it) => it.time > this.time) || faults[0]);
  }

  showFault(fault = this.faults[0]) {
    if (!fault) return;
    // A plan whose run is shown has a fault of its scenario alone, and its time is none of the run.
    if (!this.world.isRun) this.seek(fault.time);
    this.fit();
    if (this.view.scale < FAULT_SCALE / 2 && fault.cells.length) {
      this.view.scale = FAULT_SCALE;
      this.view.centre(...fault.cells[0], this.width, this.height);
      this.isWhole = false;
    }
    this.touch();
  }

  // What is seen of the map

  resize() {
    const box = this.canvas.getBoundingClientRect(), isFirst = !this.width;
    const isWhole = this.isWhole;
    this.dots = window.devicePixelRatio || 1;
    [this.width, this.height] = [box.width, box.height];
    for (const { canvas } of this.sides) {
      canvas.width = Math.round(box.width * this.dots);
      canvas.height = Math.round(box.height * this.dots);
    }
    if (isFirst || isWhole) this.fit();
    this.drawStrip();
    // A canvas that changed its size is empty until it is drawn.
    this.draw();
  }

  /** The map, with the cells of a fault that lie beside it. */
  box() {
    const box = { left: 0, top: 0, right: this.facts.width, bottom: this.facts.height };
    const most = Math.max(4, (box.right + box.bottom) / 2);
    for (const [x, y] of this.faults.flatMap((it) => it.cells)) {
      if (x > -most && y > -most && x < box.right + most && y < box.bottom + most) {
        box.left = Math.min(box.left, x);
        box.top = Math.min(box.top, y);
        box.right = Math.max(box.right, x + 1);
        box.bottom = Math.max(box.bottom, y + 1);
      }
    }
    return box;
  }

  fit() {
    this.view.fit(this.box(), this.width, this.height, marginsOf(this.sides.length > 1 ? window.innerWidth : this.width));
    this.isWhole = true;
    this.touch();
  }

  zoom(factor, x = this.width / 2, y = this.height / 2) {
    this.view.zoom(factor, x, y);
    this.isWhole = false;
    this.touch();
  }

  move(x, y) {
    this.view.move(x, y);
    this.isWhole = false;
    this.touch();
  }

  centre() {
    const { agent } = this.wishes;
    if (agent < 0) return;
    this.view.centre(...this.placeOf(agent), this.width, this.height);
    this.isWhole = false;
    this.touch();
  }

  // Agents

  /** Where an agent is, on the first side that has it. */
  placeOf(agent) {
    const { world: { moment } } = this.sides.find((it) => agent < it.world.courses.count);
    return [moment.x[agent], moment.y[agent]];
  }

  choose(agent, isLookedFor = false) {
    this.wishes.agent = agent;
    if (agent >= 0) {
      document.getElementById("number").value = agent;
      const [x, y] = this.view.pixel(...this.placeOf(agent));
      if (isLookedFor && !(x > 0 && y > 0 && x < this.width && y < this.height)) this.centre();
    }
    this.touch();
  }

  chooseNext(by) {
    const count = this.agents;
    if (count) this.choose(this.wishes.agent < 0 ? (by > 0 ? 0 : count - 1) : (this.wishes.agent + by + count) % count, true);
  }

  /** Chooses the agent that is nearest to a pixel, if one is near. */
  chooseAt(x, y, canvas) {
    const { moment } = this.sides.find((it) => it.canvas === canvas).world;
    let found = -1, least = Math.max(12, this.view.scale * 0.75);
    for (let agent = 0; agent < moment.count; agent += 1) {
      const [px, py] = this.view.pixel(moment.x[agent], moment.y[agent]), far = Math.hypot(px - x, py - y);
      if (far < least) [found, least] = [agent, far];
    }
    this.choose(found);
  }

  wish(name) {
    this.wishes[name] = !this.wishes[name];
    this.touch();
  }

  /** Goes to what stands behind the address of the page, as `#time=11&agent=12`. What doesn't stand there stays as it is. */
  obeyAddress() {
    const given = new URLSearchParams(location.hash.slice(1)), agent = parseInt(given.get("agent"), 10), time = parseFloat(given.get("time"));
    if (THEMES.includes(given.get("theme"))) this.setTheme(given.get("theme"));
    if (time >= 0) this.seek(time);
    if (agent >= 0 && agent < this.agents) this.choose(agent, true);
  }

  // Light and dark

  nextTheme() {
    this.setTheme(THEMES[(THEMES.indexOf(this.theme) + 1) % THEMES.length]);
  }

  setTheme(theme) {
    this.theme = theme;
    const isDark = theme === "dark" || (theme === "auto" && matchMedia("(prefers-color-scheme: dark)").matches);
    document.documentElement.dataset.theme = isDark ? "dark" : "light";
    document.getElementById("theme").textContent = { auto: "Auto", light: "Light", dark: "Dark" }[theme];
    this.colours = coloursOf(document.documentElement.dataset.theme);
    drawSigns(document.getElementById("signs"), this.signs, this.colours);
    this.drawStrip();
    this.touch();
  }

  // Drawing

  /** Something has changed: it is drawn before it is seen next. */
  touch() {
    if (this.waiting) return;
    this.waiting = true;
    requestAnimationFrame((now) => this.frame(now));
  }

  frame(now) {
    this.waiting = false;
    if (this.playing) {
      const passed = this.before ? Math.min(0.25, (now - this.before) / 1000) : 0;
      this.before = now;
      this.bringTo(this.time + passed * this.speed);
      if (this.time >= this.end) this.pause();
    }
    this.draw();
    if (this.playing) this.touch();
  }

  draw() {
    if (!this.width || !this.height) return;
    for (const { drawing, context, world } of this.sides) {
      const agent = this.wishes.agent < world.courses.count ? this.wishes.agent : -1;
      drawing.draw(context, this.view, this.width, this.height, this.dots, this.colours, { ...this.wishes, agent });
    }
    this.frames += 1;
    this.slider.value = this.time;
    const now = performance.now();
    if (this.playing && now - this.told < PANEL_EACH) return;
    this.told = now;
    this.slider.setAttribute("aria-valuetext", `${this.world.isRun ? "event" : "time"} ${shownNumber(this.time)} of ${shownNumber(this.end)}`);
    this.panel.update(this.wishes.agent, this.playing);
  }

  /** Beside the slider: where writes fail and robots restart, where faults are, where a rotation turns. */
  drawStrip() {
    const strip = document.getElementById("strip"), { world } = this;
    const marks = [
      ...world.marks.map((time) => [time, world.log.isFailure(time - 1) ? this.colours.fault : this.colours.accent]),
      ...(world.isRun ? [] : this.faults.map((it) => [it.time, this.colours.fault])),
      ...(world.isDriven ? [] : this.rotations.map((it) => [it.step, this.colours.ring])),
    ];
    strip.hidden = !marks.length;
    const width = strip.clientWidth, dots = window.devicePixelRatio || 1;
    strip.width = Math.round(width * dots);
    strip.height = Math.round(10 * dots);
    const context = strip.getContext("2d");
    context.setTransform(dots, 0, 0, dots, 0, 0);
    // The knob of the slider is as wide as this.
    const knob = 16;
    for (const [time, colour] of marks) {
      const x = knob / 2 + (width - knob) * (this.end ? time / this.end : 0);
      context.fillStyle = colour;
      context.beginPath();
      context.moveTo(x, 0);
      context.lineTo(x + 3.5, 8);
      context.lineTo(x - 3.5, 8);
      context.fill();
    }
  }
}

/** What a program that opens the page can ask of it. */
function offered(ready) {
  return {
    ready,
    get end() { return window.page.end; },
    get isRun() { return window.page.world.isRun; },
    picture: (time, width, isDark) => new Picture(window.page, time, width, isDark).address(),
  };
}

async function start() {
  const facts = JSON.parse(document.getElementById("facts").textContent);
  const sections = await unpack(facts.sizes);
  window.page = new Show(facts, sections);
  window.page.showFault();
  const renewal = facts.live && new Renewal(window.page);
  // What was chosen since the address was given stays.
  if (!renewal?.isTakenUp) window.page.obeyAddress();
  window.addEventListener("hashchange", () => window.page.obeyAddress());
  window.page.draw();
}

function tellTrouble(fault) {
  const trouble = document.getElementById("trouble");
  const isOld = typeof DecompressionStream === "undefined";
  trouble.textContent = isOld ? "This browser is too old for the drawing: it can't unpack what the page holds." : `The drawing failed: ${fault.message}`;
  trouble.hidden = false;
  throw fault;
}

window.show = offered(start().catch(tellTrouble));
