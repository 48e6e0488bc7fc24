// Buttons, keys and fingers.

const MOVE_BY = 60, ZOOM_BY = 1.25, CLICK_WITHIN = 6;

class Controls {
  constructor(show) {
    this.show = show;
    this.pointers = new Map();
    this.wireButtons();
    for (const { canvas } of show.sides) this.wirePointers(canvas);
    document.addEventListener("keydown", (event) => this.key(event));
    this.wireFocus();
  }

  /** Who clicks wants no focus there: the space bar is to play. Who presses a key on a button keeps it. */
  wireFocus() {
    const giveBack = (target) => target.closest("button, summary, select")?.blur();
    document.addEventListener("pointerdown", () => { this.isPointing = true; });
    document.addEventListener("keydown", () => { this.isPointing = false; }, { capture: true });
    document.addEventListener("click", (event) => { if (event.detail && event.target.tagName !== "SELECT") giveBack(event.target); });
    document.addEventListener("change", (event) => { if (this.isPointing) giveBack(event.target); });
  }

  wireButtons() {
    const { show } = this;
    const on = (name, act) => document.getElementById(name).addEventListener("click", act);
    on("first", () => show.seek(0));
    on("back", () => show.step(-1));
    on("play", () => show.toggle());
    on("on", () => show.step(1));
    on("last", () => show.seek(show.end));
    on("closer", () => show.zoom(ZOOM_BY));
    on("farther", () => show.zoom(1 / ZOOM_BY));
    on("whole", () => show.fit());
    on("theme", () => show.nextTheme());
    on("sooner", () => show.toMark(-1));
    on("later", () => show.toMark(1));
    document.getElementById("slider").addEventListener("input", (event) => show.seek(Number(event.target.value), true));
    document.getElementById("speed").addEventListener("change", (event) => show.setSpeed(Number(event.target.value)));
    document.getElementById("finder").addEventListener("submit", (event) => {
      event.preventDefault();
      this.find();
    });
  }

  find() {
    const field = document.getElementById("number"), text = field.value.trim();
    const isAgent = /^\d+$/.test(text) && Number(text) < this.show.agents;
    field.setCustomValidity(isAgent ? "" : `There is no agent '${text}'.`);
    field.reportValidity();
    if (isAgent) {
      this.show.choose(Number(text), true);
      field.blur();
    }
    field.addEventListener("input", () => field.setCustomValidity(""), { once: true });
  }

  /** What each key does. */
  acts() {
    const { show } = this;
    return {
      " ": () => show.toggle(),
      ArrowRight: () => show.step(1),
      ArrowLeft: () => show.step(-1),
      ArrowUp: () => show.faster(1),
      ArrowDown: () => show.faster(-1),
      Home: () => show.seek(0),
      End: () => show.seek(show.end),
      "+": () => show.zoom(ZOOM_BY),
      "=": () => show.zoom(ZOOM_BY),
      "-": () => show.zoom(1 / ZOOM_BY),
      0: () => show.fit(),
      n: () => show.chooseNext(1),
      p: () => show.chooseNext(-1),
      Escape: () => show.choose(-1),
      c: () => show.centre(),
      x: () => show.toFault(),
      r: () => show.toRotation(),
      ",": () => show.toMark(-1),
      ".": () => show.toMark(1),
      g: () => show.wish("goals"),
      m: () => show.wish("letters"),
      d: () => show.nextTheme(),
      "/": () => document.getElementById("number").focus(),
      "?": () => this.showKeys(),
    };
  }

  key(event) {
    const { target } = event;
    if (event.ctrlKey || event.metaKey || event.altKey) return;
    const isField = target.matches("input:not([type=range]), select");
    if (event.key === "Escape" && isField) target.blur();
    if (isField && event.key !== "Escape") return;
    // A button and a heading that opens answer to the space bar themselves.
    if (event.key === " " && target.matches("button, summary")) return;
    const act = event.shiftKey && event.key.startsWith("Arrow") ? this.moveBy(event.key) : this.acts()[event.key];
    if (!act) return;
    event.preventDefault();
    act();
  }

  moveBy(key) {
    const x = { ArrowLeft: 1, ArrowRight: -1 }[key] || 0, y = { ArrowUp: 1, ArrowDown: -1 }[key] || 0;
    return () => this.show.move(x * MOVE_BY, y * MOVE_BY);
  }

  showKeys() {
    const keys = document.getElementById("keys");
    keys.open = !keys.open;
    if (keys.open) keys.scrollIntoView({ block: "nearest" });
  }

  at(event) {
    const box = event.currentTarget.getBoundingClientRect();
    return [event.clientX - box.left, event.clientY - box.top];
  }

  wirePointers(canvas) {
    const { show } = this;
    canvas.addEventListener("pointerdown", (event) => this.press(event));
    canvas.addEventListener("pointermove", (event) => this.drag(event));
    for (const name of ["pointerup", "pointercancel"]) canvas.addEventListener(name, (event) => this.release(event));
    canvas.addEventListener("wheel", (event) => {
      event.preventDefault();
      show.zoom(Math.exp(-event.deltaY * (event.deltaMode ? 0.05 : 0.0016)), ...this.at(event));
    }, { passive: false });
  }

  press(event) {
    event.currentTarget.setPointerCapture(event.pointerId);
    this.pointers.set(event.pointerId, this.at(event));
    if (this.pointers.size === 1) this.travelled = 0;
    else this.travelled = CLICK_WITHIN;
    event.currentTarget.classList.add("held");
  }

  drag(event) {
    if (!this.pointers.has(event.pointerId)) return;
    const before = this.pointers.get(event.pointerId), now = this.at(event);
    const other = [...this.pointers.entries()].find(([id]) => id !== event.pointerId);
    this.pointers.set(event.pointerId, now);
    this.travelled += Math.hypot(now[0] - before[0], now[1] - before[1]);
    if (this.travelled < CLICK_WITHIN) return;
    if (!other) {
      this.show.move(now[0] - before[0], now[1] - before[1]);
      return;
    }
    const [, still] = other, far = (place) => Math.hypot(place[0] - still[0], place[1] - still[1]);
    const middle = [(now[0] + still[0]) / 2, (now[1] + still[1]) / 2];
    this.show.move((now[0] - before[0]) / 2, (now[1] - before[1]) / 2);
    if (far(before) > 1) this.show.zoom(far(now) / far(before), ...middle);
  }

  release(event) {
    this.pointers.delete(event.pointerId);
    if (!this.pointers.size) event.currentTarget.classList.remove("held");
    if (event.type === "pointerup" && this.travelled < CLICK_WITHIN) this.show.chooseAt(...this.at(event), event.currentTarget);
  }
}
