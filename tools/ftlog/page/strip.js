"use strict";
// The strip: a row for each actor, a tick for each step. What is in sight runs from step `from`, `span` steps long.

const LABEL = 62, ROW = 24, AXIS = 20, OVERVIEW = 7, TICK = 15, LEAST_SPAN = 12;
const HEIGHTS = { l: 0.35, s: 0.62, m: 0.95 };

class Strip {
  constructor(canvas, model, go) {
    const span = Math.max(LEAST_SPAN, Math.min(model.count, 400));
    Object.assign(this, { canvas, model, go, from: 0, span, now: 0, window: null, drag: null });
    const tasksOf = (actor) => model.data.tasks.filter(([, cpu]) => String(cpu) === actor).length;
    this.shared = new Set(model.actors.filter((actor) => tasksOf(actor) > 1)); // the CPUs that have several tasks
    canvas.addEventListener("wheel", (event) => this.wheel(event), { passive: false });
    canvas.addEventListener("pointerdown", (event) => this.press(event));
    canvas.addEventListener("pointermove", (event) => this.move(event));
    canvas.addEventListener("pointerup", (event) => this.release(event));
    canvas.addEventListener("pointercancel", () => (this.drag = null));
  }

  get height() {
    return AXIS + this.model.actors.length * ROW + OVERVIEW + 3;
  }

  get width() {
    return this.canvas.clientWidth;
  }

  // Pixels of a step, and the place of one.
  get pitch() {
    return (this.width - LABEL) / this.span;
  }

  x(step) {
    return LABEL + (step - this.from) * this.pitch;
  }

  // The step at a place, from 0.
  stepAt(x) {
    return Math.max(0, Math.min(this.model.count - 1, Math.floor(this.from + (x - LABEL) / this.pitch)));
  }

  // Shows this many steps, the one at a place of the canvas staying there.
  zoom(span, x) {
    const held = this.from + (x - LABEL) / this.pitch;
    this.span = Math.max(LEAST_SPAN, Math.min(Math.max(LEAST_SPAN, this.model.count), span));
    this.look(held - (x - LABEL) / this.pitch);
  }

  look(from) {
    this.from = Math.max(0, Math.min(this.model.count - this.span, from));
    this.draw();
  }

  wheel(event) {
    event.preventDefault();
    const across = event.shiftKey ? event.deltaY : event.deltaX;
    if (Math.abs(across) > Math.abs(event.shiftKey ? 0 : event.deltaY)) this.look(this.from + (across / 400) * this.span);
    else this.zoom(this.span * Math.exp(event.deltaY / 400), Math.max(LABEL, event.offsetX));
  }

  press(event) {
    this.canvas.setPointerCapture(event.pointerId);
    this.drag = { x: event.offsetX, from: this.from, isMoved: false, isOverview: event.offsetY > this.height - OVERVIEW - 3 };
    if (this.drag.isOverview) this.overview(event.offsetX);
  }

  move(event) {
    if (!this.drag) return;
    const moved = event.offsetX - this.drag.x;
    if (this.drag.isOverview) this.overview(event.offsetX);
    else if (this.drag.isMoved || Math.abs(moved) > 4) {
      this.drag.isMoved = true;
      this.look(this.drag.from - moved / this.pitch);
    }
  }

  release(event) {
    const isClick = this.drag && !this.drag.isMoved && !this.drag.isOverview && event.offsetX >= LABEL;
    if (isClick && this.model.count) this.go(this.stepAt(event.offsetX) + 1);
    this.drag = null;
  }

  overview(x) {
    this.look(((x - LABEL) / (this.width - LABEL)) * this.model.count - this.span / 2);
  }

  // Shows the state after so many steps, and the window of a call.
  show(now, window) {
    Object.assign(this, { now, window });
    const step = now - 1, margin = this.span / 10;
    if (step >= 0 && (step < this.from + margin || step >= this.from + this.span - margin)) {
      this.from = Math.max(0, Math.min(this.model.count - this.span, step - this.span / 2));
    }
    this.draw();
  }

  draw() {
    const ratio = window.devicePixelRatio || 1, canvas = this.canvas;
    canvas.style.height = this.height + "px";
    canvas.width = this.width * ratio;
    canvas.height = this.height * ratio;
    this.paint = canvas.getContext("2d");
    this.paint.scale(ratio, ratio);
    const style = getComputedStyle(document.documentElement);
    this.colour = (name) => style.getPropertyValue("--" + name).trim();
    this.paint.font = "11px system-ui, sans-serif";
    this.paint.textBaseline = "middle";
    this.drawRows();
    this.drawWindow();
    this.drawCommands();
    this.drawSteps();
    this.drawNow();
    this.drawOverview();
  }

  fill(colour, x, y, width, height) {
    this.paint.fillStyle = this.colour(colour);
    this.paint.fillRect(x, y, width, height);
  }

  text(colour, text, x, y) {
    this.paint.fillStyle = this.colour(colour);
    this.paint.fillText(text, x, y);
  }

  drawRows() {
    this.model.actors.forEach((actor, row) => {
      this.fill("panel", LABEL, AXIS + row * ROW + 1, this.width - LABEL, ROW - 2);
      this.text("muted", actor === "k" ? "control" : "CPU " + actor, 2, AXIS + row * ROW + ROW / 2);
    });
  }

  drawWindow() {
    if (!this.window) return;
    this.paint.globalAlpha = 0.22;
    const from = Math.max(LABEL, this.x(this.window.from)), to = this.x(this.window.to);
    if (to > from) this.fill("window", from, AXIS, to - from, this.model.actors.length * ROW);
    this.paint.globalAlpha = 1;
  }

  // The commands, above control's row, each with its text as far as there is room.
  drawCommands() {
    this.model.commands.forEach((command, at) => {
      const end = command.end === null ? this.model.count : command.end + 1;
      const from = Math.max(LABEL, this.x(command.begin)), to = Math.min(this.width, this.x(end));
      if (to <= LABEL || from >= this.width) return;
      this.fill("line", from, 2, Math.max(1, to - from - 1), AXIS - 5);
      const [text] = this.model.data.commands[this.model.data.order[at]] || [""];
      const shown = `${at + 1} ${text}`;
      if (to - from > 24) this.clipped(shown, from + 3, AXIS / 2, to - from - 5);
    });
  }

  // A text in so many pixels.
  clipped(text, x, y, room) {
    let shown = text;
    while (shown.length > 1 && this.paint.measureText(shown).width > room) shown = shown.slice(0, -1);
    this.text("ink", shown === text ? text : shown.slice(0, -1) + "\u2026", x, y);
  }

  drawSteps() {
    const { actor, op } = this.model.steps, pitch = this.pitch;
    const first = Math.floor(this.from), last = Math.min(this.model.count, Math.ceil(this.from + this.span));
    const rows = new Map(this.model.actors.map((name, row) => [name, row])), width = Math.max(1, pitch * 0.7);
    for (const [kind, colour] of [["l", "load"], ["s", "store"], ["m", "mark"]]) {
      this.paint.fillStyle = this.colour(colour);
      const height = TICK * HEIGHTS[kind];
      let drawn = -1;
      for (let step = first; step < last; step++) {
        if (op[step] !== kind) continue;
        const row = rows.get(actor[step]), x = this.x(step), pixel = Math.floor(x) * this.model.actors.length + row;
        if (pixel === drawn || x < LABEL - width) continue;
        drawn = pixel;
        this.paint.fillRect(Math.max(LABEL, x), AXIS + row * ROW + ROW - 2 - height, Math.min(width, 14), height);
      }
    }
    if (pitch > 3) this.drawTasks(first, last);
  }

  // On a CPU of several tasks, which one runs, where it changes.
  drawTasks(first, last) {
    const { actor, task } = this.model.steps, before = {};
    this.paint.font = "9px system-ui, sans-serif";
    for (let step = first; step < last; step++) {
      const name = actor[step], row = this.model.actors.indexOf(name);
      if (task[step] < 0 || before[name] === task[step] || !this.shared.has(name)) continue;
      before[name] = task[step];
      if (this.x(step) >= LABEL) this.text("muted", this.model.data.tasks[task[step]][0], this.x(step), AXIS + row * ROW + 5);
    }
  }

  drawNow() {
    if (!this.now) return;
    const x = this.x(this.now - 1), width = Math.max(2, Math.min(this.pitch * 0.7, 14));
    const row = this.model.actors.indexOf(this.model.steps.actor[this.now - 1]);
    if (x < LABEL - 1 || x > this.width) return;
    this.paint.strokeStyle = this.colour("ink");
    this.paint.lineWidth = 1.5;
    this.paint.strokeRect(x - 2, AXIS + row * ROW + 0.5, width + 4, ROW - 1);
    this.fill("ink", x + width / 2 - 0.5, AXIS - 3, 1, this.model.actors.length * ROW + 3);
  }

  drawOverview() {
    const y = this.height - OVERVIEW, room = this.width - LABEL, part = room / Math.max(1, this.model.count);
    this.fill("faint", LABEL, y, room, OVERVIEW);
    this.fill("load", LABEL + this.from * part, y, Math.max(4, Math.min(room, this.span * part)), OVERVIEW);
    this.fill("ink", LABEL + Math.max(0, this.now - 1) * part, y - 1, 2, OVERVIEW + 1);
  }
}
