"use strict";
// The parts of the page, each as the HTML that shows a state.

const SITES = 120, HISTORY_BEFORE = 200, HISTORY_AFTER = 12, FEW_COMMANDS = 8;
const ENTITIES = { "&": "&amp;", "<": "&lt;", ">": "&gt;", '"': "&quot;" };
const SITE_WORDS = ["head", "tail", "next"], OTHER_WORDS = ["tramp", "pids", "depth", "clock"];
const CONTEXTS = ["normal", "softirq", "irq", "nmi"];

function safe(text) {
  return String(text).replace(/[&<>"]/g, (mark) => ENTITIES[mark]);
}

function span(name, content) {
  return `<span class="${name}">${content}</span>`;
}

function block(name, content) {
  return `<div class="${name}">${content}</div>`;
}

function muted(content) {
  return span("muted", content);
}

function cell(content, name = "") {
  return `<td class="${name}">${content}</td>`;
}

function table(heads, rows) {
  const row = (cells) => `<tr>${cells.join("")}</tr>`;
  return rows.length ? `<table>${row(heads.map((head) => `<th>${head}</th>`))}${rows.map(row).join("")}</table>` : "";
}

class View {
  constructor(model) {
    this.model = model;
    this.windows = new Map();
    this.siteAt = 0; // of the sites, the one that a step was last on
    const isTouched = (name) => SITE_WORDS.some((kind) => model.place.has(`${kind}.${name}`));
    this.touched = model.data.functions.map(([name]) => name).filter(isTouched);
  }

  // The state to show: the last step's word is lit.
  use(state) {
    this.state = state;
    this.step = state.at - 1;
    this.hot = this.step < 0 || this.model.steps.op[this.step] === "m" ? "" : this.wordOf(this.step).name;
  }

  wordOf(step) {
    return this.model.words[this.model.steps.word[step]];
  }

  value(name) {
    return valueOf(this.model, this.state, name);
  }

  // A part of a word's value, lit if the last step was on that word.
  lit(name, content) {
    return name === this.hot ? span("hot", content) : content;
  }

  // What a word holds in words, or that no step of the run names it.
  saidOf(name) {
    const value = this.value(name);
    if (value === null) return muted("no step names it");
    return this.lit(name, safe(said(this.model, this.model.words[this.model.place.get(name)], value)));
  }

  link(page, text) {
    return `<a href="${safe(this.model.data.docs + page)}">${safe(text)}</a>`;
  }

  // This step.

  actorOf(step) {
    const actor = this.model.steps.actor[step], task = this.model.data.tasks[this.model.steps.task[step]];
    return span("who", actorText(actor)) + (actor !== "k" && task ? `, task ${task[0]},` : "");
  }

  what() {
    if (this.step < 0) return "Before the first step";
    const text = stepText(this.model, this.step), isMark = this.model.steps.op[this.step] === "m";
    return `${this.actorOf(this.step)} ${isMark ? "marks " + span("item", safe(text.slice("marks ".length))) : safe(text)}`;
  }

  change() {
    if (this.step < 0) return "Right and Left go step by step; ? lists all keys.";
    const op = this.model.steps.op[this.step], word = this.wordOf(this.step);
    const now = `<b>${plain(word, this.model.values[this.model.steps.value[this.step]])}</b>`;
    if (op === "l") return `load ${safe(word.name)} = ${now}`;
    const before = plain(word, this.model.values[stateAt(this.model, this.step).words[word.at]]);
    return `${op === "s" ? "store" : "mark"} ${safe(word.name)}: ${before} &rarr; ${now}`;
  }

  why() {
    if (this.step < 0) return "Each step is one load, store or mark of one word. Nothing happens between two steps.";
    const kind = this.model.data.kinds[this.model.steps.kind[this.step]];
    if (!kind) return "What this step is for isn't known.";
    const [, , why, page] = kind;
    return `${safe(why).replace(/`([^`]+)`/g, "<code>$1</code>")} ${this.link(page, page.replace(/\.md.*/, ""))}`;
  }

  upcoming() {
    const next = (actor) => {
      const isNext = (at) => this.model.steps.actor[at] === actor && !isPassed(this.model, at);
      const step = findStep(this.model, this.state.at, 1, isNext), name = actorText(actor);
      if (step === null) return `<span>${name} makes no more steps</span>`;
      return `<button data-step="${step + 1}">${name} goes on with: ${safe(stepText(this.model, step))}</button>`;
    };
    return this.model.actors.map(next).join("");
  }

  // Control.

  phase() {
    const wait = waitOf(this.model, this.state);
    if (wait.kind === "sync") return `is in the ${wait.which} sync, and waits for each CPU`;
    if (wait.kind === "quiet") return "waits for each task to pass a quiet point";
    if (wait.kind === "none") return "doesn't wait";
    return `waits for task ${this.wordOf(this.state.lastOfControl).owner}, by <code>ctl until</code>`;
  }

  commandText() {
    const { begun, returned } = this.state;
    if (!begun) return block("muted", "no command has begun");
    const [text] = this.model.data.commands[this.model.data.order[begun - 1]];
    const answer = begun > returned ? "is under way" : `returned ${this.model.commands[begun - 1].answer}`;
    return `<div><b>${begun} ${safe(text)}</b> ${safe(answer)}</div>`;
  }

  // Whether a CPU or a task has told the request, or a later one; what isn't asked for now is told in grey.
  answerText(told, want, isAsked) {
    if (told >= want) return span("good", "answered");
    return isAsked ? span("wait", "not yet") : muted("earlier");
  }

  answerRow(name, who, told, isAsked) {
    const value = this.value(name);
    const text = value === null ? "" : this.answerText(told(value), this.value("want"), isAsked);
    return [cell(who, "fit"), cell(this.saidOf(name)), cell(text, "fit")];
  }

  control() {
    const want = this.value("want"), wait = waitOf(this.model, this.state);
    if (want === null) return this.commandText() + block("muted", "no request is made in this run");
    const cpus = this.model.data.quanta.map((_, cpu) => this.answerRow("ack." + cpu, `CPU ${cpu}`, (value) => value, wait.kind === "sync"));
    const tasks = this.model.data.tasks.map(([pid, cpu]) =>
      this.answerRow("quiet." + pid, `task ${pid} ${muted(`CPU ${cpu}`)}`, (value) => value & HALF, wait.kind === "quiet"));
    return this.commandText() + block("scroll", table(["who", "has told", `request ${this.lit("want", want)}`], [...cpus, ...tasks]));
  }

  // The window of a call.

  windowFor(name) {
    if (!this.windows.has(name)) this.windows.set(name, windowOf(this.model, name));
    return this.windows.get(name);
  }

  // The call that the last step is of: the innermost open one of its task, or else that of the last item that has one; null if there is
  // none.
  presentCall() {
    const task = this.step < 0 ? null : this.state.tasks[this.model.steps.task[this.step]];
    if (task && task.calls.length) return task.calls[task.calls.length - 1].call;
    for (let place = this.state.items - 1; place >= 0; place--) if (this.model.items[place].call) return this.model.items[place].call;
    return null;
  }

  commandsText(commands) {
    if (commands.length > 1) return `commands ${commands[0]} to ${commands[commands.length - 1]}`;
    return commands[0] ? `no command meanwhile, after command ${commands[0]}` : "before the first command";
  }

  // Of many commands the first and the last ones.
  window(name) {
    if (!name) return block("muted", "No call has been entered yet.");
    const found = this.windowFor(name), half = FEW_COMMANDS / 2, count = found.commands.length;
    const columns = [...found.commands.keys()].filter((at) => count <= FEW_COMMANDS || at < half || at >= count - half);
    const steps = `from step ${found.from + 1} ${found.isOver ? `to ${found.to}` : "on"}`;
    const row = (user) => [cell(safe(user.user), "mono fit"), ...columns.map((at) => cell(this.onText(user.on[at]), "fit")),
      cell(safe(user.came || (found.isOver ? "not visited" : ""))), cell(this.ruleText(user.on))];
    const heads = ["user", ...columns.map((at) => `after ${found.commands[at]}`), "in the call", "by the rules"];
    return `<div><b>${found.call} ${safe(found.func)}</b>: ${steps}, ${this.commandsText(found.commands)}</div>` +
      block("scroll", table(heads, found.users.map(row)));
  }

  onText(isOn) {
    return isOn === null ? muted("open") : isOn ? span("good", "on") : muted("off");
  }

  ruleText(on) {
    if (on.every((isOn) => isOn === true)) return "must be visited";
    return on.every((isOn) => isOn === false) ? "must not be" : "may be";
  }

  // Sites, users and other words.

  siteBytes(name) {
    const head = this.value("head." + name), tail = this.value("tail." + name);
    const first = head === null ? "??" : byte(head), rest = tail === null ? "?? ?? ?? ??" : tailBytes(tail);
    return `${this.lit("head." + name, first === "cc" ? span("stop", first) : first)} ${this.lit("tail." + name, rest)}`;
  }

  siteRuns(name) {
    const head = this.value("head." + name), tail = this.value("tail." + name);
    if (head === null) return muted("can&rsquo;t be told");
    if (byte(head) === "cc") return span("stop", "breakpoint") + " to <code>next</code>";
    if (byte(head) === "0f") return "nop";
    const target = tail === null ? null : targetOf(this.model, name, tail);
    return target ? target + this.ownerOfTarget(target) : "a call";
  }

  ownerOfTarget(target) {
    const slot = /^trampoline ([0-9]+)$/.exec(target), value = slot && this.value("tramp." + slot[1]);
    return value ? `, ${safe(userNamed(this.model, value & HALF))}&rsquo;s` : "";
  }

  siteRow(name) {
    const next = this.saidOf("next." + name).replace("call of ", "");
    return [cell(safe(name), "mono"), cell(this.siteBytes(name), "mono fit"), cell(this.siteRuns(name)), cell(next)];
  }

  // Of many sites those about the last one that a step was on.
  sites() {
    const hot = partsOf(this.hot), at = SITE_WORDS.includes(hot.kind) ? this.touched.indexOf(hot.owner) : -1, count = this.touched.length;
    if (at >= 0) this.siteAt = at;
    const from = Math.max(0, Math.min(this.siteAt - SITES / 2, count - SITES)), to = Math.min(count, from + SITES);
    const rows = this.touched.slice(from, to).map((name) => this.siteRow(name)), others = this.model.data.functions.length - count;
    const note = (number, text) => (number ? block("muted", text) : "");
    return note(from, `${counted(from, "site")} before`) + table(["function", "bytes", "runs", "next"], rows) +
      note(count - to, `${counted(count - to, "site")} after`) +
      note(others, `No step names the site${others > 1 ? "s" : ""} of ${counted(others, count ? "other function" : "function")}.`);
  }

  list() {
    const users = listOf(this.model, this.state).map((name) => {
      const isOn = userAt(this.model, this.state, name).isOn;
      return this.lit("link." + name, span(isOn ? "user" : "user off", safe(name)));
    });
    return [this.lit("first", "first"), ...users, "0"].join(" &rarr; ");
  }

  // A set by the names of its functions; `all` stands for the empty filter of a user that is registered.
  setText(user, copy, half, isEmpty) {
    const names = setNames(this.model, this.state, user, copy, half);
    const text = isEmpty ? "all" : names.length ? safe(fewNames(names, 64)) : half === "filter" ? "empty" : "none";
    return this.hot.startsWith(`bits.${user}.${copy}.${half}.`) ? span("hot", text) : text;
  }

  copyText(user, copy, isEmpty) {
    return `filter ${this.setText(user, copy, "filter", isEmpty)}; notrace ${this.setText(user, copy, "notrace", false)}`;
  }

  // Whether a copy that isn't in use is worth showing: it isn't empty, or the last step was on it.
  isShown(user, copy) {
    const isFull = (half) => setNames(this.model, this.state, user, copy, half).length > 0;
    return this.hot.startsWith(`bits.${user}.${copy}.`) || isFull("filter") || isFull("notrace");
  }

  setsOf(name, user) {
    const isUsed = user.registration > 0, spare = [0, 1].filter((copy) => !(isUsed && copy === user.copy) && this.isShown(name, copy));
    const used = isUsed ? [this.copyText(name, user.copy, user.isEmpty)] : [];
    return [...used, ...spare.map((copy) => muted(`copy ${copy}: ${this.copyText(name, copy, false)}`))].join("<br>");
  }

  userRow([name, kind]) {
    const user = userAt(this.model, this.state, name), sel = this.value("sel." + name);
    const state = user.isKnown ? this.lit("sel." + name, safe(selText(sel)).replace(", copy", ",<br>copy")) : muted("no step names it");
    const link = this.model.place.has("link." + name) ? this.saidOf("link." + name) : "";
    const sets = user.isKnown ? this.setsOf(name, user) : "";
    return [cell(`${span("mono", safe(name))}<br>${muted(safe(kind))}`), cell(state), cell(sets), cell(link, "mono fit")];
  }

  users() {
    const rows = this.model.data.users.map((user) => this.userRow(user));
    return table(["user", "state", "sets", "link"], rows) || block("muted", "There is no user.");
  }

  others() {
    const named = OTHER_WORDS.flatMap((kind) => this.model.words.filter((word) => word.kind === kind));
    const number = (word) => cell(plain(word, this.value(word.name)), "mono fit");
    const row = (word) => [cell(safe(word.name), "mono fit"), number(word), cell(this.saidOf(word.name))];
    return table(["word", "", "holds"], named.map(row));
  }

  // Tasks.

  taskState(task, pid) {
    const quiet = this.value("quiet." + pid), top = task.calls[task.calls.length - 1];
    if (quiet !== null && (quiet & HALF) === ENDED_QUIET) return "has ended";
    if (!top) return "is in no call";
    const phases = { fetch: "fetches its site", dispatch: "is dispatched", callback: `is in the entry callback of ${top.user}`,
      body: "is in its body", return: "is returning", exit: `is in the exit callback of ${top.user}` };
    return phases[top.phase];
  }

  callsOf(task) {
    const outer = task.calls.slice(0, -1);
    const callback = (call) => (outer.includes(call) && call.user ? `, callback of ${safe(call.user)}` : "");
    const text = (call) => `${span("mono", `${call.call} ${safe(call.func)}`)} ${muted(call.context + callback(call))}`;
    return task.calls.map((call) => block("call", text(call))).join("");
  }

  guardsOf(task) {
    const open = task.calls.filter((call) => call.phase === "callback");
    const taken = CONTEXTS.map((context) => [context, open.filter((call) => call.context === context).map((call) => call.user)]);
    const text = ([context, users]) => `${context}: ${safe(users.join(", "))} (${users.length} of ${this.model.data.levels})`;
    return taken.filter(([, users]) => users.length).map(text).join("; ");
  }

  framesOf(task) {
    const held = task.calls.filter((call) => call.frame.length);
    const text = (call) => `${call.call} for ${safe(call.frame.map((frame) => frame.user).join(", "))}`;
    return held.length ? `${held.length} of ${this.model.data.depth}: ${held.map(text).join("; ")}` : "";
  }

  heldLine(held) {
    const word = this.model.words[held.word], now = this.state.words[held.word], name = safe(word.name);
    const text = (value) => safe(said(this.model, word, this.model.values[value]));
    const later = now === held.value ? "" : " " + span("wait", `now ${text(now)}`);
    return block("part", `${span("mono", held.at === this.step ? span("hot", name) : name)} ${text(held.value)}${later}`);
  }

  // Whether a CPU's last step so far was this task's.
  isPresent(cpu, at) {
    const last = this.step < 0 ? -1 : this.model.steps.actor.lastIndexOf(String(cpu), this.step);
    return last >= 0 && this.model.steps.task[last] === at;
  }

  task([pid, cpu], at) {
    const task = this.state.tasks[at], guards = this.guardsOf(task), frames = this.framesOf(task);
    const part = (label, content) => (content ? block("part", `${span("label", label)} ${content}`) : "");
    const holds = task.holds.length ? block("part label", "holds loaded") + task.holds.map((held) => this.heldLine(held)).join("") : "";
    return block("task", span("aside", `CPU ${cpu}${this.isPresent(cpu, at) ? ", present" : ""}`) + span("name", `task ${pid}`) +
      ` ${safe(this.taskState(task, pid))}${this.callsOf(task)}` + part("guard levels taken", guards) + part("frames", frames) + holds);
  }

  tasks() {
    const { tasks, untold } = this.model.data;
    if (!tasks.length) return block("muted", "There is no task.");
    const cpus = `Which task makes the loads of CPU ${untold.join(", ")} can&rsquo;t be told to the end.`;
    const note = "A task holds what it has loaded in its present act. The trace tells the loads, not which of them the task is done with.";
    return tasks.map((task, at) => this.task(task, at)).join("") + (untold.length ? block("wait", cpus) : "") + block("muted", note);
  }

  // The history.

  history() {
    const { items, data } = this.model, made = this.state.items;
    const from = Math.max(0, made - HISTORY_BEFORE), to = Math.min(items.length, made + HISTORY_AFTER);
    const before = from ? block("muted", `${counted(from, "item")} before`) : "";
    const last = block("line later", `<span></span><span>${data.last}</span>`);
    const after = to < items.length ? block("muted", `${counted(items.length - to, "item")} more`) : last;
    return before + items.slice(from, to).map((item) => this.historyLine(item)).join("") + after;
  }

  historyLine(item) {
    const [rule, page] = this.model.data.rules[item.kind], isLater = item.place >= this.state.items;
    const name = isLater ? "line later" : item.step === this.step ? "line now" : "line";
    return `<div class="${name}" data-step="${item.step + 1}">${span("number", item.place)}<span>${safe(item.text)}</span>` +
      `${span("rule", this.link(page, rule))}</div>`;
  }

  script() {
    const name = (line) => (/^\s*(#|$)/.test(line) ? "script-line comment" : "script-line");
    return this.model.data.script.map((line, at) => block(name(line), `${span("number", at + 1)}<span>${safe(line)}</span>`)).join("");
  }

  // The line of the command that is under way, or returned last; 0 if there is none.
  scriptLine() {
    return this.state.begun ? this.model.data.commands[this.model.data.order[this.state.begun - 1]][1] : 0;
  }
}
