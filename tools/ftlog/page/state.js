"use strict";
// What the machine's words hold after so many steps, and what the items so far tell of control and of each task. All of it is taken
// from the trace in the page's data: a value that a word holds is one that a step has left in it.

const STRIDE = 256; // steps between two checkpoints

// The parts of a word's name: its kind, whose it is, and of a word of a set its copy, its half and its number.
function partsOf(name) {
  const bits = /^bits\.(.*)\.([01])\.(filter|notrace)\.([0-9]+)$/.exec(name);
  if (bits) return { kind: "bits", owner: bits[1], copy: Number(bits[2]), half: bits[3], number: Number(bits[4]) };
  const dot = name.indexOf(".");
  return dot < 0 ? { kind: name, owner: "" } : { kind: name.slice(0, dot), owner: name.slice(dot + 1) };
}

// What an item says, by its words.
function itemOf(text, step) {
  const [kind, first, ...rest] = text.split(" ");
  const item = { text, kind, step, call: null, user: null };
  if (kind === "begin" || kind === "return") return { ...item, command: Number(first), answer: kind === "return" ? rest.join(" ") : null };
  item.call = first;
  if (kind === "enter") [item.context, item.func, item.caller] = rest;
  else if (kind === "body") [item.func, item.ran] = [rest[0], rest.slice(1).join(" ")];
  else if (kind !== "leave" && kind !== "ret") [item.user, item.more] = rest;
  return item;
}

// The data with what is looked up in it: words by name, items with their steps, calls, commands, and the next step of each actor.
function prepare(data) {
  const model = { data, steps: data.steps, count: data.steps.turn.length, checkpoints: [], sets: new Map() };
  model.values = data.values.map(BigInt);
  model.words = data.words.map(([name, opening], at) => ({ name, at, opening, ...partsOf(name) }));
  model.place = new Map(model.words.map((word) => [word.name, word.at]));
  model.userNumber = new Map(data.users.map(([name], at) => [name, at]));
  model.functionNumber = new Map(data.functions.map(([name], at) => [name, at]));
  model.actors = ["k", ...data.quanta.map((_, cpu) => String(cpu))];
  indexItems(model);
  return model;
}

function indexItems(model) {
  model.items = [];
  model.itemAt = new Map(); // the item of a step that marks
  model.calls = new Map();
  model.commands = [];
  for (let step = 0; step < model.count; step++) {
    if (model.steps.op[step] !== "m") continue;
    const item = itemOf(model.data.items[model.items.length], step);
    model.itemAt.set(step, model.items.length);
    item.place = model.items.length;
    model.items.push(item);
    if (item.kind === "begin") model.commands.push({ begin: step, end: null, answer: null });
    if (item.kind === "return") Object.assign(model.commands[model.commands.length - 1], { end: step, answer: item.answer });
    if (item.kind === "enter") model.calls.set(item.call, { call: item.call, func: item.func, enter: step, items: [] });
    if (item.call) model.calls.get(item.call).items.push(item.place);
    if (item.kind === "body" || item.kind === "ret") model.calls.get(item.call)[item.kind] = step;
  }
}

// A user's words on its line after its name: whether its callback takes a frame, and whether its exit is cancelled.
function frameOf(model, name) {
  const words = model.data.users[model.userNumber.get(name)][1].split(" ");
  const isOwed = words[0] === "graph" || words[0] === "profile" || (words[0] === "fprobe" && words[1] === "exit");
  return { user: name, isOwed, isCancelled: words[0] === "fprobe" && words[2] === "cancel" };
}

// Before the first step.
function opening(model) {
  const tasks = model.data.tasks.map(() => ({ calls: [], holds: [] }));
  const words = Int32Array.from(model.words, (word) => word.opening);
  return { at: 0, words, items: 0, begun: 0, returned: 0, lastOfControl: null, tasks };
}

function copyOf(state) {
  const copyOfCall = (call) => ({ ...call, frame: call.frame.slice() });
  const tasks = state.tasks.map((task) => ({ calls: task.calls.map(copyOfCall), holds: task.holds.slice() }));
  return { ...state, words: state.words.slice(), tasks };
}

// One step more.
function advance(model, state) {
  const at = state.at, steps = model.steps, op = steps.op[at], word = steps.word[at], task = state.tasks[steps.task[at]];
  if (op !== "l") state.words[word] = steps.value[at];
  if (steps.actor[at] === "k") state.lastOfControl = at;
  if (op === "m") {
    const item = model.items[state.items++];
    if (item.kind === "begin") state.begun++;
    else if (item.kind === "return") state.returned++;
    else afterItem(model, state.tasks[model.data.tasks.findIndex(([pid]) => item.call.startsWith(pid + "."))], item);
  } else if (op === "l" && task) hold(model, task, word, steps.value[at], at);
  state.at = at + 1;
}

// What an item makes of its task's open calls.
function afterItem(model, task, item) {
  const top = task.calls[task.calls.length - 1];
  const { call, func, context, step } = item;
  if (item.kind === "enter") task.calls.push({ call, func, context, step, phase: "fetch", user: null, frame: [] });
  else if (item.kind === "back") {
    Object.assign(top, { phase: "callback", user: item.user });
    const frame = frameOf(model, item.user);
    if (frame.isOwed) top.frame.push(frame);
  } else if (item.kind === "miss") top.frame = top.frame.filter((frame) => frame.user !== item.user);
  else if (item.kind === "back-end" || item.kind === "refuse") Object.assign(top, { phase: "dispatch", user: null });
  else if (item.kind === "body") Object.assign(top, { phase: "body", frame: top.frame.filter((frame) => !frame.isCancelled) });
  else if (item.kind === "leave") top.phase = "return";
  else if (item.kind === "exit") Object.assign(top, { phase: "exit", user: item.user });
  else if (item.kind === "exit-end") Object.assign(top, { phase: "return", user: null });
  else if (item.kind === "ret") task.calls.pop();
  // With the body or the return the act is over, unless the call was made by a callback: what was loaded for it has been used.
  if ((item.kind === "body" || item.kind === "ret") && !task.calls.some((call) => call.phase === "callback")) task.holds = [];
}

// The kind of a step; empty if it has none.
function kindOf(model, step) {
  const kind = model.data.kinds[model.steps.kind[step]];
  return kind ? kind[0] : "";
}

// Whether a step is of a look that finds nothing: with the step after it, it is one step of the task.
function isPassed(model, step) {
  return kindOf(model, step) === "look-none";
}

// So many steps on or back from a number of steps, if those that are passed aren't counted.
function moved(model, count, steps) {
  const direction = Math.sign(steps);
  let now = count;
  for (let left = Math.abs(steps); left > 0; left--) {
    do now += direction; while (now > 0 && now < model.count && isPassed(model, now - 1));
  }
  return Math.max(0, Math.min(model.count, now));
}

// What a load gives a task to hold. A poll begins another act, and what is loaded in it or in a look is held by the CPU.
function hold(model, task, word, value, at) {
  const kind = model.words[word].kind;
  if (kindOf(model, at).startsWith("look-")) return;
  if (kind === "want") task.holds = [];
  else if (kind !== "clock") task.holds = [...task.holds.filter((held) => held.word !== word), { word, value, at }];
  const top = task.calls[task.calls.length - 1];
  if (top && top.phase === "fetch" && (kind === "tramp" || kind === "first")) top.phase = "dispatch"; // the fetch is over
}

// The state after so many steps, from the nearest checkpoint before it.
function stateAt(model, count) {
  const wanted = Math.floor(count / STRIDE);
  if (!model.checkpoints.length) model.checkpoints.push(opening(model));
  while (model.checkpoints.length <= wanted) {
    const next = copyOf(model.checkpoints[model.checkpoints.length - 1]);
    while (next.at < model.checkpoints.length * STRIDE) advance(model, next);
    model.checkpoints.push(next);
  }
  const state = copyOf(model.checkpoints[wanted]);
  while (state.at < count) advance(model, state);
  return state;
}

// What a word holds in a state; null if the trace never names it.
function valueOf(model, state, name) {
  const at = model.place.get(name);
  return at === undefined ? null : model.values[state.words[at]];
}

// The state of a user by its words.
function userAt(model, state, name) {
  const sel = valueOf(model, state, "sel." + name);
  if (sel === null) return { isKnown: false, isOn: false, isRegistered: false };
  const copy = Number((sel >> 2n) & 1n);
  return { isKnown: true, isRegistered: (sel & 1n) === 1n, isEnabled: (sel & 2n) === 2n, isOn: (sel & 3n) === 3n, copy,
    isEmpty: (sel & 8n) === 8n, registration: Number(sel >> 32n) };
}

// Whether a set of a user holds a function, in this copy.
function setHas(model, state, user, copy, half, number) {
  const word = valueOf(model, state, `bits.${user}.${copy}.${half}.${Math.floor(number / 64)}`);
  return word !== null && ((word >> BigInt(number % 64)) & 1n) === 1n;
}

// The functions of a set, by name. What the same words last gave is kept, since most steps change no set.
function setNames(model, state, user, copy, half) {
  const key = `${user}.${copy}.${half}`, words = [];
  for (let number = 0; number * 64 < model.data.functions.length; number++) {
    words.push(valueOf(model, state, `bits.${key}.${number}`) || 0n);
  }
  const values = words.join(" "), kept = model.sets.get(key);
  if (kept && kept.values === values) return kept.names;
  const isIn = (_, number) => ((words[Math.floor(number / 64)] >> BigInt(number % 64)) & 1n) === 1n;
  const names = model.data.functions.filter(isIn).map(([name]) => name);
  model.sets.set(key, { values, names });
  return names;
}

// Whether a user is on at a function: registered, enabled, and matching it.
function isOnAt(model, state, name, number) {
  const user = userAt(model, state, name);
  const isIn = (half) => setHas(model, state, name, user.copy, half, number);
  return user.isOn && (user.isEmpty || isIn("filter")) && !isIn("notrace");
}

// The list of users from the first one on.
function listOf(model, state) {
  const found = [];
  let next = valueOf(model, state, "first");
  while (next !== null && next > 0n && found.length < model.data.users.length) {
    const name = model.data.users[Number(next) - 1][0];
    found.push(name);
    next = valueOf(model, state, "link." + name);
  }
  return found;
}

// The window of a call: the commands from the last returned at its enter to the last begun at its body, and of each user whether it was on
// after each of them and what came of it in the call. A command that hasn't returned in this trace is left open.
function windowOf(model, name) {
  const call = model.calls.get(name), end = call.body === undefined ? model.count : call.body + 1;
  const entered = stateAt(model, call.enter), over = stateAt(model, end), number = model.functionNumber.get(call.func);
  const commands = [];
  for (let k = entered.returned; k <= over.begun; k++) {
    const step = k === 0 ? -1 : model.commands[k - 1].end;
    const state = step === null ? null : stateAt(model, step + 1);
    commands.push({ k, on: model.data.users.map(([user]) => (state ? isOnAt(model, state, user, number) : null)) });
  }
  const users = model.data.users.map(([user], at) => ({ user, on: commands.map((command) => command.on[at]), came: null }));
  for (const place of call.items) {
    const item = model.items[place];
    if (item.kind === "back") users[model.userNumber.get(item.user)].came = `called back, ${place}`;
    if (item.kind === "refuse") users[model.userNumber.get(item.user)].came = `refused for ${item.more}, ${place}`;
  }
  const numbers = commands.map((command) => command.k);
  return { call: name, func: call.func, from: call.enter, to: end, isOver: call.body !== undefined, commands: numbers, users };
}

// The schedule of the first steps, as lines of a script: the same actors, run by run. A turn of an actor at its end makes no step, and is
// left out.
function scheduleOf(model, count) {
  const actors = model.steps.actor, all = model.actors.join(""), words = [];
  let at = 0;
  while (at < count) {
    let rounds = 0;
    while (at + (rounds + 1) * all.length <= count && actors.startsWith(all, at + rounds * all.length)) rounds++;
    let same = 1;
    while (at + same < count && actors[at + same] === actors[at]) same++;
    const isRound = all.length > 1 && rounds > 1;
    const times = isRound ? rounds : same;
    words.push((isRound ? "all" : actors[at]) + (times > 1 ? "*" + times : ""));
    at += isRound ? rounds * all.length : same;
  }
  const lines = [];
  for (const word of words) {
    if (lines.length && lines[lines.length - 1].length + word.length < 100) lines[lines.length - 1] += " " + word;
    else lines.push("sched " + word);
  }
  return lines;
}

// The next step in a direction for which something holds, or null. Steps are numbered from 0.
function findStep(model, from, direction, holds) {
  for (let at = from; at >= 0 && at < model.count; at += direction) if (holds(at)) return at;
  return null;
}

// What a search asks of a step: `store`, `load` or `step` of a word (its name or the beginning of one that ends with a dot), an item of a
// call, or a text in an item.
function searchOf(model, what, text) {
  const fitsName = (word) => word.name === text || (text.endsWith(".") && word.name.startsWith(text));
  const isNamed = new Set(model.words.filter(fitsName).map((word) => word.at));
  const ops = { store: "s", load: "l", step: "lsm" }[what];
  if (ops) return (at) => isNamed.has(model.steps.word[at]) && ops.includes(model.steps.op[at]);
  const fits = what === "call" ? (item) => item.call === text : (item) => item.text.includes(text);
  return (at) => model.itemAt.has(at) && fits(model.items[model.itemAt.get(at)]);
}

// Whom control waits for: the sync or the wait that it is in, by the kind of its last step.
function waitOf(model, state) {
  const kind = state.lastOfControl === null ? "" : kindOf(model, state.lastOfControl);
  const sync = /^(want|ack)-(first|second|third)$/.exec(kind);
  if (sync) return { kind: "sync", which: sync[2] };
  if (kind === "want-quiet" || kind === "quiet-load") return { kind: "quiet" };
  return kind === "until" ? { kind: "until" } : { kind: "none" };
}

if (typeof module !== "undefined") {
  module.exports = { prepare, stateAt, valueOf, userAt, setNames, listOf, windowOf, scheduleOf, findStep, searchOf, waitOf, isOnAt, moved };
}
