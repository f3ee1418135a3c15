"use strict";
// What keys and the mouse do.

const PARTS = ["what", "change", "why", "upcoming", "phase", "control", "sites", "list", "users", "others", "tasks", "history"];
const HELP = [
  ["Right, Left", "one step on, back"], ["Shift+Right, Shift+Left", "ten steps"], ["Home, End", "before the first step, after the last"],
  ["m, M", "next mark, the one before"], ["s, S", "next store, the one before"],
  ["c, C", "next begin or return of a command, the one before"],
  ["k", "next step of control"], ["0 to 7", "next step of that CPU"], ["/", "search; Enter is the next one, Shift+Enter the one before"],
  ["n, N", "next found, the one before"], ["w", "the window of the step's call, and no other"],
  ["y", "copy the steps so far as a schedule"], ["+, -", "zoom the strip"], ["f", "the whole run in the strip"], ["?", "this list"]];

function startPage() {
  const at = (id) => document.getElementById(id);
  const model = prepare(JSON.parse(at("data").textContent)), view = new View(model), strip = new Strip(at("strip"), model, go);
  const shown = new Map();
  let now = 0, isDue = false, chosen = "", lit; // the line of the script that is lit

  // Puts HTML into a part of the page, if it is other than what stands there.
  function put(id, content) {
    if (shown.get(id) === content) return;
    shown.set(id, content);
    at(id).innerHTML = content;
  }

  function go(count) {
    now = Math.max(0, Math.min(model.count, count));
    if (!isDue) requestAnimationFrame(render);
    isDue = true;
  }

  function goTo(step) {
    if (step === null) tell("there is none");
    else go(step + 1);
  }

  function tell(text) {
    at("message").textContent = text;
  }

  function render() {
    isDue = false;
    view.use(stateAt(model, now));
    const call = chosen || view.presentCall();
    at("where").textContent = `step ${now} of ${model.count}` + (now ? `, turn ${model.steps.turn[now - 1]}` : "");
    for (const part of PARTS) put(part, view[part]());
    put("window", view.window(call));
    showScript();
    keepInSight();
    keepSite();
    strip.show(now, call ? view.windowFor(call) : null);
    at("strip").setAttribute("aria-valuenow", now);
    history.replaceState(null, "", "#" + now);
  }

  function showScript() {
    const line = at("script").children[view.scriptLine() - 1];
    if (line === lit) return;
    if (lit) lit.classList.remove("now");
    lit = line;
    if (!line) return;
    line.classList.add("now");
    within(at("script"), line);
  }

  // Moves a box so that a part of it is in sight, and nothing else of the page.
  function within(box, part) {
    const above = part.getBoundingClientRect().top - box.getBoundingClientRect().top;
    if (above < 0 || above > box.clientHeight - 30) box.scrollTop += above - box.clientHeight * 0.6;
  }

  function keepSite() {
    const site = at("sites").querySelector("tr .hot");
    if (site) within(at("sites"), site);
  }

  function keepInSight() {
    const lines = at("history").querySelectorAll(".line:not(.later)");
    if (lines.length) within(at("history"), lines[lines.length - 1]);
  }

  // The next step on or back for which something holds; `now` is the number of steps made, so the last one made is `now - 1`.
  function next(direction, holds) {
    goTo(findStep(model, direction > 0 ? now : now - 2, direction, holds));
  }

  function search(direction) {
    const text = at("search-text").value.trim();
    if (!text) return;
    tell("");
    next(direction, searchOf(model, at("search-what").value, text));
  }

  const isMark = (step) => model.steps.op[step] === "m", isStore = (step) => model.steps.op[step] === "s";
  const isCommand = (step) => isMark(step) && model.items[model.itemAt.get(step)].call === null;
  const isBy = (actor) => (step) => model.steps.actor[step] === actor && !isPassed(model, step);

  async function copy() {
    const lines = now ? scheduleOf(model, now) : [], text = lines.join("\n") + "\n";
    if (!lines.length) return tell("there are no steps yet");
    at("copy").dataset.schedule = text;
    try {
      await navigator.clipboard.writeText(text);
      tell(`copied: put ${lines.length > 1 ? `the ${lines.length} lines` : "the line"} in the place of the script's sched lines`);
    } catch {
      const where = "to be put in the place of the script&rsquo;s <code>sched</code> lines";
      showDialog(`<p>The browser doesn&rsquo;t let the page copy. Here are the lines, ${where}:</p><pre>${safe(text)}</pre>`);
    }
  }

  function showDialog(content) {
    at("help").innerHTML = content + '<form method="dialog"><button autofocus>close</button></form>';
    if (!at("help").open) at("help").showModal();
  }

  function help() {
    const shownKeys = (keys) => keys.split(", ").map((key) => `<kbd>${key}</kbd>`).join(" ");
    showDialog(`<table>${HELP.map(([keys, what]) => `<tr>${cell(shownKeys(keys), "fit")}${cell(what)}</tr>`).join("")}</table>`);
  }

  function follow() {
    chosen = "";
    at("call").value = "";
    go(now);
  }

  const zoom = (times) => () => strip.zoom(strip.span * times, strip.width / 2);
  const KEYS = {
    Home: () => go(0), End: () => go(model.count), m: () => next(1, isMark), M: () => next(-1, isMark), s: () => next(1, isStore),
    S: () => next(-1, isStore), c: () => next(1, isCommand), C: () => next(-1, isCommand), k: () => next(1, isBy("k")),
    "/": () => at("search-text").select(), n: () => search(1), N: () => search(-1), w: follow, y: copy, "?": help,
    "+": zoom(1 / 1.5), "-": zoom(1.5), f: zoom(Infinity) };

  document.addEventListener("keydown", (event) => {
    const isTyped = event.target instanceof Element && event.target.closest("input, select");
    if (event.ctrlKey || event.metaKey || event.altKey || at("help").open || isTyped) return;
    const cpu = /^[0-7]$/.test(event.key) && model.actors.includes(event.key) ? () => next(1, isBy(event.key)) : null;
    const many = event.shiftKey ? 10 : 1;
    const act = { ArrowRight: () => go(moved(model, now, many)), ArrowLeft: () => go(moved(model, now, -many)), ...KEYS }[event.key] || cpu;
    if (!act) return;
    event.preventDefault();
    tell("");
    act();
  });

  const CLICKS = { "to-first": () => go(0), "to-before": () => go(moved(model, now, -1)), "to-next": () => go(moved(model, now, 1)), "to-last": () => go(model.count),
    "to-mark": () => next(1, isMark), "to-store": () => next(1, isStore), "to-command": () => next(1, isCommand), 
    "search-before": () => search(-1), copy, "help-button": help };
  for (const [id, act] of Object.entries(CLICKS)) at(id).addEventListener("click", act);
  for (const id of ["history", "upcoming"]) {
    at(id).addEventListener("click", (event) => {
      const target = event.target.closest("[data-step]");
      if (target && !event.target.closest("a")) go(Number(target.dataset.step));
    });
  }
  at("search").addEventListener("submit", (event) => {
    event.preventDefault();
    at("search-text").blur(); // so that keys go from step to step again
    search(1);
  });
  at("search-text").addEventListener("keydown", (event) => {
    if (event.key === "Escape") at("search-text").blur();
    if (event.key !== "Enter" || !event.shiftKey) return;
    event.preventDefault();
    search(-1);
  });
  at("call").addEventListener("change", () => {
    chosen = at("call").value;
    at("call").blur(); // so that keys go from step to step again
    if (chosen) go(Math.max(now, model.calls.get(chosen).enter + 1));
    go(now);
  });
  window.addEventListener("hashchange", () => go(Number(location.hash.slice(1)) || 0));
  window.addEventListener("resize", () => strip.draw());
  window.matchMedia("(prefers-color-scheme: dark)").addEventListener("change", () => strip.draw());

  const calls = [...model.calls.values()].map((call) => `<option value="${call.call}">${call.call} ${safe(call.func)}</option>`);
  at("call").innerHTML = '<option value="">of this step</option>' + calls.join("");
  at("names").innerHTML = model.words.map((word) => `<option value="${safe(word.name)}">`).join("");
  at("strip").setAttribute("aria-valuemax", model.count);
  put("script", view.script());
  go(Number(location.hash.slice(1)) || 0);
}

startPage();
