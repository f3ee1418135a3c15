"""step-page: the page's data is that of the trace, its state is a plain replay of the trace, and a browser shows it."""
import json
import pathlib
import random
import re
import shutil
import unittest
from unittest import mock

from ftlog import given_logs, programs, runs, step_data, step_kinds, step_tasks, step_trace
from ftlog.checks import page_names
from ftlog.commands import step_page
from ftlog.tests import browser
from ftlog.tests.called import EXAMPLES, Case, ft, lines

FOLDER = pathlib.Path(__file__).resolve().parent / "steps"
NAMES = sorted(path.stem for path in FOLDER.glob("*.steps"))
PAGE = step_data.FOLDER
NODE = shutil.which("node")
DATA = re.compile(r'<script id="data" type="application/json">(.*?)</script>', re.S)
SCRIPT = lines("ftrace 1; func a; user tr function; cpu 0 quantum 100; task 10 cpu 0; after 1; call a; ret; ctl register tr")
OPS = {"load": "l", "store": "s", "mark": "m"}
NOT_IN_FIXTURES = {"sel-enable"}  # kinds of steps that none of the stored traces has


def raw(text):
    """The steps of a trace's text, each as its words and its item, and the last line."""
    *steps, last = text.decode().splitlines()
    return [line.split(" ", 6) for line in steps], last


def replayed(steps, count):
    """What each word holds after so many steps by the text alone: its last value after, or the first value before."""
    opening, now = {}, {}
    for _, _, _, word, before, *_ in steps:
        opening.setdefault(word, int(before, 0))
    for _, _, _, word, _, after, *_ in steps[:count]:
        now[word] = int(after, 0)
    return {**opening, **now}


def ten_places(count):
    """Ten numbers of steps, the least and the greatest among them."""
    return sorted({count * part // 9 for part in range(10)})


def many_steps(calls):
    """A script of one task that makes so many calls, and its trace of ten steps a call."""
    script = ["ftrace 1", "func a", "cpu 0 quantum 1000000", "task 10 cpu 0", *["call a", "ret"] * calls]
    found, clock, acts = [], 0, 0

    def step(verb, word, before, after, item=""):
        found.append(f"{len(found)} 0 {verb} {word} {before} {after}{item}")

    def mark(item):
        nonlocal clock
        step("mark", "clock", hex(clock), hex(clock + 1), " " + item)
        clock += 1

    def poll():
        step("load", "want", 0, 0)
        if acts:
            step("store", "quiet.10", hex((acts - 1) << 32), hex(acts << 32))

    for call in range(1, calls + 1):
        poll()
        mark(f"enter 10.{call} normal a -")
        step("load", "head.a", "0xf", "0xf")
        step("load", "tail.a", "0x441f", "0x441f")
        mark(f"body 10.{call} a nop")
        acts += 1
        poll()
        mark(f"leave 10.{call}")
        mark(f"ret 10.{call} -")
        acts += 1
    return "\n".join([*script, ""]).encode(), "\n".join([*found, "stopped", ""]).encode()


class Pages(Case):
    """What makes pages of examples."""

    def files(self, name):
        """The script and the trace of an example."""
        return EXAMPLES / f"{name}.ft", FOLDER / f"{name}.steps"

    def page(self, script, steps, *words):
        """The path of the page of a script and a trace."""
        path = self.folder / f"{pathlib.Path(script).stem}.html"
        status, out, err = ft("step-page", script, "--steps", steps, "--out", path, *words)
        self.assertEqual((0, ""), (status, err))
        self.assertTrue(out.startswith(f"{path}: "))
        return path

    def data(self, page):
        """The data of a page."""
        return json.loads(DATA.search(page.read_text("ascii"))[1])

    def read(self, name):
        """An example's script, and its trace."""
        _, script = given_logs.read_script(str(self.files(name)[0]))
        return script, step_trace.read(str(self.files(name)[1]), script)


class StepPage(Pages):
    """Tests of the page's data and of its functions, without a browser."""

    # The data.

    def test_the_data_is_the_trace(self):
        for name in NAMES:
            with self.subTest(name):
                data = self.data(self.page(*self.files(name)))
                steps, last = raw(self.files(name)[1].read_bytes())
                columns, names, values = data["steps"], [word for word, _ in data["words"]], [int(value, 16) for value in data["values"]]
                found = zip(columns["turn"], columns["actor"], columns["op"], columns["word"], columns["value"])
                self.assertEqual([(int(turn), actor, OPS[verb], word, int(after, 0)) for turn, actor, verb, word, _, after, *_ in steps],
                                 [(turn, actor, op, names[word], values[value]) for turn, actor, op, word, value in found])
                self.assertEqual((last, len(steps)), (data["last"], len(columns["kind"])))
                self.assertEqual(replayed(steps, 0), {word: values[value] for word, value in data["words"]})
                log = (EXAMPLES / f"{name}.log").read_text().splitlines()
                self.assertEqual([line.split(" ", 1)[1] for line in log[:-1]], data["items"])

    def test_each_step_has_a_kind_and_a_task(self):
        for name in NAMES:
            script, trace = self.read(name)
            told = step_tasks.tasks_of(trace, script)
            self.assertEqual([], told.untold)
            self.assertNotIn(None, step_kinds.kinds_of(trace, told))
            alone = [step for step, task in zip(trace.steps, told.tasks) if task is None and step.actor != "k"]
            self.assertTrue(all(list(trace.words)[step.word].startswith(("want", "ack", "quiet")) for step in alone), name)

    def test_nearly_all_kinds_come(self):
        seen = set()
        for name in NAMES:
            script, trace = self.read(name)
            seen.update(step_kinds.kinds_of(trace, step_tasks.tasks_of(trace, script)))
        self.assertEqual(set(), set(step_kinds.KINDS) - seen - NOT_IN_FIXTURES)

    def test_kinds_of_a_patched_site(self):
        script, trace = self.read("first_path")
        kinds = step_kinds.kinds_of(trace, step_tasks.tasks_of(trace, script))
        control = [kind for kind, step in zip(kinds, trace.steps) if step.actor == "k"]
        again = [kind for at, kind in enumerate(control) if at == 0 or control[at - 1] != kind]
        self.assertEqual(["begin", "tramp-take", "bits", "sel-register", "link", "first", "next-store", "breakpoint", "want-first",
                          "ack-first", "tail-store",
                          "want-second", "ack-second", "head-store", "want-third", "ack-third", "return"], again)

    def test_looks(self):
        script, trace = self.read("registered_in_call")
        told = step_tasks.tasks_of(trace, script)
        kinds = [kind for kind, step in zip(step_kinds.kinds_of(trace, told), trace.steps) if step.actor == "0"]
        self.assertEqual(["poll-want", "look-none", "enter", *["look-want", "look-ack"] * 3, "look-none", "fetch-head", "fetch-tail", "look-none", "own-tramp",
                          "look-none", "back"], kinds[:16])
        self.assertEqual({0}, {told.tasks[at] for at in told.looks})

    def test_tasks_that_can_not_be_told(self):
        script = self.write("other.ft", self.files("preempted_in_callback")[0].read_bytes().replace(b"quantum 14", b"quantum 9"))
        data = self.data(self.page(script, self.files("preempted_in_callback")[1]))
        self.assertEqual([0], data["untold"])
        marks = [task for op, actor,
                 task in zip(data["steps"]["op"], data["steps"]["actor"], data["steps"]["task"]) if op == "m" and actor != "k"]
        self.assertNotIn(-1, marks)

    def test_links_and_sentences(self):
        pages = {path.name: set(page_names.anchors(path.read_text())) for path in (runs.TOP / "docs").glob("*.md")}
        for kind, (does, why, link) in step_kinds.KINDS.items():
            page, _, anchor = link.partition("#")
            self.assertIn(anchor, pages[page], kind)
            self.assertTrue(does and why.endswith("."), kind)
        for rule, link in step_kinds.RULES_OF.values():
            self.assertIn(link.partition("#")[2], pages["RULES.md"])
            for part in rule.split(", "):
                self.assertRegex((runs.TOP / "docs" / "RULES.md").read_text(), rf"\*\*{part}\*\*|## {part}")

    def test_addresses(self):
        text = "".join((runs.TOP / "crates" / part).read_text() for part in ("ft_base/src/address.rt", "site_bytes/src/codec.rt"))
        names = {"function": "FIRST_FUNCTION", "function_step": "FUNCTION_STEP", "site_bytes": "SITE_BYTES", "list": "LIST_CALLER",
                 "trampoline": "FIRST_TRAMPOLINE", "trampoline_step": "TRAMPOLINE_STEP"}
        for name, constant in names.items():
            found = re.search(rf"const {constant}: u32 = (0x[0-9A-Fa-f_]+|\d+);", text)
            self.assertEqual(step_data.ADDRESSES[name], int(found[1].replace("_", ""), 0), name)

    def test_the_page_is_one_file(self):
        status, page, err = ft("step-page", self.files("first_path")[0], "--steps", self.files("first_path")[1], "--docs",
                                   "https://example.org/docs")
        self.assertEqual((0, ""), (status, err))
        self.assertTrue(page.isascii() and page.startswith("<!doctype html>"))
        self.assertIsNone(re.search(r"<link|\bsrc=|@import|url\(|fetch\(|XMLHttp|{{", page))
        self.assertEqual(["https://example.org/docs/"], re.findall(r"https?://[^\"]*", page))

    def test_a_text_that_would_end_the_data(self):
        text = SCRIPT.replace(b"func a\n", b"# </script><script>alert(1)</script> {{STYLE}} \xff\nfunc a\n")
        data = self.data(self.page(self.write("x<y>.ft", text),
                                   self.write("x.steps", b"0 k mark clock 0x0 0x100000001 begin 1\nstopped\n")))
        self.assertIn("</script><script>alert(1)", data["script"][1])
        self.assertNotIn("<y>", (self.folder / "x<y>.html").read_text().replace('"title":"x\\u003cy>', ""))

    def test_lanes(self):
        script = self.write("lanes.ft", lines("ftrace 1; user t function; lane 0; ctl unregister t; lane 1; ctl unregister t"))
        clock, found = 0, []
        for item in ("begin 1 lane 1", "return 1 not-there", "begin 2 lane 0", "return 2 not-there"):
            found.append(f"{len(found)} k mark clock {clock:#x} {clock + 0x100000001:#x} {item}")
            clock += 0x100000001
        data = self.data(self.page(script, self.write("lanes.steps", lines("; ".join([*found, "end"])))))
        self.assertEqual(([1, 0], ["begin", "return"]), (data["order"], [kind for kind, *_ in data["kinds"]]))

    def test_no_steps(self):
        data = self.data(self.page(self.write("x.ft", b"ftrace 1\n"), self.write("x.steps", b"end\n")))
        self.assertEqual(([], [], "end"), (data["steps"]["turn"], data["items"], data["last"]))

    @unittest.skipUnless(programs.built("fttell").exists(), "fttell isn't built")
    def test_the_program_makes_these_traces(self):
        for name in NAMES:
            self.assertEqual(self.files(name)[1].read_bytes(), step_page.trace_text(self.files(name)[0].read_bytes()))

    # Wrong inputs.

    def test_wrong_inputs(self):
        good = self.files("first_path")[1].read_bytes()
        line = lambda number: good.splitlines(keepends=True)[number]
        wrong = [
            ("an empty trace", b""), ("a trace that isn't there", None), ("cut in a line", good[:-6]), ("without its last line", good[:-4]),
            ("a line after the last one", good + line(0)), ("the first line is missing", good[len(line(0)):]),
            ("a line is missing", good.replace(line(8), b"")),
            ("a line comes twice", good.replace(line(8), line(8) * 2)), ("bytes that aren't UTF-8", b"\xff\xfe\x00\n"),
            ("a log", lines("0 begin 1; end")),
            ("a script", SCRIPT), ("the line of a refusal", b"line 3: duplicate\n"),
            ("an actor that there isn't", good.replace(b"1 0 load", b"1 7 load", 1)),
            ("a word that there isn't", good.replace(b"sel.tr", b"sel.x")), ("another function's site", good.replace(b"head.a", b"head.b")),
            ("a value that a word can't hold", good.replace(b"first 0 1", b"first 0 18446744073709551616")),
            ("a huge number", good.replace(b"2 k store", b"2" * 5000 + b" k store")),
            ("a negative number", good.replace(b"first 0 1", b"first 0 -1")),
            ("a load that changes its word", good.replace(b"load want 0 0", b"load want 0 1", 1)),
            ("a mark without an item", good.replace(b" begin 1\n", b"\n")),
            ("a store with an item", good.replace(b"first 0 1\n", b"first 0 1 begin 2\n")),
            ("a mark that adds too much", good.replace(b"0x0 0x100000001 begin", b"0x0 0x100000002 begin")),
            ("an item that there isn't", good.replace(b"return 1 ok", b"return 1 fine")),
            ("a call that isn't the next", good.replace(b"10.1", b"10.2")), ("a carriage return", good.replace(b"\n", b"\r\n")),
            ("an unknown operation", good.replace(b"load", b"peek")),
            ("a turn again", good.replace(b"\n1 0 load", b"\n0 0 load")),
        ]
        for number, (what, trace) in enumerate(wrong):
            script = self.write(f"{number}.ft", SCRIPT)
            steps = self.write(f"{number}.steps", trace)
            self.assert_told(what, ft("step-page", script, "--steps", steps, "--out", self.folder / "never.html"))
        self.assertFalse((self.folder / "never.html").exists())

    def test_wrong_words(self):
        script, steps = self.files("first_path")
        self.assert_told("a folder as the trace", ft("step-page", script, "--steps", self.folder))
        self.assert_told("a folder as the script", ft("step-page", self.folder, "--steps", steps))
        self.assert_told("a folder as the page", ft("step-page", script, "--steps", steps, "--out", self.folder))
        self.assert_told("a folder that isn't there", ft("step-page", script, "--steps", steps, "--out", self.folder / "no" / "x.html"))
        self.assert_told("both from standard input", ft("step-page", "--steps", "-"))
        self.assert_told("another example's trace", ft("step-page", EXAMPLES / "filters.ft", "--steps", steps))
        self.assert_told("a script that is cut", ft("step-page", self.write("cut.ft", SCRIPT[:-1]), "--steps", steps))
        self.assert_told("a script that isn't one", ft("step-page", self.write("not.ft", b"\x00\n"), "--steps", steps))
        self.assert_told("an option that there isn't", ft("step-page", script, "--step", steps))
        with mock.patch.object(runs, "TOP", self.folder):
            self.assert_told("no trace and no program", ft("step-page", script))

    def test_the_program_gives_the_trace(self):
        script, steps = self.files("first_path")
        program = self.write("fttell", f"#!/bin/sh\n[ $1 = items ] && exec {programs.built('fttell')} items\ncat > /dev/null\ncat {steps}\n".encode())
        program.chmod(0o755)
        with mock.patch.object(programs, "built", lambda name: program):
            self.assertIn('"last":"end"', ft("step-page", script)[1])
        program.write_bytes(b"#!/bin/sh\nexit 6\n")
        with mock.patch.object(programs, "built", lambda name: program):
            self.assert_told("a program that fails", ft("step-page", script))
        program.write_bytes(b"#!/bin/sh\necho line 3: duplicate\nexit 3\n")
        with mock.patch.object(programs, "built", lambda name: program):
            self.assert_told("a script that is refused", ft("step-page", script))


@unittest.skipUnless(NODE, "there is no node")
class OwnFunctions(Pages):
    """Tests of the page's own functions, which are run by node on the page's data: one run for all, since a run takes long to begin."""

    def setUp(self):
        """Nothing is asked yet."""
        super().setUp()
        self.asked = []  # of each page and its expression, and what its answer has to be

    def ask(self, page, expression, check):
        """Has an expression of the page's language looked at in which `model`, `state` and `words` are there. `check` gets its value."""
        self.asked.append((str(page), expression, check))

    def run_all(self):
        """Runs them all, and checks what came."""
        program = f"""{{
            const state = require({json.dumps(str(PAGE / "state.js"))}), words = require({json.dumps(str(PAGE / "words.js"))});
            const models = new Map(), vm = require("vm"), folder = {json.dumps(str(PAGE) + "/")};
            for (const name of ["state.js", "words.js", "view.js"]) vm.runInThisContext(require("fs").readFileSync(folder + name, "latin1"));
            const View = vm.runInThisContext("View");
            function modelOf(page) {{
                const text = require("fs").readFileSync(page, "latin1").match(/<script id="data"[^>]*>([^]*?)<\\/script>/)[1];
                if (!models.has(page)) models.set(page, state.prepare(JSON.parse(text)));
                return models.get(page);
            }}
            const asked = JSON.parse(require("fs").readFileSync(0, "utf8"));
            const answer = ([page, text]) => new Function("model", "state", "words", "View", text)(modelOf(page), state, words, View);
            console.log(JSON.stringify(asked.map(answer)));
            }}"""
        came = runs.answer([NODE, "-e", program], json.dumps([[page, expression] for page, expression, _ in self.asked]).encode(), 240)
        self.assertEqual((0, b""), (came.status, came.err))
        for (page, expression, check), value in zip(self.asked, json.loads(came.out)):
            with self.subTest(pathlib.Path(page).stem, expression=expression[:60]):
                check(value)

    def test_all(self):
        """The questions of each part, and then their answers."""
        for name in NAMES:
            page = self.page(*self.files(name))
            self.states(page, raw(self.files(name)[1].read_bytes())[0], name)
            self.in_words(page)
            self.each_part(page)
            self.windows(page)
            self.schedules(page)
        self.some_words()
        self.windows_lists_and_tasks()
        self.looks()
        self.searches()
        self.fifty_thousand_steps()
        self.run_all()

    def states(self, page, steps, name):
        """What each word holds at ten steps, in any order, is what the text of the trace says."""
        counts = ten_places(len(steps))
        random.Random(name).shuffle(counts)
        wanted = [replayed(steps, count) for count in counts]
        self.ask(page, f"""return {json.dumps(counts)}.map((count) => {{ const now = state.stateAt(model, count);
            return model.words.map((word) => [word.name, String(model.values[now.words[word.at]])]); }});""",
                 lambda found: self.assertEqual(wanted, [{word: int(value) for word, value in one} for one in found]))

    def in_words(self, page):
        """Each step is told in words, with nothing left out."""
        self.ask(page, "return Array.from({length: model.count}, (_, at) => words.stepText(model, at));",
                 lambda told: self.assertFalse([text for text in told if re.search(r"undefined|NaN|null|[{}?]", text)]))

    def each_part(self, page):
        """Each part of the page can be shown at each step, and so can the window of each call."""
        parts = ["what", "change", "why", "upcoming", "phase", "control", "sites", "list", "users", "others", "tasks", "history", "script"]
        self.ask(page, f"""const view = new View(model), found = [], isWrong = (text) => /undefined|NaN|null|object/.test(text);
            for (let at = 0; at <= model.count; at++) {{
                view.use(state.stateAt(model, at));
                for (const part of {json.dumps(parts)}) if (isWrong(view[part]())) found.push([at, part]);
            }}
            for (const call of model.calls.keys()) if (isWrong(view.window(call))) found.push(call);
            return found;""", lambda found: self.assertEqual([], found))

    def windows(self, page):
        """In each call that is over, who was on throughout its window was visited, and who was off throughout was not."""
        self.ask(page, """const found = [];
            for (const call of model.calls.keys()) {
                const window = state.windowOf(model, call);
                for (const user of window.isOver ? window.users : []) {
                    if (user.on.every((isOn) => isOn === true) && !user.came) found.push([call, user.user]);
                    if (user.on.every((isOn) => isOn === false) && user.came) found.push([call, user.user]);
                }
            }
            return found;""", lambda found: self.assertEqual([], found))

    def some_words(self):
        """The words of some steps."""
        told = "return Array.from({length: model.count}, (_, at) => words.stepText(model, at));"
        self.ask(self.page(*self.files("breakpoint_is_read")), told, lambda found: self.assertLessEqual(
            {"loads the first byte of a's site, and meets the breakpoint",
             "stores the new displacement of a's site: fb ef 0f 00, to trampoline 0",
             "switches tr on: registered, enabled, copy 1, filter empty, registration 1"}, set(found)))

    def schedules(self, page):
        """The schedule that is copied is that of the steps so far."""
        data = self.data(page)
        actors, all_of = data["steps"]["actor"], "k" + "".join(str(cpu) for cpu in range(len(data["quanta"])))
        counts = ten_places(len(actors))

        def check(found):
            for count, told in zip(counts, found):
                words = [word.partition("*") for line in told for word in line.split()[1:]]
                self.assertTrue(all(line.startswith("sched ") and len(line) <= 100 for line in told))
                self.assertEqual(actors[:count], "".join({"all": all_of}.get(who, who) * int(times or 1) for who, _, times in words))

        self.ask(page, f"return {json.dumps(counts)}.map((count) => state.scheduleOf(model, count));", check)

    def windows_lists_and_tasks(self):
        """The window of a call, the list, sets by name, open calls, what is held, and frames."""
        page = self.page(*self.files("hash_changed_in_walk_new"))
        self.ask(page, "return state.windowOf(model, '10.1');", lambda found: self.assertEqual(
            ([2, 3], [[True, False], [True, True]], [None, "called back, 5"]),
            (found["commands"], [user["on"] for user in found["users"]], [user["came"] for user in found["users"]])))
        self.ask(page, "return state.listOf(model, state.stateAt(model, model.count));",
                 lambda found: self.assertEqual(["t2", "t1"], found))
        self.ask(page,
                 "const now = state.stateAt(model, model.count), copy = state.userAt(model, now, 't1').copy; "
                 "return state.setNames(model, now, 't1', copy, 'notrace');",
                 lambda found: self.assertEqual(["a"], found))

        def held(task):
            self.assertEqual(("10.1", "callback", "tr"), tuple(task["calls"][0][part] for part in ("call", "phase", "user")))
            self.assertEqual(4, len(task["holds"]))  # both parts of the site, the trampoline's word, and the user's state

        self.ask(self.page(*self.files("preempted_in_callback")), "return state.stateAt(model, 90).tasks[1];", held)
        self.ask(self.page(*self.files("graph_depth")),
                 "const frames = (at) => state.stateAt(model, at).tasks[0].calls.filter((call) => call.frame.length); "
                 "return Array.from({length: model.count}, (_, at) => frames(at).length);",
                 lambda frames: self.assertEqual(1, max(frames)))

    def looks(self):
        """A look that finds nothing is passed, and what a look loads isn't held."""
        page = self.page(*self.files("registered_in_call"))
        self.ask(page, "return [state.moved(model, 1, 1), state.moved(model, 3, -1), state.moved(model, 0, -1), state.moved(model, model.count, 10)];",
                 lambda found: self.assertEqual([3, 1, 0, len(raw(self.files("registered_in_call")[1].read_bytes())[0])], found))
        self.ask(page, "return Array.from({length: model.count}, (_, at) => state.stateAt(model, at).tasks[0].holds.length);",
                 lambda held: self.assertEqual(3, max(held)))  # both parts of the site, and the trampoline's word

    def searches(self):
        """The steps that a search finds."""
        page = self.page(*self.files("first_path"))
        columns, names = self.data(page)["steps"], [word for word, _ in self.data(page)["words"]]
        by = lambda name, ops: [at for at, word in enumerate(columns["word"]) if names[word] == name and columns["op"][at] in ops]
        sites = by("head.a", "s")
        for what, text, check in (("store", "head.a", lambda found: self.assertEqual(sites, found)),
                                  ("load", "head.", lambda found: self.assertEqual(by("head.a", "l"), found)),
                                  ("call", "10.1", lambda found: self.assertEqual(6, len(found))),
                                  ("item", "back", lambda found: self.assertEqual(2, len(found))),
                                  ("store", "head.b", lambda found: self.assertEqual([], found))):
            self.ask(page,
                     f'const holds = state.searchOf(model, "{what}", "{text}"); '
                     'return Array.from({length: model.count}, (_, at) => at).filter(holds);', check)

    def fifty_thousand_steps(self):
        """A page of so many steps has the same states, and gives one within the time of a picture on a screen."""
        text, trace = many_steps(5000)
        page = self.page(self.write("many.ft", text), self.write("many.steps", trace))
        self.assertLess(page.stat().st_size, 3_000_000)
        steps, _ = raw(trace)
        self.assertGreater(len(steps), 49_000)
        self.states(page, steps, "many")
        self.ask(page, """const last = state.stateAt(model, model.count), begun = performance.now();
            for (let at = 0; at < 200; at++) state.stateAt(model, (at * 7919) % model.count); return (performance.now() - begun) / 200;""",
                 lambda milliseconds: self.assertLess(milliseconds, 16))


@unittest.skipUnless(browser.program(), "there is no browser")
class InABrowser(Pages):
    """The page in a real browser, which is given keys and the mouse."""

    # A hundred keys, each pressed when the page that the one before asked for is drawn: how many milliseconds that takes.
    HUNDRED = """new Promise((done) => {
        const begun = performance.now();
        let left = 100;
        const next = () => {
            if (!left--) return done(performance.now() - begun);
            document.body.dispatchEvent(new KeyboardEvent("keydown", {key: "ArrowRight", bubbles: true}));
            requestAnimationFrame(next);
        };
        next();
    })"""
    CORNER = "(() => { const box = document.getElementById('strip').getBoundingClientRect(); return [box.right - 3, box.top + 30]; })()"

    def test_keys_and_mouse(self):
        small = self.page(*self.files("hash_changed_in_walk_new"))
        with browser.Browser() as shown:
            self.walk(shown, small)
            self.search(shown)
            self.many(shown)
            self.assertEqual([], shown.faults)

    def step(self, shown):
        """The number of the step that is shown."""
        return int(shown.value("document.getElementById('where').textContent").split()[1])

    def text(self, shown, name):
        """The text of a part of the page."""
        return shown.value(f"document.getElementById({json.dumps(name)}).innerText")

    def walk(self, shown, page):
        """Keys that go from step to step, and a click."""
        steps, _ = raw(self.files(page.stem)[1].read_bytes())
        after = lambda begin, holds: next(at + 1 for at in range(begin, len(steps)) if holds(steps[at]))
        shown.size(1280, 900)
        shown.open(page.as_uri())
        self.assertEqual(0, self.step(shown))
        shown.press("ArrowRight", "ArrowRight", "ArrowRight", "ArrowLeft")
        self.assertEqual(2, self.step(shown))
        shown.press("m")
        self.assertEqual(after(2, lambda step: step[2] == "mark"), self.step(shown))
        shown.press("s")
        self.assertEqual(after(self.step(shown) - 1, lambda step: step[2] == "store"), self.step(shown))
        shown.press("0")
        self.assertEqual("0", steps[self.step(shown) - 1][1])
        shown.press("End")
        self.assertEqual(len(steps), self.step(shown))
        self.assertIn("notrace a", self.text(shown, "users"))
        shown.press("Home")
        self.assertEqual(0, self.step(shown))
        shown.ask("Input.dispatchMouseEvent", type="mouseWheel", x=600, y=90, deltaX=0, deltaY=-300)
        shown.press("f")
        shown.click(*shown.value(self.CORNER))
        self.assertEqual(len(steps), self.step(shown))

    def search(self, shown):
        """The search, the call's window and the schedule that is copied."""
        shown.press("Home")
        shown.press("/")
        shown.type("head.a")
        shown.press("Enter")
        self.assertIn("breakpoint over the first byte of a's site", self.text(shown, "what"))
        self.assertIn("breakpoint", self.text(shown, "sites"))
        self.assertIn("doesn't wait", self.text(shown, "phase"))
        shown.press("n", "y")
        self.assertRegex(shown.value("document.getElementById('copy').dataset.schedule"), r"\Asched .*\n")
        shown.value("document.getElementById('help').close()")
        shown.press("End")
        self.assertRegex(self.text(shown, "window"), r"t1\s+on\s+off\s+not visited\s+may be")
        for width, is_dark in ((700, False), (1280, True)):
            shown.size(width, 900, is_dark)
            self.assertLessEqual(shown.value("document.documentElement.scrollWidth"), width)

    def many(self, shown):
        """Fifty thousand steps: keys are answered at once, by the browser's own clock."""
        text, trace = many_steps(5000)
        shown.open(self.page(self.write("many.ft", text), self.write("many.steps", trace)).as_uri() + "#30000")
        self.assertEqual(30000, self.step(shown))
        took = shown.value(self.HUNDRED)
        self.assertEqual(30100, self.step(shown))
        self.assertLess(took / 100, 250, "milliseconds a key")
