"""Tests of the readers of scripts and logs, of filters, and the examples that stand in docstrings of the package."""
import doctest
import importlib
import pkgutil
import unittest

import ftlog
from ftlog import control_lines, filters, limits, log_desk, log_items, log_reader, rings_of_log, runs, script_reader
from ftlog.checks import check_docs
from ftlog.fault import Fault
from ftlog.tests.called import lines

WITH_ALL = lines("ftrace 2; # a comment; func a; func e ext3; \tdepth  3; tramps 0; absent ext3; ring 2; tracing off; trigger e*:traceon:07; "
                 "user g graph regs pid call a; user p function regs ipmodify e; user f fprobe exit cancel irq a; cpu 0 quantum 9; cpu 1 quantum 2; "
                 "task 10 cpu 1; after 1; call a; irq; iret; ret; task 0011 cpu 0; lane 0; ctl register g; ctl load ext3; lane 1; "
                 "ctl filter g > *:mod:ext3; ctl pid 10 11; sched k*2 all 1*3")
# Scripts with a line that has no form, or that can't stand there.
UNREAD = ["func", "func a b c", "func 1a", "user t", "user t kprobe", "user t graph ipmodify a", "user t fprobe cancel", "user t function pid regs", "cpu 0",
          "cpu x quantum 1", "task 10 cpu", "call", "call a b", "ret 1", "after", "after -1", "after 99999999999", "ctl", "ctl register", "ctl frob t",
          "ctl filter t a", "ctl filter t >>", "ctl until 10", "ctl maxdepth", "ctl load", "sched", "sched 9", "sched k*", "lane", "ring x", "tracing on",
          "trigger", "trigger a", "trigger a:traceon:1:2", "trigger a:traceon:x", "absent", "nothing", "call\x00 a", "ret"]
ITEMS = ["begin 1", "return 1 ok", "enter 10.1 normal a -", "back 10.1 g", "enter 10.2 normal a 10.1", "refuse 10.2 g recursion", "body 10.2 a own g",
         "leave 10.2", "ret 10.2 10.1", "back-end 10.1 g", "body 10.1 a own g", "leave 10.1", "exit 10.1 g 3", "exit-end 10.1 g", "ret 10.1 -"]
CALLED = lines("ftrace 1; func a; user g graph call a; cpu 0 quantum 100; task 10 cpu 0; after 1; call a; ret; ctl register g")
# Globs beside those of the page, a name, and whether it is matched.
GLOBS = [("[]a]", "]", True), ("[]a]", "a", True), ("[a", "[a", True), ("[a", "a", False), ("[!]a]", "b", True), ("[!]a]", "]", False),
         ("[!]", "[!]", True), ("[!]", "!", False), ("[a-]", "-", True), ("[--a]", "_", True), ("[!c-a]", "b", True), ("a*a*a*b", "aaaa", False),
         ("*a" * 127 + "b", "a" * 127 + "b", True), ("*a" * 127 + "b", "a" * 200, False), ("*", "", True), ("?", "", False), ("a.b", "axb", False)]
FUNCTIONS = [script_reader.Function(*names) for names in [("sys_read", None), ("ext3_read", "ext3"), ("ext3_write", "ext3"), ("snd_play", "snd")]]
# What each text selects, by numbers from 0.
SELECTED = {"ext3_read": [1], "*": [0, 1, 2, 3], "ext3_[!r]*": [2], "none": [], "2": [1], "0002": [1], "0": [], "5": [], "9" * 5000: [], ":mod:ext3": [1, 2],
            "*read:mod:ext3": [1], ":mod:!ext3": [0, 3], ":mod:*": [1, 2, 3], ":mod:!*": [0], "*:mod:s?d": [3], ":mod:![!e]*": [0, 1, 2],
            "!ext3_read": [1], "!:mod:ext3": [1, 2], "2:mod:ext3": [], "[a": []}


def log_of(items, last="end"):
    """The bytes of a log with these items."""
    return "".join(f"{place} {item}\n" for place, item in enumerate(items)).encode() + last.encode() + b"\n"


class Scripts(unittest.TestCase):
    def test_all_lines(self):
        script = script_reader.read_script(WITH_ALL)
        self.assertEqual((script.version, script.frames, script.slots, script.ring, script.is_tracing), (2, 3, 0, 2, False))
        self.assertEqual([function.module for function in script.functions], [None, "ext3"])
        self.assertEqual(script.triggers, [script_reader.Trigger("e*", True, 7)])
        g, p, f = script.users.values()
        self.assertEqual((g.kind, g.has_regs, g.has_pid, g.calls, g.needs, g.takes_frame), ("graph", True, True, "call", ["a"], True))
        self.assertEqual((p.is_replacing, p.needs, p.takes_frame), (True, ["e"], False))
        self.assertEqual((f.kind, f.takes_frame, f.cancels, f.calls), ("fprobe", True, True, "irq"))
        self.assertEqual((script.cpus, script.quanta, script.tasks), (2, [9, 2], {10: 1, 11: 0}))
        self.assertEqual([task.acts for task in script.acts], [[["after", "1"], ["call", "a"], ["irq"], ["iret"], ["ret"]], []])
        self.assertEqual(script.lanes, [[0, 1], [2, 3]])
        self.assertEqual([word for word, *_ in script.lines], ["register", "load", "filter", "pid"])
        self.assertEqual(script.turns, [("k", 2), ("all", 1), ("1", 3)])
        self.assertEqual([line.number for line in script.said][:4], [1, 3, 4, 5])
        self.assertEqual([(line.word, line.answer) for line in script.module_lines], [("load", "ok")])

    def test_waits_are_no_commands(self):
        script = script_reader.read_script(CALLED + b"ctl until 10 1\nctl unregister g\n")
        self.assertEqual((len(script.control), len(script.lines), len(script.commands)), (3, 2, 2))

    def test_unread(self):
        for line in UNREAD:
            with self.subTest(line), self.assertRaises(Fault) as caught:
                script_reader.read_script(f"ftrace 1\n{line}\n".encode("latin-1"))
            self.assertRegex(str(caught.exception), "^line 2 of the script (has no form|can't stand there)")
            self.assertEqual(len(str(caught.exception).splitlines()), 1)

    def test_what_is_asked_besides(self):
        for line, said in [("ctl enable x", "no such user"), ("task 10 cpu 0", "no CPU"), ("ring 0", "rings of a size"), (f"func {'x' * 64}", "a name")]:
            with self.subTest(line), self.assertRaisesRegex(Fault, said):
                script_reader.check(script_reader.read_script(f"ftrace 1\n{line}\n".encode()))


class Logs(unittest.TestCase):
    def test_boxes(self):
        """What lies in what, and what is told of each."""
        script = script_reader.read_script(CALLED)
        history = log_reader.read_log(log_of(ITEMS), script)
        outer, inner = history.calls["10.1"], history.calls["10.2"]
        self.assertEqual(((outer.begin, outer.end), (inner.begin, inner.end)), ((2, 14), (4, 8)))
        self.assertEqual((history.commands[0].note, history.is_ended, len(history.lines)), ("ok", True, len(ITEMS)))
        self.assertEqual((history.bodies["10.2"].begin, inner.parent.what), (6, "entry"))

    def test_lanes(self):
        script = script_reader.read_script(WITH_ALL)
        turns = log_items.Turns(script)
        self.assertEqual([turns.next(named) for named in ("lane 1", "lane 0", "lane 0", "lane 1", "lane 1", "lane 2", "")], [2, 0, 1, 3, None, None, None])


class Filters(unittest.TestCase):
    def test_globs(self):
        """Those of the page's table, and others."""
        page = check_docs.table_rows((runs.TOP / "docs" / "LANGUAGE.md").read_text())
        rows = [[cell.strip("`") for cell in cells] for _, head, cells in page if head == ["pattern", "name", "matches"]]
        self.assertGreater(len(rows), 5)
        for glob, name, answer in [*((glob, name, answer == "yes") for glob, name, answer in rows), *GLOBS]:
            self.assertEqual(filters.fits(glob, name), answer, (glob, name))

    def test_signs(self):
        """Signs of regular expressions stand for themselves."""
        for sign in ".^$+(){}|\\":
            self.assertTrue(filters.fits(f"a{sign}*", f"a{sign}b") and not filters.fits(f"a{sign}*", "axb") and filters.fits(f"[{sign}]?", sign * 2))

    def test_texts(self):
        """What each selects; without its mark it is written as it was read."""
        for word, wanted in SELECTED.items():
            text = filters.read_text(word)
            self.assertEqual((sorted(filters.FunctionList(FUNCTIONS).selected(text)), text.word), (wanted, word.removeprefix("!")), word[:40])


class Desks(unittest.TestCase):
    def test_answers(self):
        """A registration that finds a function taken, and one that doesn't."""
        text = lines("ftrace 1; func a; func b; user p function regs ipmodify b; user q function regs ipmodify b; ctl filter p > a; ctl filter q > a; "
                     "ctl register p; ctl register q; ctl filter q > b; ctl register q; ctl filter q >> x")
        control = control_lines.through(script_reader.read_script(text))
        desk = log_desk.Desk(script_reader.read_script(text))
        answers = []
        for words in script_reader.read_script(text).lines:
            answers.append(desk.answer(*words))
            if answers[-1] == "ok":
                desk.carry_out(*words)
        self.assertEqual(answers, ["ok", "ok", "ok", "busy a p", "ok", "ok", "no-match"])
        self.assertEqual(control.desk.targets(), desk.targets())
        self.assertEqual(desk.targets(), ["own p", "own q"])

    def test_rings(self):
        script = script_reader.read_script(lines("ftrace 1; func a; ring 1; trigger a:traceoff:1; user t function; cpu 0 quantum 9; task 10 cpu 0"))
        items = [["enter", "10.1", "normal", "a", "-"], ["back", "10.1", "t"], ["back", "10.1", "t"]]
        self.assertEqual(rings_of_log.by_place(script, items), rings_of_log.Rings([[]], [0], [[0]]))


class Limits(unittest.TestCase):
    def test_call_bound(self):
        """The most items of a call: of one user without an act, entry, exit and their ends, beside those of the call itself."""
        self.assertEqual(limits.call_bound(0, 0, limits.VERSION_1), 4)
        self.assertGreater(limits.call_bound(1, 1, limits.VERSION_2), limits.call_bound(1, 1, limits.VERSION_1))


def load_tests(loader, tests, ignore):
    """The examples in docstrings of all modules, too."""
    for found in pkgutil.walk_packages(ftlog.__path__, "ftlog."):
        if ".tests" not in found.name:
            tests.addTests(doctest.DocTestSuite(importlib.import_module(found.name)))
    return tests


if __name__ == "__main__":
    unittest.main()
