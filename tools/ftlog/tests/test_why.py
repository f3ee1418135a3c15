"""Tests of `ft why`: each cause, each row of docs/LANGUAGE.md, "Refusals", broken scripts, and wrong inputs."""
import os
import pathlib
import tempfile
import unittest

from ftlog import refusals, runs
from ftlog.checks import check_docs
from ftlog.commands import why
from ftlog.limits import LIMITS, VERSION_1, VERSION_2
from ftlog.make import broken_scripts
from ftlog.script_lines import NUMBER
from ftlog.tests.called import ft, lines, program

PAGE = runs.TOP / "docs" / "LANGUAGE.md"
TASK = "ftrace 1; func a; user t function; cpu 0 quantum 5; task 10 cpu 0"  # 5 lines
BROKEN = 40  # broken scripts that are compared with the program


def repeated(line, count):
    """So many lines of this form, numbered from 0."""
    return "; ".join(line.format(number) for number in range(count))


# Scripts, the first refusal, and what is said of it. These are the questions of the page about `syntax`, in their order.
SYNTAX = [
    # 1. Is it the last line, and does a line feed end it?
    (b"ftrace 1\nfunc a", "line 2: syntax", "the last line isn't ended", "end it with a line feed"),
    (b"ftrace 3", "line 1: syntax", "the last line isn't ended", "end it with a line feed"),
    # 2. Is it in the wrong place?
    ("ftrace 2; func a; user t function; ring 0", "line 4: syntax", "in its place it is refused, too: limit", "put it above line 3, and then: "),
    ("ftrace 2; func a; user t function; trigger a:traceoff:5000000", "line 4: syntax", "too: pattern: the trigger's text"),
    ("ftrace 1; user t function; func a", "line 3: syntax", "in the wrong place",
     "functions come above users, and line 2, `user t function`", "put it above line 2"),
    (f"{TASK}; ctl register t; after 1", "line 7: syntax", "put it above line 6, below the acts of its task"),
    ("ftrace 1; ret", "line 2: syntax", "in the wrong place", "there is none", "below its `task` line"),
    ("ftrace 1; cpu 1 quantum 5", "line 2: syntax", "the number of the next CPU is 0, and it has 1"),
    ("ftrace 1; lane 0; lane 2", "line 3: syntax", "the number of the next lane is 1, and it has 2"),
    ("ftrace 1; depth 4; depth 5", "line 3: syntax", "line 2, `depth 4`, says it already"),
    ("ftrace 1; tramps 4; tramps 4", "line 3: syntax", "line 2, `tramps 4`, says it already"),
    ("ftrace 1; ring 4; ring 5", "line 3: syntax", "line 2, `ring 4`, says it already"),
    ("ftrace 1; tracing off; tracing off", "line 3: syntax", "line 2, `tracing off`, says it already"),
    ("ftrace 1; func a; ftrace 2", "line 3: syntax", "the version is on line 1 alone"),
    (b"ftrace 1\nfunc a\r\nfunc b\r\nfunc c\r\n", "line 2: syntax", "is a carriage return", "so are 2 more lines, down to line 4"),
    (b"ftrace 1\nfunc a\nlog\n0 begin 1\nend\n", "line 3: syntax", "is what ftjudge reads", "so are 2 more lines, down to line 5"),
    ("ftrace 1; ctl maxdepth 1; lane 0", "line 3: syntax", "line 2, `ctl maxdepth 1`, is above it and belongs to no lane",
     "put `lane 0` above line 2"),
    (f"{TASK}; irq; iret; ctl until 10 1; lane 0", "line 9: syntax", "line 8, `ctl until 10 1`, is above it",
     "drop the wait, or the lanes"),
    ("ftrace 1; func e x; absent x; lane 0", "line 4: syntax", "line 3, `absent x`, makes the module x come and go"),
    (f"{TASK}; irq; iret; lane 0; ctl until 10 1", "line 9: syntax", "the script has lanes, from line 8, `lane 0`, on",
     "what waits in such a script is a task"),
    ("ftrace 1; func e x; lane 0; ctl load x", "line 4: syntax", "the script has lanes, from line 3"),
    ("ftrace 1; func e x; lane 0; ctl unload x", "line 4: syntax", "the script has lanes, from line 3"),
    # 3. Does it have a form?
    ("ftrace 1; frob", "line 2: syntax", "no such form", "word 1: no line begins with `frob`"),
    ("ftrace 1; fucn a", "line 2: syntax", "`func` may be meant"),
    ("ftrace 1; ctl", "line 2: syntax", "word 2: the command is missing", "the commands are "),
    ("ftrace 1; ctl regster t", "line 2: syntax", "word 2: `regster` is no command", "`register` may be meant"),
    ("ftrace 1; func", "line 2: syntax", "word 2: the function's name is missing", "the form is `func NAME` or `func NAME MODULE`"),
    ("ftrace 1; func a b c", "line 2: syntax", "word 4: `c` is one word too many"),
    ("ftrace 1; func a # b", "line 2: syntax", "word 3, `#`: a comment stands at the end of the line"),
    ("ftrace 1; func 1a", "line 2: syntax", "word 2: `1a` is no name", "begin the name with a letter"),
    ("ftrace 1; func a m/n", "line 2: syntax", "word 3: `m/n` is no name", "a name has letters, digits"),
    ("ftrace 1; depth x", "line 2: syntax", "word 2: `x` is no number", "write digits alone"),
    ("ftrace 1; cpu 0 quantum +5", "line 2: syntax", "word 4: `+5` is no number", "a number has no sign"),
    ("ftrace 1; cpu 0 quantum 00000000005", "line 2: syntax", "a number has at most 10 digits"),
    ("ftrace 1; cpu 0 quant 5", "line 2: syntax", "word 3: `quant` stands in the place of `quantum`", "the form is `cpu N quantum Q`"),
    ("ftrace 1; task 10", "line 2: syntax", "word 3: `cpu` is missing", "the form is `task PID cpu N`"),
    ("ftrace 1; tracing on", "line 2: syntax", "there is no `tracing on`"),
    ("ftrace 1; trigger a traceoff", "line 2: syntax", "write `a:traceoff`"),
    ("ftrace 1; user t", "line 2: syntax", "word 3: the kind is missing", "the kinds are `function`"),
    ("ftrace 1; user t func", "line 2: syntax", "`func` is no kind of user"),
    ("ftrace 1; user t function pid regs", "line 2: syntax", "word 5: `regs` is in the wrong place", "the options are in the order"),
    ("ftrace 1; user t fprobe cancel", "line 2: syntax", "write `fprobe exit cancel`"),
    ("ftrace 1; user t fprobe pid exit", "line 2: syntax", "write `fprobe exit`"),
    ("ftrace 1; user t graph ipmodify a", "line 2: syntax", "`ipmodify` goes with the kind `function` alone"),
    ("ftrace 1; user t function ipmodify", "line 2: syntax", "the function that is put in the place of others is missing"),
    ("ftrace 1; user t function call", "line 2: syntax", "the function that each callback calls is missing"),
    (f"{TASK}; irq a", "line 6: syntax", "the form is `irq`"),
    (f"{TASK}; ctl filter t >a", "line 6: syntax", "write a blank after `>`"),
    (f"{TASK}; ctl notrace t >>a", "line 6: syntax", "write a blank after `>>`"),
    (f"{TASK}; ctl filter t >>", "line 6: syntax", "`>>` needs a text"),
    (f"{TASK}; ctl filter t a", "line 6: syntax", "`a` stands in the place of `>` or `>>`"),
    (f"{TASK}; ctl filter t", "line 6: syntax", "`>` or `>>` is missing"),
    (f"{TASK}; ctl filter t > a b", "line 6: syntax", "there is one text a line", "with `>> b`"),
    (f"{TASK}; ctl register t t", "line 6: syntax", "the form is `ctl register U`"),
    (f"{TASK}; ctl pid 10 x", "line 6: syntax", "the form is `ctl pid PID ..`"),
    (f"{TASK}; ctl until 10", "line 6: syntax", "how many acts is missing"),
    ("ftrace 1; sched", "line 2: syntax", "an item is missing"),
    ("ftrace 1; sched k * 2", "line 2: syntax", "word 3, `*`: an item has no blanks"),
    ("ftrace 1; sched k *2", "line 2: syntax", "doesn't say whose turns they are"),
    ("ftrace 1; sched 8", "line 2: syntax", "`8` is no actor"),
    ("ftrace 1; sched k*x", "line 2: syntax", "what follows the `*` in `k*x` is no number"),
    # 4. Does it hold a byte outside `!` to `~`?
    ("ftrace 1; func a\r", "line 2: syntax", "byte 7 of the line, 13", "a carriage return", "end lines with a line feed alone"),
    (b"ftrace 1\nfunc\xc2\xa0a\n", "line 2: syntax", "byte 5 of the line, 194"),
    ("ftrace 1; func a\x0b", "line 2: syntax", "byte 7 of the line, 11"),
]

OTHERS = [
    # version
    (b"", "line 1: version", "the script is empty"),
    ("ftrace 4", "line 1: version", "write `ftrace 1`, `ftrace 2` or `ftrace 3`"),
    ("# x; ftrace 1", "line 1: version", "line 2, `ftrace 1`, is below it", "make line 2 line 1"),
    ("; func a", "line 1: version", "line 1 is a blank line"),
    ("ftrace 1\r; func a", "line 1: version", "a carriage return"),
    # limit, in the order of the page's table
    (f"ftrace 1; sched k*{NUMBER + 1}", "line 2: limit", f"and the most is {NUMBER:,}"),
    (f"ftrace 1; func {'n' * 64}", "line 2: limit", "has 64 bytes, and the most is 63"),
    (f"ftrace 1; func a {'n' * 64}", "line 2: limit", "has 64 bytes"),
    (f"ftrace 1; ctl register {'n' * 64}", "line 2: limit", "has 64 bytes"),
    (f"ftrace 1; {repeated('func f{}', VERSION_1.funcs + 3)}", "line 1026: limit", "1,024 functions above it",
     "from version 2 on 4,096 are allowed", "so are 2 more lines, down to line 1028"),
    (f"ftrace 2; {repeated('func f{}', VERSION_2.funcs + 1)}", "line 4098: limit", "4,096 functions above it", "fix: drop some"),
    (f"ftrace 1; {repeated('user u{} graph', 17)}", "line 18: limit", "16 users above it"),
    (f"ftrace 1; {repeated('cpu {} quantum 5', 9)}", "line 10: limit", f"{LIMITS['CPUS']} CPUs above it"),
    (f"ftrace 1; cpu 0 quantum 5; {repeated('task 2{} cpu 0', 65)}", "line 67: limit", f"{LIMITS['TASKS']} tasks above it"),
    ("ftrace 1; cpu 0 quantum 0", "line 2: limit", "the quantum is 0, and the least is 1", "use 1 to 1,000,000"),
    ("ftrace 1; cpu 0 quantum 5; task 4194305 cpu 0", "line 3: limit", "the pid is 4,194,305, and the most is 4,194,304"),
    ("ftrace 1; ctl pid 0", "line 2: limit", "the pid is 0"),
    (f"{TASK}; after 0", "line 6: limit", "nothing is waited for"),
    (f"{TASK}; irq; iret; ctl until 10 0", "line 8: limit", "the number of acts is 0"),
    (f"{TASK}; {'; '.join(['call a; ret'] * 10_000)}; after 1", "line 20006: limit", "20,000 acts above it"),
    (f"{TASK}; {'; '.join(['call a'] * 513 + ['ret'] * 513)}", "line 518: limit", "512 open calls of this task above it"),
    (f"{TASK}; {'; '.join(['ctl pid'] * 1_025)}", "line 1030: limit", "1,024 commands above it"),
    ("ftrace 1; func e x; " + repeated("user u{} graph", 16) + "; " + "; ".join(["ctl unload x; ctl load x"] * 31), "line 79: limit",
     "with its commands there are 1,037"),
    (f"{TASK}; irq; iret; {'; '.join(['ctl until 10 1'] * 1_025)}", "line 1032: limit", "1,024 waits of control above it"),
    (f"ftrace 1; {repeated('lane {}', 9)}", "line 10: limit", "8 lanes above it", "put the commands of two tools into one lane"),
    ("ftrace 1; sched k*0", "line 2: limit", "the count of `k*0` is 0", "drop the item"),
    ("ftrace 1; cpu 0 quantum 5; sched all*2000000; sched k", "line 4: limit", "4,000,000 above it, 1 in it, and the most is 4,000,000"),
    ("ftrace 1; cpu 0 quantum 5; sched all*2000001", "line 3: limit", "a count of `all` is 2 steps"),
    ("ftrace 1; depth 0", "line 2: limit", "the number of frames is 0", "use 1 to 64"),
    ("ftrace 1; ctl maxdepth 513", "line 2: limit", "the depth is 513, and the most is 512"),
    ("ftrace 1; tramps 17", "line 2: limit", "in version 1 the number of slots is 17, and the most is 16"),
    ("ftrace 2; tramps 65", "line 2: limit", "in version 2 the number of slots is 65, and the most is 64"),
    ("ftrace 1; ring 65537", "line 2: limit", "the number of entries is 65,537"),
    (f"ftrace 1; {'; '.join(['trigger a:traceon'] * 9)}", "line 10: limit", "8 triggers above it", "one glob can match several functions"),
    (f"ftrace 1; func a; {repeated('user u{} graph irq a', 16)}; cpu 0 quantum 5; task 10 cpu 0; {'; '.join(['call a; ret'] * 611)}",
     "line 1241: limit",
     "it is call 611, each of which can make 6,548 items with 16 users", "make at most 610 calls"),
    # duplicate
    ("ftrace 1; func a; func a x", "line 3: duplicate", "there is a function a already: line 2, `func a`"),
    ("ftrace 1; user t graph; user t function", "line 3: duplicate", "there is a user t already: line 2, `user t graph`"),
    (f"{TASK}; task 10 cpu 0", "line 6: duplicate", "there is a task with the pid 10 already: line 5"),
    ("ftrace 1; func e x; absent x; absent x", "line 4: duplicate", "there is an absent module x already: line 3", "say it once"),
    # unknown
    (f"{TASK}; call b; ret", "line 6: unknown", "no function b is declared above", "by `func b` above the users and CPUs"),
    ("ftrace 1; func ext3_read; cpu 0 quantum 5; task 10 cpu 0; call ext3_raed", "line 5: unknown", "`ext3_read` may be meant; or"),
    (f"{TASK}; call t; ret", "line 6: unknown", "t is a user, and no function"),
    (f"{TASK}; ctl register a", "line 6: unknown", "no user a is declared above", "a is a function, and no user"),
    (f"{TASK}; ctl pid 10 11", "line 6: unknown", "no task with the pid 11 is declared above", "name a task that there is: 10"),
    (f"{TASK}; ctl until 11 1", "line 6: unknown", "no task with the pid 11"),
    ("ftrace 1; cpu 0 quantum 5; task 10 cpu 1", "line 3: unknown", "no CPU 1 is declared above", "a CPU that there is: 0"),
    ("ftrace 1; sched 0", "line 2: unknown", "no CPU 0"),
    ("ftrace 1; func a; ctl load x", "line 3: unknown", "no function in a module x is declared above"),
    ("ftrace 1; absent x", "line 2: unknown", "no function in a module x"),
    ("ftrace 1; user t function regs ipmodify b", "line 2: unknown", "no function b"),
    ("ftrace 1; user t function irq b", "line 2: unknown", "no function b"),
    # pattern
    (f"{TASK}; ctl filter t > a:b", "line 6: pattern", "the filter text `a:b`: after the first `:` comes `b`",
     "only `mod:MODULE` may come"),
    (f"{TASK}; ctl filter t > a:mod:b:c", "line 6: pattern", "there is a third `:`"),
    (f"{TASK}; ctl filter t > *:mod:", "line 6: pattern", "no module is named after `:mod:`"),
    (f"{TASK}; ctl filter t > 0", "line 6: pattern", "functions are counted from 1"),
    (f"{TASK}; ctl filter t > 2", "line 6: pattern", "there is no function 2: the script has 1 function"),
    (f"{TASK}; ctl filter t > !", "line 6: pattern", "nothing after the `!`"),
    (f"{TASK}; ctl filter t > a\\b", "line 6: pattern", "the glob has a backslash"),
    (f"{TASK}; ctl filter t > {'x' * 256}", "line 6: pattern", "the glob has 256 bytes, and the limit is 255"),
    (f"{TASK}; ctl filter t > *:mod:{'x' * 256}", "line 6: pattern", "the module's glob has 256 bytes"),
    ("ftrace 1; trigger a", "line 2: pattern", "it doesn't say what a call does", "as `a:traceoff`"),
    ("ftrace 1; trigger a:stacktrace", "line 2: pattern", "`stacktrace` stands where `traceon` or `traceoff` is needed"),
    ("ftrace 1; trigger :traceon", "line 2: pattern", "the glob before the `:` is empty"),
    ("ftrace 1; trigger a:traceon:", "line 2: pattern", "the count after the second `:` is missing"),
    ("ftrace 1; trigger a:traceon:0", "line 2: pattern", "the count 0 isn't 1 to 1,000,000"),
    ("ftrace 1; trigger a:traceon:00000001", "line 2: pattern", "has 8 digits"),
    ("ftrace 1; trigger *:mod:x:traceoff", "line 2: pattern", "a trigger names no module"),
    # unbalanced
    (f"{TASK}; ret", "line 6: unbalanced", "no call is open", "open in this task: nothing"),
    (f"{TASK}; call a; irq; ret; iret; ret", "line 8: unbalanced", "no call is open in the context irq",
     "open in this task: line 6, `call a`; line 7, `irq`"),
    (f"{TASK}; iret", "line 6: unbalanced", "no interrupt is under way"),
    (f"{TASK}; irq; call a; iret; ret", "line 8: unbalanced", "a call is still open in the context irq", "put 1 `ret` above it"),
    (f"{TASK}; irq; softirq; iret; iret", "line 7: unbalanced", "the task is in the context irq, and softirq isn't above it"),
    (f"{TASK}; call a; call a; ret", "line 8: unbalanced", "it is the last act of its task", "line 6, `call a`", "add `ret` below it"),
    (f"{TASK}; call a; irq", "line 7: unbalanced", "line 6, `call a`; line 7, `irq`", "add `iret` and `ret` below it"),
    # deadlock
    (f"{TASK}; after 1", "line 6: deadlock", "it waits for command 1, and there are no commands"),
    (f"{TASK}; after 3; ctl pid; ctl register t", "line 6: deadlock",
     "it waits for command 3, and there are 2 commands, the last on line 8, `ctl register t`", "`after 2` at most"),
    (f"{TASK}; after 1; ctl until 10 1; ctl register t", "line 6: deadlock", "it waits for command 1, on line 8, `ctl register t`",
     "control is held up above that, by line 7, `ctl until 10 1`", "line 7 waits for act 1 of task 10, on line 6, `after 1`",
     "put line 8 above line 7"),
    (f"{TASK}; call a; ret; ctl until 10 3", "line 8: deadlock",
     "line 8 waits for act 3 of task 10, which has 2 acts, the last on line 7, `ret`", "`ctl until 10 2`"),
    (f"{TASK}; after 2; lane 0; ctl pid", "line 6: deadlock", "it waits for command 2, and there is 1 command"),
    ("ftrace 1; cpu 0 quantum 5; task 10 cpu 0; after 1; task 11 cpu 0; after 2; ctl until 11 1; ctl pid; ctl pid", "line 4: deadlock",
     "line 7 waits for act 1 of task 11, on line 6, `after 2`"),
    # unloaded
    ("ftrace 1; func e x; absent x; cpu 0 quantum 5; task 10 cpu 0; after 1; call e; ret; ctl maxdepth 1; ctl load x", "line 7: unloaded",
     "e lies in the module x", "it may begin once command 1, on line 9, `ctl maxdepth 1`, has returned",
     "`after 2` above the call: command 2, on line 10, `ctl load x`, loads it"),
    ("ftrace 1; func e x; cpu 0 quantum 5; task 10 cpu 0; call e; ret; ctl unload x", "line 5: unloaded", "no `after` is above it",
     "no `ctl until` waits for its `ret`",
     "`ctl until 10 2` above line 7"),
    ("ftrace 1; func e x; absent x; cpu 0 quantum 5; task 10 cpu 0; call e; ret", "line 6: unloaded",
     "before the first command x isn't loaded", "`ctl load x`, and an `after`"),
    ("ftrace 1; func e x; user t function call e; ctl unload x", "line 3: unloaded", "nothing in a script says when a callback needs it"),
    ("ftrace 1; func e x; user t function regs ipmodify e; absent x", "line 4: syntax", "in the wrong place"),
]

# Scripts with several mistakes, and the heads of all refusals.
ALL = [
    ("ftrace 1; func a; func a; frob; cpu 1 quantum 5; task 10 cpu 1; call b; ret; ret; ctl filter t >a",
     ["3: duplicate", "4: syntax", "5: syntax", "7: unknown", "9: unbalanced", "10: syntax"]),
    (f"{TASK}; after 2; call a; ret; after 3; after 4; ctl until 10 4; ctl pid; ctl pid; ctl pid",
     ["6: deadlock", "9: deadlock", "10: deadlock"]),
    ("ftrace 1; func a b c; user t function call a; user t; cpu 0 quantum 5; task x cpu 0; call a; ret; ctl register t; ctl pid x",
     ["2: syntax", "4: syntax", "6: syntax", "10: syntax"]),
    ("ftrace 1; cpu 0 quantum 0; cpu 1 quantum 0; task 10 cpu 1; after 1; task 0 cpu 0; sched 1*0",
     ["2: limit", "3: limit", "6: limit", "7: limit", "5: deadlock"]),
    ("ftrace 1; cpu 1 quantum 5; cpu 2 quantum 5; task 10 cpu 2; lane 1; lane 2", ["2: syntax", "5: syntax"]),
    ("# x; ftrace 2; func 1", ["1: version", "3: syntax"]),
    (f"{TASK}; irq; call a; iret; ret; call b; ret", ["8: unbalanced", "10: unknown"]),
    ("ftrace 1; func e x; user t function call e; cpu 0 quantum 5; task 10 cpu 0; call e; ret; after 3; ctl unload x",
     ["8: deadlock", "3: unloaded", "6: unloaded"]),
    (b"ftrace 1\nfunc a\nfunc a", ["3: syntax", "3: duplicate"]),
]


def text_of(script):
    return script if isinstance(script, bytes) else lines(script)


def heads(text):
    """The heads of all refusals of a script."""
    return [why.head_of(one) for one in refusals.all_of(text).kept]


def without_program(*words, **how):
    return ft("why", "--program", "/no/such/program", *words, **how)


class Causes(unittest.TestCase):
    def require(self, script, head, *phrases):
        came = without_program(text=text_of(script))
        first = came.out.partition("\nline ")[0]
        self.assertEqual((came.status, first.splitlines()[0].split(",")[0]), (1, head))
        for phrase in phrases:
            self.assertIn(phrase, first)
        self.assertIn("    fix: ", first)

    def test_each_question_about_syntax(self):
        for script, *wanted in SYNTAX:
            with self.subTest(str(script)[:90]):
                self.require(script, *wanted)

    def test_each_other_cause(self):
        for script, *wanted in OTHERS:
            with self.subTest(str(script)[:90]):
                self.require(script, *wanted)

    def test_all_refusals_of_a_script(self):
        for script, wanted in ALL:
            with self.subTest(str(script)[:90]):
                self.assertEqual(heads(text_of(script)), [f"line {head}" for head in wanted])

    def test_each_row_of_the_page(self):
        rows = [(number, *map(check_docs.text_of, cells[:2])) for number, head,
                cells in check_docs.table_rows(PAGE.read_text()) if head[:2] == ["script", "prints"]]
        rows = [(number, script, printed.decode().strip()) for number, script, printed in rows if script is not None]
        self.assertGreater(sum(printed.startswith("line ") for _, _, printed in rows), 80)
        for number, script, printed in rows:
            with self.subTest(number):
                self.assertEqual(heads(script)[:1], [printed] if printed.startswith("line ") else [])

    def test_examples(self):
        for path in sorted((runs.TOP / "examples").glob("*.ft")):
            with self.subTest(path.name):
                wanted = path.with_suffix(".log").read_text().strip()
                self.assertEqual(heads(path.read_bytes())[:1], [wanted] if wanted.startswith("line ") else [])


@unittest.skipUnless(runs.PROGRAM.is_file(), "there is no program")
class Program(unittest.TestCase):
    def test_broken_scripts(self):
        for seed in range(1, BROKEN + 1):
            with self.subTest(seed):
                text = broken_scripts.script(seed)
                self.assertEqual((heads(text) or [why.ACCEPTED])[0], why.answer_of(runs.PROGRAM, text))

    def test_the_cases_of_this_file(self):
        for script, head, *_ in SYNTAX + OTHERS:
            with self.subTest(str(script)[:90]):
                self.assertEqual(why.answer_of(runs.PROGRAM, text_of(script)), head)


class Printed(unittest.TestCase):
    def test_accepted(self):
        came = without_program(text=lines(f"{TASK}; call a; ret"))
        self.assertEqual((came.status, came.out), (0, "accepted\n"))
        self.assertIn("not compared with the program", came.err)

    def test_waits_come_last(self):
        came = without_program(text=lines(f"{TASK}; after 1; ctl filter t >a; ctl until 10 1; ctl pid"))
        self.assertNotIn("once no line", came.out)
        came = without_program(text=lines(f"{TASK}; after 3; ctl filter t >a"))
        self.assertIn("fix: write a blank after `>`\nonce no line has another cause:\nline 6: deadlock\n", came.out)

    def test_most(self):
        came = without_program("--most", 2, text=lines(f"ftrace 1; {repeated('x{}', 9)}"))
        self.assertEqual(came.out.count("syntax"), 2)
        self.assertTrue(came.out.endswith("and 7 more; --most N tells more of them\n"))

    def test_odd_scripts_are_refused_in_words(self):
        odd = [b"\x00", b"\xff\xfe\n", b"\n", b"\n\n", b"#", b" \t \n", "ftrace 1\n".encode("utf-16"), b"\xef\xbb\xbfftrace 1\n",
               b"ftrace 1\r\nfunc a\r\n", b"ftrace  \n", b"ftrace 1 1\n"]
        odd += [b"ftrace 1\n" + b"9" * 5_000 + b"\n", b"ftrace 1\ndepth " + b"9" * 10 + b"\n",
                b"ftrace 1\nctl filter t > " + b"9" * 5_000 + b"\n", b"ftrace 1\nsched " + b"k" * 9_000 + b"\n"]
        odd += [b"ftrace 1\n" + b"ret\n" * 900, b"ftrace 1\n" + b"task 1 cpu 0\n" * 900, b"ftrace 1\n" + bytes(range(256)) + b"\n",
                b"ftrace 1\nfunc a\x00b\n", b"ftrace 2\nctl pid " + b"0 " * 900 + b"\n"]
        for text in odd + [b"ftrace 1\nuser t function irq irq irq\nctl load t\nlane 7\n",
                           b"ftrace 1\ncall a\niret\nnmi\nctl until 4294967295 4294967295\n"]:
            with self.subTest(text[:40]):
                came = without_program(text=text)
                self.assertEqual(came.status, 1)
                self.assertRegex(came.out, r"\Aline [0-9]+: [a-z]+")
                self.assertTrue(came.out.isascii())


class Wrong(unittest.TestCase):
    def require_fault(self, came, *parts):
        self.assertEqual((came.status, came.out), (2, ""), came)
        self.assertRegex(came.err, r"\Aft why: [^\n]+\n\Z")
        for part in parts:
            self.assertIn(part, came.err)

    def test_wrong_files(self):
        with tempfile.TemporaryDirectory() as room:
            loop = pathlib.Path(room) / "loop"
            os.symlink(loop, loop)
            large = pathlib.Path(room) / "large"
            large.write_bytes(b"\n" * (LIMITS["INPUT_BYTES"] + 1))
            for name, part in [("/no/such", "No such file"), ("/", "Is a directory"), (room, "Is a directory"),
                               (__file__ + "/x", "Not a directory"), ("x" * 300, "name too long"),
                               ("", "No such file"), (loop, "symbolic links"), ("\udcff", "No such file"), (large, "16,777,217 bytes")]:
                with self.subTest(str(name)[:20]):
                    self.require_fault(without_program(name), part)

    def test_wrong_numbers(self):
        for number in (0, -1, -10**30):
            self.require_fault(without_program("--most", number, text=b"ftrace 1\n"), "--most needs a number above 0")

    def test_programs_that_differ(self):
        with tempfile.TemporaryDirectory() as room:
            for number, (body, part) in enumerate([
                    ("echo 'line 2: syntax'; exit 3", "the program says `line 2: syntax`, and this tool `line 3: syntax`"),
                                                   ("echo 'line 3: limit'; exit 3", "the program says `line 3: limit`"),
                    ("echo end", "the program says `accepted`"), ("exit 3", "the status 3"), ("echo 'line x'; exit 3", "the status 3"),
                                                   ("exit 2", "the status 2"), ("exit 6", "the status 6"),
                    ("echo end; exit 4", "the status 4"), ("kill -9 $$", "the status -9")]):
                with self.subTest(body):
                    path = program(room, f"cat > /dev/null; {body}", f"p{number}")
                    self.require_fault(ft("why", "--program", path, text=lines("ftrace 1; func a; frob")), part)
            path = program(room, "cat > /dev/null; echo 'line 2: syntax'; exit 3")
            self.require_fault(ft("why", "--program", path, text=lines("ftrace 1; func a")),
                               "the program says `line 2: syntax`, and this tool `accepted`")
            path.write_bytes(b"\0")
            self.require_fault(ft("why", "--program", path, text=lines("ftrace 1; func a")), "gave no answer to compare with")

    def test_wrong_words(self):
        for words in (["--most"], ["--most", "x"], ["--mos", "3"], ["--frob"], ["a", "b"], ["--program"]):
            came = ft("why", *words)
            self.assertEqual((came.status, came.out), (2, ""))


if __name__ == "__main__":
    unittest.main()
