"""kernel-notes: each row of the table of differences is a row of docs/KERNEL.md, and each is found in a script that has it."""
import re

from ftlog import given_logs
from ftlog.differing_lines import Finder
from ftlog.kernel_differences import DIFFERENCES, GLOBS, KERNELS
from ftlog.tests import wrong_logs
from ftlog.tests.called import EXAMPLES, Case, ft, lines

PAGE = (EXAMPLES.parent / "docs" / "KERNEL.md").read_text()
TASK = "cpu 0 quantum 9; task 10 cpu 0; after 1; call a; ret; "
# A script for each difference, and the lines that it is found at; `ftrace 1` comes before each.
FOUND = {
    "cancel": ("func a; user p fprobe exit cancel", [3]),
    "profile depth": ("func a; user p profile; ctl maxdepth 1; ctl maxdepth 0", [4]),
    "refused write": ("func a; user t function; ctl filter t > z; ctl filter t >> z; ctl filter t > a", [4]),
    "twice": ("func a; user t function; ctl register t; ctl register t; ctl unregister t; ctl unregister t", [5, 7]),
    "fprobe twice": ("func a; user t fprobe; ctl register t; ctl register t", [5]),
    "no fprobe": ("func a; user t fprobe; ctl unregister t", [4]),
    "octal": ("func a; func b; user t function; ctl filter t > 02; ctl filter t >> !01; ctl filter t > 2", [5, 6]),
    "no number": ("func a; user t function; ctl filter t > 2; ctl notrace t >> 0", [4, 5]),
    "no module": ("func a m; user t function; ctl filter t > *:mod:; ctl filter t > :mod:!", [4, 5]),
    "second colon": ("func a m; user t function; ctl filter t > a:mod:m:n", [4]),
    "missing module": ("func a m; user t function; ctl filter t > *:mod:n; ctl filter t > z:mod:m; ctl filter t > *:mod:m", [4]),
    "unloaded": ("func a m; func b; user t function; ctl unload m; ctl load m; ctl filter t > a; ctl unload m", [8]),
    "load": ("func a m; func b; absent m; user t function regs ipmodify b; user s function regs ipmodify b; ctl filter t > a; "
             "ctl filter s > a; ctl register t; ctl register s; ctl load m", [11]),
    "no regs": ("func a; user t function ipmodify a; ctl register t; ctl filter t > a; ctl register t", [6]),
    "notrace": ("func a; user t function regs ipmodify a; user s function; ctl notrace t > a; ctl notrace s > a", [5]),
    "filters alone": ("func a; func b; func c; user t function regs ipmodify c; user s function regs ipmodify c; ctl filter t > [ab]; "
                      "ctl notrace t > a; ctl filter s > a; ctl register t; ctl register s", [11]),
    "recursion": ("func a; user t function call a; user s function irq a", [3]),
    "missed entry": ("func a; depth 1; user p fprobe exit; " + TASK.replace("ret; ", "call a; ret; ret; "), [4]),
    "refused registration": ("func a; func b; user t function regs ipmodify b; user s function regs ipmodify b; ctl filter t > a; "
                             "ctl filter s > a; ctl register t; ctl register s; ctl filter t >> b", [9]),
    "order of fprobes": ("func a; user p fprobe exit; user q fprobe exit; ctl register p; ctl register q; ctl filter p > a", [6]),
    "block of fprobes": ("func a; func b; user s function; user t function; user p fprobe exit; user q fprobe exit; ctl filter p > b; "
                         "ctl register s; ctl register p; ctl register t; ctl register q; ctl unregister p; ctl register p", [12, 14]),
    "former graph user": ("func a; user g graph; user h graph; ctl register g; ctl unregister g; ctl register h; ctl register h", [7]),
    "former fprobe": ("func a; user p fprobe exit; user q fprobe exit; ctl register p; ctl unregister p; ctl register q; ctl register p; "
                      "ctl unregister p; ctl register p; ctl unregister p; ctl unregister q; ctl register q; ctl register p", [10]),
    "slot 0": ("func a; func b; user g graph; user h graph; ctl filter g > a; ctl filter h > a; ctl register g; ctl register h; "
               "ctl filter h >> b; ctl filter h > b; ctl unregister g; ctl register g", [10]),
    "slot 0 of fprobes": ("func a; func b; user g graph; user p fprobe exit; user q fprobe exit; ctl filter p > a; ctl filter q > b; "
                          "ctl register p; ctl register q; ctl register g; ctl unregister q", [12]),
    "order of graphs": ("func a; user p graph; user q profile; ctl register p; ctl register q", [6]),
    "frames": ("func a; depth 4; user g graph", [3]),
    "page of frames": ("func a; user g graph; cpu 0 quantum 9; task 10 cpu 0; " + "call a; " * 52 + "ret; " * 51 + "ret", [56]),
    "fprobe's frame": ("func a; depth 2; user p fprobe exit; user g graph; ctl maxdepth 1; ctl maxdepth 0", [3, 6]),
    "second graph": ("func a; user p graph; user q profile; ctl register p; ctl register q; ctl unregister p; ctl unregister q; "
                     "ctl register p", [6]),
    "one graph ops": ("func a; user p graph; user q profile; ctl register p; ctl register q", [6]),
    "filter's wait": ("func a; func b; user t function; ctl filter t > a; ctl register t; ctl filter t >; ctl filter t >> a; "
                      "ctl filter t >> b; ctl notrace t > a; ctl notrace t >; ctl filter t > b", [8, 10, 12]),
    "pids' wait": ("func a; user t function pid; " + TASK + "ctl pid 10; ctl register t; ctl nopid 10", [11]),
    "depth's wait": ("func a; user g graph; ctl maxdepth 2; ctl register g; ctl maxdepth 1", [6]),
    "live patches": ("func a; func b; user t function regs ipmodify b; user s function regs ipmodify b; ctl filter t > a; "
                     "ctl filter s > a; ctl register t; ctl register s", [9]),
    "trampoline": ("func a; tramps 0; user t function; ctl register t", [5]),
    "ring": ("func a; ring 9", [3]),
    "full ring": ("func a; ring 9", [3]),
    "probe": ("func a; trigger a:traceoff", [3]),
    "removal": ("func a; trigger !a:traceoff; trigger a:traceoff", [3]),
    "turns": ("func a; trigger a:traceoff; trigger a:traceoff:2", [4]),
    "counts": ("func a; func b; trigger ?:traceoff:2; trigger b:traceoff:2", [4]),
    "count of two": ("func a; trigger a:traceoff:2; cpu 0 quantum 9; cpu 1 quantum 9; task 10 cpu 0; call a; ret; task 11 cpu 1; call a; "
                     "ret", [3]),
    "hit": ("func a; trigger a:traceoff", [3]),
    "any pid": ("func a; user t function; " + TASK + "ctl pid 10; ctl pid 10 11", [10]),
    "disable": ("func a; user p fprobe; ctl disable p; ctl register p; ctl disable p", [6]),
    "class": ("func vfs_read; user t function; ctl filter t > vfs_read[!x]*; ctl filter t > vfs_re[!x]*; ctl filter t > vfs_read?", [4]),
}


def sections():
    """The first cells of the tables of each section of the page, and its text."""
    found = {}
    for part in re.split(r"^## ", PAGE, flags=re.M)[1:]:
        title, _, text = part.partition("\n")
        found[title] = ({line.split("|")[1].strip() for line in text.split("\n") if line.startswith("| ")}, text)
    return found


class KernelNotes(Case):
    """Tests of kernel-notes."""

    def notes(self, script, kernel):
        """What a run with this script writes."""
        path = self.write("x.ft", lines("ftrace 1; " + script))
        status, out, err = ft("kernel-notes", path, "--kernel", kernel)
        self.assertEqual(0, status, err)
        return out

    def test_each_row_is_on_the_page(self):
        found = sections()
        for name, difference in DIFFERENCES.items():
            cells, text = found[difference.section]
            if difference.section == GLOBS:
                self.assertIn(difference.row, text)
            else:
                self.assertIn(difference.row, cells, name)

    def test_each_difference_is_found_at_its_lines_alone(self):
        self.assertEqual(set(DIFFERENCES), set(FOUND))
        for name, (script, wanted) in FOUND.items():
            text, read = given_logs.read_script(self.write("x.ft", lines("ftrace 1; " + script)))
            found = [note.number for note in Finder(read).found() if note.name == name]
            self.assertEqual(wanted, found, name)

    def test_a_kernel_has_its_own_differences(self):
        for name, difference in DIFFERENCES.items():
            for kernel in KERNELS:
                told = f"{kernel}: {difference.there} (KERNEL.md, {difference.section}: {difference.row})"
                self.assertEqual(kernel in difference.kernels, told in self.notes(FOUND[name][0], kernel), name)

    def test_nothing(self):
        self.assertTrue(self.notes("func a; user t function; ctl register t", "6.1").startswith("nothing: 6.1 "))

    def test_many_zeros(self):
        """A number in a filter text may have any number of digits."""
        self.assertIn("the number is 1;", self.notes("func a; user t function; ctl filter t > " + "0" * 5000 + "1", "6.1"))

    def test_answers_are_those_of_the_example(self):
        out = ft("kernel-notes", EXAMPLES / "answers.ft", "--kernel", "6.12")[1]
        self.assertIn("line 11: ctl register tr: here the answer is `already`; 6.12: -EBUSY", out)
        self.assertIn("line 26: ctl register q: here the answer is `busy a p`; 6.12: -EBUSY for two ops too", out)

    def test_each_example(self):
        for path in EXAMPLES.glob("*.ft"):
            for kernel in KERNELS:
                self.assertEqual(0, ft("kernel-notes", path, "--kernel", kernel)[0], path)

    def test_wrong_inputs(self):
        wrong = {what: script for what, script, _ in wrong_logs.WRONG if script not in (wrong_logs.SCRIPT,)}
        more = ["ctl filter t > a:b", "ctl filter t > !", "ctl filter t > a\\b", "ctl filter t > " + "a" * 300, "ctl filter t a",
                "ctl filter t >>", "ctl pid x", "ctl maxdepth", "ctl maxdepth 1 2", "ctl unregister", "ctl frob t", "depth x", "depth",
                "call", "trigger a", "ring x", "user t", "func", "ctl until 10"]
        wrong.update({line[:30]: lines("ftrace 1; func a; user t function; " + line) for line in more})
        for number, (what, script) in enumerate(wrong.items()):
            if what not in ("another task's log", "the log of another script"):
                self.assert_told(what, ft("kernel-notes", self.write(f"{number}.ft", script), "--kernel", "6.1"))
        self.assert_told("another kernel", ft("kernel-notes", EXAMPLES / "graph.ft", "--kernel", "6.6"))
        self.assert_told("a folder", ft("kernel-notes", self.folder, "--kernel", "6.1"))
