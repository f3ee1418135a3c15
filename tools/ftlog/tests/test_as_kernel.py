"""as-kernel: the lines have the shapes of the kernel's seq_printf formats, and say what the other forms say."""
import re

from ftlog import kernel_columns
from ftlog.tests import wrong_logs
from ftlog.tests.called import EXAMPLES, Case, ft, example, lines

NAME = r"[A-Za-z_][\w.]*"
SYMBOL = NAME + r"\+0x[0-9a-f]+/0x[0-9a-f]+"
DURATION = r"(?=[\d.]{1,8} us)\d+(\.\d{1,3})? us +"
# trace_print_context, trace_print_lat_fmt, trace_print_time and print_fn_trace.
FUNCTION = re.compile(rf" {{11}}<\.\.\.>-\d{{1,7}} *\[\d{{3}}\] [.dDbX][.nNp][.shHzZ][.\da-f][.\da-f] [ \d]{{5}}\.\d{{6}}: {NAME} <-{NAME}")
# print_graph_cpu, print_graph_duration, and then an entry, a leaf or a return; verif_pid.
GRAPH = re.compile(rf" \d\) (?: {{14}}\|  (?:  )*{NAME}(?: \[{NAME}\])?\(\) {{|[ $@*#!+] {DURATION}\|  (?:  )*"
                   rf"(?:{NAME}(?: \[{NAME}\])?\(\);|}}(?: /\* {NAME}(?: \[{NAME}\])? \*/)?))")
SWITCH = re.compile(r" -{42}|| \d\) +<\.\.\.>-\d+ +=> +<\.\.\.>-\d+ *")
# function_stat_show.
STAT = re.compile(rf"  {NAME} *(?<=^.{{32}})  [ \d]{{10}}    {DURATION}    {DURATION}    {DURATION}")
# t_show; "subops" and direct calls aren't there.
TARGET = rf"(?: ->{SYMBOL}|\ttramp: 0x0 \({SYMBOL}\) ->{SYMBOL})"
ENABLED = {"6.1": re.compile(rf"{NAME}(?: \[{NAME}\])? \(\d+\)(?: R|  )(?: I|  )  {TARGET}"),
           "6.12": re.compile(rf"{NAME}(?: \[{NAME}\])? \(\d+\)(?: R|  )(?: I|  ) {{4}}(?: M |   ){TARGET}")}


def text(name, file, *others, kernel="6.12"):
    """A file of an example's history."""
    status, out, err = ft("as-kernel", *example(name), "--file", file, "--kernel", kernel, *others)
    assert status == 0, err
    return out


class AsKernel(Case):
    """Tests of as-kernel."""

    answer = staticmethod(ft)

    def examples(self, file, kernel):
        """The file of each example that has one, by the example and the user."""
        for path in sorted(EXAMPLES.glob("*.ft")):
            users = re.findall(r"^user (\w+) (function|graph|profile)", path.read_text(), re.M)
            kinds = {"trace": ("function", "graph"), "trace_stat": ("profile",)}.get(file)
            chosen = [["--user", name] for name, kind in users if kind in kinds] if kinds else [[]]
            for words in chosen if path.stem != "refused" else []:
                status, out, err = ft("as-kernel", *example(path.stem), "--file", file, "--kernel", kernel, *words)
                if status == 0:
                    yield path.stem, out.splitlines()
                else:
                    self.assertIn("one graph user at a time", err)

    def test_shapes_of_traces(self):
        for name, found in self.examples("trace", "6.1"):
            for line in (line for line in found if not line.startswith("#")):
                shapes = [FUNCTION] if "function\n" in found[0] + "\n" else [GRAPH, SWITCH]
                self.assertTrue(any(shape.fullmatch(line) for shape in shapes), f"{name}: {line!r}")

    def test_shapes_of_the_other_files(self):
        for kernel in kernel_columns.KERNELS:
            for name, found in self.examples("enabled_functions", kernel):
                for line in found:
                    self.assertRegex(line, ENABLED[kernel], name)
                    self.assertTrue(ENABLED[kernel].fullmatch(line), f"{name}: {line!r}")
            for name, found in self.examples("trace_stat", kernel):
                for line in (line for line in found if not line.startswith(("  Function ", "  --------"))):
                    self.assertTrue(STAT.fullmatch(line), f"{name}: {line!r}")

    def test_the_function_tracer_says_what_the_form_function_says(self):
        form = [line.split() for line in (EXAMPLES / "contexts.function").read_text().splitlines()[:-1]]
        kernel = [line for line in text("contexts", "trace").splitlines() if not line.startswith("#")]
        self.assertEqual([int(words[3][:-1]) for words in form], [int(line.split(":")[0][-6:]) for line in kernel])
        self.assertEqual([words[4:6] for words in form], [line.split(": ")[1].split() for line in kernel])
        self.assertEqual([".", "s", "H", "Z"], [line.split()[2][2] for line in kernel])

    def test_the_heading_counts_what_the_rings_hold(self):
        self.assertIn("# entries-in-buffer/entries-written: 3/4   #P:1\n", text("ring_stops", "trace"))

    def test_leaves_switches_and_lost_exits(self):
        self.assertIn(" 0)   4.000 us    |    vfs_read();\n 0) + 12.000 us   |  }\n", text("graph", "trace"))
        self.assertIn(" 0)    <...>-11    =>    <...>-10   \n", text("leaf_among_tasks", "trace"))
        self.assertNotIn("}\n", text("unregistered_in_call", "trace"))

    def test_no_tracer(self):
        self.assertTrue(text("missed_exit", "trace").startswith("# tracer: nop\n#\n# entries-in-buffer/entries-written: 0/0   #P:1\n"))

    def test_flags_by_kernel(self):
        self.assertIn("read (2) R I   ->arch_ftrace_ops_list_func", text("ipmodify", "enabled_functions", kernel="6.1"))
        self.assertIn("read (2) R I     M  ->arch_ftrace_ops_list_func", text("ipmodify", "enabled_functions", kernel="6.12"))

    def test_graph_users_are_one_in_6_12(self):
        self.assertIn("sys_0 (1)", text("realistic", "enabled_functions"))
        self.assert_told("two graph users", ft("as-kernel", *example("realistic"), "--file", "enabled_functions", "--kernel", "6.1"))

    def test_profile_of_each_cpu(self):
        script = self.write("x.ft", lines("ftrace 1; func a; func b; user p profile; cpu 0 quantum 9; cpu 1 quantum 9; task 10 cpu 1; "
                                          "call a; ret; ctl register p"))
        log = self.write("x.log", lines("0 begin 1; 1 return 1 ok; 2 enter 10.1 normal a -; 3 back 10.1 p; 4 back-end 10.1 p; "
                                        "5 body 10.1 a own p; 6 leave 10.1; 7 exit 10.1 p 3; 8 exit-end 10.1 p; 9 ret 10.1 -; end"))
        words = ["as-kernel", script, log, "--file", "trace_stat", "--kernel", "6.1", "--cpu"]
        self.assertEqual(2, len(ft(*words, "0")[1].splitlines()))
        line = f"  {'a':30}  {1:10}    4.000 us        4.000 us        0.000 us    \n"
        self.assertIn(line, ft(*words, "1")[1])
        self.assert_told("another CPU", ft(*words, "2"))

    def test_durations_fill_their_column(self):
        wanted = {0: "0.000 us    ", 12_345: "12.345 us   ", 123_456_789: "123456.7 us ", 1_234_567_000: "1234567 us  ",
                  12_345_678_000: "12345678 us "}
        self.assertEqual(list(wanted.values()), [kernel_columns.duration(time) for time in wanted])
        self.assertEqual(" ", kernel_columns.mark(10_000))
        self.assertEqual(list("+!#*@$"), [kernel_columns.mark(10**power + 1) for power in range(4, 10)])

    def test_wrong_inputs(self):
        wrong_logs.check(self, "as-kernel", "--file", "trace", "--kernel", "6.1")
        script, log = example("realistic")
        for words in ["trace", "trace --user nobody", "trace --user fp", "trace --cpu 0", "enabled_functions --user fn",
                      "trace_stat --cpu x", "trace_stat --cpu 9", "trace_stat --user gr", "kprobes"]:
            self.assert_told(words, ft("as-kernel", script, log, "--kernel", "6.1", "--file", *words.split()))
        self.assert_told("no profile", ft("as-kernel", *example("graph"), "--file", "trace_stat", "--kernel", "6.1"))
        self.assert_told("another kernel", ft("as-kernel", script, log, "--file", "trace", "--kernel", "5.10"))
