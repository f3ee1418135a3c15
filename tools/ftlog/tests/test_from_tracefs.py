"""Tests of tools/ft from-tracefs: worked cases, what texts select, a long list, and wrong inputs."""
import contextlib
import io
import os
import pathlib
import random
import tempfile
import time
import unittest

from ftlog import filter_texts, runs, script_reader, shell_commands, tracefs_script, tracefs_state, tracefs_writes
from ftlog.tests.called import ft

CASES = pathlib.Path(__file__).with_name("from_tracefs.txt")
LIST = b"ksys_read\nvfs_read\nvfs_write\next4_read [ext4]\next4_write [ext4]\nsched_fork\n"


def cases():
    """Each case: what it is about, the shell's text, the script, and what is told."""
    for part in CASES.read_text().split("\n= ")[1:]:
        what, *lines = part.strip("\n").split("\n")
        of = {mark: [line[2:] for line in lines if line.startswith(mark + " ")] for mark in "$!"}
        script = [line for line in lines if line[:2] not in ("$ ", "! ")]
        yield what, "".join(line + "\n" for line in of["$"]), "".join(line + "\n" for line in script), of["!"]


def written(shell, functions=LIST, **how):
    """The script of a shell's text, and what is told of its lines and of the list."""
    listed = filter_texts.read_list("list", functions)
    writer = tracefs_script.Writer(tracefs_state.State(listed, tracefs_writes.events(shell, listed)), **how)
    text = writer.text()
    told = sorted(dict.fromkeys(writer.told))
    return text, [f"line {line}: {tracefs_script.one_line(why)}" for line, why in told], writer.kept.told


def controls(shell, functions=LIST):
    """The commands of the script of a shell's text."""
    return [line[4:] for line in written(shell, functions)[0].split("\n") if line.startswith("ctl ")]


def replayed(script, form="log"):
    """What the program prints for a script; None if there is no program."""
    if not os.access(runs.PROGRAM, os.X_OK):
        return None
    return runs.answer([runs.PROGRAM, "replay", "--print", form], script.encode())


class Cases(unittest.TestCase):
    def test_worked(self):
        for what, shell, script, told in cases():
            with self.subTest(what):
                self.assertEqual(written(shell), (script, told, []))

    def test_there_are_enough(self):
        found = [shell for _, shell, _, _ in cases()]
        for tool, least in (("trace-cmd", 2), ("perf", 2), ("echo", 12)):
            self.assertGreaterEqual(sum(tool + " " in shell for shell in found), least)

    def test_replayed(self):
        for what, _, script, _ in cases():
            came = replayed(script)
            if came is None:
                self.skipTest("there is no program")
            with self.subTest(what):
                self.assertEqual((came.status, came.out.splitlines()[-1:]), (0, [b"end"]))

    def test_enabled(self):
        """In the end there are as many users at each function as the lists and tracers of the kernel select."""
        rng = random.Random(6)
        for _ in range(30):
            shell = random_shell(rng)
            state, text = kernel_and_script(shell)
            came = replayed(text, "enabled")
            if came is None:
                self.skipTest("there is no program")
            users = list(traced(state).values())
            names = [function.name for function in script_reader.read_script(text.encode()).functions]
            wanted = {name: sum(name in own for own in users) for name in names if any(name in own for own in users)}
            lines = [line.split() for line in came.out.decode().splitlines()[:-1]]
            self.assertEqual({words[0]: int(words[1].strip("()")) for words in lines}, wanted, shell)


def kernel_and_script(shell):
    """What the lists of the kernel are after a shell's text, with the list of NAMES, and the script."""
    functions = "".join(f"{name}{' [ext4]' if name.startswith('ext4') else ''}\n" for name in NAMES)
    listed = filter_texts.read_list("list", functions.encode())
    state = tracefs_state.State(listed, tracefs_writes.events(shell, listed))
    return state, tracefs_script.Writer(state).text()


def traced(state):
    """The names of the functions that each user traces that is registered."""
    found = {}
    for it in state.instances.values():
        chosen = (it.sets["filter"] or set(range(len(NAMES)))) - it.sets["notrace"]
        for kind in [it.tracer] * (it.tracer is not None) + ["pr"] * it.is_profiling:
            found[it.users[kind]] = {NAMES[number] for number in chosen}
    return found


def random_shell(rng):
    """Random writes of filters and tracers, of the top and of an instance."""
    lines = []
    for _ in range(rng.randint(3, 12)):
        where, kind = rng.choice(["", "", "instances/a/"]), rng.random()
        if kind < 0.6:
            lines.append(f"echo '{text(rng)} {text(rng)}' {rng.choice(['>', '>>'])} {where}set_ftrace_{rng.choice(LISTS)}")
        elif kind < 0.9:
            lines.append(f"echo {rng.choice(['function', 'function', 'function_graph', 'nop'])} > {where}current_tracer")
        else:
            lines.append(rng.choice(["sleep 1", f"echo {rng.choice('01')} > function_profile_enabled"]))
    return "\n".join(lines)


ENDS = [end + more for end in ("read", "write", "open", "lock") for more in ("", "_a", "_b", ".cold")]
NAMES = sorted(f"{front}_{end}" for front in ("vfs", "ext4", "do") for end in ENDS)
LISTS = ["filter", "filter", "notrace"]
TEXTS = ["vfs_*", "*read*", "*:mod:ext4", "*_[a-l]*", "do_?????", "*:mod:!ext4", "[!v]*lock", "*.cold", "vfs_read", "ext4*_b", "*o*"]


def text(rng):
    """A random filter text."""
    return rng.choice(["", "", "!"]) + rng.choice(TEXTS)


class Globs(unittest.TestCase):
    def test_lists_alone(self):
        """Without a tracer there is a user that isn't registered."""
        script = written("echo 'vfs_*' > set_ftrace_filter")[0]
        self.assertIn("# no line sets a tracer, so fn isn't registered\nuser fn function\n", script)

    def test_invalid_addresses(self):
        """Their lines count, and no text selects them."""
        functions = b"__ftrace_invalid_address___12\nvfs_read\n"
        found = controls("echo '*' > set_ftrace_filter; echo 2 >> set_ftrace_filter", functions)
        self.assertEqual(found, ["filter fn > *", "filter fn >> vfs_read"])
        self.assertEqual(controls("echo 1 > set_ftrace_filter; echo function > current_tracer", functions), ["register fn"])


class Shells(unittest.TestCase):
    def test_words(self):
        for shell, wanted in [
            ("echo a  b", ["a", "b"]),
            ("echo 'a  b'\"c\"\\ d", ["a  bc d"]),
            ("A='x y'; echo $A \"$A\"", ["x", "y", "x y"]),
            ("echo ${A:-d}e", ["de"]),
            ("echo a#b # c", ["a#b"]),
            ("echo a\\\nb", ["ab"]),
            ("echo $'a\\tb'", ["a\tb"]),
            ("echo \"a$(b \"c\")\"", ["a\0$(b \"c\")\0"]),
            ("! echo a", ["a"]),
            ("A= echo ''", [""]),
            ("A=1; A=2 x; A+=3; echo $A", ["13"]),
            ("A=1; if x; then A=2; fi; echo $A", ["\0$A\0"]),
            ("A=1; [ x ] && A=2; echo $A", ["\0$A\0"]),
            ("A=1; read A; echo $A", ["\0$A\0"]),
            ("if x; then for a in b c; do :; done; fi; echo $a", ["\0$a\0"]),
        ]:
            with self.subTest(shell):
                self.assertEqual(list(shell_commands.commands(shell))[-1].words, ["echo", *wanted])

    def test_printed(self):
        rows = [("a\\nb", [], "a\nb"), ("%s\\n", ["a", "b"], "a\nb\n"), ("%d%%", [], "%"), ("%b", ["a\\n"], "a\n"), ("--", ["x"], "x")]
        for form, words, wanted in rows:
            self.assertEqual(tracefs_writes.printed([form, *words]), wanted)
        self.assertEqual(tracefs_writes.printed([]), "")
        self.assertEqual(tracefs_writes.printed(["\\0\\101\\x42\\x00"]), "AB")

    def test_places(self):
        for shell, wanted in [
            ("cd /tmp; echo 1 > tracing_on", []), ("echo 1 > /tmp/tracing_on", []), ("cd $X; echo 0 > tracing_on", ["", "tracing_on"]),
            ("cd instances/a; cd ..; echo 0 > b/tracing_on", ["b", "tracing_on"]),
            ("echo 0 > $X/instances/a/tracing_on", ["a", "tracing_on"]),
            ("cd /sys/kernel/debug; cd tracing; cd /; cd -; echo 0 >| tracing_on", ["", "tracing_on"]), ("echo x > out.txt", []),
        ]:
            with self.subTest(shell):
                found = [event for event in tracefs_writes.events(shell, None) if isinstance(event, tracefs_writes.Write)]
                self.assertEqual([part for event in found for part in event[1:3]], wanted)

    def test_not_known(self):
        for shell in [
            "cat x > set_ftrace_filter",
            "echo $1 > set_ftrace_filter",
            "echo $(f) > current_tracer",
            "f() { echo nop > current_tracer; }",
            "false || echo nop > current_tracer",
            "while true; do echo 1 > tracing_on; done",
            "case $1 in a) echo 0 > tracing_on;; esac",
            "for i; do echo $i > set_ftrace_filter; done",
            "echo 0 > /proc/sys/kernel/ftrace_enabled",
            "rmmod xfs",
            "if true; then modprobe ext4; fi",
            "[ -f x ] && echo nop > current_tracer",
            "grep -c read available_filter_functions > set_ftrace_filter",
            "grep -E '(' available_filter_functions > set_ftrace_filter",
        ]:
            with self.subTest(shell):
                self.assertEqual(len(written(shell)[1]), 1)


    def test_choices(self):
        """A tracer that is set within `if` isn't known; a folder that isn't is taken for tracefs."""
        script, told, _ = written("t=function\nif [ -n \"$1\" ]; then t=function_graph; fi\necho $t > current_tracer")
        self.assertEqual((script, told), ("ftrace 1\n", ["line 3: current_tracer: $t isn't known"]))
        shell = "if [ -d /sys/kernel/tracing ]; then T=/sys/kernel/tracing; else T=/sys/kernel/debug/tracing; fi; echo function > $T/current_tracer"
        self.assertEqual(controls(shell), ["register fn"])

    def test_tracing_goes_off(self):
        """Calls are made before it does, whatever ran, unless the trace is cleared."""
        begun = "echo vfs_read > set_ftrace_filter; echo function > current_tracer; "
        for shell, calls, held in [
            ("echo 1 > tracing_on; ls; echo 0 > tracing_on; cat trace", 1, 1), ("echo 0 > tracing_on; echo > trace; cat trace", 1, 0),
            ("./work; echo 0 > tracing_on; echo 1 > tracing_on; echo 0 > tracing_on", 2, 2), ("./work; echo 0 > tracing_on; cat trace", 1, 1),
        ]:
            with self.subTest(shell):
                script, told, _ = written(begun + shell)
                self.assertEqual((script.count("call vfs_read"), told), (calls, []))
                came = replayed(script, "rings")
                self.assertEqual(came is None or came.out.count(b" vfs_read <-"), came is None or held)

    def test_prompts(self):
        """They are taken off if each line has one."""
        self.assertEqual(controls("# cd /sys/kernel/tracing\n\n  $ echo function > current_tracer\n"), ["register fn"])
        self.assertEqual(controls("# set_ftrace_pid >\necho function > current_tracer\n"), ["register fn"])

    def test_files_and_grep(self):
        """A file that is there, and the list. What grep prints becomes a glob if this selects the same, at the end of a pipe alone."""
        with tempfile.TemporaryDirectory() as folder:
            pathlib.Path(folder, "names").write_text("vfs_read\nsched_fork\n")
            for shell, wanted in [
                (f"cat {folder}/names > set_ftrace_filter", ["> vfs_read", ">> sched_fork"]),
                (f"cd {folder}; cat < names > $T/set_ftrace_filter", ["> vfs_read", ">> sched_fork"]),
                ("grep ^vfs available_filter_functions > set_ftrace_filter", ["> vfs*"]),
                ("grep read $T/available_filter_functions | sudo tee -a set_ftrace_filter", [">> ksys_read", ">> vfs_read", ">> ext4_read"]),
                ("cat available_filter_functions | grep read | grep -v k | cut -d' ' -f1 > set_ftrace_filter", ["> vfs_read", ">> ext4_read"]),
                ("grep -wi -e VFS_READ -e sched_fork available_filter_functions > set_ftrace_filter", ["> vfs_read", ">> sched_fork"]),
                ("grep -Ex '(k|v).*d' available_filter_functions >> set_ftrace_filter", [">> ksys_read", ">> vfs_read"]),
                ("grep -F 'f*' available_filter_functions > set_ftrace_filter", [">"]),
            ]:
                with self.subTest(shell):
                    self.assertEqual(controls(shell), [f"filter fn {text}" for text in wanted])


class Modules(unittest.TestCase):
    """Modules that come and go: the list has all their functions."""

    def test_worked(self):
        """What is written before a module is there names its functions if it names the module."""
        for shell, absent, wanted, told in [
            ("echo :mod:ext4 > set_ftrace_filter; modprobe ext4", True, ["filter fn > :mod:ext4", "load ext4"], 0),
            ("echo '*_read' > set_ftrace_filter; insmod ./ext4.ko.xz", True, ["filter fn > *_read:mod:!ext4", "load ext4"], 0),
            ("echo 'ext4_read vfs_read' > set_ftrace_filter; modprobe ext4", True, ["load ext4"], 1),
            ("echo ext4_read:traceoff > set_ftrace_filter; modprobe ext4", True, ["load ext4"], 1),
            ("modprobe ext4; echo 'ext4*' > set_ftrace_filter; modprobe ext4", True, ["load ext4", "filter fn > ext4*"], 0),
            ("echo 'e*' > set_ftrace_filter; sudo rmmod ext4; modprobe ext4", False, ["filter fn > e*", "unload ext4", "load ext4"], 1),
            ("modprobe -r ext4; modprobe xfs", False, ["unload ext4"], 1),
            ("echo '!*:mod:ext4' >> set_ftrace_filter; modprobe ext4", True, ["load ext4"], 1),
        ]:
            with self.subTest(shell):
                script, found, _ = written(shell)
                self.assertEqual(("absent ext4\n" in script, controls(shell), len(found)), (absent, wanted, told))

    def test_calls(self):
        """They are made while their module is there, and before it goes."""
        shell = "echo :mod:ext4 > set_ftrace_filter; echo function > current_tracer; modprobe ext4; rmmod ext4; ./work; modprobe ext4"
        script, told, _ = written(shell)
        self.assertEqual((script.count("call ext4_"), len(told)), (4, 1))
        self.assertIn("load ext4\nctl until 10 5\nctl unload ext4\nctl load ext4\n", script)

    def test_random(self):
        """Each script is one that the program takes."""
        rng = random.Random(8)
        for _ in range(20):
            lines = random_shell(rng).split("\n")
            for _ in range(4):
                lines.insert(rng.randint(0, len(lines)), rng.choice(["modprobe ext4", "rmmod ext4", "insmod vfs.ko", "modprobe -r vfs"]))
            modules = {name: name.split("_")[0] for name in NAMES if not name.startswith("do")}
            functions = "".join(f"{name} [{modules[name]}]\n" if name in modules else f"{name}\n" for name in NAMES)
            came = replayed(written("\n".join(lines), functions.encode())[0])
            if came is None:
                self.skipTest("there is no program")
            self.assertEqual((came.status, came.out.splitlines()[-1:]), (0, [b"end"]), lines)


class Tools(unittest.TestCase):
    def test_begun(self):
        """perf clears what was there; trace-cmd ends the tracer, and keeps a list that no option names."""
        before = "echo ext4_read > set_ftrace_filter; echo 1 > max_graph_depth\n"
        wanted = ["filter fn > ext4_read", "maxdepth 1", "filter fn >", "maxdepth 0", "filter fn > vfs_read", "register fn"]
        self.assertEqual(controls(before + "perf ftrace -T vfs_read"), wanted)
        self.assertEqual(controls(before + "trace-cmd start -p function"), ["filter fn > ext4_read", "maxdepth 1", "register fn"])

    def test_options(self):
        """Options in other writings come to the same."""
        for one, other in [
            ("trace-cmd record -p function -l vfs_read -P 10,11", "trace-cmd record -pfunction -qlvfs_read -P 10 -P 11 -o x.dat"),
            ("trace-cmd record -p function --max-graph-depth 1", "trace-cmd record -p function --max-graph-depth=1 --date"),
            ("trace-cmd record -p function -l 'v*:mod:e*'", "sudo trace-cmd record -p function --module 'e*' -l 'v*'"),
            ("perf ftrace -T vfs_read -p 10", "perf ftrace trace --trace-funcs=vfs_read --pid 10 -v"),
            ("perf ftrace", "perf ftrace -t function_graph -a ls"),
        ]:
            with self.subTest(other):
                self.assertEqual(written(one)[:2], written(other)[:2])

    def test_left(self):
        """Each option without a counterpart is told; so is one that there isn't."""
        for line, count in [
            ("trace-cmd record -e sched -f 'x > 1' -g vfs_read -c -O sym-offset -b 64 -M 3", 7),
            ("trace-cmd record --none", 1),
            ("trace-cmd record -C x86-tsc", 1),
            ("perf ftrace -g vfs_read -m 1M -C 0 -D 5 --inherit", 5),
            ("perf ftrace latency -T vfs_read", 1),
        ]:
            with self.subTest(line):
                self.assertEqual(len(written(line)[1]), count)


class Limits(unittest.TestCase):
    def test_long_list(self):
        """A list of 100,000 functions takes a few seconds, and each choice of texts has some in the script."""
        rng = random.Random(3)
        fronts, ends = "vfs ext4 tcp sched net blk kvm mm".split(), "read write lock unlock alloc free send recv".split()
        modules = ["", "", " [ext4]"]
        functions = "".join(f"{rng.choice(fronts)}_{rng.choice(ends)}_{number}{rng.choice(modules)}\n" for number in range(100000))
        shell = "echo '*lock*' > set_ftrace_filter; echo '*read*:mod:ext4' >> set_ftrace_filter; echo '!*unlock*' >> set_ftrace_filter\n"
        shell += "echo 'vfs_[a-m]*' > set_ftrace_notrace; echo 'tcp_*_99999' >> set_ftrace_filter; echo function > current_tracer\n"
        begun = time.process_time()
        script, told, left = written(shell, functions.encode())
        self.assertLess(time.process_time() - begun, 10)
        self.assertEqual(script.count("func "), 4096)
        self.assertEqual((script[:9], len(left)), ("ftrace 2\n", 1))
        self.assertIn("functions are selected, and 4,096 of them are in the script", left[0])

    def test_names(self):
        """A name of 64 bytes, one that is there twice, and a module whose name a script can't have."""
        functions = f"{'a' * 63}\n{'a' * 64}\nab\nab [m]\nac [8021q]\nb\n".encode()
        shell = "echo 'a*' > set_ftrace_filter; echo '*:mod:m' >> set_ftrace_filter; echo function > current_tracer"
        script, told, left = written(shell, functions)
        self.assertEqual([line for line in script.split("\n") if line.startswith("func")], [f"func {'a' * 63}", "func ab m"])
        wanted = ["2 names are left out", "1 name is selected more than once, and in the script once"]
        self.assertEqual((len(told), [why.split(":")[0] for why in left]), (0, wanted))

    def test_no_name_is_left(self):
        """A filter of which the script has no function is empty there, which is told; with `>` it is cleared."""
        functions = f"{'a' * 64}\nb\n".encode()
        script, told, _ = written("echo b > set_ftrace_filter\necho 'a*' > set_ftrace_filter\necho function > current_tracer", functions)
        commands = [line for line in script.split("\n") if line.startswith("ctl")]
        self.assertEqual(commands, ["ctl filter fn > b", "ctl filter fn >", "ctl register fn"])
        self.assertEqual([line[:7] for line in told], ["line 2:"] * 2)
        self.assertEqual(len(written("echo 'a* b' > set_ftrace_filter\necho '!b' >> set_ftrace_filter", functions)[1]), 3)

    def test_versions(self):
        functions = "".join(f"f{number}\n" for number in range(5000)).encode()
        shell = "echo '*' > set_ftrace_filter; echo function > current_tracer"
        self.assertTrue(written(shell, functions, most=1024)[0].startswith("ftrace 1\n"))
        self.assertTrue(written(shell, functions, most=1025)[0].startswith("ftrace 2\n"))
        many = "".join(f"echo function > instances/i{number}/current_tracer\n" for number in range(70))
        script, told, _ = written(many)
        self.assertEqual((script[:9], script.count("user "), len(told)), ("ftrace 2\n", 64, 6))

    def test_other_limits(self):
        commands = "".join("echo vfs_read >> set_ftrace_filter\n" for _ in range(1100)) + "echo function > current_tracer\n"
        script, told, _ = written(commands)
        self.assertEqual((script.count("ctl "), len(told)), (1024, 77))
        triggers = "".join(f"echo '*{'?' * number}:traceoff' >> set_ftrace_filter\n" for number in range(1, 10))
        self.assertEqual(written(triggers)[0].count("trigger "), 8)
        pids = "echo " + " ".join(map(str, range(100, 200))) + " > set_ftrace_pid; echo function > current_tracer"
        script, told, _ = written(pids)
        self.assertEqual((script.count("task "), told), (64, ["line 1: pid: a script has at most 64 tasks"]))

    def test_all_replayed(self):
        """What is at a limit is a script."""
        functions = "".join(f"f{number}\n" for number in range(5000)).encode()
        pids = "echo " + " ".join(map(str, range(100, 200))) + " > set_ftrace_pid\n"
        pids += "echo function > current_tracer; echo '*' > set_ftrace_filter"
        graph = "echo '*' > set_ftrace_filter; echo function_graph > current_tracer"
        many = "".join(f"echo function > instances/i{number}/current_tracer\n" for number in range(70))
        for shell in (pids, graph, many):
            came = replayed(written(shell, functions)[0])
            if came is None:
                self.skipTest("there is no program")
            self.assertEqual((came.status, came.out.splitlines()[-1:]), (0, [b"end"]))


WRONG = [  # the shell's text, the list, more words, and a word of the message
    (None, LIST, [], "No such file"),
    (b"echo 1 > tracing_on", None, [], "No such file"),
    ("folder", LIST, [], "directory"),
    (b"echo 1 > tracing_on", "folder", [], "directory"),
    (b"", LIST, [], "nothing is written"),
    (b"sleep 1\ncat trace\n", LIST, [], "nothing is written"),
    (b"echo 1 > tracing_on", b"", [], "no functions"),
    (b"echo 1 > tracing_on", b"\n\n \n", [], "no functions"),
    (b"echo 1 > tracing_on", b"#### all functions enabled ####\n", [], "line 1"),
    (b"echo 1 > tracing_on", b"vfs_read\nffffffff81000000 vfs_write\n", [], "line 2"),
    (b"echo 1 > tracing_on", b"\xff\xfe a b\n", [], "line 1"),
    (b"echo 1 > tracing_on", b"ftrace 1\nfunc a\n", [], "line 1"),
    (b"echo 'a > tracing_on\n", LIST, [], "line 1"),
    (b"echo 1 > tracing_on\nif true; then\n", LIST, [], "`fi`"),
    (b"for f in a; echo; done", LIST, [], "`do`"),
    (b"echo 1 > tracing_on; done", LIST, [], "no beginning"),
    (b"echo 1 >\n", LIST, [], "without a word"),
    (b"echo 1 > tracing_on | | x", LIST, [], "a command is expected"),
    (b"(" * 5000, LIST, [], "within each other"),
    (b"f() " * 5000 + b"x", LIST, [], "within each other"),
    (b"for a in " + b"x " * 400 + b"; do for b in " + b"x " * 400 + b"; do echo $a; done; done", LIST, [], "to follow"),
    (b"\x00\xff\xfe(", LIST, [], "line 1"),
    (b"echo 1 > tracing_on", LIST, ["--functions", "0"], "from 1 to 4,096"),
    (b"echo 1 > tracing_on", LIST, ["--functions", "99999999999999999999"], "from 1 to 4,096"),
    (b"echo 1 > tracing_on", LIST, ["--functions", "x"], "from 1 to 4,096"),
    (b"echo 1 > tracing_on", LIST, ["--call", "vfs_none"], "no such function"),
    ("-", "-", [], "standard input"),
]


class WrongInputs(unittest.TestCase):
    def put(self, folder, name, content):
        """A file with this content, a folder, nothing at all, or a name as it is; gives the word for it."""
        path = pathlib.Path(folder) / name
        if content == "-":
            return content
        if content == "folder":
            path.mkdir()
        elif content is not None:
            path.write_bytes(content)
        return str(path)

    def test_each(self):
        self.assertGreaterEqual(len(WRONG), 20)
        for number, (shell, functions, words, wanted) in enumerate(WRONG):
            with self.subTest(number=number), tempfile.TemporaryDirectory() as folder:
                status, out, err = ft("from-tracefs", self.put(folder, "writes.sh", shell), self.put(folder, "list", functions), *words)
                self.assertEqual((status, out, err.count("\n")), (2, "", 1), err)
                self.assertTrue(err.startswith("ft from-tracefs: "))
                self.assertIn(wanted, err)

    def test_random_texts(self):
        """Pieces of shells in any order: a script or one fault."""
        rng = random.Random(7)
        pieces = (
            "echo vfs_* > >> set_ftrace_filter current_tracer function ' \" $ $( ) ` if fi ; | && || for in do done << E { } ( "
            "trace-cmd record -p -l perf ftrace -T ! :mod: 12 \\ ${ # tee sh -c cd instances/a set_ftrace_pid tracing_on rmdir "
            "case esac printf % \xff ;; 9999999999999999999999"
        ).split(" ") + ["\n", "case x in", "\0", "$'\\0'", "cd \0", "> \0/x"]
        for _ in range(600):
            shell = "".join(rng.choice(pieces) + rng.choice([" ", " ", ""]) for _ in range(rng.randint(1, 25)))
            with contextlib.suppress(tracefs_writes.Fault), contextlib.redirect_stderr(io.StringIO()):
                script = written(shell)[0]
                self.assertTrue(script.startswith("ftrace 1\n") and script.isascii(), shell)


if __name__ == "__main__":
    unittest.main()
