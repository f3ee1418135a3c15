"""Tests of tools/ft from-tracefs --strace and tools/ft record: lines of strace by hand, and runs beside the text of what ran."""
import contextlib
import pathlib
import random
import shutil
import tempfile
import unittest
from unittest import mock

from ftlog import tracefs_traced
from ftlog.fault import Fault
from ftlog.tests.test_from_tracefs import LIST, NAMES, ft, random_shell, written
from ftlog.tool_options import Left, Write

OPEN = 'openat(AT_FDCWD</x>, "{0}", O_WRONLY|O_CREAT|O_{1}, 0666) = 3</t/{0}>\n'
TOP = OPEN.format("current_tracer", "TRUNC")  # by which /t is known to be tracefs


def events(*lines):
    """What these lines come to, without the numbers of their lines; / is the mount point /t."""
    return [event[1:] if isinstance(event, (Write, Left)) else None for event in tracefs_traced.events(TOP + "".join(lines))]


class Lines(unittest.TestCase):
    def test_writes(self):
        clears, appends = OPEN.format("set_ftrace_filter", "TRUNC"), OPEN.format("set_ftrace_filter", "APPEND")
        for what, lines, wanted in [
            ("the first write clears", [clears, 'write(1</t/set_ftrace_filter>, "a b\\n", 4) = 4\n'], [("set_ftrace_filter", "a b\n", False)]),
            ("a word in two writes", [clears, 'write(1</t/set_ftrace_filter>, "a", 1) = 1\n', 'write(1</t/set_ftrace_filter>, "b", 1) = 1\n'],
             [("set_ftrace_filter", "ab", False)]),
            ("a part is taken", [appends, 'write(1</t/set_ftrace_filter>, "a b", 3) = 2\n'], [("set_ftrace_filter", "a ", True)]),
            ("nothing is written", [clears, clears], [("set_ftrace_filter", "", False)] * 2),
            ("a write that fails", [clears, 'write(1</t/set_ftrace_filter>, "zz", 2) = -1 EINVAL (Invalid argument)\n'],
             [("set_ftrace_filter", "", False)]),
            ("escapes", ['write(1</t/tracing_on>, "\\"\\\\\\t\\0011\\101", 6) = 6\n'], [("tracing_on", "\"\\\t\x011A", True)]),
            ("pieces", ['writev(1</t/tracing_on>, [{iov_base="1", iov_len=1}, {iov_base="\\n", iov_len=1}], 2) = 2\n'],
             [("tracing_on", "1\n", True)]),
            ("in two lines", ['7 write(1</t/tracing_on>, "1", 1 <unfinished ...>\n', '8 exit(0) = ?\n', "7 <... write resumed>) = 1\n"],
             [("tracing_on", "1", True)]),
            ("times and brackets", ['[pid    7] 10:00:00.1 write(1</t/tracing_on>, "1", 1) = 1 <0.0001>\n'], [("tracing_on", "1", True)]),
            ("elsewhere", ['write(1</y/tracing>, "1", 1) = 1\n', 'write(1</u/trace>, "1", 1) = 1\n'], []),
        ]:
            with self.subTest(what):
                self.assertEqual(events(*lines), [("", *it) for it in wanted])

    def test_instances(self):
        write = 'write(1</t/instances/a/current_tracer>, "function", 8) = 8\n'
        self.assertEqual(events(write, 'rmdir("/t/instances/a") = 0\n'), [("a", "current_tracer", "function", True), ("a", "rmdir", "", False)])

    def test_told(self):
        cut = 'write(1</t/tracing_on>, "1"..., 9) = 9\n'
        failed = 'openat(AT_FDCWD</t>, "events/x/enable", O_WRONLY) = -1 ENOENT (No such file or directory)\n'
        whys = [event[0] for event in events(cut, failed)]
        self.assertEqual([why.split(": ")[1] for why in whys], ["what is written is cut off", "it can't be opened"])

    def test_work(self):
        """What is traced is a program that isn't a shell and writes nothing to tracefs, and a sleep."""
        ran = '{0} execve("/bin/{1}", ["{1}"{2}], 0x1 /* 9 vars */) = {3}\n'.format
        write = '7 write(1</t/tracing_on>, "1", 1) = 1\n'
        for lines, wanted in [
            ([ran(7, "work", "", 0)], [None]), ([ran(7, "work", "", "-1 ENOENT (No)")], []), ([ran(7, "bash", "", 0), ran(8, "ls", "", 0)], []),
            ([ran(7, "cat", "", 0), write], [("", "tracing_on", "1", True)]), ([ran(8, "cat", "", 0), write], [None, ("", "tracing_on", "1", True)]),
            (["7 clock_nanosleep(CLOCK_REALTIME, 0, {tv_sec=1, tv_nsec=0}, NULL) = 0\n"], [None]),
            ([ran(7, "modprobe", ', "snd-pcm"', 0), ran(7, "rmmod", ', "a", "b"', 0)], [("", word, name, False) for word, name in
                                                                                    [("modprobe", "snd_pcm"), ("rmmod", "a"), ("rmmod", "b")]]),
        ]:
            with self.subTest(lines):
                self.assertEqual(events(*lines), wanted)

    def test_hostile(self):
        """Pieces of lines in any order: events or one fault."""
        for text in ("", "echo 1 > tracing_on\n", 'write(1</t/tracing_on>, "\\x1", 1) = 1\n' + TOP):
            self.assertRaises(Fault, tracefs_traced.events, text)
        rng = random.Random(3)
        pieces = ["write(", "openat(", "1</t/tracing_on>", '"', "\\", "a", ", ", ") = ", "-1 E", "9", "<unfinished ...>\n", "<... write resumed>",
                  "[pid 7] ", "O_TRUNC|O_RDWR", "execve(", "rmdir(", "\n", "<", ">", "\0"]
        for _ in range(500):
            with contextlib.suppress(Fault):
                tracefs_traced.events(TOP + "".join(rng.choice(pieces) for _ in range(rng.randint(1, 20))))


def without_comments(script):
    """The lines of a script that aren't comments."""
    return [line for line in script.split("\n") if not line.startswith("#")]


@unittest.skipUnless(shutil.which("strace"), "there is no strace")
class Runs(unittest.TestCase):
    def recorded(self, shell, functions, *words):
        """What `ft record` comes to for a shell's text."""
        with tempfile.TemporaryDirectory() as folder:
            path = pathlib.Path(folder, "list")
            path.write_bytes(functions)
            return ft("record", "--list", str(path), *words, "--", "sh", "-c", f"cd $TRACING_DIR; {shell}")

    def test_beside_the_text(self):
        """The script of a run is that of its text."""
        rng = random.Random(2)
        functions = "".join(f"{name}\n" for name in NAMES).encode()
        for _ in range(3):
            shell = "mkdir instances/a\n" + random_shell(rng).replace("sleep 1", "sleep .01") + "\nrmdir instances/a 2> /dev/null\n:"
            script, told, _ = written(shell, functions)
            status, out, err = self.recorded(shell, functions)
            self.assertEqual((status, without_comments(out)), (1 if told else 0, without_comments(script)), shell)
            self.assertEqual(err.count("\n"), len(told))

    def test_what_a_text_does_not_tell(self):
        """Functions, loops, a file of names, `sudo` and a program; the kernel's own folders if there are user namespaces."""
        shell = "add() { grep $1 available_filter_functions | cut -d' ' -f1 | sudo -n tee -a set_ftrace_filter > /dev/null; }\n"
        shell += "for f in vfs_r ext4; do add $f; done; cat set_ftrace_filter > set_ftrace_notrace; if true; then echo function > current_tracer; fi"
        status, out, err = self.recorded(shell, LIST)
        wanted = [f"filter fn >> {name}" for name in ("vfs_read", "ext4_read", "ext4_write")]
        wanted += [f"notrace fn {'>' * (1 + bool(at))} {name}" for at, name in enumerate(["vfs_read", "ext4_read", "ext4_write"])] + ["register fn"]
        self.assertEqual((status, [line[4:] for line in out.split("\n") if line.startswith("ctl")], err), (0, wanted, ""))

    def test_status_and_files(self):
        with tempfile.TemporaryDirectory() as folder:
            kept, script = pathlib.Path(folder, "kept"), pathlib.Path(folder, "script")
            status, out, err = self.recorded("echo function > current_tracer; exit 3", LIST, "--keep", str(kept), "-o", str(script))
            self.assertEqual((status, out, err), (1, "", "sh: it ended with 3\n"))
            self.assertIn("ctl register fn\n", script.read_text())
            self.assertIn("current_tracer", kept.read_text())

    def test_refused(self):
        """One line, with the status 2; without namespaces root isn't let in, as its writes would go to the kernel."""
        self.assertEqual(self.recorded("true", LIST), (2, "", "ft record: sh: nothing is written to tracefs\n"))
        self.assertEqual(ft("record", "--list", "/none", "--", "true"), (2, "", "ft record: /none: No such file or directory\n"))
        with mock.patch("shutil.which", return_value=None):
            self.assertEqual(self.recorded("true", LIST), (2, "", "ft record: strace isn't there; the package strace has it\n"))
        with mock.patch("shutil.which", lambda word: word == "strace"), mock.patch("os.geteuid", return_value=0):
            self.assertEqual(self.recorded("true", LIST)[0], 2)
        with mock.patch("shutil.which", lambda word: word == "strace"), mock.patch("os.geteuid", return_value=1):
            self.assertIn("ctl register fn\n", self.recorded("echo function > current_tracer", LIST)[1])


if __name__ == "__main__":
    unittest.main()
