"""Tests of the tools that only run a program, of `ft help`, and of what is said of a file in the place of a tool's name.

The programs are stand-ins, beside a copy of the tools, so none has to be built."""
import pathlib
import shutil
import tempfile
import unittest

from ftlog import programs, runs
from ftlog.tests.called import FT, ft, program

ECHO = 'echo "${0##*/}" "$@"; cat'  # tells its words and its input
SCRIPT, LOG, GIVEN = "ftrace 1\nfunc a\n", "0 enter 10.1 normal a -\nstopped\n", "of standard input"


class Door(unittest.TestCase):
    """Calls of the copy."""

    @classmethod
    def setUpClass(cls):
        """Copies the tools."""
        room = tempfile.TemporaryDirectory()
        cls.addClassCleanup(room.cleanup)
        cls.top = pathlib.Path(room.name)
        for file in ("tools/ft", "tools/prove.py", "tools/install.sh", "crates/ft_base/src/limits.rt"):
            (cls.top / file).parent.mkdir(parents=True, exist_ok=True)
            shutil.copy(runs.TOP / file, cls.top / file)
        for folder in ("tools/ftlog", "docs/man", "editors", "kernel"):
            shutil.copytree(runs.TOP / folder, cls.top / folder, ignore=shutil.ignore_patterns("tests", "__pycache__"))
        (cls.top / "x.ft").write_text(SCRIPT)
        (cls.top / "x.log").write_text(LOG)

    def setUp(self):
        """Each program tells what it is given."""
        for name in programs.NAMES:
            program(self.top, ECHO, name)

    def call(self, *words, text=b""):
        """A call of the copy with these words."""
        return runs.answer([self.top / "tools" / "ft", *words], text, 60, cwd=self.top)

    def test_words_and_input(self):
        """The program has its words, and a file or standard input; of two files for the judge, with a line `log` between them."""
        for words, told, text in [
                ("replay x.ft", "ftcore replay --print log", SCRIPT), ("replay", "ftcore replay --print log", GIVEN),
                ("replay x.ft --print function", "ftcore replay --print function", SCRIPT), ("run --print=graph -", "ftcore run --print graph", GIVEN),
                ("bulk --seed 07", "ftcore bulk --seed 07", ""), ("steps x.ft", "fttell steps", SCRIPT), ("judge", "ftjudge", GIVEN),
                ("judge x.ft", "ftjudge", SCRIPT), ("judge x.ft x.log", "ftjudge", f"{SCRIPT}log\n{LOG}"), ("judge x.ft -", "ftjudge", f"{SCRIPT}log\n{GIVEN}")]:
            came = self.call(*words.split(), text=GIVEN.encode())
            self.assertEqual((came.status, came.out.decode(), came.err), (0, f"{told}\n{text}", b""), words)

    def test_statuses(self):
        """They are the program's, and one with which nothing is written is explained."""
        for status in (0, 1, 3, *programs.STATUSES):
            program(self.top, f"echo said; exit {status}", "ftcore")
            came = self.call("replay", "x.ft")
            self.assertEqual((came.status, came.out), (status, b"said\n"))
            self.assertEqual(came.err.startswith(f"ftcore: status {status}: ".encode()), status in (2, 4, 6, 7))
        program(self.top, "kill -9 $$", "ftcore")
        self.assertEqual(self.call("bulk").status, 128 + 9)
        (self.top / "long.log").write_text("x" * 1_000_000)
        program(self.top, "echo line 1: version; exit 3", "ftjudge")  # without having read its input
        self.assertEqual(self.call("judge", "x.ft", "long.log")[:3], (3, b"line 1: version\n", b""))

    def test_wrong_words(self):
        """Each is answered by one line and status 2."""
        (self.top / "cut.ft").write_text(SCRIPT[:-1])
        for words in ("replay none.ft", "replay .", "replay x.ft x.ft", "replay --print", "replay --print xml", "replay --seed 1", "run none.ft", "bulk x.ft",
                      "judge none.ft", "judge x.ft none.log", "judge x.ft .", "judge cut.ft x.log", "judge - -", "judge x.ft x.log x.log", "steps --help=1"):
            came = self.call(*words.split())
            self.assertEqual((came.status, came.out, came.err.count(b"\n")), (2, b"", 1), words)

    def test_no_program(self):
        """Who hasn't a program is told how to have one."""
        (self.top / "ftjudge").unlink()
        came = self.call("judge", "x.ft")
        self.assertEqual((came.status, came.err), (2, b"ft judge: the program ftjudge isn't there: ./prove ftjudge builds it\n"))

    def test_unproved_build(self):
        """As long as ftoutcomes isn't built, its starter makes an unproved build before it is run by several at a time."""
        said = "1 no calls\\nsched all*9\\n1 outcomes in 1 replays, and there are no more to try\\n"
        program(self.top, f'echo "$@" >> runs; [ "$1" = {programs.UNKNOWN} ] && exit 2; cat > /dev/null; printf "{said}"', "ftoutcomes")
        came = self.call("outcomes", "x.ft", "--tries", "2")
        self.assertEqual((came.status, came.out.splitlines()[1:]), (0, [b"2  no calls", b"   sched all*9"]), came.err)
        self.assertRegex(came.err, rb"\Aft: ftoutcomes isn't built; an unproved build answers[^\n]*\n\Z")
        self.assertEqual((self.top / "runs").read_text().splitlines()[0], programs.UNKNOWN)
        program(self.top, "echo ftoutcomes: no answer: why >&2; exit 1", "ftoutcomes")
        came = self.call("outcomes", "x.ft")
        self.assertEqual((came.status, came.err.splitlines()[1:]), (2, [b"ft outcomes: ftoutcomes: no answer: why"]))


    def test_install(self):
        """What is built is put below a folder, which can be moved; it is replaced and taken away, and nothing of others is."""
        program(self.top, 'case $2 in ftcore | fttell) ;; *) exit 1 ;; esac', "prove")  # tells which programs are built
        for name in ("ftcore", "fttell"):
            (self.top / "crates" / name / "out").mkdir(parents=True, exist_ok=True)
            program(self.top / "crates" / name / "out", ECHO, name)
        script, prefix, moved = self.top / "tools/install.sh", self.top / "pre fix", self.top / "moved"
        for _ in range(2):
            came = runs.answer([script, "pre fix"], cwd=self.top)
            self.assertEqual((came.status, came.err, came.out.count(b"left out: ")), (0, b"", 2))
        (prefix / "bin" / "other").touch()
        prefix.rename(moved)
        for words, wanted in ((["replay", "x.ft"], b"ftcore replay --print log\nftrace 1\nfunc a\n"), (["steps", "x.ft"], b"fttell steps\nftrace 1\nfunc a\n")):
            self.assertEqual(runs.answer([moved / "bin" / "ft", *words], cwd=self.top)[:3], (0, wanted, b""))
        self.assertIn(b"install it from the repository", runs.answer([moved / "bin" / "ft", "judge", "x.ft"], cwd=self.top).err)
        for words, said in ((["moved", "more"], b"[--remove] PREFIX"), ([""], b"is empty"), (["--remove", "."], b"nothing is installed")):
            came = runs.answer([script, *words], cwd=self.top)
            self.assertEqual((came.status, came.err.count(b"\n"), said in came.err), (2, 1, True), came)
        self.assertEqual(runs.answer([script, "--remove", moved], cwd="/").status, 0)
        self.assertEqual(sorted(path.name for path in moved.rglob("*")), ["bin", "other"])
        (moved / "bin" / "other").rename(moved / "bin" / "ft")
        self.assertIn(b"isn't of an earlier install", runs.answer([script, moved], cwd="/").err)


class Help(unittest.TestCase):
    """What is told of the tools."""

    def test_help(self):
        """`ft help NAME` is `ft NAME --help`, and `ft help` is `ft`."""
        self.assertEqual(ft("help"), ft())
        self.assertEqual(ft("help", "help"), ft())
        for words in [[name] for name in FT.modules("commands")] + [["check"], ["check", "runs"], ["cost"]]:
            self.assertEqual(ft("help", *words), ft(*words, "--help"))
        self.assertEqual(ft("help", "nothing"), (2, "", "ft: there is no tool nothing; tools/ft tells which there are\n"))

    def test_door_comes_first(self):
        """The list begins with the programs."""
        self.assertEqual([line.split()[0] for line in ft().out.splitlines()[2:7]], list(programs.DOOR))

    def test_files(self):
        """A file in the place of a tool's name is told by what it is."""
        with tempfile.TemporaryDirectory() as room:
            for name, text, wanted in [
                    ("x", SCRIPT, "is a script: tools/ft replay {0} prints its history; tools/ft why {0} says why it is refused"),
                    ("bad.ft", "func a\n", "is a script: tools/ft replay {0} prints"), ("x.judge", f"{SCRIPT}log\n{LOG}", "with a log: tools/ft judge {0} says"),
                    ("x.log", LOG, "is a log: tools/ft judge SCRIPT {0} says"), ("a b", LOG, "tools/ft judge SCRIPT '{0}' says"), ("y", "", "is a file, and")]:
                path = pathlib.Path(room) / name
                path.write_text(text)
                came = ft(path)
                self.assertEqual((came.status, came.out, came.err.count("\n")), (2, "", 1))
                self.assertIn(wanted.format(path), came.err)
            self.assertIn("there is no tool", ft(room).err)


if __name__ == "__main__":
    unittest.main()
