"""Tests of docs/man: its pages are those that `ft make manuals` writes, the words of programs in them are those of the pages, and man has nothing
to say against them."""
import pathlib
import re
import shutil
import subprocess
import tempfile
import unittest
from unittest import mock

from ftlog import programs, runs
from ftlog.make import manuals
from ftlog.tests.called import FT, ft

HERE = {name: (manuals.FOLDER / f"{name}.1").read_text("utf-8") for name in manuals.MANUALS}


def told(program, *words):
    """The status of a program for manual pages, and the lines that it writes to both streams; nothing of a program that isn't there."""
    path = shutil.which(program)
    if not path:
        return 0, []
    came = subprocess.run([path, *words], stdin=subprocess.DEVNULL, stdout=subprocess.PIPE, stderr=subprocess.STDOUT, timeout=60, check=False,
                          env={"PATH": "/usr/bin:/bin", "MANWIDTH": "80", "LC_ALL": "C.UTF-8"})
    return came.returncode, came.stdout.decode().splitlines()


class ManualPages(unittest.TestCase):
    """The manual pages."""

    def test_they_are_there(self):
        """There is one for ft and each program, as it is made now: `tools/ft make manuals` writes them anew."""
        self.assertEqual({path.stem for path in manuals.FOLDER.iterdir()}, {"ft", *programs.NAMES})
        for name, text in HERE.items():
            self.assertEqual(text, manuals.manual(name), name)

    def test_maker(self):
        """The tool writes them."""
        with tempfile.TemporaryDirectory() as room, mock.patch.object(manuals, "FOLDER", pathlib.Path(room)):
            self.assertEqual(ft("make", "manuals"), (0, "", ""))
            self.assertEqual({path.stem: path.read_text("utf-8") for path in pathlib.Path(room).iterdir()}, HERE)

    def test_what_is_missing(self):
        """A page that no longer has what a manual page takes from it is told."""
        for change in ({"heading": "Nothing"}, {"kinds": "table", "columns": ("status", "nothing")}):
            part = manuals.MANUALS["ftcore"][2][3]._replace(**change)
            with mock.patch.dict(manuals.MANUALS, {"ftcore": ("", "", [part])}), tempfile.TemporaryDirectory() as room:
                with mock.patch.object(manuals, "FOLDER", pathlib.Path(room)):
                    came = ft("make", "manuals")
            self.assertEqual((came.status, came.err.count("\n")), (2, 1))
            self.assertIn("docs/LANGUAGE.md", came.err)

    def test_forms(self):
        """What stands on pages, for man."""
        self.assertEqual(manuals.inline("*a* **b** `-c'` [`d` e](F.md#g) h\\i `./fttell` (`./prove fttell`)"),
                         r"\fIa\fR \fIb\fR \fB\-c\(aq\fR \fBd\fR e h\ei \fBfttell\fR")
        self.assertEqual(manuals.filled("One. `./prove x` is two, a. Three.\n.four"), "One. Three. .four\n")
        self.assertEqual(manuals.for_man("code", "    .x\n      y-z"), ".PP\n.RS 4\n.nf\n\\&.x\n  y\\-z\n.fi\n.RE\n")
        table = "| a | b | c |\n|---|---|---|\n| 1 | `x\\|y` | |\n"
        self.assertEqual(manuals.for_man("table", table, ("c", "b")), ".TP\n\n\\fBx|y\\fR\n")
        self.assertEqual(manuals.for_man("table", table, ("c", "d")), "")

    def test_words(self):
        """What is written by hand in the maker is what pages have."""
        page = (runs.TOP / "docs" / "OUTCOMES.md").read_text()
        for words in re.findall("ftoutcomes (.*) <", manuals.MANUALS["ftoutcomes"][1]):
            self.assertIn(f"`{words}`", page)
        for name in FT.modules("commands"):
            self.assertIn(f".SS {name}\n\\fBft {name}".replace("-", "\\-"), HERE["ft"])

    def test_man(self):
        """man, groff and mandoc, as far as they are there, have no warnings, but for mandoc that no date is given."""
        for name in HERE:
            path = str(manuals.FOLDER / f"{name}.1")
            status, lines = told("man", "--warnings", "-l", path)
            if status == 0:  # some systems have a man that shows no pages
                self.assertFalse([line for line in lines if "warning: " in line])
            self.assertEqual(told("groff", "-ww", "-man", "-Tutf8", "-z", path), (0, []))
            _, lines = told("mandoc", "-T", "lint", "-W", "warning", path)
            self.assertEqual([line for line in lines if "missing date" not in line], [])


if __name__ == "__main__":
    unittest.main()
