"""Tests of the tools for who works on the repository: their words, what they can't do, and what runs without programs."""
import re
import sys
import unittest

from ftlog import runs
from ftlog.make import script_forms, viewed_scripts
from ftlog.proving import cost_table, crate_list
from ftlog.tests.called import Case, EXAMPLES, FT, ft

PARTS = [[name, part] for name in ("check", "make") for part in FT.importlib.import_module(f"ftlog.upkeep.{name}").PARTS]
TOOLS = [[name] for name in ("cost", "definitions", "further", "provers", "samples", "signatures")] + PARTS
NOTHING = "/nowhere/program"
# Words that none of these tools can do anything for.
WRONG = [
    ["check", "docs", "--program", NOTHING], ["check", "program", "--program", NOTHING],
    ["check", "docs", "--program", "/"], ["check", "docs", "more"],
    ["check", "pages"], ["check", "runs", NOTHING, "--count", "1"], ["check", "runs", sys.executable, "--count", "1", "--sources", "others"], ["check", "other"],
    ["make", "plain"], ["make", "plain", "--seed", "x"], ["make", "manuals", "x"], ["make", "viewed", "--seed", "1", "--lanes", "--rings"], ["make", "others"],
    ["samples"], ["samples", "more"], ["samples", "rows", "1"], ["samples", "random"], ["samples", "random", "1", "x"],
    ["further", "nothing"], ["cost", NOTHING], ["cost", "--write"], ["definitions", "--all"], ["definitions", "nothing"], ["nothing"],
]


class Words(unittest.TestCase):
    def test_help(self):
        """Each tool and each part says what it does."""
        for words in TOOLS:
            came = ft(*words, "--help")
            self.assertEqual((came.status, came.err), (0, ""), words)
            self.assertTrue(came.out.startswith(f"usage: tools/ft {' '.join(words)} "), words)
        for name in ("check", "make"):
            told = ft(name).out
            for part in FT.importlib.import_module(f"ftlog.upkeep.{name}").PARTS:
                self.assertIn(f"\n    {part} ", told)

    def test_help_of_the_others(self):
        """So does each tool for users."""
        for name in FT.modules("commands"):
            came = ft(name, "--help")
            self.assertEqual((came.status, came.err), (0, ""), name)
            self.assertTrue(came.out.startswith(f"usage: tools/ft {name} "), name)

    def test_all_are_told(self):
        told = ft().out
        for name in [*FT.modules("commands"), *FT.modules("upkeep")]:
            self.assertIn(f"\n    {name} ", told)

    def test_page(self):
        """docs/TOOLS.md has a line for each tool and each part."""
        map_of_all = re.search("^## The package$(.*?)^## ", (runs.TOP / "docs" / "TOOLS.md").read_text(), re.DOTALL | re.MULTILINE)[1]
        rows = [line.split(" | ")[0] for line in map_of_all.splitlines() if line.startswith("| ")]
        for words in [[name] for name in FT.modules("commands")] + TOOLS:
            self.assertTrue(any(f"`{words[0]}" in row and f"{words[-1]}`" in row for row in rows), words)

    def test_wrong(self):
        """Each is answered by one line and status 2."""
        for words in WRONG:
            with self.subTest(words):
                came = ft(*words)
                self.assertEqual((came.status, came.out), (2, ""), came.err)
                self.assertEqual(came.err.count("\n"), 1, came.err)


class Makers(unittest.TestCase):
    def test_scripts(self):
        """What is written is the script of the seed."""
        for words, wanted in [(["plain", "--seed", "7"], script_forms.script(7)), (["viewed", "--seed", "7", "--rings"], viewed_scripts.ringed(7))]:
            self.assertEqual(ft("make", *words).out.encode("latin-1"), wanted)

    def test_steps(self):
        """A script of standard input gets another schedule."""
        text = (EXAMPLES / "first_path.ft").read_bytes()
        self.assertEqual(ft("make", "plain", "--seed", "3", "--step", text=text).out.encode(), script_forms.stepped(text, 3))


class Layers(unittest.TestCase):
    def test_crates(self):
        """crates/README.md has the layers of crates.txt, each with its crates."""
        listed = (runs.TOP / "crates.txt").read_text().split("\n\n")[1:]
        wanted = [{line.split(":")[0].split()[0] for line in part.splitlines()[1:]} for part in listed]
        drawn = re.split(r"\n    (?=\S)", (runs.TOP / "crates" / "README.md").read_text())[1:]
        layers = [set(" ".join(part.splitlines()[1:]).replace(",", " ").split()) for part in drawn]
        self.assertEqual(layers[-2::-1] + layers[-1:], wanted)


class Costs(Case):
    def test_table(self):
        """Without a command what is known is printed: a line for each crate, and one for all."""
        _, _, *rows, every = ft("cost").out.splitlines()
        self.assertEqual({row.split()[1] for row in rows}, set(cost_table.read()))
        self.assertEqual(every.split()[1], "**all**")

    def test_file(self):
        """What is written is what was read, and every crate of it is there."""
        rows, path = cost_table.read(), self.folder / "costs.txt"
        cost_table.write(rows, path)
        self.assertEqual(path.read_text(), cost_table.COSTS.read_text())
        self.assertLessEqual(set(rows), set(crate_list.read_crates()))
        self.assertEqual(cost_table.read(self.folder / "none"), {})


if __name__ == "__main__":
    unittest.main()
