"""Tests of the files for editors: what they colour is what docs/LANGUAGE.md has, and vim reads the ones for it."""
import json
import pathlib
import re
import shutil
import subprocess
import tempfile
import unittest

from ftlog import runs
from ftlog.checks import check_docs
from ftlog.make import script_forms

EDITORS = runs.TOP / "editors"
SYNTAX = EDITORS / "vim" / "syntax" / "ftcore.vim"
PAGE = (runs.TOP / "docs" / "LANGUAGE.md").read_text()
EXAMPLES = sorted((runs.TOP / "examples").glob("*.ft"))
CODE = re.compile(r"`([^`]+)`")
VIM = shutil.which("vim")

# What stands in the place of the capitals of a form.
PLACES = {"NAME": "vfs_read", "MODULE": "ext3", "N": "3", "M": "ext3", "CAP": "16", "TEXT": "*:mod:!ext3", "KIND": "fprobe exit", "OPTIONS": "regs pid call f",
          "Q": "100", "PID": "10", "FUNC": "a.b", "U": "tr", "ITEM": "all*50", "..": "0"}
# Lines that have no form, most of them of docs/LANGUAGE.md's table of those.
NO_FORM = ["frob", "func", "func a # the first", "func 1a", "func a/b", "cpu 0 quantum 00000000005", "cpu 0 quantum +5", "user t", "user t function pid regs",
           "user t graph ipmodify a", "user f fprobe cancel", "ctl register t t", "ctl filter t >>", "ctl filter t >a", "ctl filter t > a b", "irq a", "tracing on",
           "ring", "trigger a traceoff", "sched", "sched k * 2", "sched 8", "sched 00", "ftrace 4", "ret x", "ctl", "ctl until 10", "Func a", "lane"]
# Lines with words of the language in the places of names, and the group that vim has for each word.
GROUPS = [
    ("func ret", "Declaration Function"),
    ("func call irq", "Declaration Function Module"),
    ("  call func", "Act Name"),
    ("user user function", "Declaration User Kind"),
    ("user t fprobe exit cancel pid irq pid", "Declaration User Kind Kind Kind Option OptionOf NameOf"),
    ("user t function regs ipmodify call call irq", "Declaration User Kind Option OptionOf NameOf OptionOf NameOf"),
    ("task 10 cpu 0", "Declaration NumberOf WordOf Number"),
    ("cpu 0 quantum 100", "Declaration NumberOf WordOf Number"),
    ("ctl filter filter > ext3_r", "Control Command Edited Edit Text"),
    ("ctl notrace t >> *", "Control Command Edited Edit GlobSign"),
    ("ctl pid 10 11", "Control Command Number Number"),
    ("sched k*2 0 all", "Schedule Turn Turn Turn"),
    ("trigger ext3:traceoff:1", "Size Trigger"),
    ("tracing off", "Size Option"),
    ("# func a", "Comment Comment Comment"),
    ("frob a", "Error "),
]
DUMP = """set nocompatible runtimepath^={vim}
filetype on
syntax on
edit {file}
let out = [&filetype]
for number in range(1, line("$"))
  let [text, groups, at] = [getline(number), [], 0]
  while match(text, '\\S', at) >= 0
    let at = match(text, '\\S', at)
    call add(groups, synIDattr(synID(number, at + 1, 1), "name"))
    let at = matchend(text, '\\S\\+', at)
  endwhile
  call add(out, join(groups, ","))
endfor
call writefile(out + [v:errmsg], "{out}")
qa!
"""


def form_rows():
    """The cells of each row of the table of lines."""
    return [cells for _, head, cells in check_docs.table_rows(PAGE) if head[:3] == ["rank", "line", "example"]]


def sample(form):
    """A line of this form."""
    return " ".join(PLACES.get(word, word) for word in form.split())


def form_lines():
    """Lines of every form: the example of each row, and lines made of the forms that are written out in it."""
    for cells in form_rows():
        yield CODE.findall(cells[2])[0]
        if not cells[1].startswith("the same"):
            yield from (sample(form) for form in CODE.findall(cells[1]))
    for _, head, cells in check_docs.table_rows(PAGE):
        if head[0] == "KIND":
            yield f"user t {CODE.findall(cells[0])[0]}"
        if head[:1] == ["OPTIONS, in this order, each at most once"]:
            yield "user t function " + sample(CODE.findall(cells[0])[0])


def first_words():
    """The words with which a line begins."""
    return sorted({line.split()[0] for line in form_lines()})


class TextMateTest(unittest.TestCase):
    """The grammar, whose expressions are those of Python too."""

    def setUp(self):
        """Reads it."""
        self.grammar = json.loads((EDITORS / "ftcore.tmLanguage.json").read_text())
        self.rules = self.grammar["repository"]

    def matching(self, line):
        """The part of the grammar that has the first rule for a line."""
        for part in (it["include"].lstrip("#") for it in self.grammar["patterns"]):
            if any(re.match(rule["match"], line) for rule in self.rules[part]["patterns"]):
                return part
        return None

    def test_forms(self):
        """Each form of a line has a rule."""
        lines = list(form_lines())
        self.assertGreater(len(lines), 60)
        for line in lines:
            for written in (line, f"\t {line}  ", line.replace(" ", " \t ")):
                self.assertNotIn(self.matching(written), (None, "no-form"), written)

    def test_examples(self):
        """Each line of an example has one, but for that of the script that is refused for its form."""
        for path in EXAMPLES:
            for line in path.read_text().splitlines():
                self.assertNotEqual(self.matching(line), "no-form", f"{path.name}: {line}")
                self.assertEqual(self.matching(line) is None, not line.strip(), line)

    def test_random_scripts(self):
        """So has each line of scripts of every form, with blanks and comments among them."""
        for seed in range(40):
            for line in script_forms.script(seed).decode("latin-1").split("\n"):
                self.assertNotEqual(self.matching(line), "no-form", f"seed {seed}: {line}")

    def test_no_form(self):
        """What has no form is told to be so, and a comment isn't."""
        for line in NO_FORM:
            self.assertEqual(self.matching(line), "no-form", line)
        self.assertEqual(self.matching(" # frob \x01 \xff"), "comment")

    def test_rules(self):
        """Each rule that is named is there, each expression can be read, and each group of it that is named is there."""
        named = set(re.findall(r'"include": "#([\w-]+)"', json.dumps(self.grammar)))
        self.assertEqual(named, set(self.rules))
        for part in self.rules.values():
            for rule in part["patterns"]:
                groups = re.compile(rule.get("match", "")).groups
                self.assertLessEqual(max(map(int, rule.get("captures", {"0": 0}))), groups)

    def test_parts(self):
        """Filter texts, triggers and turns are coloured within."""
        for part, text, wanted in [("text", "*:mod:!a", [":mod:", "!"]), ("glob", "x[!a-c]?*", ["[!a-c]", "?", "*"]), ("glob", "[]a]", ["[]a]"]),
                                   ("trigger", "a:traceoff:1", [":traceoff:1"]), ("turn", "k*2 0 all*50", ["k*2", "0", "all*50"])]:
            rules = [rule["match"] for rule in self.rules[part]["patterns"] if "match" in rule]
            self.assertEqual([found[0] for found in re.finditer("|".join(f"(?:{rule})" for rule in rules), text)], wanted)


class VimTest(unittest.TestCase):
    """The files for vim."""

    def dump(self, text):
        """The file type that vim finds for a script, the groups of each line's words, and its last error."""
        with tempfile.TemporaryDirectory() as folder:
            room = pathlib.Path(folder)
            (room / "x.ft").write_text(text)
            (room / "dump.vim").write_text(DUMP.format(vim=EDITORS / "vim", file=room / "x.ft", out=room / "out"))
            words = [VIM, "-es", "-u", "NONE", "-i", "NONE", "-n", "-S", str(room / "dump.vim")]
            subprocess.run(words, stdin=subprocess.DEVNULL, stdout=subprocess.PIPE, stderr=subprocess.STDOUT, timeout=60, check=False)
            kind, *lines, error = (room / "out").read_text().split("\n")[:-1]
        return kind, [line.replace("ftcore", "").split(",") for line in lines], error

    def test_first_words(self):
        """Each first word of a line has a rule, and no other word has one."""
        found = re.findall(r'^syn match \w+ "\^\\s\*\\zs(?:\\%\()?([a-z\\|]+?)(?:\\\))?\\ze', SYNTAX.read_text(), re.M)
        self.assertEqual(sorted(word for words in found for word in words.split("\\|")), first_words())

    def test_links(self):
        """Each group that is named is defined, and has a colour."""
        text = SYNTAX.read_text()
        defined = set(re.findall(r"^syn (?:match|keyword) (\w+)", text, re.M))
        named = set(re.findall(r"\w+", " ".join(re.findall(r"(?:nextgroup|contains)=([\w,@]+)", text)))) - {"Spell"}
        self.assertEqual(defined, set(re.findall(r"^hi def link (\w+)", text, re.M)))
        self.assertLessEqual(named, defined)

    @unittest.skipUnless(VIM, "there is no vim")
    def test_groups(self):
        """Words are coloured by their places: none is reserved."""
        kind, lines, error = self.dump("".join(line + "\n" for line, _ in GROUPS))
        if kind != "ftcore" or not any(any(line) for line in lines):
            self.skipTest(f"this vim has no syntax: {error}")
        self.assertEqual(error, "")
        for (line, wanted), came in zip(GROUPS, lines):
            self.assertEqual(wanted.split(" "), came, line)

    @unittest.skipUnless(VIM, "there is no vim")
    def test_examples(self):
        """In scripts that are accepted every word has a colour, and none is an error."""
        text = "".join(path.read_text() for path in EXAMPLES if path.name not in ("refused.ft", "realistic.ft")) + "".join(line + "\n" for line in form_lines())
        kind, lines, error = self.dump(text)
        if kind != "ftcore" or not any(any(line) for line in lines):
            self.skipTest(f"this vim has no syntax: {error}")
        self.assertEqual(error, "")
        for line, came in zip(text.splitlines(), lines):
            if line.strip():
                self.assertNotIn("", came, line)
                self.assertNotIn("Error", came, line)


if __name__ == "__main__":
    unittest.main()
