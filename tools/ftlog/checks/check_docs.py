"""Runs what the pages show through the built program, which must give those very bytes and the status that belongs to them:

- each script of examples/: NAME.ft prints NAME.log, and NAME.function, NAME.graph, NAME.profile, NAME.enabled, NAME.modules
  and NAME.rings with `--print` and that word. The log has to be there, the others may be; there are no other files;
- each NAME.judge of examples/judged/, a script with a log: the program that judges logs says of it what verdicts.txt there has for
  NAME. Beside one that isn't legal a legal one of the same script is named, and docs/JUDGE.md has it beside the sentence that it breaks;
- each script of examples/litmus/ is replayed, and docs/OUTCOMES.md names it;
- each row of docs/LANGUAGE.md that has its script, in a table whose first two columns are `script` and `prints`;
- the blocks of README.md and of each page of docs/ that are scripts or commands.

The programs of docs/LIBRARY.md aren't run here, but by `rt ci`: the page has to have the bytes of the one's source, and of the output
that is stored beside each. docs/SIGNATURES.md has to be what `tools/ft signatures` prints.

A block is lines of a page that begin with four blanks, with no other line between them.

- If its first line is `ftrace 1`, `ftrace 2` or `ftrace 3`, it is a script. Either the next block is its log, or a command below reads it.
- If its first line begins with `$ ftcore`, it is a command and, from the next line on, what that prints; more
  commands may follow in it, each with what it prints. A command is `$ ftcore` and the program's words, without
  quotes. It reads the nearest script above it on its page or, if it ends with `< examples/NAME.ft`, that one.
  `bulk` reads none.

- If its first line begins with `$ ft `, it is a run of tools/ft from the repository's top, with these words as a shell splits them, and, from the next line on, what
  it writes to both streams. It reads the nearest script above it unless a word names a file. Its status has to be 0 or, if the last
  line of the block is `status N`, N.

  Runs of `$ ft outcomes` are left out as long as the program ftoutcomes isn't built.

- If its first line is `$ ftjudge`, it is a run of the program that judges logs, which reads the nearest script above it with its
  log, and, from the next line on, what that writes.

Other blocks are left alone: pictures, and commands of other programs. But no command is: a line that begins with
`$ ftcore` and can't be run counts as failed, wherever on a page it is, and so does a script that nothing runs.

- If its lines begin with `./ftcore`, they are commands that a reader types: each is run and has to end with 0. What stands after
  two blanks says what it does.
- If it begins with `printf`, it is for the reader's shell. It is run as a whole, and has to end with 0, print something, and say nothing on
  standard error.

page_names.py looks whether what a page names is there. The last line is `docs: N passed, M failed`, and the status is 0 if
nothing failed.
"""
import re
import shlex
import tempfile

from ftlog import runs
from ftlog.checks import judging, page_names
from ftlog.upkeep import signatures

REFUSED = re.compile(rb"line [1-9][0-9]*: [a-z]+\n")
ENDS = (b"end\n", b"stopped\n")
FORMS = {form: ["replay", "--print", form] for form in ("function", "graph", "profile", "enabled", "modules", "rings")}
FORMS["log"] = ["replay"]
COMMAND = re.compile(rb"\$ ftcore((?: [\w=.-]+)*)(?: < (examples/[\w.]+\.ft))?\n")
TOOL = runs.TOP / "tools" / "ft"
LITMUS = "litmus"  # the folder of examples/ whose scripts docs/OUTCOMES.md is about
OUTCOMES = runs.TOP / "crates" / "ftoutcomes" / "out" / "ftoutcomes"
STATUS = re.compile(rb"status ([0-9]+)\n\Z")  # the last line of what a tool writes, on a page
JUDGED = "judged"  # the folder of examples/ that has the logs to be judged
RECORDED = "recorded"  # and that of recordings, which `ft check recorded` judges
TOLD = re.compile(r"(\w+): (whole|legal|line [0-9]+: (plain run|[a-z]+))(?: \((\w+)\))?")  # a line of verdicts.txt
TYPED = re.compile(rb"\./ftcore((?: [\w=.-]+)*)(?: < (examples/[\w.]+\.ft))?(?:  .*)?\n")
IS_COMMAND = re.compile(r"[\s>*+-]*\$\s*\S*ftcore\b")
PROGRAMS = {"step_by_step": [(b"rust", "src/main.rt"), (b"text", "stdout")], "ring_runs": [(b"text", "stdout")]}  # what of them docs/LIBRARY.md has
NOT_EMPTY = ("README.md", "TOUR.md")  # the pages that have a script at least


def status_of(text):
    """The status that belongs to a printed text, None if there is none."""
    lines = text.splitlines(keepends=True)
    if lines and lines[-1] in ENDS:
        return 0
    return 3 if REFUSED.fullmatch(text) else None


def show(rows, program, name, script, wanted, words=("replay",)):
    """One row: with these words this script prints this text."""
    status = status_of(wanted)
    if status is None:
        rows.row(name, ["what it prints ends with none of `end`, `stopped` and a cause"])
        return
    came = runs.answer([program, *words], script)
    rows.row(name, runs.faults(came, status, wanted), came.seconds)


def show_examples(rows, program, folder):
    """Each text of the folder, beside the script of the same name; a script without a log, and any other file, counts as failed."""
    paths = sorted(path for path in folder.iterdir() if path.name not in (JUDGED, LITMUS, RECORDED))
    for path in paths:
        name, script, form = f"examples/{path.name}", path.with_suffix(".ft"), path.suffix[1:]
        if path == script:
            if path.with_suffix(".log") not in paths:
                rows.row(name, [f"there is no {path.stem}.log"])
        elif form not in FORMS:
            rows.row(name, ["it is neither a script nor a form of what one prints"])
        elif script not in paths:
            rows.row(name, [f"there is no {script.name}"])
        else:
            show(rows, program, name, script.read_bytes(), path.read_bytes(), FORMS[form])
    if not any(path.suffix == ".ft" for path in paths):
        rows.row("examples", ["there are no scripts"])


def show_litmus(rows, program, folder, page):
    """A row for each file of the folder: it is a script that is accepted and comes to its end, and the page names it."""
    text = page.read_text()
    for path in sorted(folder.iterdir()):
        name = f"examples/{LITMUS}/{path.name}"
        came = runs.answer([program, "replay"], path.read_bytes())
        found = runs.faults(came, 0) + ([] if came.out.endswith(b"end\n") else ["it doesn't come to its end"])
        rows.row(name, found + ([] if f"../{name})" in text else [f"{page.name} doesn't name it"]), came.seconds)


def table_rows(text):
    """Each row of each table of a page: the number of its line, the table's columns, and the cells."""
    head = None
    for number, line in enumerate(text.split("\n"), 1):
        if not line.startswith("|"):
            head = None
            continue
        cells = [cell.strip() for cell in re.split(r"(?<!\\)\|", line)[1:-1]]
        if head is None:
            head = cells
        elif not all(re.fullmatch(":?-+:?", cell) for cell in cells):
            yield number, head, cells


def text_of(cell):
    """The bytes of a cell that is one text: `; ` is a line feed, and one line feed ends the last line. None if it is another cell."""
    if cell == "no bytes":
        return b""
    found = re.fullmatch(r"`([^`]+)`( without the last line feed)?", cell)
    if not found:
        return None
    return (found[1].replace("; ", "\n") + ("" if found[2] else "\n")).encode()


def sentences_of(page):
    """Of each log that the page names in a table with the columns `sentence`, `broken by` and `told`: what it is told, row by row."""
    found = {}
    for _, head, cells in table_rows(page.read_text()):
        if head == ["sentence", "broken by", "told"]:
            for name in re.findall(r"`(\w+)`", cells[1]):
                found.setdefault(name, []).append(cells[2].strip("`"))
    return found


def script_of(text):
    """The lines of the script in a text for the judge, without comments."""
    return [line for line in text.partition("\nlog\n")[0].split("\n") if not line.startswith("#")]


def judged_faults(texts, told, name, sentences):
    """What is wrong with one of these texts: it is judged so, its legal log has the same script, and its sentence is on the page."""
    _, verdict, rule, legal = told[name].groups()
    text = verdict.encode() + b"\n"
    said = judging.read_text(text)
    if said is None:
        return ["no such verdict"]
    found = runs.faults(runs.answer([judging.JUDGE], texts[name].encode()), judging.status_of(said), text)
    if bool(rule) != bool(legal) or legal and (legal not in told or told[legal][3] or script_of(texts[legal]) != script_of(texts[name])):
        found.append(f"{legal} isn't a legal log of the same script")
    if sentences != ([rule] if rule else []):
        found.append("docs/JUDGE.md doesn't have it beside one sentence, with its rule")
    return found


def show_judged(rows, folder, page):
    """Each log of the folder, which is judged as verdicts.txt says; these, the lines there and the names on the page are the same."""
    texts, sentences = {path.stem: path.read_text() for path in sorted(folder.glob("*.judge"))}, sentences_of(page)
    lines = (folder / "verdicts.txt").read_text().splitlines()
    told = {found[1]: found for found in map(TOLD.fullmatch, lines) if found}
    files = {path.name for path in folder.iterdir()} - {f"{name}.judge" for name in told} - {"verdicts.txt"}
    names = sorted(files | (told.keys() - texts.keys()) | (sentences.keys() - told.keys()))
    rows.row(f"examples/{folder.name}", [f"{name} isn't there, in the folder or in verdicts.txt" for name in names])
    rows.row(f"examples/{folder.name}/verdicts.txt", [] if len(told) == len(lines) else ["a line is no verdict, or a name comes twice"])
    for name in sorted(texts.keys() & told.keys()):
        rows.row(f"examples/{folder.name}/{name}.judge", judged_faults(texts, told, name, sentences.get(name, [])))


def show_table_rows(rows, program, page):
    """Each row of the page that has a script and what it prints."""
    found = [(number, *cells) for number, head, cells in table_rows(page.read_text()) if head[:2] == ["script", "prints"]]
    in_words = [number for number, script, *_ in found if text_of(script) is None]
    for number, script, wanted, *_ in found:
        if number not in in_words:
            show(rows, program, f"{page.name}, line {number}", text_of(script), text_of(wanted) or b"")
    if in_words:
        print(f"docs: {page.name}, lines {', '.join(map(str, in_words))}: the script is told in words, so it isn't run")
    if len(found) == len(in_words):
        rows.row(page.name, ["no row has a script and what it prints"])


def blocks(text):
    """The indented blocks of a page, each with the number of its first line."""
    found, block = [], []
    for number, line in enumerate(text.split("\n") + [""], 1):
        if line.startswith("    "):
            block.append(line[4:])
        elif block:
            found.append((number - len(block), "".join(line + "\n" for line in block).encode()))
            block = []
    return found


def show_library(rows, page, crate, what):
    """A row for each of these, a kind of block and a file of this crate: the page has the file as a block of its kind."""
    text = page.read_bytes()
    for kind, path in what:
        found, wanted = re.findall(b"^```" + kind + rb"\n(.*?)^```$", text, re.DOTALL | re.MULTILINE), (crate / path).read_bytes()
        others = [runs.other_text(block, wanted) for block in found]
        fault = None if None in others else others[0] if others else "there is no such block"
        rows.row(f"{page.name}, {path} of {crate.name}", [fault] if fault else [])


def show_signatures(rows, top):
    """One row: the page of signatures is what the sources give."""
    fault = runs.other_text((top / "docs" / "SIGNATURES.md").read_bytes(), signatures.page(top).encode())
    rows.row("SIGNATURES.md", [fault] if fault else [])


def commands(number, block):
    """The commands of a block: of each the number of its line, that line, and what is said to be printed."""
    found = []
    for at, line in enumerate(re.findall(rb"[^\n]*\n", block), number):
        if line.startswith(b"$ "):
            found.append([at, line, b""])
        else:
            found[-1][2] += line
    return found


class Page:
    """A page whose blocks are run one by one: the nearest script, with the number of its line, and the lines that were run."""

    def __init__(self, rows, words, path):
        self.rows, self.program, self.top, self.path = rows, words.program, words.top, path
        self.script, self.scripts, self.ran = None, [], set()

    def name(self, number):
        return f"{self.path.name}, line {number}"

    def fail(self, number, why):
        self.rows.row(self.name(number), [why])

    def begin(self, number, block):
        """From here on this script is the nearest one."""
        self.script = block
        self.scripts.append(number)

    def read_by(self, words, example):
        """What a command with these words reads; None if there is no such script."""
        if "bulk" in words:
            return b""
        if example is None:
            self.ran.update(self.scripts[-1:])
            return self.script
        path = self.top / example
        return path.read_bytes() if path.is_file() else None

    def run(self, number, line, wanted):
        """One row: the command of this line prints this text."""
        self.ran.add(number)
        found = COMMAND.fullmatch(line)
        if not found:
            self.fail(number, "it has something other than words and `< examples/NAME.ft`")
            return
        words, example = found[1].decode().split(), found[2] and found[2].decode()
        script = self.read_by(words, example)
        if script is None:
            self.fail(number, f"there is no {example or 'script above it'}")
        else:
            show(self.rows, self.program, self.name(number), script, wanted, words)

    def judge(self, number, block):
        """One row: the nearest script, with its log, is judged so."""
        self.ran.update(self.scripts[-1:])
        self.ran.add(number)
        wanted = block.partition(b"\n")[2]
        said = judging.read_text(wanted)
        if said is None:
            self.fail(number, "it isn't what ftjudge writes")
            return
        came = runs.answer([judging.JUDGE], self.script or b"", judging.SECONDS)
        self.rows.row(self.name(number), runs.faults(came, judging.status_of(said), wanted), came.seconds)

    def use(self, number, line, wanted):
        """One row: the tool of this line writes this text."""
        self.ran.update(self.scripts[-1:])
        self.ran.add(number)
        if line.startswith(b"$ ft outcomes ") and not OUTCOMES.exists():
            return
        status, text = STATUS.search(wanted), STATUS.sub(b"", wanted)
        came = runs.answer([TOOL, *shlex.split(line.decode())[2:]], self.script or b"", seconds=60, cwd=self.top)
        both = came._replace(out=came.out + came.err, err=b"") if came.status is not None else came
        self.rows.row(self.name(number), runs.faults(both, int(status[1]) if status else 0, text), came.seconds)

    def type(self, number, block):
        """One row for each command of the block that a reader can type as it is: it ends with 0."""
        for at, line in enumerate(block.splitlines(keepends=True), number):
            found = TYPED.fullmatch(line)
            if found:
                words, path = found[1].decode().split(), self.top / (found[2] or b"examples/first_path.ft").decode()
                came = runs.answer([self.program, *words], path.read_bytes() if path.is_file() else b"")
                self.rows.row(self.name(at), runs.faults(came, 0))

    def recipe(self, number, block):
        """One row: the lines of a block for the shell."""
        with tempfile.TemporaryDirectory() as room:
            came = runs.answer(["bash", "-c", block.decode().replace("./ftcore", str(self.program))], cwd=room)
        self.rows.row(self.name(number), runs.faults(came, 0) + ([] if came.out else ["it prints nothing"]))

    def show(self):
        """Each script and each command, and gives how many scripts there are."""
        text, is_below = self.path.read_text(), False
        for number, block in blocks(text):
            is_script = block.startswith((b"ftrace 1\n", b"ftrace 2\n", b"ftrace 3\n"))
            if is_script:
                self.begin(number, block)
            elif block.startswith(b"$ ftcore"):
                for command in commands(number, block):
                    self.run(*command)
            elif block.startswith(b"$ ft "):
                for command in commands(number, block):
                    self.use(*command)
            elif block.startswith(b"$ ftjudge\n"):
                self.judge(number, block)
            elif block.startswith(b"./ftcore"):
                self.type(number, block)
            elif block.startswith(b"printf "):
                self.recipe(number, block)
            elif is_below:
                self.ran.add(self.scripts[-1])
                show(self.rows, self.program, self.name(self.scripts[-1]), self.script, block)
            is_below = is_script
        self.show_left(text)
        return len(self.scripts)

    def show_left(self, text):
        """What was to be run and wasn't."""
        for number in self.scripts:
            if number not in self.ran:
                self.fail(number, "nothing says what the script prints")
        for number, line in enumerate(text.split("\n"), 1):
            if IS_COMMAND.match(line) and number not in self.ran:
                self.fail(number, "the command isn't run: it isn't in a block that begins with `$ ftcore`")


def add_words(parser):
    """Adds the words of `ft check docs`."""
    runs.add_options(parser)


def run(words):
    """Checks all that the pages show."""
    words.program = words.program.resolve()
    runs.want_program(words.program)
    rows = runs.Rows("docs", words.verbose)
    show_examples(rows, words.program, words.top / "examples")
    show_judged(rows, words.top / "examples" / JUDGED, words.top / "docs" / "JUDGE.md")
    show_litmus(rows, words.program, words.top / "examples" / LITMUS, words.top / "docs" / "OUTCOMES.md")
    show_table_rows(rows, words.program, words.top / "docs" / "LANGUAGE.md")
    for crate, what in PROGRAMS.items():
        show_library(rows, words.top / "docs" / "LIBRARY.md", words.top / "crates" / crate, what)
    show_signatures(rows, words.top)
    pages = [words.top / "README.md", *sorted((words.top / "docs").glob("*.md"))]
    layers = words.top / "crates" / "README.md"
    page_names.check(rows, words.top, [*pages, layers])
    for path in pages:
        if not Page(rows, words, path).show() and path.name in NOT_EMPTY:
            rows.row(path.name, ["no example"])
    return rows.end()
