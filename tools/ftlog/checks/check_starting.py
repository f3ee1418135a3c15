"""Checks how the programs are started and built: `./ftcore` and `./prove`, in a small copy of the repository with a few crates.

In the place of `rt` stands a program of this file's own, which answers as `rt` does but builds scripts of the shell: so it is seen that
words, input, output and status come through as they are, which build answers, and what is said of that; that a build is made anew exactly
if a source has changed, and counts as proved only if it is marked so; that ./prove puts the programs in their places, and that a failure
names the crate, the function and the log. That a real `rt` proves and builds is what `.ci/run` shows before.

The last line is `starting: N passed, M failed`, and the status is 0 if nothing failed.
"""
import os
import pathlib
import shutil
import subprocess
import tempfile

from ftlog import runs

FILES = ("ftcore", "prove", "tools/start.sh", "tools/prove.py", "tools/ftlog/__init__.py", "tools/ftlog/fault.py")
SECONDS = 60  # that a call may take beside other work
PROGRAMS = ("ftcore", "ftjudge", "fttell", "ftoutcomes")
CRATES = "ft_base:\nother_tests: ft_base\n" + "".join(f"{name}: ft_base\n" for name in PROGRAMS)
SCRIPT = b"ftrace 1\n\x00\xff no line feed"
FIRST = b"ftcore: an unproved build is made first, which takes a minute or two; it is kept until a source changes\n"
NOT_KEPT = b"ftcore: it couldn't be kept (it wasn't seen), so it is made for this answer alone\n"
UNPROVED = b"ftcore: this answer is of an unproved build with run-time checks; ./prove builds the proved program\n"
FAKE = """#!/usr/bin/env python3
import os, pathlib, shutil, sys, time
words, how = sys.argv[1:], os.environ["FAKE"]
def make(path, status):
    path.parent.mkdir(parents=True)
    path.write_text(f"#!/bin/bash\\n[ $# = 0 ] || printf '%s,' {path.name} \\"$@\\"; [ $# = 0 ] || [ $1 = bulk ] || cat; exit {status}\\n")
    path.chmod(0o755)
with open(os.environ["CALLS"], "a") as calls:
    calls.write(f"{words[0]} {words[1] if words[1:] else ''}\\n")
if words == ["version"]:
    print("a kit")
elif words[:4] == ["try", "--steps", "1", "--cases"]:
    if how == "no build":
        sys.exit("src/main.rt:7:3: error[unknown-name]: it isn't there\\nrun=none proved=no")
    path = pathlib.Path(os.environ["TMPDIR"]) / "rt-try" / "run" / "unproved"
    if how != "not kept":
        make(path, 3)
        time.sleep(0.2)
        shutil.rmtree(path.parent)
    print("case=0 run=ended status=3 runners=1 proved=no", file=sys.stderr)
elif words[:2] == ["try", "--"]:
    if "long" in words:
        sys.exit("checked: no-answer: the program did not end within the time limit\\nrun=no-answer proved=no")
    sys.stdout.buffer.write(repr(words[2:]).encode() + b" " + sys.stdin.buffer.read())
    print("checked: ended status=3\\nrun=ended status=3 runners=1 proved=no", file=sys.stderr)
    sys.exit(3)
elif words == ["ci"]:
    print("== ft_base\\nrt: ft_base proved\\n== ftcore", flush=True)
    if how == "no proof":
        print("note: src/main.rt:7:3: it is not proved\\nfn ftcore::main: not proved\\nrt: ftcore NOT PROVED\\n1 passed, 1 failed")
        sys.exit(1)
    for name in set(os.listdir("crates")) - {"ft_base", "other_tests"}:
        shutil.rmtree(f"crates/{name}/out", ignore_errors=True)
        make(pathlib.Path("crates") / name / "out" / name, 5)
        print(f"rt: {name} proved\\n2 passed, 0 failed")
"""


class Copy:
    """A small copy of the repository, and calls of what starts and builds its programs."""

    def __init__(self, top, folder):
        self.top, self.bin, self.calls = folder / "copy", folder / "bin", folder / "calls"
        for file in FILES:
            (self.top / file).parent.mkdir(parents=True, exist_ok=True)
            shutil.copy(top / file, self.top / file)
        shutil.copytree(top / "tools/ftlog/proving", self.top / "tools/ftlog/proving")
        (self.top / "crates.txt").write_text(CRATES)
        (self.top / "HANDLES").write_text("Handles allowed: none.\n")
        self.change("ft_base/src/lib.rt", "ft_base/must-fail/one.edit", "other_tests/src/lib.rt", *(f"{name}/src/main.rt" for name in PROGRAMS), text="")
        self.bin.mkdir()
        (self.bin / "rt").write_text(FAKE)
        (self.bin / "rt").chmod(0o755)

    def change(self, *files, text="// another text"):
        """Writes this text into files of crates."""
        for file in files:
            path = self.top / "crates" / file
            path.parent.mkdir(parents=True, exist_ok=True)
            path.write_text(text)

    def command(self, *words, how="", has_rt=True):
        """The words and the environment of a call of a file at the top."""
        path = [str(self.bin)] * has_rt + os.environ["PATH"].split(":")
        path = [it for it in path if has_rt or not os.access(f"{it}/rt", os.X_OK)]
        return [str(self.top / words[0]), *words[1:]], {**os.environ, "PATH": ":".join(path), "FAKE": how, "CALLS": str(self.calls)}

    def call(self, *words, how="", has_rt=True, text=SCRIPT, cwd="/", **given):
        """What a call of a file at the top comes to."""
        command, env = self.command(*words, how=how, has_rt=has_rt)
        return runs.answer(command, text, SECONDS, cwd=cwd, env=env, **given)

    def new_calls(self):
        """How often `rt` was called since this was asked last, and how many of these calls built an unproved program."""
        found = self.calls.read_text().splitlines() if self.calls.exists() else []
        self.calls.unlink(missing_ok=True)
        return len(found), found.count("try --steps")


def make(path, text):
    """Writes a program for the shell."""
    path.write_text(f"#!/bin/bash\n{text}\n")
    path.chmod(0o755)


def same(came, status, out, err):
    """What is wrong with an answer that is to be this."""
    wrong = [f"status {came.status}, not {status}"] * (came.status != status)
    for what, text, wanted in (("output", came.out, out), ("error", came.err, err)):
        other = runs.other_text(text, wanted)
        wrong += [f"standard {what}: {other}"] if other else []
    return wrong


def ends_with(came, status, text):
    """What is wrong with an answer that is to have this status and this text at the end of its output."""
    return [f"status {came.status}, {runs.brief(came.out[-300:])}"] * (came.status != status or text not in came.out)


def check_unproved(rows, copy):
    """While the proved program isn't there."""

    def answers(name, builds, *words, calls=0):
        found = same(copy.call("ftcore", *words), 3, ",".join(["unproved", *words, ""]).encode() + SCRIPT, FIRST * builds + UNPROVED)
        came = copy.new_calls()
        rows.row(name, found + [f"{came} calls of rt and builds"] * (came != (calls or 2 * builds, builds)))

    failed = b"ftcore: no unproved build: "
    rows.row("no build", same(copy.call("ftcore", "run", how="no build"), 1, b"", FIRST + failed + b"src/main.rt:7:3: error[unknown-name]: it isn't there\n"))
    said = failed + b"rt, the command of the Rattle kit, isn't on the path\n"
    rows.row("no build without rt", same(copy.call("ftcore", "run", has_rt=False), 1, b"", said))
    copy.new_calls()
    answers("words, input, output and status", 1, "replay", "two words", "", "--print")
    answers("the build is kept", 0, "run")
    with subprocess.Popen(["sleep", "60"], stdout=subprocess.PIPE) as silent:
        rows.row("input is handed on", same(copy.call("ftcore", "bulk", stdin=silent.stdout), 3, b"unproved,bulk,", UNPROVED))
        silent.kill()
    copy.change("ft_base/must-fail/one.edit", "other_tests/src/lib.rt", "ftjudge/src/main.rt")
    answers("what isn't its source", 0, "run")
    copy.change("ft_base/src/lib.rt", text="")
    answers("a source with the same text", 0, "run", calls=1)
    answers("and after it", 0, "run")
    copy.change("ft_base/src/lib.rt")
    answers("a source has changed", 1, "run")
    copy.change("ft_base/src/more.rt")
    answers("a source more", 1, "run")
    (copy.top / "crates/ft_base/src/more.rt").unlink()
    answers("a source fewer", 1, "run")
    copy.change("ftcore/src/main.rt")
    command, env = copy.command("ftcore", "run")
    both = [subprocess.Popen(command, env=env, stdin=subprocess.DEVNULL, stdout=subprocess.PIPE, stderr=subprocess.DEVNULL) for _ in range(2)]
    told = [(it.communicate(timeout=SECONDS)[0], it.returncode) for it in both]
    rows.row("two at once, and one build", [f"{told}"] * (told != [(b"unproved,run,", 3)] * 2 or copy.new_calls()[1] != 1))
    make(copy.top / "crates/ftcore/out/ftcore", "exit 6")
    answers("a program without a mark isn't the proved one", 0, "run")
    rows.row("./prove says so", same(copy.call("prove", "--is-built"), 1, b"", b""))


def check_not_kept(rows, copy):
    """If no build can be kept, `rt try` answers each time."""
    copy.change("ftcore/src/main.rt", text="// not kept")
    said, words = FIRST + NOT_KEPT + UNPROVED, ["replay", "two words", ""]
    rows.row("not kept", same(copy.call("ftcore", *words, how="not kept"), 3, repr(words).encode() + b" " + SCRIPT, said))
    folder = os.open("/", os.O_RDONLY)
    rows.row("input that can't be read", same(copy.call("ftcore", "run", how="not kept", stdin=folder), 4, b"", said))
    os.close(folder)
    said += b"ftcore: no answer: it hadn't ended within the time that rt try gives\n"
    rows.row("it takes too long", same(copy.call("ftcore", "run", "long", how="not kept"), 1, b"", said))


def check_prove(rows, copy):
    """What ./prove says and leaves, and ./ftcore after it."""
    rows.row("no rt", same(copy.call("prove", has_rt=False), 2, b"", b"prove: rt, the command of the Rattle kit, isn't on the path\n"))
    failed = b"prove: ftcore isn't proved: fn ftcore::main, crates/ftcore/src/main.rt:7; "
    came = copy.call("prove", how="no proof")
    rows.row("a proof fails", ends_with(came, 1, failed + b"the whole log is "))
    rows.row("it is said at once", ends_with(came, 1, failed + b"crates that don't stand on it go on\n"))
    rows.row("the log", [] if (copy.top / "crates/ftcore/out/prove.log").read_text().endswith("1 failed\n") else ["it isn't that of the run"])
    rows.row("a proved program", ends_with(copy.call("prove"), 0, b"prove: the proved program is there, after 1 minute: ./ftcore runs it\n"))
    rows.row("it is run, and nothing is said", same(copy.call("ftcore", "replay", "a b"), 5, b"ftcore,replay,a b," + SCRIPT, b""))
    others = b"".join(b"prove: the proved program is there, after 1 minute: ./%b runs it\n" % name.encode() for name in PROGRAMS[1:])
    rows.row("the others too", ends_with(copy.call("prove", "all"), 0, b" proved\n" + others))
    proved, unproved = (5, b"ftcore,run," + SCRIPT, b""), (3, b"unproved,run," + SCRIPT, UNPROVED)
    copy.change("other_tests/src/lib.rt", "ft_base/must-fail/one.edit", text="// other tests")
    rows.row("tests are no source", same(copy.call("ftcore", "run"), *proved))
    copy.change("ft_base/src/lib.rt", text="// newer")
    rows.row("a source is newer", same(copy.call("ftcore", "run"), *unproved[:2], FIRST + UNPROVED))
    copy.change("ft_base/src/lib.rt")
    rows.row("its old text", same(copy.call("ftcore", "run"), *proved))
    make(copy.top / "crates/ftcore/out/ftcore", "exit 6")
    copy.change("ft_base/src/lib.rt", text="// newer")
    rows.row("another program in its place", same(copy.call("ftcore", "run"), *unproved))
    copy.change("ft_base/src/lib.rt")
    rows.row("and its old text", same(copy.call("ftcore", "run"), *unproved[:2], FIRST + UNPROVED))


def check_mark(rows, copy):
    """What the whole check marks as proved after its `rt ci`."""
    for name, text, found in (("marked", "// newer", []), ("a source has changed since", "// newest", ["crates/ft_base/src/lib.rt"])):
        (copy.top / "begun").touch()
        command, env = copy.command("../bin/rt", "ci")
        runs.answer(command, seconds=SECONDS, cwd=copy.top, env=env)
        if found:
            copy.change("ft_base/src/lib.rt", text=text)
        said = b"".join(b"prove: %b has changed since `rt ci` began; nothing is marked as proved\n" % it.encode() for it in found)
        rows.row(name, same(copy.call("tools/prove.py", "--mark", str(copy.top / "begun")), 0, said, b""))
        rows.row(f"{name}, as ./prove says", same(copy.call("prove", "--is-built", "ftjudge"), len(found), b"", b""))


def add_words(parser):
    """Adds the words of `ft check starting`."""
    parser.add_argument("--top", type=pathlib.Path, default=runs.TOP, metavar="FOLDER", help="where ftcore, prove and tools/ are; else this repository")
    runs.add_verbose(parser)


def run(words):
    """Checks all in one copy, in the order in which a user meets it."""
    rows = runs.Rows("starting", words.verbose)
    with tempfile.TemporaryDirectory(prefix="starting-") as folder:
        copy = Copy(words.top, pathlib.Path(folder))
        for check in (check_unproved, check_not_kept, check_prove, check_mark):
            check(rows, copy)
    return rows.end()
