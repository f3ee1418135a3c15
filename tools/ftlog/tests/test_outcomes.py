"""Tests of tools/ft outcomes: the litmus tests against a full search, the tables of docs/OUTCOMES.md, patterns, and wrong inputs.

Those that replay are left out as long as the programs aren't built."""
import os
import pathlib
import random
import re
import tempfile
import unittest

from ftlog import outcome_runs, runs
from ftlog.commands import outcomes
from ftlog.tests.called import ft, program

PAGE = runs.TOP / "docs" / "OUTCOMES.md"
LITMUS = runs.TOP / "examples" / "litmus"
PROGRAM = str(outcomes.PROGRAM)
IS_BUILT = os.access(PROGRAM, os.X_OK)
HAS_REPLAY = os.access(runs.PROGRAM, os.X_OK)
MANY = 1_000_000
ROW = re.compile(r"\| `([^`]+)` \| (yes|no) \| (yes|no) \| \S.* \|")
EXAMPLES = ("ipmodify", "contexts", "refused_pid", "missed_exit", "until")
HEAD = b"ftrace 1\nfunc a\nuser t function\ncpu 0 quantum 100\n"
TINY = HEAD + b"task 10 cpu 0\ncall a\nret\nctl register t\n"
TWO_CPUS = HEAD + b"cpu 1 quantum 100\ntask 10 cpu 0\ncall a\nret\ntask 11 cpu 1\ncall a\nret\nctl register t\n"
ON_AND_OFF = b"ctl register t\nctl unregister t\n"
TWO_CALLS = b"task 10 cpu 0\ncall a\nret\ncall a\nret\n"
SMALL = {
    "one call": TINY,
    "two CPUs": TWO_CPUS,
    "waits apart": HEAD + b"task 10 cpu 0\nafter 1\ncall a\nret\nafter 1\ncall a\nret\nafter 2\ncall a\nret\n" + ON_AND_OFF,
    "waits in a row": HEAD + b"task 10 cpu 0\nafter 1\nafter 1\nafter 2\nafter 1\ncall a\nret\n" + ON_AND_OFF,
    "an interrupt": HEAD + b"task 10 cpu 0\nirq\nafter 1\ncall a\nret\nnmi\niret\niret\ncall a\nret\n" + ON_AND_OFF,
    "control waits": HEAD + TWO_CALLS + b"ctl until 10 1\nctl register t\nctl until 10 3\nctl unregister t\n",
    "a refusal": HEAD + b"task 10 cpu 0\ncall a\nret\nctl unregister t\nctl register t\nctl register t\n",
}
LARGE = {  # that have too many schedules to try them all
    "control waits twice": HEAD + TWO_CALLS + b"ctl until 10 1\nctl until 10 2\nctl until 10 2\nctl register t\n",
    "two tasks": HEAD + b"task 10 cpu 0\nafter 1\ncall a\nret\ntask 11 cpu 0\nirq\ncall a\nret\niret\nctl register t\n",
}
def outcome_of(log, pids):
    """The outcome that a log tells, as ftoutcomes writes it."""
    calls, commands = {}, []
    *lines, last = log.splitlines()
    for _, kind, call, *rest in map(str.split, lines):
        if kind == "enter":
            calls[call] = (rest[1], [])
        elif kind in ("back", "exit", "miss", "refuse"):
            calls[call][1].append(" ".join([kind, *rest[: 1 + (kind == "refuse")]]))
        elif kind == "body":
            calls[call][1].append(" ".join(["body", *([] if rest[0] == calls[call][0] else ["of", rest[0]]), *rest[1:]]))
        elif kind == "return" and rest != ["ok"]:
            commands.append(f"command {call}: {' '.join(rest)}")
    order = sorted(calls, key=lambda call: (pids.index(call.split(".")[0]), int(call.split(".")[1])))
    told = [f"{call} {calls[call][0]}:" + (" " + ", ".join(calls[call][1]) if calls[call][1] else "") for call in order]
    return "; ".join(told + commands + ["stopped"] * (last == "stopped")) or "no calls"


def replayed(script, schedule):
    """The outcome of a script with this schedule, which is a `sched` line, by one replay."""
    lines = [line for line in script.decode().split("\n") if line.split()[:1] != ["sched"]]
    came = runs.answer([runs.PROGRAM, "replay"], "\n".join([*lines, schedule, ""]).encode())
    return outcome_of(came.out.decode(), [line.split()[1] for line in lines if line.split()[:1] == ["task"]])


def full_search(script):
    """The outcomes of all schedules of a script."""
    found = outcome_runs.find(PROGRAM, script, 1, 0, outcome_runs.ALL_SWITCHES, MANY)
    assert found.is_whole
    return {it.text for it in found.outcomes}


def random_outcomes(script):
    """The outcomes of some schedules at random."""
    return {it.text for it in outcome_runs.find(PROGRAM, script, 5, 8_000, None, 0).outcomes}


def sections():
    """Each litmus test of the page: the script's file, and the rows: an outcome, and whether it may be in versions 1 and 2, and in 3."""
    for part in PAGE.read_text().split("\n## ")[1:]:
        rows = ROW.findall(part)
        if rows:
            yield LITMUS / re.search(r"\]\(\.\./examples/litmus/(\w+\.ft)\)", part)[1], rows


def with_looks(script):
    """The same script in version 3, where CPUs look for requests."""
    return script.replace(b"ftrace 1\n", b"ftrace 3\n", 1)


def fake(room, text, status=0):
    """A program in the place of ftoutcomes that writes this text whatever it is given."""
    (pathlib.Path(room) / "text").write_text(text)
    return str(program(room, f"cat > /dev/null; cat {room}/text; exit {status}", "fake"))


class Merging(unittest.TestCase):
    """What the runs find is put together, without the program."""

    def test_parts(self):
        words = outcome_runs.orders(1, 20_000, 3, 500)
        self.assertEqual(sum(int(it[2]) for it in words if it[0] == "random"), 20_000)
        self.assertEqual(len({it[1] for it in words if it[0] == "random"}), outcome_runs.PARTS)
        self.assertEqual(words[-1], ["search", "3", "500"])
        self.assertEqual(outcome_runs.orders(0, 0, None, 0), [])
        self.assertEqual(sum(int(it[2]) for it in outcome_runs.orders(0, 3, None, 0)), 3)

    def test_merge(self):
        one = "2 10.1 a: body nop\nsched k*3 0 all*9\n1 no calls\nsched all*9\n2 outcomes in 3 replays\n"
        other = "5 10.1 a: body nop\nsched 0*4 all*9\n1 outcomes in 5 replays, and there are no more to try\n"
        found = outcome_runs.merged("p", [["random"], ["search"]], [one, other])
        self.assertEqual([(it.times, it.text, it.shown.line) for it in found.outcomes],
                         [(2, "10.1 a: body nop", "sched 0*4 all*9"), (1, "no calls", "sched all*9")])
        self.assertEqual((found.tries, found.searched, found.is_whole), (3, 5, True))

    def test_cut_off(self):
        found = outcome_runs.merged("p", [["search"]], ["0 outcomes in 7 replays, and there are more to try\n"])
        self.assertEqual((found.is_whole, found.searched), (False, 7))
        self.assertEqual(outcomes.heading(found, 2), "0 outcomes by a search with 2 switches, cut off after 7 replays")

    def test_lanes(self):
        for script, told in [(b"lane 0\nctl pid\n", ""), (b"ctl pid\nctl pid\n", ""), (b"lane 0\nctl pid\nlane 1\n", ""),
                             (b" lane 0\nctl pid\nctl pid\nlane 1\nlane 2\n# lane\n\tctl pid\n", ", in one order of the lanes: lane 0, then lane 2")]:
            self.assertEqual(outcomes.lanes_told(script), told)

    def test_patterns(self):
        wanted = outcomes.patterns("--never", ["body nop"]) + outcomes.patterns("--always", ["10.1"])
        short, long = outcome_runs.shown("sched all*9"), outcome_runs.shown("sched k*2 all*9")
        made = [outcome_runs.Outcome(1, "10.1 a: body nop", long), outcome_runs.Outcome(1, "10.1 a: body own t", short)]
        self.assertEqual(outcomes.breaks(wanted, made)[1:], ("10.1 a: body nop", "--never", "body nop"))
        self.assertIsNone(outcomes.breaks(wanted, made[1:]))
        made.append(outcome_runs.Outcome(1, "no calls", short))
        self.assertEqual(outcomes.breaks(wanted, made)[1:], ("no calls", "--always", "10.1"))

    def test_script(self):
        script = b"ftrace 1\n# sched k\r sched 0\n sched k*2\nctl maxdepth 1\nsched 0\n"
        wanted = b"ftrace 1\n# sched k\r sched 0\nctl maxdepth 1\n# why\nsched all*9\n"
        self.assertEqual(outcomes.with_schedule(script, "sched all*9", ["why"]), wanted)


class Page(unittest.TestCase):
    """The tables of the page."""

    def test_each_litmus_test_has_a_table(self):
        self.assertEqual(sorted(path for path, _ in sections()), sorted(LITMUS.iterdir()))
        for path, rows in sections():
            self.assertEqual(len({text for text, *_ in rows}), len(rows), path.name)
            for column in (1, 2):
                self.assertEqual({row[column] for row in rows}, {"yes", "no"}, path.name)

    @unittest.skipUnless(IS_BUILT, "ftoutcomes isn't built")
    def test_tables_have_every_outcome(self):
        for path, rows in sections():
            script = path.read_bytes()
            for column, made in ((1, script), (2, with_looks(script))):
                may = {row[0] for row in rows if row[column] == "yes"}
                self.assertEqual(full_search(made), may, path.name)
                self.assertLessEqual(random_outcomes(made), may, path.name)


@unittest.skipUnless(IS_BUILT, "ftoutcomes isn't built")
class Searches(unittest.TestCase):
    """What is found, against a full search."""

    def test_all_outcomes_are_found(self):
        """With what the tool tries if nothing else is said."""
        for path in sorted(LITMUS.iterdir()):
            script = path.read_bytes()
            found = outcome_runs.find(PROGRAM, script, 1, outcomes.TRIES, outcomes.SWITCHES, outcomes.TRIES)
            self.assertEqual({it.text for it in found.outcomes}, full_search(script), path.name)

    def test_full_search_has_every_random_outcome_of_a_small_script(self):
        for name, script in SMALL.items():
            for made in (script, with_looks(script)):
                self.assertLessEqual(random_outcomes(made), full_search(made), name)

    def test_search_with_some_switches_has_every_random_outcome(self):
        for name, script in LARGE.items():
            for made in (script, with_looks(script)):
                found = outcome_runs.find(PROGRAM, made, 1, 0, 3, MANY)
                self.assertLessEqual(random_outcomes(made), {it.text for it in found.outcomes}, name)

    def test_more_switches_find_no_less(self):
        for script in (TINY, TWO_CPUS):
            before = set()
            for switches in range(4):
                found = {it.text for it in outcome_runs.find(PROGRAM, script, 1, 0, switches, MANY).outcomes}
                self.assertLessEqual(before, found)
                before = found
            self.assertLessEqual(before, full_search(script))

    def test_one_seed_gives_one_output(self):
        with tempfile.TemporaryDirectory() as room:
            path = pathlib.Path(room) / "x.ft"
            path.write_bytes(TINY)
            first = ft("outcomes", str(path), "--tries", "300", "--seed", "7")
            processors, os.cpu_count = os.cpu_count, lambda: 1
            try:
                self.assertEqual(ft("outcomes", str(path), "--tries", "300", "--seed", "7"), first)
            finally:
                os.cpu_count = processors
            self.assertEqual(first[0], 0)
            self.assertNotEqual(ft("outcomes", str(path), "--tries", "300", "--seed", "8")[1], first[1])

    def test_standard_input(self):
        status, out, err = ft("outcomes", "--tries", "10", "--switches", "none", text=TINY)
        self.assertEqual((status, err, out.partition("\n")[0].endswith("by 10 replays at random")), (0, "", True))

    def test_refused_script(self):
        self.assertEqual(ft("outcomes", text=b"ftrace 1\nfrob\n"), (2, "", "ft outcomes: the script is refused: line 2: syntax\n"))

    def test_words_of_the_program(self):
        for words in ("", "random", "random 1", "random x 1", "random 1 -1", "find 1 1", "search 1 12345678901", "random 1 1 1", "--help"):
            self.assertEqual(runs.answer([PROGRAM, *words.split()], TINY)[:3], (2, b"", b""), words)

    def test_statuses_of_the_program(self):
        self.assertEqual(runs.answer([PROGRAM, "random", "1", "1"], b"x\n")[:3], (3, b"line 1: version\n", b""))
        self.assertEqual(runs.answer([PROGRAM, "random", "1", "1"], b"x" * 16_777_217)[:3], (7, b"", b""))
        self.assertEqual(runs.answer(["sh", "-c", f"{PROGRAM} random 1 1 < /"])[:2], (4, b""))
        self.assertEqual(runs.answer(["sh", "-c", f"{PROGRAM} random 1 1 > /dev/full"], TINY)[0], 5)


@unittest.skipUnless(IS_BUILT and HAS_REPLAY, "ftoutcomes or ftcore isn't built")
class Replays(unittest.TestCase):
    """The schedules, by the program ftcore, which prints logs."""

    def test_schedules_show_their_outcomes(self):
        scripts = [path.read_bytes() for path in sorted(LITMUS.iterdir())] + [*SMALL.values(), *LARGE.values()]
        scripts += [(runs.TOP / "examples" / f"{name}.ft").read_bytes() for name in EXAMPLES]
        for script in scripts + [with_looks(script) for script in scripts]:
            for it in outcome_runs.find(PROGRAM, script, 1, 64, 1, 100).outcomes:
                self.assertEqual(replayed(script, it.shown.line), it.text)

    def test_full_search_has_every_random_outcome(self):
        chance = random.Random(3)
        for path in sorted(LITMUS.iterdir()):
            script, found = path.read_bytes(), full_search(path.read_bytes())
            for _ in range(60):
                items = [f"{chance.choice('k0')}*{chance.randint(1, chance.choice((3, 12, 48)))}" for _ in range(chance.randint(1, 12))]
                self.assertIn(replayed(script, f"sched {' '.join(items)} all*40000"), found, path.name)

    def test_broken_pattern_gives_a_script(self):
        with tempfile.TemporaryDirectory() as room:
            path, out = pathlib.Path(room) / "x.ft", pathlib.Path(room) / "broken.ft"
            path.write_bytes(TINY)
            words = ["outcomes", str(path), "--tries", "200", "--never", "body own t"]
            status, text, _ = ft(*words, "--out", str(out))
            self.assertEqual((status, text.splitlines()[-1]), (1, f"--never 'body own t' is broken; {out} has a script that shows it"))
            came = runs.answer([runs.PROGRAM, "replay"], out.read_bytes())
            self.assertIn("body own t", outcome_of(came.out.decode(), ["10"]))
            status, text, _ = ft(*words)
            self.assertEqual(text.partition("this script shows it:\n")[2].encode(), out.read_bytes())
            self.assertEqual(ft(*words[:4], "--never", "back t, back t", "--always", "10.1 a: ")[0], 0)
            self.assertEqual(ft(*words[:4], "--always", "body nop")[0], 1)


class WrongInputs(unittest.TestCase):
    """Each is answered by one line and status 2."""

    def check(self, *words, text=b"", told=None):
        quick = [] if any(word.startswith("--tries") for word in words) else ["--tries", "1"]
        status, out, err = ft("outcomes", *quick, *words, text=text)
        self.assertEqual((status, out), (2, ""), words)
        self.assertRegex(err, r"\Aft outcomes: [^\n]+\n\Z", words)
        if told:
            self.assertIn(told, err)

    def test_words(self):
        with tempfile.TemporaryDirectory() as room:
            program = ["--program", fake(room, "0 outcomes in 0 replays\n")]
            for word in ("x", "-1", "", "1.5", "12345678901", "1000000001"):
                self.check("--tries=" + word, *program)
                self.check("--seed=" + word, *program)
                self.check("--switches=" + word + "x", *program)
            for word in ("(", "[", "*", "(?P<", "\\", "a{2,1}", "a\nb", "\udcff"):
                self.check("--never", word, *program)
                self.check("--always", word, *program)

    def test_files(self):
        with tempfile.TemporaryDirectory() as room:
            program = ["--program", fake(room, "1 no calls\nsched all*9\n1 outcomes in 1 replays, and there are no more to try\n")]
            self.check(room + "/none.ft", *program, told="none.ft")
            self.check(room, *program)
            self.check("--program", room + "/none", told="it isn't a program")
            self.check("--program", room)
            path = pathlib.Path(room) / "not_a_program"
            path.write_text("x")
            self.check("--program", str(path))
            path.chmod(0o755)
            self.check("--program", str(path))

    def test_out(self):
        with tempfile.TemporaryDirectory() as room:
            program = ["--program", fake(room, "1 no calls\nsched all*9\n1 outcomes in 1 replays, and there are no more to try\n")]
            status, _, err = ft("outcomes", *program, "--never", "no", "--out", room, text=TINY)
            self.assertEqual((status, err.count("\n")), (2, 1))

    def test_what_the_program_writes(self):
        texts = ["", "x\n", "1 a\n", "1 a\nsched k\n", "1 outcomes in x replays\n", "1 a\nsched frob\n1 outcomes in 1 replays\n"]
        for text in [*texts, "1 outcomes in 1 replays"]:
            with tempfile.TemporaryDirectory() as room:
                self.check("--program", fake(room, text), text=TINY, told="isn't what ftoutcomes writes")

    def test_how_the_program_ends(self):
        ends = {3: "refused: line 2: syntax", 4: "can't be read", 5: "can't be written", 6: "out of memory", 7: "too long", 9: "status 9"}
        for status, told in ends.items():
            with tempfile.TemporaryDirectory() as room:
                self.check("--program", fake(room, "line 2: syntax\n", status), text=b"\xff\0", told=told)


if __name__ == "__main__":
    unittest.main()
