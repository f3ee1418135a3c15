"""Tests of `ft hold`: the language of hold comments, and the schedules that they come to. The latter are left out as long as fttell isn't built."""
import tempfile
import unittest

from ftlog import holds, programs, runs, steps
from ftlog.fault import Fault
from ftlog.tests.called import ft, program

STEPS = programs.built("fttell")
JOB = "ftrace 1\nfunc a\nuser tr function\ncpu 0 quantum 100\ntask 10 cpu 0\ncall a\nret\nctl register tr\n"
NAMES = holds.Names(["0"], ["a", "a.b"], ["tr"], ["10"])

# Hold comments below the job, and the lines that they come to.
SCHEDULES = [
    ("k past store head a", "sched k*9"),
    ("k until store head a", "sched k*8"),
    ("k past store head a; 0 past mark ret; all to end", "sched k*9 0*13 all*10"),
    ("0 until load tail a", "sched 0*3"),
    ("0 until load tail a; k until load ack 0; k for 30; 0 past load tail a", "sched 0*3 k*10 k*30 0"),
    ("0 to end; k to end", "sched 0*12 k*18"),
    ("k until load ack; k until load ack 0", "sched k*10"),
    ("k until load ack; 0 past store ack 0; k past store want; k until load ack", "sched k*10 0*2 k*3"),
    ("0 until mark leave 10.1", "sched 0*7"),
    ("0 past mark body 10.1 a nop", "sched 0*5"),
    ("k past store bits tr", "sched k*3"),
    ("k past store bits tr 1 notrace 0", "sched k*4"),
    ("k past mark", "sched k"),
    ("all for 2; k past store sel", "sched all*2 k*3"),
    ("all past mark body", "sched all*4 k 0"),
    ("all until mark body", "sched all*4 k"),
    ("all to end", "sched all*19"),
    ("0 for 0; k for 1; k for 2", "sched k k*2"),
]

# Hold comments that are wrong, with what is said of them.
WRONG = [
    ("", "is empty"),
    ("k for 3;; k for 2", "is empty"),
    ("k", "after the actor comes"),
    ("x to end", "`x` is no actor"),
    ("1 to end", "`1` is no actor"),
    ("k goes on", "after the actor comes"),
    ("k to the end", "`the` stands in the place of `end`"),
    ("k to", "`end` is missing"),
    ("k for", "how many turns is missing"),
    ("k for -3", "`-3` is no number"),
    ("k for 99999999999", "is no number"),
    ("k for 4000001", "more than the schedule has room for"),
    ("k until", "a step is"),
    ("k until jump a", "a step is"),
    ("k until load", "the name of a word is missing"),
    ("k until load foo", "`foo` is no word"),
    ("k until load head b", "there is no function `b`"),
    ("k until store sel a", "there is no user `a`"),
    ("k until load quiet 11", "there is no pid `11`"),
    ("k until load ack 3", "there is no CPU `3`"),
    ("k until load clock 1", "one word too many"),
    ("k until mark foo", "`foo` is no item"),
    ("0 until load tail a now", "one word too many"),
    ("k to end", "it waits there"),
    ("k past store tail a", "the last step is `load ack 0`; it waits there"),
    ("0 past store tail a", "0 alone comes to its end without a step `store tail a`"),
    ("all past mark exit", "all in turn come to their ends without a step `mark exit`"),
    ("0 to end; 0 until load head", "0 alone comes to its end without a step `load head`"),
    ("k for 0", "come to no turn"),
    ("all for 2000000; k for 1", "no room"),
    ("K to end", "`K` is no actor"),
    ("k:past store head a", "is no actor"),
    ("k past store head \xe9", "there is no function"),
]


def hold(text):
    """A call of the tool."""
    return ft("hold", "--steps", STEPS, text=text.encode("latin-1"))


@unittest.skipUnless(STEPS.is_file(), "there is no fttell")
class Schedules(unittest.TestCase):
    def test_each_comment_comes_to_its_line(self):
        for said, line in SCHEDULES:
            with self.subTest(said):
                came = hold(f"{JOB}# hold: {said}\n")
                self.assertEqual((came.status, came.out, came.err), (0, f"{JOB}# hold: {said}\n{line}\n", ""))

    def test_a_comment_that_comes_to_no_turn_has_no_line(self):
        came = hold(f"{JOB}# hold: k until mark\nsched k*4\n# hold: k for 1; k until store bits\n")
        self.assertEqual((came.status, came.out), (0, f"{JOB}# hold: k until mark\n# hold: k for 1; k until store bits\nsched k k\n"))

    def test_what_is_printed_gives_itself(self):
        begin, middle = f"{JOB}# a comment\n# hold: 0 until load tail a\n", "# hold: k until load ack 0\n"
        end = "\n# more\nsched 0*2\n#hold:all to end\n"
        wanted = f"{begin}sched 0*3\n{middle}sched k*10\n{end}sched all*12\n"
        first = hold(f"{begin}sched k*77\n sched 0\n{middle}{end}sched all*3\n")
        self.assertEqual((first.status, first.out), (0, wanted))
        self.assertEqual(hold(first.out).out, wanted)

    def test_other_lines_of_the_schedule_stay_and_count(self):
        came = hold(f"{JOB}sched k*8\n# \xe9\xff hold: no\n# hold: k past store head a\n")
        self.assertEqual(came.out, f"{JOB}sched k*8\n# \xe9\xff hold: no\n# hold: k past store head a\nsched k\n")

    def test_the_old_schedule_may_be_a_wrong_one(self):
        self.assertEqual(hold(f"{JOB}# hold: 0 to end\nsched 7*3\n").out, f"{JOB}# hold: 0 to end\nsched 0*12\n")

    @unittest.skipUnless(runs.PROGRAM.is_file(), "there is no program")
    def test_the_program_makes_the_items_that_are_named(self):
        came = hold(f"{JOB}# hold: 0 until load tail a; k until load ack 0; k for 30; 0 past load tail a; all to end\n")
        out = runs.answer([runs.PROGRAM, "replay"], came.out.encode()).out
        self.assertEqual(out, b"0 enter 10.1 normal a -\n1 begin 1\n2 body 10.1 a nop\n3 leave 10.1\n4 ret 10.1 -\n5 return 1 ok\nend\n")
        rounds = came.out.rpartition("all*")[2]
        less = came.out.replace(f"all*{rounds}", f"all*{int(rounds) - 1}\n")
        self.assertTrue(runs.answer([runs.PROGRAM, "replay"], less.encode()).out.endswith(b"\nstopped\n"), less)


    def test_examples(self):
        """The `sched` lines of the examples are those that their hold comments come to."""
        for path in sorted((runs.TOP / "examples").glob("*.ft")):
            if b"\n# hold:" in path.read_bytes():
                with self.subTest(path.name):
                    came = ft("hold", path)
                    self.assertEqual((came.status, came.out), (0, path.read_text()))


class Patterns(unittest.TestCase):
    def fits(self, said, word, operation="store", item=()):
        pattern = holds.part_of(f"k until {said}", NAMES).pattern
        return pattern.fits(steps.Step("k", operation, word, list(item)))

    def test_whole_names_are_exact(self):
        self.assertTrue(self.fits("store head a", "head.a"))
        self.assertFalse(self.fits("store head a", "head.a.b"))
        self.assertTrue(self.fits("store head a.b", "head.a.b"))
        self.assertFalse(self.fits("store head", "headroom"))
        self.assertTrue(self.fits("store head", "head.a.b"))
        self.assertFalse(self.fits("store head a", "head.a", "load"))

    def test_sets_by_their_user(self):
        self.assertTrue(self.fits("store bits tr 1", "bits.tr.1.filter.0"))
        self.assertFalse(self.fits("store bits tr 1", "bits.tr.0.filter.0"))

    def test_marks_by_their_item(self):
        self.assertTrue(self.fits("mark back 10.1", "clock", "mark", ["back", "10.1", "tr"]))
        self.assertFalse(self.fits("mark back 10.1", "clock", "mark", ["back", "10.12", "tr"]))

    def test_what_is_a_hold_comment(self):
        self.assertEqual(holds.holds_in("  #\thold: k to end"), " k to end")
        for text in ("# holds: k", "# hold k", "func a # hold: k", "## hold: k", "# Hold: k"):
            self.assertIsNone(holds.holds_in(text))


@unittest.skipUnless(STEPS.is_file(), "there is no fttell")
class Wrong(unittest.TestCase):
    def require_fault(self, came, *parts):
        self.assertEqual((came.status, came.out), (2, ""), came)
        self.assertRegex(came.err, r"\Aft hold: [^\n]+\n\Z")
        for part in parts:
            self.assertIn(part, came.err)

    def test_wrong_comments(self):
        for said, why in WRONG:
            with self.subTest(said):
                self.require_fault(hold(f"{JOB}# hold: {said}\n"), why)

    def test_wrong_scripts(self):
        for script, why in [("", "line 1: version"), ("ftrace 1\nfrob\n# hold: k to end\n", "line 2: syntax"), (JOB, "has no comment"),
                            (JOB[:-1], "syntax"),
                            (f"{JOB}# hold: k for 1", "line 9: syntax"), ("ftrace 1\n# hold: k for 1\nfunc a\n", "below it is line 3"),
                            ("\xff\xfe\0\n", "line 1: version"),
                            (f"{JOB}# hold: k for 1\nsched 0\n\nsched 5\n", "line 12: unknown"),
                            ("ftrace 1\ncpu 0 quantum 9999999999\n", "limit")]:
            with self.subTest(script[-40:]):
                self.require_fault(hold(script), why)

    def test_wrong_files(self):
        for name, why in [("/no/such/file", "No such file"), ("/", "Is a directory"), (__file__ + "/x", "Not a directory"),
                          ("", "No such file")]:
            self.require_fault(ft("hold", "--steps", STEPS, name), why)

    def test_wrong_steps(self):
        text = f"{JOB}# hold: k until mark return\n".encode()
        self.require_fault(ft("hold", "--steps", "/no/such", text=text), "there is no program /no/such")
        with tempfile.TemporaryDirectory() as room:
            self.require_fault(ft("hold", "--steps", room, text=text), "there is no program")
            for number, (body, why) in enumerate([("exit 6", "status 6"), ("echo 'line 3: limit'; exit 3", "status 3: line 3: limit"),
                                                  ("echo hello", "`hello`"), ("kill -9 $$", "status -9"),
                                                  ("echo '0 0 load want 0 0'", "a turn of k"), ("echo '0 k jump want 0 0'", "is no step"),
                                                  ("", "comes to its end")]):
                with self.subTest(body):
                    self.require_fault(ft("hold", "--steps", program(room, f"cat > /dev/null; {body}", f"p{number}"), text=text), why)

    def test_a_line_of_steps(self):
        self.assertEqual(steps.step_of(1, "7 0 mark clock 1 2 5 back 10.1 tr").item, ["back", "10.1", "tr"])
        self.assertEqual(steps.step_of(1, "7 k store bits.t.1.filter.0 0x0 0xff"), steps.Step("k", "store", "bits.t.1.filter.0", []))
        with self.assertRaises(Fault):
            steps.step_of(1, "7 k store want 0")


if __name__ == "__main__":
    unittest.main()
