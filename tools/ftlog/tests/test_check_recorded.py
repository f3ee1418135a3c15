"""Tests of the check of recordings, with another program in the judge's place, and of the changes that break them."""
import gzip
import pathlib
import random
import tempfile
import unittest
from unittest import mock

from ftlog.checks import check_recorded, judging
from ftlog.make import changed_recordings
from ftlog.recorded import convert, differences
from ftlog.tests.called import ft, program

# Users u0 and u1 are registered at ftr_f1 and ftr_f4; thread 0 calls ftr_f4 and in it ftr_f1, while u1 is unregistered.
EVENTS = """kernel 6.12.1-test
ftrec seed 7 threads 1 users 2 ipmod 0 probes 0 act 0
b 0 1 3 18 1; r 0 1 0 0 0; b 0 2 259 18 1; r 0 2 0 0 0; b 0 3 1 0 0; r 0 3 0 0 0; b 0 4 257 0 0; r 0 4 0 0 0
e 0 1 4 0 0; k 0 1 1 2 0; K 0 1 1 0 0; k 0 1 0 2 0; K 0 1 0 0 0; y 0 1 4 0 0
b 0 5 258 0 0; e 0 2 1 1 0; k 0 2 1 2 0; K 0 2 1 0 0; k 0 2 0 2 0; K 0 2 0 0 0; y 0 2 1 0 0; l 0 2 0 0 0; t 0 2 1 0 0
l 0 1 0 0 0; t 0 1 0 0 0; r 0 5 0 0 0
end 26
""".replace("; ", "\n")
# An fprobe with an exit, behind another user that is registered later.
PROBED = """kernel 6.12.1-test
ftrec seed 7 threads 1 users 1 ipmod 0 probes 1 act 0
b 0 1 1537 2 1; r 0 1 0 0 0; b 0 2 3 2 1; r 0 2 0 0 0; b 0 3 1 0 0; r 0 3 0 0 0
e 0 1 1 0 0; k 0 1 0 2 0; K 0 1 0 0 0; k 0 1 6 0 0; K 0 1 6 0 0; y 0 1 1 0 0; l 0 1 0 0 0; m 0 1 6 0 0; M 0 1 6 0 0; t 0 1 0 0 0
end 16
""".replace("; ", "\n")
LINE = "a.events.gz | 6.12.1-test | 1 | two users | "


def recording_of(text):
    """What is made changes of."""
    run, = convert.read(text)
    return changed_recordings.Recording(run, *convert.converted(run)[:2])


def changed(text, change, back):
    """The changed log of a recording at a callback, by its number, without places; and whether the rules may allow it."""
    recording = recording_of(text)
    items, last, pairs = change(random.Random(1), recording, recording.backs[back])
    log = recording.text(items, last).decode().splitlines()
    return [line.partition(" ")[2] or line for line in log], any(recording.is_free(*pair) for pair in pairs)


class Changed(unittest.TestCase):
    """Each change breaks what its name says, and it is known when the rules may allow it."""

    def setUp(self):
        self.log = changed_recordings.Recording.text(recording_of(EVENTS), recording_of(EVENTS).items, "end").decode()

    def test_nothing_is_changed(self):
        run, = convert.read(EVENTS)
        self.assertEqual(self.log.encode(), convert.converted(run).log)

    def test_a_callback_is_left_out(self):
        outer, inner = (changed(EVENTS, changed_recordings.left_out, back) for back in (0, 2))
        self.assertEqual(("back 10.1 u1" in outer[0], "back-end 10.1 u1" in outer[0], "back 10.2 u1" in outer[0], outer[1]), (False, False, True, False))
        self.assertEqual(("back 10.2 u1" in inner[0], inner[1]), (False, True))

    def test_exits_have_their_places(self):
        recording = recording_of(PROBED)
        for back, wanted in ((0, " exit 10.1 fp0 9\n"), (1, None)):
            items, last, _ = changed_recordings.left_out(None, recording, recording.backs[back])
            log = recording.text(items, last).decode()
            self.assertEqual(" exit" in log, wanted is not None)
            self.assertIn(wanted or "leave", log)

    def test_one_is_told_twice(self):
        self.assertEqual(changed(EVENTS, changed_recordings.told_twice, 0)[0].count("back 10.1 u1"), 2)

    def test_two_are_exchanged(self):
        log, is_free = changed(EVENTS, changed_recordings.exchanged, 0)
        self.assertEqual((log.index("back 10.1 u0") < log.index("back 10.1 u1"), is_free), (True, False))

    def test_an_unregistration_returns_early(self):
        log, _ = changed(EVENTS, changed_recordings.returned_early, 2)
        self.assertEqual(log[-3:], ["back 10.2 u1", "return 5 ok", "stopped"])
        self.assertIsNone(changed_recordings.returned_early(None, recording_of(EVENTS), recording_of(EVENTS).backs[1]))

    def test_a_call_returns_to_nobody(self):
        self.assertIn("ret 10.2 -", changed(EVENTS, changed_recordings.returned_to_nobody, 0)[0])

    def test_neighbours_of_one_task_stay(self):
        self.assertEqual(changed(EVENTS, changed_recordings.shuffled, 0)[0], [line.partition(" ")[2] or line for line in self.log.splitlines()])


class Checked(unittest.TestCase):
    """What is told of a folder of recordings."""

    def faults(self, cells, said="whole", name="a.events.gz"):
        """What is told with this line in the list, if the judge says that of everything."""
        with tempfile.TemporaryDirectory() as room:
            folder = pathlib.Path(room) / "recorded"
            folder.mkdir()
            (folder / name).write_bytes(gzip.compress(EVENTS.encode()))
            (folder / "verdicts.txt").write_text(f"# said\n{cells}\n")
            judge = program(room, f"cat >/dev/null; echo '{said}'; exit {0 if said == 'whole' else 1}")
            with mock.patch.object(check_recorded, "FOLDER", folder):
                return ft("check", "recorded", "--judge", judge).out

    def test_a_verdict(self):
        self.assertEqual(self.faults(LINE + "whole"), "recorded: 1 passed, 0 failed\n")
        self.assertIn("judged 'line 9: exits', not 'whole'", self.faults(LINE + "whole", "line 9: exits"))
        self.assertIn("judged 'whole', not 'line 9: exits'", self.faults(LINE + "line 9: exits | all | line 9: exits"))

    def test_a_difference_is_counted(self):
        self.assertEqual(self.faults(LINE + "whole | slack 0, block 0 | whole"), "recorded: 1 passed, 0 failed\n")
        self.assertIn("slack was there 0 times, not 2", self.faults(LINE + "whole | slack 2 | whole"))

    def test_the_files_are_those_of_the_list(self):
        self.assertEqual(self.faults(LINE + "whole", name="b.events.gz").count("it isn't both in the folder and in verdicts.txt"), 2)

    def test_the_head_names_the_kernel(self):
        self.assertIn("its head names the kernel 6.12.1-test", self.faults(LINE.replace("6.12", "6.1") + "whole"))

    def test_all_stands_for_all(self):
        with mock.patch.object(pathlib.Path, "read_text", lambda path: LINE + "end | all | end\n"):
            self.assertEqual(next(check_recorded.read_list(pathlib.Path("x"))).counts, dict.fromkeys(differences.ALL))

    def booted(self, answer, **found):
        """What is told of a boot that comes to this answer."""
        with mock.patch.object(check_recorded.boot, "found", **found), mock.patch.object(check_recorded.boot, "require_packages"), \
                mock.patch.object(check_recorded, "check_files"), mock.patch.object(check_recorded.runs, "answer", lambda *_, **how: answer):
            return ft("check", "recorded", "--boot", "--judge", "/bin/true").out

    def test_no_kernel(self):
        told = self.booted(None, side_effect=check_recorded.Fault("no kernel"))
        self.assertEqual(told, "recorded: skipped: no kernel is booted: no kernel\nrecorded: 0 passed, 0 failed\n")

    def test_a_boot(self):
        said = "recorded: a kernel was booted in 9 s\n"
        self.assertEqual(self.booted(check_recorded.runs.Answer(0, b"", b"", 9)), said + "recorded: 1 passed, 0 failed\n")
        self.assertIn("1 failed", self.booted(check_recorded.runs.Answer(1, b"", b"", 9)))
        broken = self.booted(check_recorded.runs.Answer(2, b"", b"ft kernel: no run was recorded\n", 9))
        self.assertIn("recorded: skipped: the guest broke off", broken)
        self.assertIn("0 passed, 0 failed", broken)

    def test_a_change_that_is_not_found(self):
        with mock.patch.object(check_recorded, "whole_recordings", lambda *_: [recording_of(EVENTS)]), \
                mock.patch.object(check_recorded, "check_files"), mock.patch.object(judging, "verdict", lambda *_: judging.Verdict("whole")):
            came = ft("check", "recorded", "--changed", "3", "--judge", "/bin/true")
        self.assertEqual(came.status, 1)
        self.assertIn("FAILED: a callback is told twice: 3 are judged otherwise", came.out)
        self.assertNotIn("FAILED: neighbours", came.out)


if __name__ == "__main__":
    unittest.main()
