"""Tests of `ft draw`: what a picture shows of a choice, its numbers, the arrays of boxes, and what can't be drawn."""
import contextlib
import io
import pathlib
import tempfile
import types
import unittest
import xml.etree.ElementTree as ElementTree

from ftlog import log_desk, log_reader, script_reader
from ftlog.commands import draw
from ftlog.draw import log_choice, log_svg, log_trace
from ftlog.fault import Fault

SVG = "{http://www.w3.org/2000/svg}"
# Two tasks call a; the first call calls b in its body, and the exit of gr is lost in 10.1, since control unregisters it.
SCRIPT = """ftrace 1
func a
func b
user gr graph
cpu 0 quantum 9
task 10 cpu 0
task 11 cpu 0
ctl register gr
ctl unregister gr
"""
ITEMS = ["begin 1", "return 1 ok", "enter 10.1 normal a -", "back 10.1 gr", "back-end 10.1 gr", "body 10.1 a own gr", "enter 10.2 normal b 10.1",
         "back 10.2 gr", "back-end 10.2 gr", "body 10.2 b own gr", "leave 10.2", "exit 10.2 gr 7", "exit-end 10.2 gr", "ret 10.2 10.1", "enter 11.1 normal a -",
         "begin 2", "return 2 ok", "body 11.1 a own gr", "leave 11.1", "leave 10.1", "ret 10.1 -", "ret 11.1 -"]


def log_of(items, last="end"):
    """The text of a log with these items."""
    return "".join(f"{place} {item}\n" for place, item in enumerate(items)) + f"{last}\n"


def read(script=SCRIPT, log=None):
    """A script and the history of a log."""
    read_script = script_reader.read_script(script.encode())
    return read_script, log_reader.read_log((log or log_of(ITEMS)).encode(), read_script)


def picture(**words):
    """The parsed picture of the log above for these words."""
    script, history = read()
    return ElementTree.fromstring(log_svg.Picture(script, history, "x", log_choice.choice(script, history, **words)).whole())


def ids(svg):
    """The calls that a picture shows."""
    return {group.get("id") for group in svg.iter(f"{SVG}g") if (group.get("id") or "").startswith("call-")}


class Boxes(unittest.TestCase):
    """What is read of a log."""

    def test_boxes(self):
        _, history = read()
        call = history.calls["10.2"]
        self.assertEqual((call.name, call.note, call.begin, call.end, call.depth, call.parent.what), ("b", "normal", 6, 13, 2, "body"))
        self.assertEqual([box.what for box in history.tasks[11]], ["call", "body"])
        self.assertEqual([box.note for box in history.tasks[10] if box.what == "exit"], ["7"])
        self.assertEqual(list(history.calls), ["10.1", "10.2", "11.1"])
        self.assertNotIn("10.3", history.calls)
        self.assertEqual((history.lines[3], history.lines[-1], len(history.lines)), ("3 back 10.1 gr", "21 ret 11.1 -", 22))

    def test_lost(self):
        _, history = read()
        self.assertEqual([history.boxes.begin[box] for box in history.boxes.lost()], [3])

    def test_a_box_is_small(self):
        _, history = read()
        arrays = [value for value in vars(history.boxes).values() if hasattr(value, "itemsize")]
        self.assertLessEqual(sum(kept.itemsize for kept in arrays) + 3, 40)


class Choices(unittest.TestCase):
    """What --task and --call show."""

    def test_task(self):
        svg = picture(tasks=["11"])
        self.assertEqual(ids(svg), {"call-11.1"})
        self.assertEqual(svg.find(f"{SVG}path[@class='columns']").get("d").count("M"), 4 + 4 + 1)
        self.assertEqual([row.find(f"{SVG}title").text for row in svg.findall(f"{SVG}g[@class='row site']")], ["a"])

    def test_call(self):
        svg = picture(call="10.1")
        self.assertEqual(ids(svg), {"call-10.1", "call-10.2"})
        self.assertEqual(ids(picture(call="10.2")), {"call-10.2"})

    def test_part_of_a_call(self):
        choice = log_choice.choice(*read(), "8", "12", call="10.1")
        self.assertEqual((choice.first, choice.last, list(choice.places)), (8, 12, [8, 9, 10, 11, 12]))

    def test_lost_exit(self):
        ghosts = [group for group in picture().iter(f"{SVG}g") if (group.get("class") or "").startswith("ghost")]
        self.assertEqual(["".join(ghost.find(f"{SVG}text").itertext()) for ghost in ghosts], ["gr: no exit"])
        self.assertEqual([group for group in picture(call="10.2").iter(f"{SVG}g") if "ghost" in (group.get("class") or "")], [])


class Numbers(unittest.TestCase):
    """The numbers of places never touch, however large they are."""

    def numbered(self, first, count, width=log_svg.CELL):
        """The numbers of so many columns of this width, from this place on."""
        choice = types.SimpleNamespace(first=first, last=first + count - 1, places=range(first, first + count))
        columns = log_svg.Columns(choice, 100, [(first, first + count - 1, width * count)])
        return list(log_svg.Picture.numbered(types.SimpleNamespace(columns=columns)))

    def test_numbers(self):
        for first in (0, 9_000, 9_990, 99_980, 999_990, 99_999_990, 4_294_000_000):
            found = self.numbered(first, 40)
            spans = [(middle - len(str(place)) * 2.8, middle + len(str(place)) * 2.8) for place, middle in found]
            self.assertTrue(all(before[1] + 2 < after[0] for before, after in zip(spans, spans[1:])), first)
            self.assertGreaterEqual(len(found), 13, first)

    def test_none_is_left_out_without_need(self):
        self.assertEqual([place for place, _ in self.numbered(9_900, 100)], list(range(9_900, 10_000)))


class Sites(unittest.TestCase):
    """Functions whose sites are alike."""

    def test_alike(self):
        script, history = read()
        self.assertEqual(log_desk.alike(script, history.commands), [([0, 1], [(0, "nop"), (1, "own gr"), (2, "nop")])])

    def test_trace(self):
        self.assertIn('"users registered"', log_trace.trace(*read(), "x"))


class Progress(unittest.TestCase):
    """What is said of long logs."""

    def test_said(self):
        said = io.StringIO()
        with contextlib.redirect_stderr(said):
            progress = draw.Progress("x")
            for count in range(1, 250_001):
                progress.read(count)
            progress.begin("drawing")
        self.assertEqual(said.getvalue(), "x: 100,000 items are read\nx: 200,000 items are read\nx: drawing of 250,000 items\n")

    def test_nothing_is_said_of_short_ones(self):
        said = io.StringIO()
        with contextlib.redirect_stderr(said):
            progress = draw.Progress("x")
            progress.read(99_999)
            progress.begin("drawing")
        self.assertEqual(said.getvalue(), "")


class Wrong(unittest.TestCase):
    """Each wrong input is a fault of one line, and leaves no file."""

    def setUp(self):
        room = tempfile.TemporaryDirectory()
        self.addCleanup(room.cleanup)
        self.room = pathlib.Path(room.name)

    def told(self, script=SCRIPT, log=None, svg="x.svg", **words):
        """What is said of this."""
        paths = {name: self.room / name for name in ("x.ft", "x.log")}
        for path, text in zip(paths.values(), (script, log_of(ITEMS) if log is None else log)):
            if text is not None:
                path.write_bytes(text.encode() if isinstance(text, str) else text)
        given = {"first": None, "last": None, "tasks": [], "call": None, "window": None, "trace": None, **words}
        options = types.SimpleNamespace(script=str(paths["x.ft"]), log=str(paths["x.log"]), svg=svg and str(self.room / svg), **given)
        with self.assertRaises(Fault) as caught:
            draw.run(options)
        self.assertFalse((self.room / "x.svg").exists())
        self.assertEqual(len(str(caught.exception).splitlines()), 1)
        return str(caught.exception)

    def test_scripts(self):
        for script, said in [("", "isn't a script"), (b"\xff\xfe\x00", "isn't a script"), ("func a\n", "isn't a script"), ("ftrace 1\nfunc\n", "has no form"),
                             ("ftrace 1\ntask x cpu y\n", "has no form"), ("ftrace 1\nring 99999999999999999999999\n", "has no form"),
                             ("ftrace 1\nring 4000000000\n", "rings of a size"), ("ftrace 1\ntask 10 cpu 7\n", "no CPU for task 10"),
                             ("ftrace 1\nctl register nobody\n", "no such user"), ("ftrace 1\nuser t function\nctl filter t\n", "has no form"),
                             ("ftrace 1\nabsent m\nctl load\n", "no form"), ("ftrace 1\nctl\n", "has no form"),
                             (SCRIPT.replace("func b\n", ""), "no such item: 6 enter"), ("ftrace 1\ntask " + "9" * 5000 + "\n", "has no form")]:
            self.assertRegex(self.told(script=script), said)

    def test_logs(self):
        wrong = ["enter 99999999999999999999.1 normal a -", "enter 10.1 often a -", "body 10.1 a own x", "refuse 10.1 gr luck", "exit 10.1 gr " + "9" * 5000]
        rows = [("", "1 is missing"), ("end", "no such item"), ("\n\n\n", "1 is missing"), (b"\xff\xfe\nend\n", "no such item"), ("0\nend\n", "no such item"),
                (log_of(ITEMS)[:-4], "23 is missing"), (log_of(ITEMS[1:]), "no such command"), ("line 3: syntax\n", "was refused"),
                ("0 begin 1 lane 0\nend\n", "no such item"), (log_of(ITEMS[:2] + ["enter 10.2 normal a -"]), "innermost"),
                (log_of(ITEMS[:3] + ["ret 10.2 -"]), "innermost"), (log_of(ITEMS[:3] + ["exit 10.1 gr 2"]), "no such entry")]
        for log, said in [*rows, *((log_of(ITEMS[:3] + [item]), "4 is no such item") for item in wrong)]:
            self.assertRegex(self.told(log=log), said)

    def test_words(self):
        for words, said in [({"svg": None}, "say --svg"), ({"first": "-1"}, "is no place"), ({"first": "30"}, "no items from place 30"),
                            ({"last": "9" * 50}, "is no place"), ({"first": "9", "last": "8"}, "no items"), ({"tasks": ["12"]}, "no task 12"),
                            ({"tasks": ["ten"]}, "is no pid"), ({"call": "10"}, "no call 10"), ({"call": "10.0"}, "no call"), ({"call": "10.01"}, "no call"),
                            ({"call": "10.1", "last": "1"}, "outside"), ({"call": "10.1", "tasks": ["10"]}, "not of both"), ({"window": "1.1"}, "no call 1.1"),
                            ({"window": "11.1", "last": "3"}, "outside"), ({"svg": "none/x.svg"}, "No such file")]:
            self.assertRegex(self.told(**words), said)

    def test_files(self):
        self.assertIn("No such file", self.told(script=None))
        (self.room / "x.ft").mkdir()
        self.assertIn("Is a directory", self.told(script=None))


if __name__ == "__main__":
    unittest.main()
