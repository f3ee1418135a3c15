"""log-json: each item of a log with its names."""
import json

from ftlog.commands import log_json
from ftlog.tests import wrong_logs
from ftlog.tests.called import EXAMPLES, Case, ft, example, lines


def objects(name):
    """The objects of an example's log."""
    status, out, err = ft("log-json", *example(name))
    assert status == 0, err
    return [json.loads(line) for line in out.splitlines()]


class LogJson(Case):
    """Tests of log-json."""

    answer = staticmethod(ft)

    def test_first_and_last_line(self):
        head, *items, last = objects("first_path")
        self.assertEqual(("ftcore-log", 1), (head["format"], head["version"]))
        self.assertEqual([{"name": "tr", "kind": "function"}], head["users"])
        self.assertEqual([{"pid": 10, "cpu": 0}], head["tasks"])
        self.assertEqual({"last": "end", "items": 8}, last)
        self.assertEqual(list(range(8)), [item["place"] for item in items])

    def test_items(self):
        _, begun, returned, entered, back, _, body, *_ = objects("first_path")
        self.assertEqual({"place": 0, "item": "begin", "command": 1, "text": "register tr"}, begun)
        self.assertEqual("ok", returned["answer"])
        self.assertEqual(("a", None, "normal"), (entered["function"], entered["caller"], entered["context"]))
        self.assertEqual((10, 0, "tr", "function", "a"), tuple(back[name] for name in ("pid", "cpu", "user", "user_kind", "function")))
        self.assertEqual(("own", "tr", "a"), (body["ran"], body["user"], body["body"]))

    def test_lane_busy_module_and_replacement(self):
        self.assertEqual([0, 0, 1, 1], [item["lane"] for item in objects("one_trampoline") if item.get("item") == "begin"])
        busy = next(item for item in objects("ipmodify") if item.get("answer") == "busy")
        self.assertEqual(("read", "first"), (busy["function"], busy["user"]))
        body = next(item for item in objects("ipmodify") if item.get("item") == "body")
        self.assertEqual(("read", "new_read", "list"), (body["function"], body["body"], body["ran"]))
        self.assertEqual(["busy ext3_read first", "ok"], [item["line_answer"] for item in objects("module_busy") if "line_answer" in item])

    def test_each_example_and_each_field(self):
        told = set()
        for path in sorted(EXAMPLES.glob("*.ft")):
            if path.stem != "refused":
                head, *items = objects(path.stem)
                self.assertEqual(len(items) - 1, items[-1]["items"], path)
                told.update(*items)
        self.assertEqual(set(log_json.FIELDS), told)

    def test_the_page_has_each_field(self):
        page = (EXAMPLES.parent / "docs" / "TOOLS.md").read_text()
        table = page.partition("| line | its fields |\n")[2].partition("\n\n")[0]
        for name in log_json.FIELDS:
            self.assertIn(f"`{name}`", table)

    def test_stopped(self):
        script, log = self.write("x.ft", wrong_logs.SCRIPT), self.write("x.log", lines("0 begin 1; stopped"))
        self.assertEqual({"last": "stopped", "items": 1}, json.loads(ft("log-json", script, log)[1].splitlines()[-1]))

    def test_wrong_inputs(self):
        wrong_logs.check(self, "log-json", but="a callback that ends twice")
