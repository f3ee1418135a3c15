"""Tests of what counts as refused: a program of the shell's answers in the place of `rt`, and says something else of one edit."""
import os
from unittest import mock

from ftlog.tests.called import Case, ft, program
from ftlog.upkeep import further

RT = """cd crates/*/must-fail/ && cd ../../.. && for path in crates/*/must-fail/*.edit; do
    name=${path#crates/}
    echo "rt: must-fail ${name%%/*}/${name##*/}: refused, as it must be: src/lib.rt:1: it is not proved"
done | sed "1s/refused.*/NOT REFUSED/"
"""


class Further(Case):
    def test_results(self):
        """The edits of further/ stand in must-fail/ of a copy; each has a line, and one that isn't refused fails."""
        program(self.folder, RT, "rt")
        first, *others = further.edits_of("site_set")
        with mock.patch.dict(os.environ, {"PATH": f"{self.folder}:{os.environ['PATH']}"}):
            came = ft("further", "site_set")
        told = [line for line in came.out.splitlines() if line.startswith("further: ")]
        self.assertEqual((came.status, told), (1, [f"further: FAILED: site_set/{first.name}: NOT REFUSED", f"further: {len(others)} passed, 1 failed"]))
