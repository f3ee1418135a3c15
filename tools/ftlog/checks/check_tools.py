"""Runs the tests of the tools around the program, those of tools/ftlog/tests. A test that wants the built program is passed over if it isn't there.

Each failure is told as unittest tells it, on standard error. The last line is `tools: N passed, M failed`, and the status is 0 if nothing failed.
"""
import pathlib
import unittest

TOOLS = pathlib.Path(__file__).resolve().parents[2]


def add_words(parser):
    """There are no words."""


def run(options):
    """Runs them all."""
    tests = unittest.defaultTestLoader.discover(str(TOOLS / "ftlog" / "tests"), top_level_dir=str(TOOLS))
    result = unittest.TextTestRunner(verbosity=0).run(tests)
    failed = len({getattr(test, "test_case", test).id() for test, _ in result.failures + result.errors} | {test.id() for test in result.unexpectedSuccesses})
    print(f"tools: {result.testsRun - failed - len(result.skipped)} passed, {failed} failed")
    return 1 if failed else 0
