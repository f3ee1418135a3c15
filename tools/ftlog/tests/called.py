"""Calls tools/ft within the process of a test, so that many calls take little time."""
import contextlib
import importlib.machinery
import importlib.util
import io
import pathlib
import sys
import tempfile
import unittest
from typing import NamedTuple
from unittest import mock

TOP = pathlib.Path(__file__).resolve().parents[3]
EXAMPLES = TOP / "examples"
LOADER = importlib.machinery.SourceFileLoader("ft_command", str(TOP / "tools" / "ft"))
FT = importlib.util.module_from_spec(importlib.util.spec_from_loader("ft_command", LOADER))
LOADER.exec_module(FT)


class Came(NamedTuple):
    """What a call came to."""

    status: int
    out: str
    err: str


def ft(*words, text=b""):
    """A call of tools/ft with these words, which reads this text."""
    out, err = io.TextIOWrapper(io.BytesIO(), encoding="latin-1", newline=""), io.StringIO()
    given = mock.patch.object(sys, "stdin", io.TextIOWrapper(io.BytesIO(text), encoding="latin-1"))
    with given, contextlib.redirect_stdout(out), contextlib.redirect_stderr(err):
        try:
            status = FT.main([str(word) for word in words])
        except SystemExit as end:
            status = end.code
    out.flush()
    return Came(status, out.buffer.getvalue().decode("latin-1"), err.getvalue())


def example(name):
    """The script and the log of an example."""
    return [EXAMPLES / f"{name}.ft", EXAMPLES / f"{name}.log"]


def lines(text):
    """The bytes of a script whose lines are separated by `; `."""
    return (text.replace("; ", "\n") + "\n").encode("latin-1")


def program(folder, body, name="program"):
    """A program for the shell in this folder, which takes the place of another one."""
    path = pathlib.Path(folder) / name
    path.write_text(f"#!/bin/sh\n{body}\n")
    path.chmod(0o755)
    return path


class Case(unittest.TestCase):
    """A test with a folder of its own."""

    def setUp(self):
        """Makes the folder, which goes when the test is over."""
        folder = tempfile.TemporaryDirectory()
        self.addCleanup(folder.cleanup)
        self.folder = pathlib.Path(folder.name)

    def write(self, name, text):
        """A file of the folder with these bytes; None if there is to be none."""
        path = self.folder / name
        if text is not None:
            path.write_bytes(text)
        return path

    def assert_told(self, what, came):
        """A run ended with one plain line and status 2."""
        status, _, err = came
        with self.subTest(what):
            self.assertEqual(2, status, err)
            self.assertNotIn("Traceback", err)
            told = [line for line in err.splitlines() if not line.startswith(("usage:", " "))]
            self.assertEqual(1, len(told), err)
            self.assertLess(len(err), 1200)
