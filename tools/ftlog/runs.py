"""Runs of a program, and a count of the rows that they bear out."""
import argparse
import os
import pathlib
import shutil
import subprocess
import time
from typing import NamedTuple, Optional

from ftlog.fault import Fault

TOP = pathlib.Path(__file__).resolve().parents[2]
PROGRAM = TOP / "crates" / "ftcore" / "out" / "ftcore"
SECONDS = 10  # that a run may take if nothing else is said


class Answer(NamedTuple):
    """What a run came to. The status is None if there was none in time; `err` then says why."""

    status: Optional[int]
    out: bytes
    err: bytes
    seconds: float


def answer(command, text=b"", seconds=SECONDS, **how):
    """Runs a command on this input; `how` is for subprocess.run, and may give another input."""
    begun = time.monotonic()
    given = {} if "stdin" in how else {"input": text}
    try:
        done = subprocess.run(command, stdout=subprocess.PIPE, stderr=subprocess.PIPE, timeout=seconds, **given, **how)
        return Answer(done.returncode, done.stdout, done.stderr, time.monotonic() - begun)
    except subprocess.TimeoutExpired:
        return Answer(None, b"", f"no answer after {seconds} seconds".encode(), time.monotonic() - begun)
    except OSError as error:
        return Answer(None, b"", str(error).encode(), time.monotonic() - begun)


def names_of(known):
    """What reads a list of these names, with commas between them, as a word of the command."""

    def read(text):
        names = text.split(",")
        if set(names) - set(known):
            raise argparse.ArgumentTypeError(f"there are {', '.join(known)}")
        return names

    return read


def brief(text):
    """The first bytes of a text, on one line."""
    return repr(text[:60])[1:] + (f" and so on, {len(text)} bytes" if len(text) > 60 else "")


def other_text(out, wanted):
    """What is wrong with this output, by its first line that differs; None if it is the wanted one."""
    if out == wanted:
        return None
    ours, theirs = out.split(b"\n"), wanted.split(b"\n")
    at = next((at for at, pair in enumerate(zip(ours, theirs)) if pair[0] != pair[1]), min(len(ours), len(theirs)))
    line = lambda lines: brief(lines[at]) if at < len(lines) else "nothing"
    return f"line {at + 1} of the output is {line(ours)}, not {line(theirs)}"


def faults(came, status, out=None):
    """What is wrong with an answer that is to have this status, nothing on standard error and, if it is given, this output."""
    if came.status is None:
        return [came.err.decode()]
    found = [f"status {came.status}, not {status}"] if came.status != status else []
    if came.err:
        found.append(f"standard error has {brief(came.err)}")
    if out is not None:
        found.append(other_text(came.out, out))
    return [fault for fault in found if fault]


class Rows:
    """Counts the rows that passed and those that failed, and prints the latter."""

    def __init__(self, what, is_told=False):
        self.what, self.is_told, self.passed, self.failed = what, is_told, 0, 0

    def row(self, name, found, seconds=None):
        """Counts a row, which failed if anything was found wrong."""
        self.passed, self.failed = self.passed + (not found), self.failed + bool(found)
        if found:
            print(f"{self.what}: FAILED: {name}: {'; '.join(found)}", flush=True)
        elif self.is_told:
            print(f"{self.what}: passed: {name}" + (f" ({seconds:.3f} s)" if seconds is not None else ""), flush=True)

    def end(self):
        """Prints the last line, and gives the status."""
        print(f"{self.what}: {self.passed} passed, {self.failed} failed", flush=True)
        return 1 if self.failed else 0


def add_verbose(parser):
    """Adds the word by which rows that passed are told."""
    parser.add_argument("--verbose", action="store_true", help="tell the rows that passed, too")


def add_options(parser):
    """Adds the options that the checks share."""
    parser.add_argument("--program", type=pathlib.Path, default=PROGRAM, metavar="PATH", help="the program; else the one that ./ftcore builds")
    parser.add_argument("--top", type=pathlib.Path, default=TOP, metavar="FOLDER", help="where README.md, docs/, examples/ and crates/ are; else this repository")
    add_verbose(parser)


def want_program(path, how="./ftcore builds one"):
    """Says so if there is no such program; `how` is what makes it."""
    if not path.is_file() or not os.access(path, os.X_OK):
        raise Fault(f"there is no program {path}: {how}")


def want_words(*words):
    """Says so if one of these words, a path or a name, is no program that can be run."""
    for word in words:
        if not shutil.which(word):
            raise Fault(f"there is no program {word}")
