"""Judges logs by ftjudge: a script and what happened go in, and a verdict comes out.

docs/JUDGE.md has what ftjudge reads and writes. A script is handed over as it is, and a log as `replay` or `run` has printed it; each log
has a process of its own.
"""
import concurrent.futures
import pathlib
import re
from typing import NamedTuple, Optional

from ftlog import runs

JUDGE = runs.TOP / "crates" / "ftjudge" / "out" / "ftjudge"
SECONDS = 120  # that a verdict may take
WORKERS = 2  # logs that are judged at a time
LEGAL = ("whole", "legal")
RULES = ("plain run", "callbacks", "silence", "refusals", "exits", "fetches", "commands")  # the parts of legality, in the order in which they are judged
END = "end"  # said of the last line of a legal log that isn't whole
SYNTAX = "syntax"
CAUSES = ("version", SYNTAX, "limit", "duplicate", "unknown", "pattern", "unbalanced", "deadlock", "unloaded")  # a script isn't accepted, or a log isn't read
LINE = re.compile(rb"line ([1-9][0-9]*): ([a-z ]+)\n")


class Fault(Exception):
    """Why there is no verdict: what ftjudge did is none of what docs/JUDGE.md lists."""


class Verdict(NamedTuple):
    """What a log is called: `whole`, `legal`, the rule that fails, `end`, `syntax`, or the cause for which the script is refused; and the
    line of the input, counted from 1, that is named with one of the latter."""

    word: str
    line: Optional[int] = None

    def __str__(self):
        return self.word if self.line is None else f"line {self.line}: {self.word}"


def read_text(text):
    """The verdict that ftjudge writes so; None if it writes no such text."""
    found = LINE.fullmatch(text)
    word = found[2].decode() if found else text.decode("latin-1").rstrip("\n")
    if found and word in (*RULES, END, *CAUSES):
        return Verdict(word, int(found[1]))
    return Verdict(word) if word in LEGAL and text == f"{word}\n".encode() else None


def status_of(verdict):
    """The status that comes with a verdict."""
    return 0 if verdict.word in LEGAL else 3 if verdict.word in CAUSES else 1


def read_answer(came):
    """The verdict of an answer. Raises Fault if it is none, or its status belongs to another one."""
    if came.status is None:
        raise Fault(f"ftjudge: {came.err.decode()}")
    said = read_text(came.out)
    if said is None or came.status != status_of(said) or came.err:
        raise Fault(f"ftjudge ends with status {came.status}, writes {runs.brief(came.out)}, and to standard error {runs.brief(came.err)}")
    return said


def input_of(script, log):
    """What ftjudge reads of a script and a log."""
    return script + b"log\n" + log


def first_line(script):
    """The number of the first line of a log below this script, which is that of the item at place 0."""
    return script.count(b"\n") + 2


def verdict(script, log, judge=JUDGE, seconds=SECONDS):
    """The verdict on a log of a script. Raises Fault if there is none."""
    return read_answer(runs.answer([judge], input_of(script, log), seconds))


def faults(script, log, judge=JUDGE, wanted=LEGAL):
    """What is wrong with a log that is to be called one of these words."""
    try:
        said = verdict(script, log, judge)
    except Fault as fault:
        return [str(fault)]
    return [] if str(said) in wanted else [f"the log is judged {str(said)!r}, not {' or '.join(map(repr, wanted))}"]


def run_faults(script, log, judge=JUDGE):
    """What is wrong with the log of a run by threads, which comes to its end."""
    return faults(script, log, judge, ("whole",)) if log.endswith(b"end\n") else ["the last line isn't end"]


def faults_of_runs(script, logs, judge=JUDGE):
    """What is wrong with the logs of several runs of a script; some are judged at a time."""
    with concurrent.futures.ThreadPoolExecutor(WORKERS) as workers:
        return [fault for found in workers.map(lambda log: run_faults(script, log, judge), logs) for fault in found]


def add_option(parser):
    """Adds the word by which another ftjudge is named."""
    how = {"type": pathlib.Path, "default": JUDGE, "metavar": "PATH"}
    parser.add_argument("--judge", help="the program that judges logs; else the one that `./prove ftjudge` builds", **how)


def want_judge(path):
    """Says so if there is no ftjudge."""
    runs.want_program(path, "`./prove ftjudge` builds one")
