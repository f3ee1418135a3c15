"""The steps of a replay, one by one, as the program fttell tells them."""
import os
import re
from typing import List, NamedTuple

from ftlog import runs
from ftlog.fault import Fault
from ftlog.script_lines import quoted

SECONDS = 60  # that a run may take
OPERATIONS = ("load", "store", "mark")
LAST = ("end", "stopped")


class Step(NamedTuple):
    """A step: whose it is, `k` or a CPU's number, and what it does with which word. A mark has the words of its item, without the place."""

    actor: str
    operation: str
    word: str  # its name and what it is of, joined by dots, as `tail.a`
    item: List[str]


def step_of(number, line):
    """The step of a line that the program has printed: TURN ACTOR OPERATION WORD BEFORE AFTER, and the item of a mark."""
    words = line.split(" ")
    if len(words) < 6 or not re.fullmatch("k|[0-9]+", words[1]) or words[2] not in OPERATIONS:
        raise Fault(f"line {number} of the steps is no step: {quoted(line)}")
    item = words[6:]
    return Step(words[1], words[2], words[3], item[1:] if item[:1] and item[0].isdigit() else item)


class Program:
    """What tells the steps of a script."""

    def __init__(self, path):
        self.path = path
        if not os.access(path, os.X_OK) or path.is_dir():
            raise Fault(f"there is no program {path}, which tells steps; --steps names another one")

    def steps(self, text):
        """The steps that the actors of this script make under its schedule, in order. A turn of an actor at its end is none."""
        came = runs.answer([self.path.resolve(), "steps"], text, SECONDS)
        out = came.out.decode("latin-1")
        if came.status is None:
            raise Fault(f"{self.path}: {came.err.decode('latin-1').strip()}")
        if came.status != 0:
            told = f": {out.strip()}" if came.status == 3 else ""
            raise Fault(f"{self.path} ended with the status {came.status}{told}")
        return [step_of(number, line) for number, line in enumerate(out.splitlines(), 1) if line not in LAST]
