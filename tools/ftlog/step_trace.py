"""Reads a step trace: what `fttell steps` prints for a script, a line for each load, store and mark (docs/TOOLS.md, "Step traces").

What is read is checked as it comes: each word is one of the script, each value before a step is the one that the word holds, and the items
are those of a log of the script. So a trace of another script, or one of which lines are missing, is told.
"""
import io
import re
from typing import Dict, List, NamedTuple

from ftlog import files, log_items
from ftlog.fault import Fault
from ftlog.given_logs import shown

CONTROL = "k"
OPS = {"load": "l", "store": "s", "mark": "m"}
MOST_STEPS = 200_000  # that a page takes
GREATEST = 2**64 - 1  # what a word can hold
OPENING = {"head": 0x0F, "tail": 0x441F}  # what words of these kinds hold at the start: each site is the nop; all others but `pids` hold 0
COMMAND_ITEM, ITEM = 0x1_0000_0001, 1  # what a mark adds to the clock
VALUE = re.compile(r"0x[0-9a-f]{1,16}|0|[1-9][0-9]{0,19}")
TURN = re.compile(r"0|[1-9][0-9]{0,9}")
SINGLE = ("clock", "want", "first", "pids", "depth")


class Step(NamedTuple):
    """A step: the turn, who makes it (`k` or a CPU's number), `l`, `s` or `m`, the word by its number in the trace, what it then holds."""

    turn: int
    actor: str
    op: str
    word: int
    value: int


class Trace(NamedTuple):
    """A step trace. The words are those that some step names, in the order in which they come, each with what it held before."""

    words: Dict[str, int]
    opening: List[int]
    steps: List[Step]
    items: List[str]  # of the marks, in their order, without places
    fields: List[dict]  # what log_items.py reads in each
    last: str  # `end` or `stopped`


def numbers_below(count):
    """The numbers from 0 as words of a name."""
    return [str(number) for number in range(count)]


def word_names(script):
    """The names of all words that a script's machine has."""
    names = set(SINGLE)
    functions = [function.name for function in script.functions]
    for kind, owners in (("head", functions), ("tail", functions), ("next", functions), ("link", script.users), ("sel", script.users),
                         ("ack", numbers_below(script.cpus)), ("quiet", script.tasks), ("tramp", numbers_below(script.slots))):
        names.update(f"{kind}.{owner}" for owner in owners)
    parts = [f"{copy}.{half}.{number}" for copy in "01" for half in ("filter", "notrace") for number in range((len(functions) + 63) // 64)]
    names.update(f"bits.{user}.{part}" for user in script.users for part in parts)
    return names


class Reader:
    """Goes through the lines of a step trace, and keeps what each word holds."""

    def __init__(self, name, script):
        self.name, self.script, self.names = name, script, word_names(script)
        self.actors = {CONTROL, *numbers_below(script.cpus)}
        self.trace = Trace({}, [], [], [], [], "")
        self.now = []  # what each word holds, by its number
        self.line, self.number = "", 0

    def require(self, is_so, what):
        """What is asked of the line that is being read."""
        if not is_so:
            raise Fault(f"{self.name}: line {self.number}: {what}: {shown(self.line)}")

    def step(self):
        """One more line that is a step."""
        turn, actor, verb, word, before, after, item = (self.line.split(" ", 6) + [""] * 7)[:7]
        steps = self.trace.steps
        self.require(TURN.fullmatch(turn) and verb in OPS and VALUE.fullmatch(before) and VALUE.fullmatch(after), "it isn't a step")
        self.require(actor in self.actors and word in self.names, "the script has no such actor or word")
        self.require(not steps or int(turn) > steps[-1].turn, "its turn isn't above that of the step before")
        self.require(len(steps) < MOST_STEPS, f"a page takes at most {MOST_STEPS} steps; a shorter schedule has fewer")
        self.change(OPS[verb], word, int(before, 0), int(after, 0), item)
        steps.append(Step(int(turn), actor, OPS[verb], self.trace.words[word], int(after, 0)))

    def change(self, op, word, before, after, item):
        """What the step makes of the word, which has to hold the value that is said."""
        self.require(max(before, after) <= GREATEST, "a word can't hold that")
        at = self.trace.words.setdefault(word, len(self.now))
        if at == len(self.now):
            is_opening = word == "pids" or before == OPENING.get(word.partition(".")[0], 0)
            self.require(is_opening, f"{word} doesn't hold that at the start; some step is missing")
            self.now.append(before)
            self.trace.opening.append(before)
        self.require(self.now[at] == before, f"{word} doesn't hold that before this step; some step is missing")
        self.require(op != "l" or before == after, "a load changes nothing")
        self.require((op == "m") == bool(item), "a mark has an item, and nothing else has one")
        self.require(op != "s" or word != "clock", "the clock is never stored")
        if op == "m":
            weight = COMMAND_ITEM if item.startswith(("begin ", "return ")) else ITEM
            self.require(word == "clock" and after - before == weight, "a mark adds its item to the clock")
            self.trace.items.append(item)
        self.now[at] = after

    def read(self, lines):
        """The trace that these lines are."""
        last = None
        for self.number, self.line in enumerate(lines, 1):
            self.require(last is None, "it comes after the last line")
            if log_items.REFUSAL.fullmatch(self.line) and self.number == 1:
                raise Fault(f"the script was refused ({self.line}), so there are no steps")
            if self.line in log_items.ENDS:
                last = self.line
            else:
                self.step()
        if last is None:
            raise Fault(f"{self.name}: the trace isn't whole: its last line is neither `end` nor `stopped`")
        return self.trace._replace(fields=self.fields(last), last=last)

    def fields(self, last):
        """The fields of each item; the items have to be a history of the script."""
        lines = [f"{place} {item}\n" for place, item in enumerate(self.trace.items)]
        log = io.BytesIO("".join([*lines, last, "\n"]).encode("latin-1"))
        return [fields for fields in log_items.Items(self.script).through(log) if isinstance(fields, dict)]


def read(name, script, text=None):
    """The step trace in a file, or in this text, which is then called by the name."""
    text = files.read(name) if text is None else text
    if not text.endswith(b"\n"):
        raise Fault(f"{name}: its last line isn't ended by a line feed, so it may have been cut")
    return Reader(name, script).read(text.decode("latin-1").split("\n")[:-1])
