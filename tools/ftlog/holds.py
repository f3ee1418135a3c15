"""Schedules in words: the language of hold comments, `# hold: 0 until load tail a; k past store head a; all to end`.

A comment has parts with `;` between them. In each part one actor goes on alone, `k` or a CPU, or `all` in turn:

    ACTOR until STEP    up to that step, which is then its next one
    ACTOR past STEP     up to that step, and makes it
    ACTOR for N         N turns
    ACTOR to end        until it is at its end

A STEP is `load` or `store` and the name of a word, as docs/PROTOCOL.md has them, or `mark` and the beginning of an item, as in the log.
"""
import re
from typing import List, NamedTuple, Optional

from ftlog import log_items
from ftlog.fault import Fault
from ftlog.script_lines import NoForm, Words, quoted

COMMENT = re.compile(r"[ \t]*#[ \t]*hold:(.*)")
ALL = "all"
# What the name of each word is followed by. Of these the last ones may be left out, which means any.
WORDS = {"clock": [], "want": [], "first": [], "pids": [], "depth": [], "ack": ["CPU"], "quiet": ["pid"], "tramp": ["slot"]}
WORDS.update({**dict.fromkeys(["head", "tail", "next"], ["function"]), **dict.fromkeys(["link", "sel"], ["user"]),
              "bits": ["user", "copy", "half", "place"]})


class Pattern(NamedTuple):
    """A step that is looked for."""

    operation: str
    words: List[str]  # those of the name, or of the item's beginning
    is_whole: bool  # whether they are the whole name of a word

    def fits(self, step):
        """Whether this is such a step."""
        if step.operation != self.operation:
            return False
        if self.operation == "mark":
            return step.item[: len(self.words)] == self.words
        name = ".".join(self.words)
        return step.word == name or (not self.is_whole and step.word.startswith(name + "."))

    def __str__(self):
        return f"`{' '.join([self.operation, *self.words])}`"


class Part(NamedTuple):
    """What one actor, or all of them in turn, do next: so many turns, or up to a step or past it, or to the end."""

    actor: str
    how: str  # `until`, `past`, `for` or `end`
    pattern: Optional[Pattern] = None
    count: int = 0


class Names(NamedTuple):
    """What a script declares: the names that may follow those of words."""

    CPU: List[str]
    function: List[str]
    user: List[str]
    pid: List[str]


def names_of(lines):
    """The names that these lines of an accepted script declare."""
    found = {key: [str(line.form.said[name]) for line in lines if line.form.key == key] for key, name in
             (("cpu", "N"), ("func", "NAME"), ("user", "NAME"), ("task", "PID"))}
    return Names(found["cpu"], found["func"], found["user"], found["task"])


def holds_in(text):
    """What a line says after `# hold:`; None if it is no such comment."""
    found = COMMENT.fullmatch(text)
    return found and found[1]


def pattern_of(words, names):
    """The step that the next words name."""
    operation = words.takes("load", "store", "mark")
    if operation is None:
        words.stop("a step is `load`, `store` or `mark`, and what", "")
    return item_of(words) if operation == "mark" else word_of(words, operation, names)


def item_of(words):
    """The item of a mark, by its first words."""
    if words.peek() is not None and words.peek() not in log_items.ITEMS:
        words.stop(f"{quoted(words.peek())} is no item of a log: there are {', '.join(log_items.ITEMS)}", "")
    item = words.words[words.at :]
    words.at = len(words.words)
    return Pattern("mark", item, False)


def word_of(words, operation, names):
    """The word of a load or a store."""
    if words.peek() not in WORDS:
        words.stop(f"the name of a word is missing: there are {', '.join(WORDS)}" if words.peek() is None else
                   f"{quoted(words.peek())} is no word: there are {', '.join(WORDS)}", "")
    name = [words.take("")]
    for what in WORDS[name[0]]:
        if words.peek() is None:
            break
        declared = getattr(names, what, None)
        if declared is not None and words.peek() not in declared:
            words.stop(f"there is no {what} {quoted(words.peek())}", "")
        name.append(words.take(""))
    return Pattern(operation, name, len(name) == 1 + len(WORDS[name[0]]))


def part_of(text, names):
    """The part of this text."""
    words = Words(text.split(), 0)
    actor = words.take("who goes on, `k`, a CPU or `all`,")
    if actor not in ("k", ALL, *names.CPU):
        words.at = 0
        words.stop(f"{quoted(actor)} is no actor: there are {', '.join(['k', *names.CPU, ALL])}", "")
    how = words.takes("until", "past", "for", "to")
    if how is None:
        words.stop("after the actor comes `until STEP`, `past STEP`, `for N` or `to end`", "")
    if how == "to":
        words.literal("end")
        part = Part(actor, "end")
    elif how == "for":
        part = Part(actor, how, count=words.number("how many turns"))
    else:
        part = Part(actor, how, pattern_of(words, names))
    words.end()
    return part


def parts_of(number, text, names):
    """The parts of the hold comment on the line of this number."""
    found = []
    for part in text.split(";"):
        if not part.strip():
            raise Fault(f"line {number}: a part of the hold is empty: {quoted('hold:' + text)}")
        try:
            found.append(part_of(part, names))
        except NoForm as reason:
            raise Fault(f"line {number}: in {quoted(part)}: {reason.why}") from None
    return found
