"""Globs and filter texts: which names a glob matches, and which functions of a list a text selects.

The rules are those of docs/LANGUAGE.md, "Filter texts". What the kernel reads in another way than a script does is in filter_texts.py.
"""
import bisect
import functools
import re
import sys
from typing import NamedTuple, Optional

CLASS = re.compile(r"\[(!|(?!!))(.[^]]*)\]")  # ends at the first `]` that isn't the first byte in it; any other `[` is itself
LAST = chr(sys.maxunicode)  # comes after all characters of names


def items(glob):
    """The items of a glob: None for `*`, and for one byte whether it is to be outside these ranges, and the ranges.

    >>> items("a*[!x-z]")
    [(False, [('a', 'a')]), None, (True, [('x', 'z')])]
    """
    found, at = [], 0
    while at < len(glob):
        in_brackets = CLASS.match(glob, at)
        if in_brackets:
            found.append((bool(in_brackets[1]), [(part[0], part[-1]) for part in re.findall(".-.|.", in_brackets[2])]))
        elif glob[at] == "*":
            found.append(None)
        else:
            found.append((True, []) if glob[at] == "?" else (False, [(glob[at], glob[at])]))
        at = in_brackets.end() if in_brackets else at + 1
    return found


def pieces(parts):
    """The parts between the `*` of these items, each a regular expression of so many bytes as it has items."""
    found = [""]
    for item in parts:
        if item is None:
            found.append("")
            continue
        is_outside, ranges = item
        inner = "".join(f"{re.escape(low)}-{re.escape(high)}" for low, high in ranges if low <= high)
        if inner:
            found[-1] += f"[{'^' if is_outside else ''}{inner}]"
        else:
            found[-1] += "." if is_outside else "(?!)"  # a class that holds nothing
    return found


def pattern_of(parts):
    """What matches the names that these items do. Each part between two `*` is looked for once, at its first place, which is enough."""
    first, *others = pieces(parts)
    if not others:
        return re.compile(first, re.DOTALL)
    *middle, last = others
    inner = "".join(f"(?=(?P<p{at}>.*?{piece}))(?P=p{at})" for at, piece in enumerate(piece for piece in middle if piece))
    return re.compile(f"{first}{inner}.*{last}", re.DOTALL)


@functools.lru_cache(maxsize=1000)
def pattern(glob):
    """What matches the names that a glob does."""
    return pattern_of(items(glob))


def fits(glob, name):
    """Whether a glob matches a name.

    >>> fits("ext3_*", "ext3_read"), fits("[!a-c]?", "ax"), fits("[]a]", "]"), fits("a*b", "ab"), fits("a", "b")
    (True, False, True, True, False)
    """
    return pattern(glob).fullmatch(name) is not None


class Text(NamedTuple):
    """A filter text: whether it takes functions away, its glob, and its module's glob, if it has one, with whether it is outside that."""

    is_removing: bool
    glob: str
    module: Optional[str] = None
    is_outside: bool = False

    @property
    def word(self):
        """The text as a script has it, without its mark."""
        if self.module is None:
            return self.glob
        return f"{self.glob}:mod:{'!' if self.is_outside else ''}{self.module}"


def read_text(word):
    """The filter text of a word. A module that is left out means all, which only a kernel reads.

    >>> read_text("!*read:mod:!ext3")
    Text(is_removing=True, glob='*read', module='ext3', is_outside=True)
    """
    is_removing = word.startswith("!")
    glob, has_module, module = word[is_removing:].partition(":mod:")
    if not has_module:
        return Text(is_removing, glob)
    is_outside = module.startswith("!")
    return Text(is_removing, glob, module[is_outside:] or "*", is_outside)


def number_of(digits):
    """The number that these digits are, however many they are; one of very many digits stands for all those.

    >>> number_of("0002"), number_of("0"), number_of("9" * 5000) > 10**19
    (2, 0, True)
    """
    return int(digits.lstrip("0")[:20] or "0")


class FunctionList:
    """Functions in their order, each with its name and its module, and what texts select of them, by numbers from 0.

    >>> from ftlog.script_reader import Function
    >>> functions = FunctionList([Function("sys_read", None), Function("ext3_read", "ext3"), Function("snd_play", "snd")])
    >>> [sorted(functions.selected(read_text(word))) for word in ("*read", "3", ":mod:ext?", "!*:mod:!snd", "none")]
    [[0, 1], [2], [1], [0, 1], []]
    """

    def __init__(self, functions):
        self.functions, self.numbers, self.selections, self.modules = functions, {}, {}, {}
        for number, function in enumerate(functions):
            self.numbers.setdefault(function.name, []).append(number)
            if function.module is not None:
                self.modules.setdefault(function.module, []).append(number)
        self.names = sorted(self.numbers)

    def left_out(self):
        """Those that no glob matches and no number selects: none."""
        return frozenset()

    def is_number(self, text):
        """Whether a text selects by a number."""
        return text.module is None and re.fullmatch("[0-9]+", text.glob) is not None

    def line_of(self, word):
        """The number, from 1, that a text of this kind says; None if there is none."""
        return number_of(word)

    def named(self, glob):
        """The functions whose names a glob matches. A name without a sign of a glob is looked up."""
        if not re.search(r"[*?[]", glob):
            return set(self.numbers.get(glob, []))
        if set(glob) == {"*"}:
            return set(range(len(self.functions))) - self.left_out()
        found = pattern(glob).fullmatch
        names = [name for name in self.beginning(re.match("[^*?[]*", glob)[0]) if found(name)]
        return {number for name in names for number in self.numbers[name]} - self.left_out()

    def beginning(self, front):
        """The names that begin so."""
        first = bisect.bisect_left(self.names, front)
        return self.names[first : bisect.bisect_right(self.names, front + LAST, first)]

    def within(self, text):
        """The functions that are in the modules of a text, or outside of them."""
        inside = {number for module, numbers in self.modules.items() if fits(text.module, module) for number in numbers}
        return set(range(len(self.functions))) - inside if text.is_outside else inside

    def by_number(self, word):
        """The function of a line, counted from 1; none if there is no such line."""
        number = self.line_of(word)
        return {number - 1} - self.left_out() if number is not None and 1 <= number <= len(self.functions) else set()

    def selected(self, text):
        """The functions that a text selects."""
        key = text._replace(is_removing=False)
        if key not in self.selections:
            if self.is_number(text):
                found = self.by_number(text.glob)
            elif text.module is None:
                found = self.named(text.glob)
            else:
                found = self.within(text) & self.named(text.glob or "*")
            self.selections[key] = frozenset(found)
        return self.selections[key]
