"""The texts of set_ftrace_filter and set_ftrace_notrace, as the kernel reads them, and which functions of a list they select.

The rules are those of docs/LANGUAGE.md, "Filter texts", and of docs/KERNEL.md, "Globs"; what the kernel reads in another way than a script
does is turned here into a text that a script has.
"""
import re
from typing import NamedTuple, Optional

from ftlog.fault import Fault
from ftlog.filters import FunctionList

INVALID = "__ftrace_invalid_address__"  # begins the lines that stand for functions that can't be traced; they count as lines
LINE = re.compile(r"(\S+)(?:[ \t]+\[(\S+)\])?[ \t\r]*")


class Listed(NamedTuple):
    """A line of available_filter_functions."""

    name: str
    module: Optional[str]


def c_number(text):
    """The number that a text is in C's way of writing, with 0x or 0 in front; None if it is none."""
    if re.fullmatch("0[xX][0-9a-fA-F]{1,16}", text):
        return int(text, 16)
    if re.fullmatch("0[0-7]{0,21}", text):
        return int(text, 8)
    return int(text) if re.fullmatch("[1-9][0-9]{0,19}", text) else None


class KernelList(FunctionList):
    """The functions that can be traced, and what texts select of them as a kernel reads these."""

    def left_out(self):
        """The lines that stand for functions that can't be traced."""
        if INVALID not in self.selections:
            self.selections[INVALID] = frozenset(number for name in self.beginning(INVALID) for number in self.numbers[name])
        return self.selections[INVALID]

    def is_number(self, text):
        """A text that begins with a digit is one."""
        return text.module is None and text.glob[:1].isdigit()

    def line_of(self, word):
        """In C's way of writing."""
        return c_number(word)


def read_list(name, text):
    """The list of the file with this name and these bytes."""
    functions = []
    for number, line in enumerate(text.decode("latin-1").split("\n"), 1):
        found = LINE.fullmatch(line)
        if found:
            functions.append(Listed(found[1], found[2]))
        elif line.strip():
            raise Fault(f"{name}: line {number} is neither a name nor a name and [module]")
    if not functions:
        raise Fault(f"{name} has no functions")
    return KernelList(functions)
