"""Why a filter text or a trigger's text can't be read, by the rules of docs/LANGUAGE.md, "Filter texts" and "Rings and triggers"."""
import re
from typing import NamedTuple, Optional

from ftlog.limits import LIMITS
from ftlog.script_lines import quoted

LONGEST = LIMITS["PATTERN_BYTES"]
MOST = LIMITS["TRIGGER_LIMIT"]
SWITCHES = ("traceon", "traceoff")


class TextFault(NamedTuple):
    """What is wrong with a text, and how to mend it."""

    why: str
    fix: str


def glob_fault(glob, what="the glob"):
    """What is wrong with a glob, if anything is."""
    if not glob:
        return TextFault(f"{what} is empty", "write a glob there, as `*`")
    if "\\" in glob:
        return TextFault(f"{what} has a backslash", "leave it out: nothing is quoted in a glob")
    if len(glob) > LONGEST:
        return TextFault(f"{what} has {len(glob)} bytes, and the limit is {LONGEST}", "use a shorter one, with `*` in it")
    return None


def filter_fault(text, functions) -> Optional[TextFault]:
    """What is wrong with the text of an edit of a set, in a script with so many functions. An empty text clears the set."""
    if not text:
        return None
    rest = text[1:] if text.startswith("!") else text
    if ":" in rest:
        return module_fault(rest)
    if not rest:
        return TextFault("there is nothing after the `!`", "write a glob after it, as `!a*`")
    if re.fullmatch("[0-9]+", rest):
        return number_fault(rest, functions)
    return glob_fault(rest)


def number_fault(digits, functions):
    """What is wrong with the number of a function."""
    value = digits.lstrip("0") or "0"
    if value != "0" and len(value) <= 10 and int(value) <= functions:
        return None
    if value == "0":
        return TextFault("functions are counted from 1", "write the number of a `func` line, counted from 1")
    there = "no function" if functions == 0 else "1 function" if functions == 1 else f"{functions} functions"
    return TextFault(f"there is no function {value[:20]}: the script has {there}", "write a smaller number, or a glob")


def module_fault(text):
    """What is wrong with a text that has a `:`."""
    glob, _, after = text.partition(":")
    if not after.startswith("mod:"):
        return TextFault(f"after the first `:` comes {quoted(after) if after else 'nothing'}",
                         "after `:` only `mod:MODULE` may come, as in `*:mod:ext3`")
    module = after[4:]
    if ":" in module:
        return TextFault("there is a third `:`", "name one module: `*:mod:ext3`")
    owner = module[1:] if module.startswith("!") else module
    if not owner:
        return TextFault("no module is named after `:mod:`", "name it, as `*:mod:ext3`; `:mod:!*` are the functions in no module")
    return glob_fault(glob or "*", "the glob before `:mod:`") or glob_fault(owner, "the module's glob")


def trigger_fault(text) -> Optional[TextFault]:
    """What is wrong with the text of a trigger."""
    glob, colon, after = text.partition(":")
    if not colon:
        return TextFault("it doesn't say what a call does", f"add `:traceon` or `:traceoff`, as `{text[:40]}:traceoff`")
    word, colon, count = after.partition(":")
    if word not in SWITCHES:
        found = quoted(word) if word else "nothing"
        why = f"{found} stands where `traceon` or `traceoff` is needed"
        if word == "mod":
            return TextFault(why, "a trigger names no module: write a glob that matches names, as `ext3_*:traceoff`")
        return TextFault(why, f"write {quoted(glob + ':traceoff')}")
    if colon and not is_count(count):
        return TextFault(count_why(count),
                         f"write a number from 1 to {MOST:,}, in at most {len(str(MOST))} digits, or leave out the second `:`")
    return glob_fault(glob, "the glob before the `:`")


def is_count(text):
    """Whether a text says how often a trigger may fire."""
    return bool(re.fullmatch(f"[0-9]{{1,{len(str(MOST))}}}", text)) and 1 <= int(text) <= MOST


def count_why(text):
    """Why a text doesn't say how often a trigger may fire."""
    if not text:
        return "the count after the second `:` is missing"
    if not re.fullmatch("[0-9]+", text):
        return f"{quoted(text)} is no count"
    return f"the count {text[:20]} has {len(text)} digits" if len(text) > len(str(MOST)) else f"the count {int(text)} isn't 1 to {MOST:,}"
