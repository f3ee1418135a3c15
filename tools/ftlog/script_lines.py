"""The lines of a script, accepted or not: the words of each, and its form, or which of its words is in the way of one.

The forms are those of docs/LANGUAGE.md, "The lines". A form says how a line is written, and nothing of the lines around it.
"""
import difflib
import re
from typing import Callable, Dict, List, NamedTuple, Optional

from ftlog.limits import LIMITS

NUMBER = 2**32 - 1  # the greatest number that may be written
DIGITS = len(str(NUMBER))
IS_NAME = re.compile(r"[A-Za-z_][A-Za-z0-9_.]*")
IS_NUMBER = re.compile(rf"[0-9]{{1,{DIGITS}}}")
ODD_BYTE = re.compile(r"[^\t !-~]")
KINDS = ("function", "graph", "profile", "fprobe")
ACTS = ("call", "ret", "after", "softirq", "irq", "nmi", "iret")
CONTEXTS = ("normal", "softirq", "irq", "nmi")  # each of the last three interrupts those before it
SKIP = "skip"  # the form of a blank line and of a comment

# How each line is written, by its first word, or by the first two of control.
WRITTEN = {
    "ftrace": ["ftrace 1", "ftrace 2"],
    "func": ["func NAME", "func NAME MODULE"],
    "depth": ["depth N"],
    "tramps": ["tramps N"],
    "absent": ["absent M"],
    "ring": ["ring CAP"],
    "tracing": ["tracing off"],
    "trigger": ["trigger TEXT"],
    "user": ["user NAME KIND OPTIONS"],
    "cpu": ["cpu N quantum Q"],
    "task": ["task PID cpu N"],
    "call": ["call FUNC"],
    "after": ["after N"],
    "lane": ["lane N"],
    "sched": ["sched ITEM .."],
    "ctl until": ["ctl until PID N"],
    "ctl pid": ["ctl pid PID .."],
    "ctl nopid": ["ctl nopid PID .."],
    "ctl maxdepth": ["ctl maxdepth N"],
}
WRITTEN.update({word: [word] for word in ACTS if word not in WRITTEN})
WRITTEN.update({f"ctl {word}": [f"ctl {word} U"] for word in ("register", "unregister", "enable", "disable")})
WRITTEN.update({f"ctl {word}": [f"ctl {word} M"] for word in ("load", "unload")})
WRITTEN.update({f"ctl {word}": [f"ctl {word} U > TEXT", f"ctl {word} U >> TEXT", f"ctl {word} U >"] for word in ("filter", "notrace")})
SET_WORDS, LIST_WORDS = ("filter", "notrace"), ("pid", "nopid", "maxdepth")  # the commands that change a set, and those that no user is named in
COMMANDS = [key.split()[1] for key in WRITTEN if key.startswith("ctl ")]

# The rank of each form but those of control, which have the rank 6; a line that is skipped has none.
RANKS = {"ftrace": 0, "func": 1, **dict.fromkeys(["depth", "tramps", "absent", "ring", "tracing", "trigger"], 2), "user": 3, "cpu": 4}
RANKS.update({"task": 5, **dict.fromkeys(ACTS, 5), "lane": 6, "sched": 7})


class Form(NamedTuple):
    """What a line says: its key, as in `WRITTEN`, and what it names, as it is written there."""

    key: str
    said: Dict

    @property
    def rank(self):
        """The rank of the line."""
        return RANKS.get(self.key, 6)


class NoForm(Exception):
    """Which word of a line is in the way of a form, counted from 0 (past the last one if one is missing), why, and how to mend it.

    The word may be like one of `choices`. That is looked up only if it is to be told, since it takes long.
    """

    def __init__(self, at, why, fix="", word="", choices=()):
        super().__init__(why)
        self.at, self.why, self.fix, self.word, self.choices = at, why, fix, word, choices

    def mending(self):
        """How to mend it."""
        found = difflib.get_close_matches(self.word[:40], self.choices, 1)
        return f"`{found[0]}` may be meant" if found else self.fix


class Line(NamedTuple):
    """A line of a script. It has a form, or a reason why it has none."""

    number: int
    text: str
    words: List[str]
    is_ended: bool  # whether a line feed ends it
    form: Optional[Form]
    reason: Optional[NoForm]

    @property
    def key(self):
        """What the line begins with, whether it has a form or not."""
        return self.form.key if self.form else " ".join(self.words[: 1 + (self.words[:1] == ["ctl"])])


class Item(NamedTuple):
    """An item of a schedule: whose turns, and how many."""

    who: str
    count: int


def shown(text, most=70):
    """A text as it can be printed in a line: other bytes than printable ones are written out, and a long one is cut."""
    cut = text if len(text) <= most else text[:most] + ".."
    return ODD_BYTE.sub(lambda found: f"\\x{ord(found[0]):02x}", cut).replace("\t", " ")


def quoted(text):
    """The same, in quotation marks."""
    return "`" + shown(text.strip(" \t")) + "`"


def here(line):
    """A line, as it is told in a sentence."""
    return f"line {line.number}, {quoted(line.text)}"


class Words:
    """The words of a line, taken one after the other."""

    def __init__(self, words, at):
        self.words, self.at = words, at

    def stop(self, why, fix=""):
        """The line has no form, for the word that would be taken next."""
        raise NoForm(self.at, why, fix)

    def peek(self):
        """The next word, None if there is none."""
        return self.words[self.at] if self.at < len(self.words) else None

    def take(self, what):
        """The next word, which has to be there."""
        word = self.peek()
        if word is None:
            self.stop(f"{what} is missing", f"add {what}")
        self.at += 1
        return word

    def takes(self, *choices):
        """The next word if it is one of these; otherwise None, and nothing is taken."""
        if self.peek() in choices:
            return self.take("")
        return None

    def literal(self, word):
        """This very word."""
        if self.takes(word) is None:
            found = self.peek()
            self.stop(f"`{word}` is missing" if found is None else f"{quoted(found)} stands in the place of `{word}`",
                      f"write `{word}` there")

    def name(self, what):
        """A name, of any length."""
        word = self.take(what)
        if not IS_NAME.fullmatch(word):
            self.at -= 1
            self.stop(f"{quoted(word)} is no name, and {what} is needed", self.name_fix(word))
        return word

    @staticmethod
    def name_fix(word):
        """How to make a name of a word that is none."""
        if re.fullmatch("[A-Za-z_0-9.]+", word):
            return "begin the name with a letter or `_`"
        return "a name has letters, digits, `_` and `.` alone"

    def number(self, what):
        """A number, of any size that can be written in so many digits."""
        word = self.take(what)
        if not IS_NUMBER.fullmatch(word):
            self.at -= 1
            self.stop(f"{quoted(word)} is no number, and {what} is needed", self.number_fix(word))
        return int(word)

    @staticmethod
    def number_fix(word):
        """How to make a number of a word that is none."""
        if word.isascii() and word.isdigit():
            return f"a number has at most {DIGITS} digits, zeros in front among them"
        return "a number has no sign" if word[:1] in ("+", "-") else "write digits alone"

    def end(self):
        """There are no more words."""
        word = self.peek()
        if word is None:
            return
        if word.startswith("#"):
            self.stop("a comment stands at the end of the line", "give the comment a line of its own")
        self.stop(f"{quoted(word)} is one word too many", "leave it out")


# The forms, each read from the words after its key.

def read_version(words):
    """`ftrace 1`, `ftrace 2` or `ftrace 3`."""
    if words.takes("1", "2", "3") is None:
        words.stop("`ftrace` goes with `1`, `2` or `3`", "write `ftrace 1`")
    return {"N": words.words[1]}


def read_func(words):
    """`func NAME` or `func NAME MODULE`."""
    said = {"NAME": words.name("the function's name")}
    if words.peek() is not None and not words.peek().startswith("#"):
        said["MODULE"] = words.name("the module's name")
    return said


def read_tracing(words):
    """`tracing off`."""
    if words.peek() == "on":
        words.stop("there is no `tracing on`: that is so without a line", "leave the line out")
    words.literal("off")
    return {}


def read_trigger(words):
    """`trigger TEXT`."""
    said = {"TEXT": words.take("the trigger's text")}
    if words.peek() in ("traceon", "traceoff"):
        words.stop("a trigger's text is one word", f"write `{said['TEXT']}:{words.peek()}`")
    return said


def read_kind(words):
    """The kind of a user, which may be of several words."""
    if words.takes(*KINDS) is None:
        found = words.peek()
        kinds = "`function`, `graph`, `profile` and `fprobe`"
        words.stop("the kind is missing" if found is None else f"{quoted(found)} is no kind of user", f"the kinds are {kinds}")
    kind = words.words[words.at - 1]
    if kind == "fprobe" and words.takes("exit"):
        return "fprobe exit cancel" if words.takes("cancel") else "fprobe exit"
    if kind == "fprobe" and words.peek() == "cancel":
        words.stop("`cancel` goes with `exit`", "write `fprobe exit cancel`")
    return kind


ORDER = "the options are in the order `regs`, `ipmodify FUNC`, `pid`, and `call FUNC` or `irq FUNC`, each at most once"


def read_user(words):
    """`user NAME KIND OPTIONS`."""
    said = {"NAME": words.name("the user's name")}
    said["KIND"] = read_kind(words)
    said["regs"] = bool(words.takes("regs"))
    if words.peek() == "ipmodify":
        if said["KIND"] != "function":
            words.stop("`ipmodify` goes with the kind `function` alone", "leave it out, or declare another user for it")
        words.take("")
        said["ipmodify"] = words.name("the function that is put in the place of others")
    said["pid"] = bool(words.takes("pid"))
    if words.peek() in ("call", "irq"):
        said["act"] = words.take("")
        said["FUNC"] = words.name("the function that each callback calls")
    if words.peek() in ("regs", "ipmodify", "pid", "call", "irq"):
        words.stop(f"`{words.peek()}` is in the wrong place", ORDER)
    if words.peek() == "exit":
        words.stop("`exit` goes with `fprobe`, and comes right after it", "write `fprobe exit`")
    return said


def read_sched(words):
    """`sched ITEM ..`."""
    items = []
    while words.peek() is not None or not items:
        items.append(read_item(words, words.take("an item")))
    return {"ITEM": items}


def read_item(words, word):
    """An item of a schedule."""
    who, star, count = word.partition("*")
    words.at -= 1
    if word == "*" or (star and not count and (words.words[words.at + 1 : words.at + 2] or ["x"])[0].isdigit()):
        words.stop("an item has no blanks", "write `k*2` for two turns of control")
    if not who:
        words.stop(f"{quoted(word)} doesn't say whose turns they are", "write `k*2` for two turns of control, without blanks")
    if not (who in ("k", "all") or re.fullmatch(f"[0-{LIMITS['CPUS'] - 1}]", who)):
        words.stop(f"{quoted(who)} is no actor", f"an item begins with `k`, `all`, or a CPU, one digit from 0 to {LIMITS['CPUS'] - 1}")
    if star and not IS_NUMBER.fullmatch(count):
        words.stop(f"what follows the `*` in {quoted(word)} is no number", f"write 1 to {DIGITS} digits there, without a sign")
    words.at += 1
    return Item(who, int(count) if star else 1)


def read_edit(words):
    """`filter` and `notrace`: `U > TEXT`, `U >> TEXT` or `U >`."""
    said = {"U": words.name("the user's name")}
    found = words.peek()
    if found is not None and re.fullmatch(">>?[^>].*", found):
        arrow = ">>" if found.startswith(">>") else ">"
        words.stop("the text is a word of its own", f"write a blank after `{arrow}`")
    arrow = words.takes(">", ">>")
    if arrow is None:
        words.stop("`>` or `>>` is missing" if found is None else f"{quoted(found)} stands in the place of `>` or `>>`",
                   "write `>` to replace, `>>` to append")
    if arrow == ">>" and words.peek() is None:
        words.stop("`>>` needs a text", "name what is to be appended; `>` alone clears")
    said["arrow"], said["TEXT"] = arrow, words.take("") if words.peek() is not None else ""
    if words.peek() is not None and not words.peek().startswith("#"):
        words.stop("there is one text a line", f"append the next one by a line of its own, with `>> {shown(words.peek(), 30)}`")
    return said


def read_pids(words):
    """`pid` and `nopid`: any number of pids."""
    pids = []
    while words.peek() is not None and not words.peek().startswith("#"):
        pids.append(words.number("a pid"))
    return {"PID": pids}


# What is said of a part of a form that isn't there, for one form alone or for all.
PARTS = {
    "U": "the user's name", "M": "the module's name", "FUNC": "the function's name", "CAP": "the number of entries", "Q": "the quantum", "PID": "the pid",
    "cpu N": "the CPU's number", "task N": "the CPU's number", "depth N": "the number of frames", "tramps N": "the number of slots", "lane N": "the lane's number",
    "after N": "the number of commands", "ctl maxdepth N": "the depth", "ctl until PID": "the task's pid", "ctl until N": "how many acts",
}
NAMES = ("U", "M", "FUNC")


def as_written(key):
    """Reads a line by its form in WRITTEN: names, numbers and the words between them."""

    def read(words):
        """What the line says."""
        said = {}
        for part in WRITTEN[key][0].split()[len(key.split()):]:
            what = PARTS.get(f"{key} {part}", PARTS.get(part))
            if what is None:
                words.literal(part)
            else:
                said[part] = words.name(what) if part in NAMES else words.number(what)
        return said

    return read


READERS: Dict[str, Callable] = {
    **{key: as_written(key) for key in WRITTEN}, "ftrace": read_version, "func": read_func, "tracing": read_tracing, "trigger": read_trigger, "user": read_user,
    "sched": read_sched, "ctl pid": read_pids, "ctl nopid": read_pids, "ctl filter": read_edit, "ctl notrace": read_edit,
}
FIRST_WORDS = [*(key for key in READERS if " " not in key), "ctl"]


def form_of(words):
    """The form that these words have; raises NoForm."""
    key = words[0]
    if key == "ctl":
        if len(words) < 2 or words[1] not in COMMANDS:
            why = "the command is missing" if len(words) < 2 else f"{quoted(words[1])} is no command"
            raise NoForm(1, why, "the commands are " + ", ".join(COMMANDS), "".join(words[1:2]), COMMANDS)
        key = f"ctl {words[1]}"
    if key not in READERS:
        raise NoForm(0, f"no line begins with {quoted(key)}", "take the line out, or begin it with `#`", key, FIRST_WORDS)
    rest = Words(words, len(key.split()))
    said = READERS[key](rest)
    rest.end()
    return Form(key, said)


def odd_byte(text, words):
    """Which byte of a line no line may have but a comment."""
    found = ODD_BYTE.search(text)
    names = {"\r": "a carriage return", "\x00": "a zero byte", "\xa0": "part of a no-break space",
             "\xef": "part of a byte order mark or of another sign"}
    at = next(at for at, word in enumerate(words) if ODD_BYTE.search(word))
    code, what = ord(found[0]), names.get(found[0], "no printable ASCII byte")
    why = f"byte {found.start() + 1} of the line, {code} (`\\x{code:02x}`), is {what}"
    if found[0] == "\r":
        return NoForm(at, why, "end lines with a line feed alone")
    return NoForm(at, why, "take it out: printable ASCII bytes, blanks and tabs are all that there may be")


def line_of(number, text, is_ended):
    """The line of this text."""
    words = [word for word in re.split("[ \t]", text) if word]
    if not words or words[0].startswith("#"):
        return Line(number, text, [], is_ended, Form(SKIP, {}), None)
    if ODD_BYTE.search(text):
        return Line(number, text, words, is_ended, None, odd_byte(text, words))
    try:
        return Line(number, text, words, is_ended, form_of(words), None)
    except NoForm as reason:
        return Line(number, text, words, is_ended, None, reason)


def texts_of(text):
    """The lines of a script with these bytes, with their numbers and whether a line feed ends them; one at a time: they may be many."""
    number, at = 1, 0
    while at < len(text):
        end = text.find(b"\n", at)
        yield number, text[at : end if end >= 0 else len(text)].decode("latin-1"), end >= 0
        number, at = number + 1, end + 1 if end >= 0 else len(text)


def lines_of(text):
    """The lines of a script that say something, and line 1 and one that isn't ended in any case."""
    for number, line, is_ended in texts_of(text):
        found = line_of(number, line, is_ended)
        if number == 1 or not is_ended or found.words:
            yield found


def last_acts(text):
    """The numbers of the acts below which no act of the same task comes, by the forms of the lines alone."""
    found, act = set(), None
    for number, line, is_ended in texts_of(text):
        key = line.lstrip(" \t").partition(" ")[0].partition("\t")[0]
        if (key == "task" or key in ACTS) and line_of(number, line, is_ended).form:
            if key == "task" and act:
                found.add(act)
            act = None if key == "task" else number
    return found | ({act} if act else set())
