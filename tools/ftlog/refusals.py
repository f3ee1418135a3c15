"""Every line of a script that is refused: its cause, the facts that make it so, and how to fix it.

The causes and their order are those of docs/LANGUAGE.md, "Refusals". The first refusal of `all_of` is the one that the program answers.
What comes after it is told as if each refused line said what it was meant to say.
"""
import dataclasses
import difflib
from typing import Iterable, List

from ftlog import limits, module_needs, script_limits, text_faults, waits
from ftlog.declared import Above, declare, declare_too_many, declare_unread
from ftlog.limits import LIMITS
from ftlog.script_limits import first
from ftlog.script_lines import ACTS, ODD_BYTE, SKIP, WRITTEN, Line, here, last_acts, lines_of, quoted, shown


LOG = "log"  # the line between a script and its log in an input of ftjudge
NOT_ENDED, NO_FORM, WRONG_PLACE = "the last line isn't ended", "no such form", "in the wrong place"


@dataclasses.dataclass
class Refusal:
    """A line that is refused. `kind` says which of several things of one cause it is.

    If lines of one kind are refused for one reason, as all that are too many, they are one refusal: `further` of them, down to the line `last`.
    """

    line: Line
    cause: str
    kind: str
    facts: List[str]
    fix: str
    too_many: str = ""  # what there are too many of, or what else many lines are refused for
    further: int = 0
    last: int = 0
    name: str = ""  # what isn't declared
    names: Iterable[str] = ()  # what is declared of its kind

    def mending(self):
        """How to fix it. Whether a name is like one that there is, is looked up only here, since it takes long."""
        if self.kind == NO_FORM:
            return self.fix or self.line.reason.mending()
        found = difflib.get_close_matches(self.name, list(self.names), 1)
        return f"`{found[0]}` may be meant; or {self.fix}" if found else self.fix


IN_ORDER = "modules come and go in the order of the lines alone"
RANK_NAMES = ["the version", "functions", "sizes, absent modules and triggers", "users", "CPUs", "tasks and their acts",
              "lanes and commands", "the schedule"]


# syntax

def not_ended(above, line):
    """The last line, if no line feed ends it."""
    if line.is_ended:
        return None
    return Refusal(line, "syntax", NOT_ENDED, ["no line feed comes after it"], "end it with a line feed")


def no_form(above, line):
    """A line that has no form."""
    if line.form is not None:
        return None
    reason, facts = line.reason, []
    word = line.words[reason.at] if reason.at < len(line.words) else None
    facts.append(f"word {reason.at + 1}" + (f", {quoted(word)}" if word is not None and quoted(word) not in reason.why else "")
                 + f": {reason.why}")
    facts += [f"the form is {' or '.join(f'`{form}`' for form in WRITTEN[line.key])}"] if line.key in WRITTEN else []
    if above.is_log or line.words == [LOG]:
        facts = [f"a script with a line `{LOG}` and a log below it is what ftjudge reads"]
        return Refusal(line, "syntax", NO_FORM, facts, "give it to ftjudge, or leave out this line and all below it", LOG)
    return Refusal(line, "syntax", NO_FORM, facts, "", "carriage returns" if line.text.endswith("\r") else "")


def misplaced(above, line):
    """A line in the wrong place."""
    found = rank_fault(above, line) or place_fault(above, line)
    return found and Refusal(line, "syntax", WRONG_PLACE, [found[0]], found[1])


def rank_fault(above, line):
    """Why a line can't come below one that is above it, and how to fix it; None if it can."""
    form = line.form
    if form.key == "ftrace":
        return "the version is on line 1 alone", "leave it out"
    if form.key == SKIP or form.rank >= above.rank:
        return None
    higher = above.first_above_rank(form.rank)
    why = f"{RANK_NAMES[form.rank]} come above {RANK_NAMES[higher.form.rank]}, and {here(higher)}, is above it"
    return why, f"put it above line {higher.number}" + (", below the acts of its task" if form.key in ACTS else "")


def place_fault(above, line):
    """The same of the other rules about places."""
    key, said = line.form.key, line.form.said
    if key in ("depth", "tramps", "ring", "tracing") and key in above.sizes:
        return f"{here(above.sizes[key])}, says it already", "keep one of the two lines"
    if key == "cpu" and said["N"] not in above.next_cpus:
        return not_next("CPU", said["N"], min(above.next_cpus))
    if key == "lane":
        return lane_fault(above, said["N"])
    if key in ("ctl until", "ctl load", "ctl unload") and above.lanes:
        return in_lanes_fault(above, key)
    if key in ACTS and not above.tasks:
        return "an act belongs to the nearest `task` line above, and there is none", "put it below its `task` line"
    return None


def not_next(what, number, following):
    """Why a CPU or a lane can't have its number, and how to fix it."""
    why = f"the number of the next {what} is {following}, and it has {number}"
    return why, f"{what}s are numbered from 0 in order: `{what.lower()} {following}`"


def lane_fault(above, number):
    """Why there can be no such lane here."""
    if number not in above.next_lanes:
        return not_next("lane", number, min(above.next_lanes))
    if above.control and not above.lanes:
        earliest = above.control[0]
        line = earliest if isinstance(earliest, Line) else earliest.line
        why = f"{here(line)}, is above it and belongs to no lane"
        if line.key == "ctl until":
            return why, "drop the wait, or the lanes"
        return why, f"put `lane 0` above line {line.number}: all commands have a lane, or none has"
    if above.absent:
        module, line = next(iter(above.absent.items()))
        return f"{here(line)}, makes the module {module} come and go", f"drop the lanes, or that line: {IN_ORDER}"
    return None


def in_lanes_fault(above, key):
    """Why a line can't be in a script with lanes."""
    why = f"the script has lanes, from {here(above.lanes[0])}, on, and "
    if key == "ctl until":
        return why + "control never waits there", "drop the wait, or the lanes; what waits in such a script is a task, by `after N`"
    return why + IN_ORDER, "drop it, or the lanes"


# version

def wrong_version(above, line):
    """Line 1, if it doesn't say the version."""
    if says_version(line):
        return None
    text = quoted(line.text) if line.text.strip(" \t") else "a blank line"
    if ODD_BYTE.search(line.text) and line.reason:
        return Refusal(line, "version", "", [f"line 1 isn't `ftrace 1`, `ftrace 2` or `ftrace 3`: {line.reason.why}"], line.reason.fix)
    if above.version_below:
        return Refusal(line, "version", "", [f"line 1 is {text}, and {here(above.version_below)}, is below it"],
                       f"make line {above.version_below.number} line 1")
    if line.words[:1] == ["ftrace"]:
        return Refusal(line, "version", "", ["the words of line 1 are `ftrace` and one of `1`, `2` and `3`, and no others"],
                       "write `ftrace 1`, `ftrace 2` or `ftrace 3`")
    return Refusal(line, "version", "", [f"line 1 is {text}, and not `ftrace 1`, `ftrace 2` or `ftrace 3`"],
                   "put `ftrace 1`, `ftrace 2` or `ftrace 3` above it: comments too come below that")


# limit

def past_limit(above, line):
    """A line with something past its limit."""
    found = script_limits.past_limit(above, line)
    return found and Refusal(line, "limit", "", [found[0]], found[1], found[2] if len(found) > 2 else "")


# duplicate

def duplicate(above, line):
    """A line that declares something a second time."""
    found = declared_above(above, line.form.key, line.form.said)
    return found and Refusal(line, "duplicate", "", [f"there is {found[0]} already: {here(found[1])}"], found[2])


def declared_above(above, key, said):
    """What of a line is declared a second time, the line of the first one, and the fix; None if nothing is."""
    fix = "use another name, or drop one of the two lines"
    if key == "func" and said["NAME"] in above.functions:
        return f"a function {said['NAME']}", above.functions[said["NAME"]], fix
    if key == "user" and said["NAME"] in above.users:
        return f"a user {said['NAME']}", above.users[said["NAME"]], fix
    if key == "absent" and said["M"] in above.absent:
        return f"an absent module {said['M']}", above.absent[said["M"]], "say it once"
    if key == "task" and said["PID"] in above.pids:
        return f"a task with the pid {said['PID']}", above.pids[said["PID"]].line, "give each task a pid of its own"
    return None


# unknown

def unknown(line, what, name, fix, names=()):
    """A line that names what isn't declared above it, and what is."""
    return Refusal(line, "unknown", "", [f"no {what} {shown(str(name))} is declared above"], fix, name=str(name), names=names)


def no_function(above, line, name):
    """A line that names a function which isn't there."""
    if name in above.functions or name in above.lost:
        return None
    found = unknown(line, "function", name, f"declare it, by `func {shown(name)}` above the users and CPUs", above.functions)
    if name in above.users:
        found.facts.append(f"{name} is a user, and no function")
    return found


def no_user(above, line, name):
    """A line that names a user which isn't there."""
    if name in above.users or name in above.lost:
        return None
    found = unknown(line, "user", name, f"declare it, by `user {shown(name)} function` above the CPUs", above.users)
    if name in above.functions:
        found.facts.append(f"{name} is a function, and no user")
    return found


def no_module(above, line, name):
    """A line that names a module in which no function lies."""
    if name in above.modules or name in above.lost:
        return None
    fix = f"declare a function in it, by `func NAME {shown(name)}`"
    return unknown(line, "function in a module", name, fix, above.modules)


def no_task(above, line, pid):
    """A line that names a task which isn't there."""
    if pid in above.pids or str(pid) in above.lost:
        return None
    pids = ", ".join(map(str, list(above.pids)[:8])) + (" .." if len(above.pids) > 8 else "")
    return unknown(line, "task with the pid", pid,
                   f"name a task that there is: {pids}" if pids else f"`task {pid} cpu 0`, or leave the line out")


def no_cpu(above, line, number):
    """A line that names a CPU which isn't there."""
    if number in above.cpus or str(number) in above.lost:
        return None
    there = [str(cpu) for cpu in sorted(above.cpus)]
    return unknown(line, "CPU", number,
                   f"`cpu {number} quantum 100` above the tasks" + (f", or a CPU that there is: {', '.join(there)}" if there else ""))


def not_declared(above, line):
    """What a line names and isn't declared above it."""
    key, said = line.form.key, line.form.said
    if key in ("absent", "ctl load", "ctl unload"):
        return no_module(above, line, said["M"])
    if key == "user":
        return first(no_function(above, line, said[option]) for option in ("ipmodify", "FUNC") if option in said)
    if key == "call":
        return no_function(above, line, said["FUNC"])
    if key == "task":
        return no_cpu(above, line, said["N"])
    if key in ("ctl pid", "ctl nopid"):
        return first(no_task(above, line, pid) for pid in said["PID"])
    if key == "ctl until":
        return no_task(above, line, said["PID"])
    if key == "sched":
        found = script_limits.turns_past_limit(above, said["ITEM"])
        unknown_cpus = (no_cpu(above, line, int(item.who)) for item in said["ITEM"] if item.who.isdigit())
        return Refusal(line, "limit", "", [found[0]], found[1]) if found else first(unknown_cpus)
    return no_user(above, line, said["U"]) if "U" in said else None


# pattern

def unreadable_text(above, line):
    """A line whose filter text, or trigger's text, can't be read."""
    key, said = line.form.key, line.form.said
    if key == "trigger":
        found = text_faults.trigger_fault(said["TEXT"])
    elif key in ("ctl filter", "ctl notrace"):
        found = text_faults.filter_fault(said["TEXT"], len(above.functions))
    else:
        return None
    what = "trigger's text" if key == "trigger" else "filter text"
    return found and Refusal(line, "pattern", "", [f"the {what} {quoted(said['TEXT'])}: {found.why}"], found.fix)


# unbalanced

def unbalanced(above, line, is_last):
    """An act without a match, or the last one of a task in which something stays open."""
    key = line.form.key
    if key not in ACTS or not above.tasks:
        return None
    task = above.task
    why = task.mismatch(key)
    if why:
        return Refusal(line, "unbalanced", "", [why, told_open(task)], mismatch_fix(key, task))
    left = left_open(task, line, key) if is_last else []
    if not left:
        return None
    told = "; ".join(here(one) for one in left[:6]) + (f"; and {len(left) - 6} more" if len(left) > 6 else "")
    fix = " and ".join(f"`{'ret' if one.key == 'call' else 'iret'}`" for one in left[::-1][:3]) + (" .." if len(left) > 3 else "")
    return Refusal(line, "unbalanced", "",
                   ["it is the last act of its task (no act of it comes below), and after it there are still open:", told],
                   f"add {fix} below it")


def told_open(task):
    """What of a task is open, in words."""
    left = task.open_lines()
    return "open in this task: " + ("; ".join(here(one) for one in left[-6:]) if left else "nothing")


def mismatch_fix(key, task):
    """How to fix an act without a match."""
    if key == "ret":
        other = "put it below the `iret`" if task.present.by else "leave it out"
        return f"{other}, or put a `call` above it in this context"
    if key == "iret":
        count = len(task.present.calls)
        return f"put {count} `ret` above it" if count else "leave it out, or raise the context above it by `irq`"
    return "the order is softirq, irq, nmi: end the present interrupt first, by `iret`, or raise a higher one"


def left_open(task, line, key):
    """The lines of what would be open after an act that has its match."""
    left = task.open_lines()
    if key in ("ret", "iret"):
        return left[:-1] if not task.forgiven or task.present.calls else left
    return left + [line] * (key not in ("after",))


# All of a script.

def refusals_at(above, line, is_last):
    """What is wrong with a line: its first cause, and before that, that it isn't ended."""
    ended = not_ended(above, line)
    if line.number == 1:
        found = wrong_version(above, line)
    elif line.form is None:
        found = no_form(above, line)
    elif above.version_below and line.number == above.version_below.number:
        found = None  # it is told at line 1
    else:
        causes = (misplaced, past_limit, duplicate, not_declared, unreadable_text)
        found = first(cause(above, line) for cause in causes) or unbalanced(above, line, is_last)
        if found and found.kind == WRONG_PLACE:
            told_besides(above, line, found)
    return [one for one in (ended, found) if one]


def told_besides(above, line, found):
    """What else is wrong with a line in the wrong place, wherever it is put: a number past its limit, or a text that can't be read."""
    other = first(cause(above, line) for cause in (past_limit, unreadable_text))
    if other and not other.too_many:
        found.facts.append(f"in its place it is refused, too: {other.cause}: {other.facts[0]}")
        found.fix += f", and then: {other.fix}"


def take_version(above, text):
    """The version that line 1 says; if it says none, a line below may."""
    lines = lines_of(text)
    found = next(lines)
    if not says_version(found):
        found = above.version_below = next((line for line in lines if says_version(line)), None)
    above.version = limits.version_of(found.words) if found else limits.VERSION_2


def says_version(line):
    """Whether a line says the version."""
    return line.form is not None and line.form.key == "ftrace"


def take(above, line, found):
    """One more line is above, refused or not."""
    causes = [one for one in found if one.kind != NOT_ENDED]
    if line.form is None:
        above.is_log = above.is_log or line.words == [LOG]
        declare_unread(above, line)
    elif causes and causes[0].too_many:
        declare_too_many(above, line)
    else:
        has_place = not any(one.kind == WRONG_PLACE for one in causes)
        declare(above, line, bool(causes) and causes[0].cause != "version", has_place)


def too_many_with(above, line):
    """A line of control with which there are too many commands, since it is several."""
    if not line.form.key.startswith("ctl ") or line.form.key == "ctl until":
        return []
    count, most = above.commands.count(above), LIMITS["COMMANDS"]
    if count <= most:
        return []
    return [Refusal(line, "limit", "", [f"with its commands there are {count:,}, and the most is {most:,}"],
                    "drop some loads and unloads, or some users", "commands")]


class Found:
    """The refusals so far, of which no more than so many are kept."""

    def __init__(self, most):
        self.most, self.count, self.kept, self.too_many, self.causes = most, 0, [], {}, set()

    def add(self, one):
        """One more of them."""
        if one.too_many in self.too_many:
            self.too_many[one.too_many].further += 1
            self.too_many[one.too_many].last = one.line.number
            return
        self.count += 1
        self.causes.add(one.cause)
        if self.count <= self.most:
            self.kept.append(one)
        if one.too_many:
            self.too_many[one.too_many] = one


def by_line(text, found):
    """Finds the refusals that lines have by themselves and by those above, and gives what is declared after the last line."""
    above, last = Above(), last_acts(text)
    take_version(above, text)
    for line in lines_of(text):
        at_line = refusals_at(above, line, line.number in last)
        take(above, line, at_line)
        for one in at_line or (too_many_with(above, line) if line.form else []):
            found.add(one)
    return above


def all_of(text, most=10**9):
    """The refusals of a script with these bytes: how many there are, and the first ones.

    First come those of single lines; then waits that aren't met; and then, if there is no other cause, modules that may be missing.
    """
    found = Found(most)
    if not text:
        found.add(Refusal(Line(1, "", [], True, None, None), "version", "", ["the script is empty, so it has no line 1"],
                          "begin it with `ftrace 1`"))
        return found
    above = by_line(text, found)
    has_others = bool(found.causes)
    for wait in waits.unmet(above):
        found.add(Refusal(wait.line, "deadlock", "", wait.facts, wait.fix))
    for need in [] if has_others else module_needs.unmet(above):
        found.add(Refusal(need.line, "unloaded", "", need.facts, need.fix))
    return found
