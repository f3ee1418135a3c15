"""What writes to tracefs come to: the commands of a script, and what besides makes a difference for it.

Each instance has one filter and one notrace list, which all its tracers share; the function profile has those of the top. So each edit
becomes a command for each user of the instance. The desk of each instance is kept as the kernel has it, over all functions of the list.
"""
import re
from typing import NamedTuple, Optional

from ftlog import limits
from ftlog.filter_texts import c_number
from ftlog.filters import read_text
from ftlog.tool_options import UNKNOWN, Begun, Left, Pause, Undo, Write

TRACERS = {"function": "fn", "function_graph": "gr"}
KINDS = {"fn": "function", "gr": "graph", "pr": "profile"}
SETS = {"set_ftrace_filter": "filter", "set_ftrace_notrace": "notrace"}
PIDS = {"set_ftrace_pid": "pid", "set_ftrace_notrace_pid": "nopid"}
TOP_ONLY = {"max_graph_depth", "function_profile_enabled"}  # files that instances don't have
LEFT = {
    "set_graph_function": "it selects a function with all that it calls; a filter selects functions alone",
    "set_graph_notrace": "it leaves out a function with all that it calls; a notrace set leaves out functions alone",
    "buffer_size_kb": "it is in kilobytes, and a `ring` line in entries",
    "buffer_total_size_kb": "it is in kilobytes, and a `ring` line in entries",
    "trace_clock": "the only clock is the place in the log, as that of `counter`",
    "tracing_cpumask": "a ring has what its CPU made, whichever that is",
    "trace_options": "the options of tracers have no counterpart",
    "events": "events have no counterpart",
    "options": "the options of tracers have no counterpart",
    "snapshot": "a ring can't be taken while it is written",
    "ftrace_enabled": "nothing in a script switches all of ftrace off",
}
AT_FIRST = {"events": "0", "tracing_thresh": "0", "snapshot": "0", "ftrace_enabled": "1"}  # what these, or all below them, have at first
NOT_YET = "it selects functions of a module that isn't loaded yet, and a script has no text that does what the kernel does"
TRIGGERS = {"traceon", "traceoff"}
METHODS = {
    "current_tracer": "tracer", "function_profile_enabled": "profile", "max_graph_depth": "depth", "tracing_on": "switch", "trace": "clear",
    "rmdir": "remove", "trace_clock": "clock", "modprobe": "module", "rmmod": "module",
}  # which method of State takes a write to a file
WORDS = re.compile(r"[ \t\n\v\f\r]+")
MOST_COUNT = limits.LIMITS["TRIGGER_LIMIT"]


class Trigger(NamedTuple):
    """A trigger: its line, its glob, what it does, and its count."""

    line: int
    glob: str
    word: str
    count: Optional[int]

    @property
    def text(self):
        """As a script has it."""
        return f"{self.glob}:{self.word}" + (f":{self.count}" if self.count is not None else "")


class Step(NamedTuple):
    """Something that a line comes to, in order.

    `what` is `ctl`, with the command's text in `words`, or its word and pids; `switch`, with whether tracing is on; `on` and `off`, with a
    trigger; `clear` or `pause`. Of an edit `chosen` has the functions that its text selects, and `is_empty` says whether the set has none
    after it. `users` are those that are registered after the step, and `is_open` says whether one of them has an empty filter. `absent` are
    the modules that aren't loaded after it.
    """

    line: int
    what: str
    words: object = ""
    chosen: Optional[frozenset] = None
    users: frozenset = frozenset()
    is_open: bool = False
    is_empty: bool = False
    absent: frozenset = frozenset()


class Instance:
    """An instance of tracefs: its users by kind, its tracer, and its lists."""

    def __init__(self, name):
        self.name, self.users, self.tracer, self.is_profiling = name, {}, None, False
        self.sets = {"filter": set(), "notrace": set()}
        self.pids = {"pid": [], "nopid": []}
        self.triggers, self.is_on, self.is_removed = [], True, False

    @property
    def shown(self):
        """How a message names it."""
        return f"instances/{self.name}/" if self.name else ""


def number_of(text):
    """The number that the kernel reads of what is written to a file; None if it is none."""
    found = re.fullmatch(r"\+?([0-9]{1,19})", text.strip())
    return int(found[1]) if found else None


class Survey:
    """Which users a script needs, by the tracers that each instance has at some time, which instance's pid lists it has, and which modules
    are loaded before they are unloaded, and so aren't there at first."""

    def __init__(self, events):
        self.kinds, self.pid_owner, self.tracing, self.modules = {}, None, set(), {}
        writes = [write for event in events for write in (event.writes if isinstance(event, Undo) else [event]) if isinstance(write, Write)]
        for write in writes:
            if write.file in ("modprobe", "rmmod"):
                self.modules.setdefault(write.text, write.file)
            kinds = self.kinds.setdefault(write.instance, [])
            kind = TRACERS.get(write.text.strip()) if write.file == "current_tracer" else None
            if write.file == "function_profile_enabled" and not write.instance and number_of(write.text):
                kind = "pr"
            if kind and kind not in kinds:
                kinds.append(kind)
            if kind == "fn":
                self.tracing.add(write.instance)
        for write in writes:
            if write.file in SETS and not self.kinds[write.instance]:
                self.kinds[write.instance].append("fn")
            if write.file in PIDS and self.pid_owner is None and write.text.strip() and set(self.kinds[write.instance]) & {"fn", "gr"}:
                self.pid_owner = write.instance


class State:
    """Takes writes one after the other, as the kernel does, and keeps the steps of the script and what is told."""

    def __init__(self, functions, events):
        self.functions, self.survey = functions, Survey(events)
        self.instances, self.steps, self.told, self.undo = {}, [], [], []
        self.names, self.flags, self.has_depth = set(), {}, False
        first = self.survey.modules.items()
        self.absent = self.absent_at_first = frozenset(it for it, file in first if file == "modprobe" and it in functions.modules)
        for name, kinds in self.survey.kinds.items():
            if kinds:
                self.instance(name)
        for event in events:
            self.take(event)

    def tell(self, line, why):
        """Says that something of a line isn't in the script."""
        if (line, why) not in self.told:
            self.told.append((line, why))

    def instance(self, name):
        """The instance of this name, with its users."""
        if name not in self.instances:
            made = self.instances[name] = Instance(name)
            for kind in KINDS:
                if kind in self.survey.kinds.get(name, []):
                    made.users[kind] = self.user(name, kind)
        return self.instances[name]

    def user(self, name, kind):
        """A name for the user of an instance; what a script's names can't have is written `_`."""
        front = re.sub(r"[^A-Za-z0-9_.]", "_", name)[:48]
        user = f"{front if re.match('[A-Za-z_]', front) else '_' + front}.{kind}" if name else kind
        wanted, count = user, 1
        while user in self.names:
            count += 1
            user = f"{wanted}{count}"
        self.names.add(user)
        self.flags[user] = KINDS[kind] + (" pid" if kind != "pr" and name == self.survey.pid_owner else "")
        return user

    # The steps.

    def step(self, line, what, words="", chosen=None, is_empty=False):
        """One more step, with who is registered after it."""
        users, is_open = set(), False
        for it in self.instances.values():
            own = {it.users[kind] for kind in [it.tracer] if kind} | ({it.users["pr"]} if it.is_profiling else set())
            users |= own
            is_open = is_open or bool(own) and not it.sets["filter"]
        self.steps.append(Step(line, what, words, chosen, frozenset(users), is_open, is_empty, self.absent))

    def take(self, event):
        """One event. What a tool takes back when it ends matters only if something is written after it."""
        if isinstance(event, Left):
            self.tell(*event)
        elif isinstance(event, Pause):
            self.step(event.line, "pause")
        elif isinstance(event, Undo):
            self.undo += event.writes
        else:
            undo, self.undo = self.undo, []
            begun = event.writes if isinstance(event, Begun) else []
            for write in [*undo, *(write for write in begun if self.is_changing(write))] + ([] if begun else [event]):
                self.write(write)

    def is_changing(self, write):
        """Whether a write of a tool that clears a file of the top changes anything."""
        it = self.instances.get(write.instance)
        if it is None:
            return False
        if write.file in SETS:
            return bool(it.sets[SETS[write.file]])
        if write.file in PIDS:
            return bool(it.pids[PIDS[write.file]])
        return self.has_depth if write.file == "max_graph_depth" else it.tracer is not None

    def write(self, write):
        """One write."""
        it, file = self.instance(write.instance), write.file
        if it.is_removed:
            self.make(write, it)
        if UNKNOWN in write.text and file not in PIDS:
            self.tell(write.line, f"{it.shown}{file}: {write.text.replace(UNKNOWN, '').strip()} isn't known")
        elif file in SETS:
            self.lists(write, it)
        elif file in PIDS:
            self.pids(write, it)
        elif file in TOP_ONLY and it.name:
            self.tell(write.line, f"{it.shown}{file}: an instance has no such file")
        else:
            getattr(self, METHODS.get(file, "left"))(write, it)

    def left(self, write, it):
        """A write to a file that nothing in a script is like, unless it makes the file what it is at first."""
        front, text = write.file.split("/")[0], write.text.strip()
        if text and text != AT_FIRST.get(front):
            self.tell(write.line, f"{it.shown}{write.file}: {LEFT.get(write.file) or LEFT.get(front, 'it has no counterpart')}")

    def clock(self, write, it):
        """The clock: a script has that of `counter`."""
        if write.text.strip() != "counter":
            self.left(write, it)

    def clear(self, write, it):
        """A write to `trace`, which with `>` clears the buffers."""
        if not write.is_appended:
            self.step(write.line, "clear")

    def tracer(self, write, it):
        """current_tracer: the one before goes first, whatever comes."""
        word = write.text.strip()
        kind = TRACERS.get(word)
        if kind is None and word != "nop":
            self.tell(write.line, f"{it.shown}current_tracer: the tracer {word or 'without a name'} has no counterpart")
            if not word:
                return
        if kind == it.tracer:
            return
        before, it.tracer = it.tracer, None
        if before:
            self.step(write.line, "ctl", f"unregister {it.users[before]}")
        if kind:
            it.tracer = kind
            self.step(write.line, "ctl", f"register {it.users[kind]}")

    def profile(self, write, it):
        """function_profile_enabled: any number but 0 is on."""
        number = number_of(write.text)
        if number is None:
            self.tell(write.line, f"function_profile_enabled: {write.text.strip() or 'nothing'} is no number")
        elif bool(number) != it.is_profiling:
            it.is_profiling = bool(number)
            self.step(write.line, "ctl", f"{'' if number else 'un'}register {it.users['pr']}")

    def depth(self, write, it):
        """max_graph_depth: no call of a script is as deep as the greatest depth that a script can say."""
        number = number_of(write.text)
        if number is None:
            self.tell(write.line, f"max_graph_depth: {write.text.strip() or 'nothing'} is no number")
        else:
            self.has_depth = number > 0
            self.step(write.line, "ctl", f"maxdepth {min(number, limits.LIMITS['GRAPH_DEPTH'])}")

    def switch(self, write, it):
        """tracing_on: a script has one switch, so it has that of an instance only if no other one has the function tracer."""
        number = number_of(write.text)
        if number is None:
            self.tell(write.line, f"{it.shown}tracing_on: {write.text.strip() or 'nothing'} is no number")
        elif self.survey.tracing - {it.name}:
            if bool(number) != it.is_on:
                self.tell(write.line, f"{it.shown}tracing_on: a script has one switch for all instances")
        else:
            self.step(write.line, "switch", bool(number))
        it.is_on = bool(number) if number is not None else it.is_on

    def remove(self, write, it):
        """rmdir of an instance: its tracer goes."""
        self.tracer(write._replace(file="current_tracer", text="nop"), it)
        for trigger in it.triggers:
            self.step(write.line, "off", trigger)
        it.triggers, it.is_on, it.is_removed = [], True, True

    def make(self, write, it):
        """An instance that was removed is there again: its lists are empty."""
        it.is_removed = False
        for name in [name for name, own in it.sets.items() if own]:
            self.edit(write.line, it, name, ">")
        for file, word in PIDS.items():
            if it.pids[word]:
                self.pids(write._replace(file=file, text="", is_appended=False), it)

    def module(self, write, it):
        """modprobe, insmod and rmmod. The first function of the module is in the script, so that this has the module."""
        name, is_loaded = write.text, write.file == "modprobe"
        own = self.functions.modules.get(name)
        if not own:
            self.tell(write.line, f"{write.file} {name}: no function of the list is in this module")
        elif is_loaded == (name in self.absent):
            self.absent ^= {name}
            was_there = is_loaded and any(step.words == f"unload {name}" for step in self.steps)
            if was_there and any(edited & set(own) for it in self.instances.values() for edited in it.sets.values()):
                self.tell(write.line, f"modprobe {name}: its functions are in lists from which the kernel took them when it was unloaded")
            self.step(write.line, "ctl", f"{'' if is_loaded else 'un'}load {name}", frozenset(own[:1]))

    def hidden(self):
        """The functions that aren't there, as their modules aren't loaded."""
        return {number for name in self.absent for number in self.functions.modules[name]}

    def there(self, text, chosen):
        """What the kernel selects while modules aren't there, and a text by which a script selects the same; None if there is no such text.

        The kernel keeps a text that names such a module until this is loaded, and the script selects its functions at once. A text that takes
        one off takes off what is kept.
        """
        now = chosen - self.hidden()
        if now == chosen or text.module in self.absent and not (now or text.is_outside):
            return chosen, None if now != chosen and text.is_removing else text
        for name in self.absent:
            other = text._replace(module=name, is_outside=True)
            if text.module is None and now and self.functions.selected(other) == now:
                return now, other
        return now, None

    def none_there(self):
        """Why the kernel refuses a text that selects nothing."""
        return f"it selects no function of the list{' whose module is loaded' if self.absent else ''}, so the kernel refuses it"

    # The pid lists.

    def pids(self, write, it):
        """set_ftrace_pid and set_ftrace_notrace_pid: `>` empties the list. What is written is added to it, as a whole or not at all."""
        word, file = PIDS[write.file], f"{it.shown}{write.file}"
        added = []
        before = it.pids[word] if write.is_appended else []
        for text in pid_words(write.text):
            pid = text if text.startswith(UNKNOWN) else c_number(text)
            if pid is None or (not isinstance(pid, str) and not 1 <= pid <= limits.LIMITS["PID"]):
                self.tell(write.line, f"{file}: {text.replace(UNKNOWN, '')} is no pid of a task")
                added = []
                break
            added.append(pid)
        if write.is_appended and not added:
            return
        it.pids[word] = list(dict.fromkeys([*before, *added]))
        if it.name == self.survey.pid_owner:
            self.step(write.line, "ctl", (word, list(it.pids[word])))
        elif added:
            has_list = self.survey.pid_owner is not None
            why = "a script has one pid list, for all instances" if has_list else "nothing is traced in this instance"
            self.tell(write.line, f"{file}: {why}")

    # Filter and notrace.

    def edit(self, line, it, name, mode, text=None, chosen=None):
        """A command for each user of an instance that edits its filter or its notrace set."""
        own = it.sets[name]
        if mode == ">":
            own.clear()
        if text is not None:
            (own.difference_update if text.startswith("!") else own.update)(chosen)
        for user in it.users.values():
            self.step(line, "ctl", f"{name} {user} {mode}" + (f" {text}" if text is not None else ""), chosen, not own)

    def lists(self, write, it):
        """set_ftrace_filter and set_ftrace_notrace: the words of a write are taken one after the other, up to the first that is refused."""
        name, words = SETS[write.file], [word for word in WORDS.split(write.text) if word]
        mode = ">>" if write.is_appended else ">"
        if not words and mode == ">":
            self.edit(write.line, it, name, ">")
        for number, word in enumerate(words):
            is_edit, why = self.word(write, it, name, mode, word)
            if not is_edit and mode == ">" and it.sets[name]:
                self.edit(write.line, it, name, ">")
            if why:
                rest = words[number + 1 :]
                more = f" and {len(rest) - 5:,} more" if len(rest) > 5 else ""
                also = f"; nor is what follows it taken: {' '.join(rest[:5])}{more}" if rest else ""
                self.tell(write.line, f"{it.shown}{write.file}: {word}: {why}{also}")
                return
            mode = ">>" if is_edit else mode

    def word(self, write, it, name, mode, word):
        """One word of a write: gives whether it was an edit, and why the kernel refuses it."""
        glob, command, *parameters = word.removeprefix("!").split(":", 2) + ([] if ":" in word else [None])
        if command is not None and command != "mod":
            return False, self.command(write, it, name, word, glob, command, parameters)
        text = read_text(word)
        fault = "it names no module, which has no counterpart" if command and not parameters else fault_of(text)
        if fault:
            self.tell(write.line, f"{it.shown}{write.file}: {word}: {fault}")
            return False, None
        chosen, other = self.there(text, self.functions.selected(text))
        if not chosen:
            is_awaited = text.module is not None and not text.is_outside and not self.functions.within(text)
            if is_awaited:
                why = "no module of the list has this name; the kernel keeps the text until one is loaded"
                self.tell(write.line, f"{it.shown}{write.file}: {word}: {why}")
                return False, None
            return False, self.none_there()
        if other is None:
            self.tell(write.line, f"{it.shown}{write.file}: {word}: {NOT_YET}")
            return False, None
        mark = "!" if text.is_removing else ""
        shown = self.functions.functions[min(chosen)].name if self.functions.is_number(text) else other.word
        self.edit(write.line, it, name, mode, mark + shown, chosen)
        return True, None

    def command(self, write, it, name, word, glob, command, parameters):
        """A word that isn't a filter: a trigger, or a command that a script doesn't have. Gives why the kernel refuses it."""
        if name == "notrace":
            return "set_ftrace_notrace has no commands, so the kernel refuses it"
        if command not in TRIGGERS:
            self.tell(write.line, f"{it.shown}{write.file}: {word}: the command {command} has no counterpart")
            return None
        parameter = parameters[0].split(":")[0] if parameters else ""
        count = c_number(parameter) if parameter else None
        if parameter and count is None:
            return "its count is no number, so the kernel refuses it"
        if word.startswith("!"):
            self.take_off(write, it, glob, command, parameter != "")
            return None
        return self.put_on(write, it, word, Trigger(write.line, glob, command, count))

    def put_on(self, write, it, word, trigger):
        """Adds a trigger, and gives why the kernel refuses it."""
        chosen, fault = self.functions.named(trigger.glob), fault_of(read_text(trigger.glob))
        now = chosen - self.hidden()
        if not now:
            return self.none_there()
        fault = fault or (NOT_YET if now != chosen else None)
        if fault:
            self.tell(write.line, f"{it.shown}{write.file}: {word}: {fault}")
        elif self.survey.tracing - {it.name}:
            self.tell(write.line, f"{it.shown}{write.file}: {word}: a script has one switch for all instances")
        elif trigger.count is not None and not 1 <= trigger.count <= MOST_COUNT:
            self.tell(write.line, f"{it.shown}{write.file}: {word}: a count is 1 to {MOST_COUNT:,}")
        elif (trigger.glob, trigger.word) not in [(other.glob, other.word) for other in it.triggers]:
            it.triggers.append(trigger)
            self.step(write.line, "on", trigger, frozenset(chosen))
        return None

    def take_off(self, write, it, glob, word, has_count):
        """Takes triggers off: those whose functions the glob all matches."""
        chosen = self.functions.named(glob)
        for trigger in list(it.triggers):
            own = self.functions.named(trigger.glob)
            if trigger.word != word or (trigger.count is not None) != has_count or not own & chosen:
                continue
            if own <= chosen:
                it.triggers.remove(trigger)
                self.step(write.line, "off", trigger)
            else:
                why = f"it takes off a part of {trigger.text}, which has no counterpart"
                self.tell(write.line, f"{it.shown}{write.file}: !{glob}:{word}: {why}")


def pid_words(text):
    """The pids of a write; what isn't known between two marks is one, whatever it has in it."""
    return re.findall(rf"{UNKNOWN}[^{UNKNOWN}]*{UNKNOWN}|[^\s{UNKNOWN}]+", text)


def fault_of(text):
    """Why a script can't have a filter text; None if it can."""
    if text.module is not None and (":" in text.module or text.glob[:1].isdigit()):
        return "a second `:` has no counterpart" if ":" in text.module else "a number with a module has no counterpart"
    if "\\" in text.word:
        return "a backslash has no counterpart"
    if not re.fullmatch("[!-~]*", text.word):
        return "it has bytes that a script can't have"
    if max(len(text.glob), len(text.module or "")) > limits.LIMITS["PATTERN_BYTES"]:
        return f"a glob has at most {limits.LIMITS['PATTERN_BYTES']} bytes"
    return None
