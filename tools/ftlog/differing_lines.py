"""The lines of a script to which a row of kernel_differences.py applies, found from the script alone.

The lines of control are gone through in their order, each after what the program has made of those before it, by log_desk.py and
control_lines.py. What differs in a call alone is found where the script asks for it: at the user, the depth or the trigger.
"""
import itertools
import re
from typing import List, NamedTuple

from ftlog import control_lines, filters, given_logs, script_lines, script_reader
from ftlog.fault import Fault

ON_GRAPH = script_reader.WITH_FRAMES
LONGEST_GLOB = 255
DIGITS = re.compile("[0-9]+")
END = "\0"  # of a name in the kernel


class Note(NamedTuple):
    """A line by its number and its words, what the program answers or does, and the name of the difference."""

    number: int
    words: List[str]
    here: str
    name: str


def wrong(functions, text):
    """What is wrong with a filter text, as the name of a difference; None if nothing is, and "text" if it is something else."""
    text = text.removeprefix("!")
    name, mark, module = text.partition(":mod:")
    if DIGITS.fullmatch(text):
        return None if 0 < filters.number_of(text) <= len(functions) else "no number"
    if mark and module in ("", "!"):
        return "no module"
    if mark and ":" in module and ":" not in name:
        return "second colon"
    is_long = max(len(name), len(module)) > LONGEST_GLOB
    return "text" if not text or ":" in name or ":" in module or "\\" in text or is_long else None


def besides(names, glob):
    """The names that a glob doesn't match here, but may match if a class with `!` matches the end of a name, as in 6.1."""
    items = filters.items(glob)
    to_the_end = [(True, [(END, END)]) if item == (True, []) else item for item in items]  # `?` matches no end
    later = filters.pattern_of(to_the_end)
    return [name for name in names if not filters.fits(glob, name) and later.fullmatch(name + END)]


class Finder:
    """Goes through the lines of a script, and notes those that differ."""

    def __init__(self, script):
        self.script, self.lines = script, [(line.number, line.words) for line in script.said]
        self.version, self.users = script.version, script.users
        self.control = control_lines.Control(script)
        self.desk = self.control.desk
        self.triggers = iter(script.triggers)
        self.fprobe_names, self.graph_names = self.fprobes(), self.kinds(*ON_GRAPH)
        self.ever = []  # the exit fprobes and graph users, in the order in which they were first registered
        self.stayed = {}  # of each of them that was unregistered: those of its kind that have been registered ever since
        self.older = set()  # the registered users that were so before any exit fprobe
        self.sharing = set()  # the pairs of users that were noted for their callbacks, by the name of the difference
        self.notes, self.number, self.words = [], 0, []

    def note(self, name, here):
        """The present line differs."""
        self.notes.append(Note(self.number, self.words, here, name))

    def found(self):
        """All notes, in the order of the lines."""
        readers = {"user": self.user, "depth": self.depth, "ring": self.ring, "trigger": self.trigger}
        for self.number, self.words in self.lines:
            word = self.words[0]
            if word in readers:
                readers[word](*self.words[1:])
            elif word == "ctl" and self.words[1] != "until":
                self.ctl(*self.words[1:])
        self.deep_calls()
        return sorted(self.notes, key=lambda note: note.number)

    def kinds(self, *kinds):
        """The users of these kinds."""
        return [name for name, user in self.script.users.items() if user.kind in kinds]

    # What is declared.

    def user(self, name, kind, *_):
        """A user: what its callbacks meet in calls."""
        told = self.users[name]
        if told.cancels:
            self.note("cancel", "the exit is cancelled")
        if told.calls == "call" and (self.version == 1 or self.has_interrupts()):
            which = "the first recursion in a context is" if self.version == 1 else "in each context the second recursion is"
            self.note("recursion", f"{which} refused")
        if kind == "fprobe" and told.takes_frame and max(self.nesting(), default=0) > self.script.frames:
            self.note("missed entry", "if no frame is free the entry handler runs, and then there is a miss")

    def has_interrupts(self):
        """Whether something happens in other contexts than the normal one."""
        is_raised = any(words[0] in ("softirq", "irq", "nmi") for _, words in self.lines)
        return is_raised or any(user.calls == "irq" for user in self.users.values())

    def nesting(self):
        """How many calls of its task are open at each act `call`, with the one that a callback in it may make."""
        calls, more = 0, any(user.calls for user in self.users.values())
        for _, words in self.lines:
            calls = {"task": 0, "call": calls + 1, "ret": calls - 1}.get(words[0], calls)
            if words[0] == "call":
                yield calls + more

    def fprobes(self):
        """The fprobes with an exit handler."""
        return [name for name in self.kinds("fprobe") if self.users[name].takes_frame]

    def depth(self, frames):
        """How many frames there are."""
        here = f"each task has {int(frames)} frame{'s' * (int(frames) != 1)}"
        if self.kinds(*ON_GRAPH):
            if int(frames) != script_reader.USUAL_DEPTH:
                self.note("frames", here)
            self.note("page of frames", here)
        if self.fprobes():
            self.note("fprobe's frame", f"{here}, and an fprobe's is one of them")

    def deep_calls(self):
        """The first call of each task for which no frame is left, if the script doesn't say how many there are."""
        if any(words[0] == "depth" for _, words in self.lines) or not self.kinds(*ON_GRAPH):
            return
        calls, is_noted = 0, False
        for self.number, self.words in self.lines:
            is_noted = is_noted and self.words[0] != "task"
            calls = {"task": 0, "call": calls + 1, "ret": calls - 1}.get(self.words[0], calls)
            if calls > script_reader.USUAL_DEPTH and not is_noted:
                self.note("page of frames", f"the call has no frame if the {script_reader.USUAL_DEPTH} around it have one each")
                is_noted = True

    def ring(self, size):
        """How much a ring holds."""
        self.note("ring", f"{int(size)} entries for each CPU")
        self.note("full ring", "when it is full the oldest entry goes, one at a time")

    def trigger(self, text):
        """A trigger: what it counts, and when it is hit."""
        told = next(self.triggers)
        names = [function.name for function in self.script.functions]
        matched = {name for name in names if filters.fits(told.glob, name)}
        if text.startswith("!"):
            self.note("removal", "`!` is a byte of the glob")
        self.note("probe", "it patches nothing, and counts nowhere")
        self.note("hit", "it is hit when the call is entered, so before the call's own entry")
        self.no_class(told.glob, names)
        if told.limit is not None:
            self.note("turns", "each hit is counted, whatever tracing is")
            if len(matched) > 1:
                self.note("counts", f"its {len(matched)} functions have one count")
            if len(self.calling(matched)) > 1:
                self.note("count of two", "each hit is counted, on whichever CPU")

    def calling(self, functions):
        """The CPUs whose tasks call one of these functions by an act."""
        found, cpu = set(), None
        for _, words in self.lines:
            cpu = words[3] if words[0] == "task" else cpu
            if words[0] == "call" and words[1] in functions:
                found.add(cpu)
        return found

    def no_class(self, glob, names):
        """Notes a glob that may match more names in 6.1."""
        more = besides(names, glob) if "[!" in glob else []
        if more:
            self.note("class", f"it doesn't match {more[0]}" + (f" and {len(more) - 1} more" if more[1:] else ""))

    # Control.

    def ctl(self, word, *words):
        """A line of control that isn't a wait."""
        if word in control_lines.LOADS:
            self.module(word, *words)
        elif word in script_lines.LIST_WORDS:
            self.lists(word, words)
            self.control.command([word, *words])
        elif word not in script_lines.SET_WORDS or len(words) < 3 or self.is_readable(words[2]):
            answer = self.desk.answer(word, *words)
            self.sets_or_user(word, answer, *words)
            self.control.command([word, *words])
            self.orders()

    def is_readable(self, text):
        """Whether a filter text is one that the program reads; if not, it may still be one that a kernel does."""
        name = wrong(self.script.functions, text)
        if name == "text":
            raise Fault(f"line {self.number}: the program refuses the text {given_logs.shown(text)} (`pattern`)")
        if name is not None:
            self.note(name, "the script is refused (`pattern`)")
        return name is None

    def module(self, word, module):
        """A load or an unload."""
        answer = self.control.answer(word, module)
        if answer.startswith("busy"):
            self.note("load", f"the load is answered `{answer}`")
        hidden = self.control.hidden({module})
        if (word, answer) == ("unload", "ok") and any(hidden & numbers for sets in self.desk.sets.values() for numbers in sets.values()):
            self.note("unloaded", "its functions stay in filters, and are traced again if it is loaded again")
        self.control.load(word, module)
        self.orders()

    def lists(self, word, words):
        """Lists of pids, and the graph depth."""
        registered = [self.script.users[name].kind for name in self.desk.registered]
        if word == "maxdepth":
            is_limit = any(number.strip("0") for number in words)
            if is_limit and self.kinds(*ON_GRAPH) and self.fprobes():
                self.note("fprobe's frame", "a frame of an fprobe counts for the graph depth")
            if is_limit and self.kinds("profile"):
                self.note("profile depth", "the depth binds profile users too")
            if set(registered) & set(ON_GRAPH):
                self.note("depth's wait", "it holds for all callbacks when the command returns")
            return
        others = [pid for pid in words if pid.lstrip("0") not in map(str, self.script.tasks)]
        if others:
            self.note("any pid", f"the script is refused (`unknown`): no task is {given_logs.shown(others[0])}")
        if any(self.users[name].has_pid for name in self.desk.registered):
            self.note("pids' wait", "it holds for all callbacks when the command returns")

    def sets_or_user(self, word, answer, user, *words):
        """A command on a user, with the answer that the program gives."""
        is_fprobe, here = self.script.users[user].kind == "fprobe", f"the answer is `{answer}`"
        if word in script_lines.SET_WORDS:
            self.edit(word, answer, here, user, *words)
        elif answer == "already" or (word, answer) == ("unregister", "not-there"):
            self.note(("fprobe twice" if answer == "already" else "no fprobe") if is_fprobe else "twice", here)
        elif (word, answer) == ("register", "ok"):
            self.register(user, here)
        elif (word, answer) == ("unregister", "ok") and self.kind_of(user):
            self.unregister(user, self.kind_of(user))
        elif (word, answer) == ("disable", "ok") and is_fprobe:
            self.note("disable", "none of its callbacks is running when it returns")
        self.replaces(word, answer, here, user, *words)

    def register(self, user, here):
        """A registration that is accepted."""
        if self.script.users[user].kind in ON_GRAPH and any(self.script.users[name].kind in ON_GRAPH for name in self.desk.registered):
            self.note("second graph", here)
            self.note("one graph ops", f"{here}, and each graph user counts by itself")
        if sum(self.desk.registered.values()) >= self.script.slots:
            self.note("trampoline", "no slot is free, so the list caller calls it")
        if self.kind_of(user):
            self.again(user, self.kind_of(user))

    def kind_of(self, user):
        """The users whose exits may be mistaken for this one's: all exit fprobes, or all graph users; None if it is neither."""
        return next((names for names in (self.fprobe_names, self.graph_names) if user in names), None)

    def again(self, user, kind):
        """A registration of a user of this kind; there may have been others before."""
        if kind is self.graph_names and any(name in self.stayed for name in kind):
            self.note("former graph user", "a call that was entered under a registration that has ended gets no exit")
        if kind is self.fprobe_names and self.stayed.get(user):
            self.note("former fprobe", f"a call that was entered under the former registration of {user} gets no exit")
        if user not in self.ever:
            self.ever.append(user)

    def unregister(self, user, kind):
        """An unregistration of a user of this kind."""
        for names in self.stayed.values():
            names.discard(user)
        self.stayed[user] = {name for name in kind if name in self.desk.registered and name != user}

    def edit(self, word, answer, here, user, mode, text=None):
        """A change of a filter or a notrace set."""
        if text is not None:
            self.text(text)
        is_missing = answer == "no-match" and self.names_missing(text)
        if is_missing:
            self.note("missing module", here)
        elif word == "filter" and mode == ">" and answer == "no-match" and user in self.by_file():
            self.note("refused write", f"{here}, and nothing changes")
        changed = {word: self.desk.edited(word, user, mode, *([] if text is None else [text]))}
        if answer == "ok" and user in self.desk.registered and self.desk.matching(user) - self.desk.matching(user, **changed):
            self.note("filter's wait", "no callback that the new set excludes runs when the command has returned")

    def by_file(self):
        """The users whose filter would be the file set_ftrace_filter: tracers. Those of others are set by calls inside the kernel."""
        return [name for name in self.kinds("function", *ON_GRAPH) if not self.script.users[name].is_replacing]

    def text(self, text):
        """What a text alone tells."""
        text = text.removeprefix("!")
        if DIGITS.fullmatch(text):
            if text.startswith("0"):
                self.note("octal", f"the number is {filters.number_of(text)}")
        else:
            name, _, module = text.partition(":mod:")
            self.no_class(name, [function.name for function in self.script.functions])
            self.no_class(module.removeprefix("!"), sorted({function.module for function in self.script.functions if function.module}))

    def names_missing(self, text):
        """Whether a text names a module, and no function of the script lies in one that matches."""
        _, mark, module = text.removeprefix("!").partition(":mod:")
        return bool(mark) and not module.startswith("!") and not any(
            function.module and filters.fits(module, function.module) for function in self.script.functions)

    def replaces(self, word, answer, here, user, *words):
        """A command on a user that replaces functions."""
        told = self.script.users[user]
        if not told.is_replacing:
            return
        if answer.startswith("busy"):
            self.note("live patches", here)
            if word == "register":
                self.note("refused registration", f"{here}, and {user} isn't called back")
        if word == "notrace":
            self.note("notrace", here)
        elif (word, answer) == ("register", "invalid") and not told.has_regs and self.desk.sets["filter"][user]:
            self.note("no regs", here)
        elif answer == "ok" and (word == "register" or word == "filter" and user in self.desk.registered):
            chosen = self.desk.edited("filter", user, *words) if word == "filter" else self.desk.sets["filter"][user]
            others = [self.desk.sets["filter"][name] for name in self.desk.replacing() if name != user]
            if any(chosen & other for other in others):
                self.note("filters alone", f"{here}, since a notrace set keeps them apart")

    def orders(self):
        """Notes the users whose callbacks a kernel gives another order or other calls, at the line after which that shows."""
        fprobes = [name for name in self.fprobe_names if not self.users[name].cancels]
        for name, users in [("order of fprobes", fprobes), ("order of graphs", self.graph_names)]:
            for pair in itertools.combinations([user for user in users if user in self.desk.matched], 2):
                if self.desk.matched[pair[0]] & self.desk.matched[pair[1]]:
                    self.once(name, *pair, f"the exits of {pair[0]} and {pair[1]} come in the order of their entries, the latest registered first")
        self.blocks()
        for users in (self.graph_names, self.ever):
            first = next((user for user in self.ever if user in users), None)
            if first is not None and first not in self.stayed:
                self.slot_0(first)

    def blocks(self):
        """Notes the users that were registered between two exit fprobes: these are called back together."""
        registered = list(self.desk.registered)
        self.older = self.older & set(registered) if set(registered) & set(self.fprobe_names) else set(registered)
        for user, fprobe in itertools.combinations(registered, 2):  # the one that was registered earlier comes first
            is_between = fprobe in self.fprobe_names and not {user} & {*self.fprobe_names, *self.older}
            if is_between and self.desk.matched[user] & self.desk.matched[fprobe]:
                self.once("block of fprobes", user, fprobe, f"{fprobe} is called back before {user}, which was registered before it")

    def slot_0(self, first):
        """Notes the graph users that match other functions than the one that has slot 0; all fprobes share a slot."""
        name, sharing = ("slot 0 of fprobes", self.fprobe_names) if first in self.fprobe_names else ("slot 0", [first])
        own = set().union(*(self.desk.matched.get(user, set()) for user in sharing))
        for user in self.graph_names:
            if user != first and self.desk.matched.get(user, set()) - own:
                self.once(name, first, user, f"{first} gets no exit of a call that only {user} matches")

    def once(self, name, one, other, here):
        """Notes a difference of two users, if it wasn't noted for them before."""
        if (name, one, other) not in self.sharing:
            self.sharing.add((name, one, other))
            self.note(name, here)
