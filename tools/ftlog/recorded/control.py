"""What control did in a recorded run: its commands as a script has them, the kernel's answers, and the users after each command."""
from collections import Counter
from typing import NamedTuple

FUNCTIONS = range(8)  # those of the recorder
REPLACEMENT = 7  # the one that runs in the place of another
OPS = 6  # so many users are each an ftrace_ops; the numbers from there on are fprobes
REGISTER, UNREGISTER, FILTER, NOTRACE, ENABLE, DISABLE = range(1, 7)
RESET, REMOVE = 1, 2  # flags of a filter command
EVERY = 1 << len(FUNCTIONS)  # in the place of functions: no text at all
EBUSY = -16


class User(NamedTuple):
    """A user after some commands: which of them registered it (0: it isn't), whether it is enabled, and its two sets."""

    since: int = 0
    enabled: bool = True
    filter: frozenset = frozenset()
    notrace: frozenset = frozenset()

    def matches(self, function):
        """Whether its sets let this function in."""
        return (not self.filter or function in self.filter) and function not in self.notrace

    def sited(self, function):
        """Whether the function's call site is patched for it."""
        return self.since > 0 and self.matches(function)

    def on(self, function):
        """Whether it is to be called back for the function."""
        return self.enabled and self.sited(function)


def name_of(user):
    """The name that the script gives a user."""
    return f"u{user}" if user < OPS else f"fp{user - OPS}"


def text_of(functions):
    """A filter text that selects these functions."""
    return f"ftr_f[{''.join(map(str, sorted(functions)))}]"


def target(desk, function):
    """What a function's call site holds once it is patched for these users."""
    sited = [user for user, state in desk.items() if state.sited(function)]
    return "nop" if not sited else f"own {name_of(sited[0])}" if len(sited) == 1 else "list"


class Control:
    """The commands of a run. `spans` has the numbers of the first and the last line that each command of the recorder comes to."""

    def __init__(self, run):
        self.lines, self.answers, self.spans, self.filled = [], [], {}, Counter()
        self.plain, self.replacing = list(range(run.given["users"])), list(range(OPS - run.given["ipmod"], OPS))
        self.fprobes = list(range(OPS, OPS + run.given["probes"]))
        self.users, self.acts = self.plain + self.replacing + self.fprobes, bool(run.given["act"])
        self.desks = [{user: User() for user in self.users}]
        self.values = {event.call: event.a for event in run.events if event.kind == "r"}
        for event in run.events:
            if event.kind == "b":
                self.add(event)

    def add(self, event):
        """Adds the command that an event begins."""
        what, user, first = event.a & 255, event.a >> 8, len(self.lines) + 1
        chosen = frozenset(function for function in FUNCTIONS if event.b >> function & 1)
        if what == REGISTER and user in self.fprobes:
            self.filled["filter of an fprobe"] += 1
            self.put(f"filter {name_of(user)} > {text_of(chosen)}", "ok", user, filter=chosen)
        state, value = self.desks[-1][user], self.values.get(event.call, 0)
        if what in (FILTER, NOTRACE):
            line, change = self.edited(what, user, chosen, event)
        else:
            verb, change = {REGISTER: ("register", {"since": len(self.lines) + 1, "enabled": True}), UNREGISTER: ("unregister", {"since": 0}),
                            ENABLE: ("enable", {"enabled": True}), DISABLE: ("disable", {"enabled": False})}[what]
            line = f"{verb} {name_of(user)}"
        self.put(line, self.answer(what, user, state, value, event.b), user, **change)
        self.spans[event.call] = first, len(self.lines)

    def edited(self, what, user, chosen, event):
        """The line of a command for a filter or notrace set, and what it changes."""
        name = "filter" if what == FILTER else "notrace"
        before = frozenset() if event.c & RESET else getattr(self.desks[-1][user], name)
        text = "" if event.b & EVERY else " " + "!" * bool(event.c & REMOVE) + (text_of(chosen) if chosen else "zz_none")
        after = before - chosen if event.c & REMOVE else before | chosen
        return f"{name} {name_of(user)} {'>' if event.c & RESET else '>>'}{text}", {name: after}

    def answer(self, what, user, state, value, mask):
        """How the log says what the kernel answered; of what isn't known `invalid`, which the judge finds if it is wrong."""
        if what in (ENABLE, DISABLE):
            return "ok" if state.since else "not-there"  # these answer nothing
        if value == 0:
            return "ok"
        if what == REGISTER and value == EBUSY:
            other = self.busy(user)
            if state.since:
                return "already"
            if other:
                self.filled["function and user of a refusal"] += 1
                return f"busy ftr_f{other[0]} {name_of(other[1])}"
        if what == UNREGISTER and not state.since:
            return "not-there"
        if what in (FILTER, NOTRACE) and not mask:
            return "no-match"
        self.filled["answers without a known reason"] += 1
        return "invalid"

    def busy(self, user):
        """The first function that this user would replace and another one does replace, with that user."""
        desk = self.desks[-1]
        pairs = ((function, other) for function in FUNCTIONS for other in self.replacing
                 if other != user and user in self.replacing and desk[user].matches(function) and desk[other].sited(function))
        return next(pairs, None)

    def put(self, line, answer, user, **change):
        """Adds a line; what it changes is changed if the answer is `ok`."""
        desk = dict(self.desks[-1])
        if answer == "ok":
            desk[user] = desk[user]._replace(**change)
        self.lines.append(line)
        self.answers.append(answer)
        self.desks.append(desk)
