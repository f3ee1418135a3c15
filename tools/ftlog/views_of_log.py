"""What a script and its log tell, in words: the calls and callbacks, the lines of the form function, and the levels of a graph.

The text of each form is proved; these are for what isn't printed so, as the columns of a kernel, and rings of running threads.
"""
import collections
import io
from typing import NamedTuple, Optional

from ftlog import files, given_logs, log_items, script_reader

LETTERS = {"normal": ".", "softirq": "s", "irq": "h", "nmi": "z"}


class Callback(NamedTuple):
    """An item `back` or `exit`, in a call of a function; of an exit the place of its entry."""

    place: int
    call: str
    func: str
    entry: Optional[int]


def pid_of(call):
    return int(call.partition(".")[0])


class Told:
    """What a script and its log tell: the users, the items in words, the last line, and the calls."""

    def __init__(self, script, log):
        self.script = script_reader.read_script(script)
        self.users = list(self.script.users.values())
        *items, self.last = log.decode("latin-1").splitlines()
        self.items = [item.split(" ")[1:] for item in items]
        self.entered = {words[1]: words[2:] for words in self.items if words[0] == "enter"}  # context, function, caller

    def of_kind(self, kind):
        return [user.name for user in self.users if user.kind == kind]

    def func(self, call):
        return self.entered[call][1]

    def callbacks(self, user):
        """The user's, at entries and at exits."""
        return [Callback(place, words[1], self.func(words[1]), int(words[3]) if words[0] == "exit" else None)
                for place, words in enumerate(self.items) if words[0] in ("back", "exit") and words[2] == user]


def entry_lines(told):
    """The line of each entry callback of a function user, by its place. A call's body runs from its `body` on; in a call without one it is a
    callback that calls."""
    running, users, found = {}, set(told.of_kind("function")), {}
    for place, words in enumerate(told.items):
        if words[0] == "enter":
            running[words[1]] = words[3]
        elif words[0] == "body":
            running[words[1]] = words[2]
        elif words[0] == "back" and words[2] in users:
            context, func, caller = told.entered[words[1]]
            pid, parent = pid_of(words[1]), running.get(caller, "root")
            found[place] = f"{pid:>7} [{told.script.tasks[pid]:03}] {LETTERS[context]} {place:>8}: {func} <-{parent} ({words[2]})"
    return found


def levels(told, user):
    """The level of each of the user's callbacks, by place: of the calls with a `back` of the user and no `ret`, all but its own."""
    found, opened = {}, collections.defaultdict(set)
    for place, words in enumerate(told.items):
        call = words[1]
        if words[0] == "ret":
            opened[pid_of(call)].discard(call)
        elif words[0] in ("back", "exit") and words[2] == user:
            found[place] = len(opened[pid_of(call)] - {call})
            opened[pid_of(call)].add(call)
    return found


def read(script_name, log_name):
    """What a script and its log, which have these names, tell. The log is gone through first, so it fits."""
    text, script = given_logs.read_script(script_name)
    log = files.read(log_name)
    for _ in log_items.Items(script).through(io.BytesIO(log)):
        pass
    return Told(text, log)
