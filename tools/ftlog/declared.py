"""What the lines above a line have declared, for who judges the next one.

Lines that are refused count as what they were meant to be, as far as that can be seen, so that one mistake isn't told again at each line
that goes by it. As long as no line is refused, this is what docs/LANGUAGE.md has.
"""
from typing import Dict, List, NamedTuple, Optional, Set

from ftlog import control_lines, limits, script_reader
from ftlog.limits import LIMITS
from ftlog.script_lines import ACTS, CONTEXTS, Line


class Act(NamedTuple):
    """An act of a task, and how many commands it waits for."""

    line: Line
    key: str
    commands: int = 0


class Context(NamedTuple):
    """A context that a task is in: what raised it, None if that is the task's own, and the calls that are open in it."""

    name: str
    by: Optional[Line]
    calls: List[Line]


class Task:
    """A task with its acts, and what is open after the last of them."""

    def __init__(self, line, pid):
        self.line, self.pid, self.acts = line, pid, []
        self.contexts = [Context("normal", None, [])]
        self.forgiven = 0  # returns to come of calls that a refused `iret` has closed

    @property
    def present(self):
        """The context that it is in."""
        return self.contexts[-1]

    def open_calls(self):
        """The calls that are open, in all contexts."""
        return [call for context in self.contexts for call in context.calls]

    def open_lines(self):
        """The lines of these, and of the interrupts that are under way."""
        raised = [context.by for context in self.contexts if context.by]
        return sorted(self.open_calls() + raised, key=lambda line: line.number)

    def mismatch(self, key):
        """Why an act of this key has no match in what is open; None if it has one."""
        here = self.present
        if key == "ret" and not here.calls and not self.forgiven:
            return "no call is open" + (f" in the context {here.name}" if here.by else "")
        if key in CONTEXTS and CONTEXTS.index(key) <= CONTEXTS.index(here.name):
            return f"the task is in the context {here.name}, and {key} isn't above it"
        if key == "iret" and here.by is None:
            return "no interrupt is under way"
        if key == "iret" and here.calls:
            return f"a call is still open in the context {here.name}"
        return None

    def take(self, line, key, commands=0):
        """One more act, which may be one without a match."""
        self.acts.append(Act(line, key, commands))
        if key == "call":
            self.present.calls.append(line)
        elif key == "ret" and self.present.calls:
            self.present.calls.pop()
        elif key == "ret":
            self.forgiven = max(0, self.forgiven - 1)
        elif key in CONTEXTS:
            self.contexts.append(Context(key, line, []))
        elif key == "iret" and self.present.by:
            self.forgiven += len(self.contexts.pop().calls)


class Wait(NamedTuple):
    """A line of control that is no command, and until when it waits; if it was refused, that is met at once."""

    line: Line
    pid: int
    acts: int


class Above:
    """What is declared so far."""

    def __init__(self):
        self.version = limits.VERSION_1
        self.version_below = None  # the line that says the version, if line 1 doesn't
        self.is_log = False  # whether a log has begun, as in an input of ftjudge
        self.rank, self.first_of_rank = 0, {}
        self.sizes: Dict[str, Line] = {}
        self.slots: Optional[int] = None
        self.functions: Dict[str, Line] = {}
        self.owners: Dict[str, Optional[str]] = {}
        self.modules: Set[str] = set()
        self.absent: Dict[str, Line] = {}
        self.triggers: List[Line] = []
        self.users: Dict[str, Line] = {}
        self.accepted_users: List[Dict] = []  # what the lines of these say
        self.cpus: Dict[int, Line] = {}
        self.next_cpus = {0}
        self.tasks: List[Task] = []
        self.pids: Dict[int, Task] = {}
        self.acts = self.calls = self.steps = 0
        self.control: list = []  # a Line for each command line, a Wait for each other
        self.waits = 0
        self.lanes: List[Line] = []
        self.next_lanes = {0}
        self.commands = Commands()
        self.lost: Set[str] = set()  # what lines without a form, and those that are too many, may have declared
        self.bound = (-1, 0)  # the most items that a call can make, with so many users

    @property
    def task(self):
        """The task to which acts belong."""
        return self.tasks[-1]

    def begin_task(self, task):
        """Acts belong to this task from here on. Of tasks that are too many the last one is kept."""
        self.tasks[LIMITS["TASKS"] :] = []
        self.tasks.append(task)

    def call_bound(self):
        """The most items that a call can make."""
        count = len(self.accepted_users)
        if self.bound[0] != count:
            self.bound = (count, limits.call_bound(count, sum("act" in said for said in self.accepted_users), self.version))
        return self.bound[1]

    def command_lines(self):
        """The lines of control that aren't waits."""
        return [line for line in self.control if isinstance(line, Line)]

    def first_above_rank(self, rank):
        """The first line so far whose rank is above this one."""
        return min((line for other, line in self.first_of_rank.items() if other > rank), key=lambda line: line.number)

    def script(self):
        """What is declared, but for tasks and lines of control."""
        functions = [script_reader.Function(name, self.owners[name]) for name in self.functions]
        users = {said["NAME"]: script_reader.user_of(said) for said in self.accepted_users}
        slots = self.version.tramps if self.slots is None else self.slots
        return script_reader.Script(functions, slots, list(self.absent), users, {}, [], [])


class Commands:
    """How many commands the lines of control come to, those of loads and unloads among them."""

    def __init__(self):
        self.lines, self.refused, self.known = [], 0, None

    def count(self, above):
        """So many commands there are with the lines so far."""
        if self.known is None and above.absent:
            self.begin(above)
        return self.refused + (len(self.lines) if self.known is None else len(self.known.commands))

    def begin(self, above):
        """From here on what lines are answered is worked out, since modules come and go."""
        self.known = control_lines.Control(above.script())
        for words in self.lines:
            self.carry_out(words)

    def carry_out(self, words):
        """A line, whose answer is worked out."""
        try:
            if words[0] in control_lines.LOADS:
                self.known.load(*words)
            else:
                self.known.command(words)
        except LookupError:
            self.refused += 1  # what it names is declared in a line that is refused, so there is no answer

    def add(self, above, words):
        """One more line that isn't refused, by its words after `ctl`."""
        if self.known is None and (above.absent or words[0] in control_lines.LOADS):
            self.begin(above)
        self.lines.append(words)
        if self.known is not None:
            self.carry_out(words)


# What a line declares.

def declare_function(above, line, said, is_refused):
    """A function, which may lie in a module."""
    above.functions.setdefault(said["NAME"], line)
    above.owners.setdefault(said["NAME"], said.get("MODULE"))
    above.modules.update([said["MODULE"]] if "MODULE" in said else [])


def declare_size(above, line, said, is_refused):
    """A line that may come once."""
    above.sizes.setdefault(line.key, line)
    if line.key == "tramps" and not is_refused:
        above.slots = said["N"]


def declare_absent(above, line, said, is_refused):
    """A module that isn't loaded at first."""
    if not is_refused:
        above.absent[said["M"]] = line


def declare_trigger(above, line, said, is_refused):
    """A trigger."""
    above.triggers.append(line)


def declare_user(above, line, said, is_refused):
    """A user."""
    above.users.setdefault(said["NAME"], line)
    if not is_refused:
        above.accepted_users.append(said)


def declare_cpu(above, line, said, is_refused):
    """After a number that isn't the next one, those after both may come."""
    above.cpus.setdefault(said["N"], line)
    above.next_cpus = {said["N"] + 1} | ({number + 1 for number in above.next_cpus} if is_refused else set())


def declare_lane(above, line, said, is_refused):
    """A lane; as of CPUs, after a number that isn't the next one those after both may come."""
    above.lanes.append(line)
    above.next_lanes = {said["N"] + 1} | ({number + 1 for number in above.next_lanes} if is_refused else set())


def declare_task(above, line, said, is_refused):
    """A task."""
    above.begin_task(Task(line, said["PID"]))
    above.pids.setdefault(said["PID"], above.task)


def declare_act(above, line, said, is_refused):
    """An act without a match is counted, but for a return, which would have nothing to close."""
    above.acts += 1
    above.calls += line.key == "call"
    if above.tasks:
        above.task.take(line, line.key, 0 if is_refused else said.get("N", 0))


def declare_wait(above, line, said, is_refused):
    """A wait of control."""
    above.waits += 1
    above.control.append(Wait(line, said["PID"], 0 if is_refused else said["N"]))


def declare_command(above, line, said, is_refused):
    """A line of control that is a command, a load or an unload."""
    above.control.append(line)
    if is_refused:
        above.commands.refused += 1
    else:
        above.commands.add(above, line.words[1:])


def declare_turns(above, line, said, is_refused):
    """More of the schedule."""
    if not is_refused:
        above.steps += steps_of(above, said["ITEM"])


def steps_of(above, items):
    """How many steps these items of a schedule are."""
    return sum(item.count * (1 + len(above.cpus) if item.who == "all" else 1) for item in items)


DECLARE = {"func": declare_function, "absent": declare_absent, "trigger": declare_trigger, "user": declare_user, "cpu": declare_cpu,
           "lane": declare_lane}
DECLARE.update({"task": declare_task, "ctl until": declare_wait, "sched": declare_turns, **dict.fromkeys(ACTS, declare_act)})
DECLARE.update(dict.fromkeys(["depth", "tramps", "ring", "tracing"], declare_size))


def declare(above, line, is_refused, has_place=True):
    """One more line that has a form; has_place says whether its rank counts."""
    form = line.form
    if form.key in ("skip", "ftrace"):
        return
    if has_place:
        above.rank = form.rank
        above.first_of_rank.setdefault(form.rank, line)
    DECLARE.get(form.key, declare_command)(above, line, form.said, is_refused)


def declare_too_many(above, line):
    """One more line than there may be. Of its kind no more is kept, but its name isn't unknown."""
    above.lost.update(line.words[1:2])
    if line.key == "task":
        above.begin_task(Task(line, line.form.said["PID"]))


def declare_unread(above, line):
    """One more line that has no form: what its words show that it was meant to be."""
    key, words = line.key, line.words
    if key in ("func", "user", "task", "cpu"):
        above.lost.update(words[1:3])
    if key == "task":
        above.begin_task(Task(line, None))
    elif key in ACTS and above.tasks and len(above.task.acts) < LIMITS["ACTS"]:
        above.task.take(line, key)
    elif key.startswith("ctl") and len(above.control) < LIMITS["COMMANDS"] + LIMITS["UNTILS"]:
        is_wait = key == "ctl until"
        above.control.append(Wait(line, 0, 0) if is_wait else line)
        above.commands.refused += not is_wait
