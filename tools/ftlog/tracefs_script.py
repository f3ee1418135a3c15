"""The script of what is written to tracefs: its functions, its users, the tasks that call, and the commands."""
import itertools
import re
from typing import NamedTuple

from ftlog import limits
from ftlog.filter_texts import INVALID
from ftlog.tool_options import UNKNOWN

NAME = re.compile(r"[A-Za-z_][A-Za-z0-9_.]*")
MOST = limits.LIMITS
FIRST_PID, QUANTUM = 10, 100
SETS = ("filter", "notrace")
STEPS_OF_CALL = (20, 12)  # at most about so many steps of a CPU: a call with its return, and for each user
LONG = 300_000  # steps that the schedule of a script without `sched` lines surely has


class Kept(NamedTuple):
    """The functions of a script, by their numbers in the list; of these the one that no text selects, or None; and what is told."""

    numbers: list
    other: int
    told: list


def one_line(text):
    """A text of the shell for a message or a comment: on one line, with printable ASCII characters alone."""
    return re.sub("[^ -~]", "?", " ".join(text.replace(UNKNOWN, "").split()))


def some(names):
    """The first few of these, in words."""
    names = sorted(names)
    return ", ".join(names[:5]) + (f" and {len(names) - 5:,} more" if len(names) > 5 else "")


def few(names):
    """`name is` or `names are`."""
    return "name is" if len(names) == 1 else "names are"


def shown(function):
    """A function as the list has it."""
    return function.name + (f" [{function.module}]" if function.module is not None else "")


def fits(function):
    """Whether a script can have a function of this name and module."""
    return all(NAME.fullmatch(name) and len(name) <= MOST["NAME_BYTES"] for name in function if name is not None)


class Chooser:
    """Chooses the functions of a script among those that texts select."""

    def __init__(self, functions, chosen, called):
        self.functions, self.told = functions.functions, []
        self.texts = {}  # by which texts each function is selected
        for number, numbers in enumerate(dict.fromkeys(chosen)):
            for function in numbers:
                self.texts.setdefault(function, []).append(number)
        for function in called:
            self.texts.setdefault(function, []).append(-1)

    def named(self):
        """The functions that a script can have, one of each name: that which the most texts select, and of these the first."""
        found, twice, odd = {}, set(), set()
        for function in sorted(self.texts):
            name = self.functions[function].name
            if not fits(self.functions[function]):
                odd.add(shown(self.functions[function]))
            elif name not in found:
                found[name] = function
            else:
                twice.add(name)
                if len(self.texts[function]) > len(self.texts[found[name]]):
                    found[name] = function
        if odd:
            why = f"a name of a script has at most {MOST['NAME_BYTES']} letters, digits, `_` and `.`, and no digit in front"
            self.told.append(f"{len(odd):,} {few(odd)} left out: {why}: {some(odd)}")
        if twice:
            self.told.append(f"{len(twice):,} {few(twice)} selected more than once, and in the script once: {some(twice)}")
        return found.values()

    def keep(self, most, needs_other):
        """At most so many functions: of each choice of texts the first ones, in turn, so that each choice has some."""
        groups = {}
        for function in sorted(self.named()):
            groups.setdefault(tuple(self.texts[function]), []).append(function)
        count = sum(map(len, groups.values()))
        other = self.other() if needs_other else None
        room = most - (other is not None)
        in_turn = (function for row in itertools.zip_longest(*sorted(groups.values())) for function in row if function is not None)
        numbers = list(itertools.islice(in_turn, room))
        if count > room:
            self.told.append(f"{count:,} functions are selected, and {room:,} of them are in the script, some for each choice of texts")
        return Kept(sorted(numbers + ([other] if other is not None else [])), other, self.told)

    def other(self):
        """The first function that no text selects, and whose name is no selected one's; it stands for all others."""
        names = {self.functions[function].name for function in self.texts}
        for number, function in enumerate(self.functions):
            if number not in self.texts and function.name not in names and fits(function) and not function.name.startswith(INVALID):
                return number
        return None


def is_module(words):
    """Whether a command loads or unloads a module."""
    return isinstance(words, str) and words.startswith(("load ", "unload "))


def is_cleared(steps):
    """Whether the trace is cleared before anything else runs."""
    return next((step.what for step in steps if step.what in ("clear", "pause")), None) == "clear"


def rounds(steps):
    """Before which steps the tasks make their calls.

    It is when something else runs or a module goes while somebody is registered, if there was a command since the last calls; before a user
    goes, or tracing does, that has seen no calls, unless the trace is cleared then; and at the end, if there was more than that users went.
    """
    found, users, fresh, is_changed, is_more, is_on, is_due = [], frozenset(), set(), False, False, True, False
    for number, step in enumerate(steps):
        is_other = step.what == "pause" or is_module(step.words) and step.words.startswith("unload")
        is_off = step.what == "switch" and is_on and not step.words and is_due and not is_cleared(steps[number:])
        if users and (is_other and is_changed or is_off) or step.what == "ctl" and fresh & (users - step.users):
            found.append(number)
            fresh, is_changed, is_more, is_due = set(), False, False, False
        if step.what == "switch":
            is_on, is_due = step.words, is_due or step.words
        elif step.what == "ctl":
            fresh |= step.users - users
            is_changed, is_more, is_due = True, is_more or not users - step.users, is_due or bool(step.users - users)
            users = step.users
    if users and is_more or not found:
        found.append(len(steps))
    return found


class Tracing(NamedTuple):
    """What of tracing a script says at its beginning, and what is told."""

    is_on: bool
    triggers: list
    told: list


class Tracer:
    """Goes through the steps, and compares what tracing is at the first calls with what it is at later ones."""

    def __init__(self):
        self.is_on, self.triggers, self.lines = True, [], {}  # the line that last changed the switch, None, or a trigger
        self.start, self.told = None, []

    def change(self, step):
        """A step that changes the switch or the triggers."""
        if step.what == "switch":
            self.is_on, self.lines[None] = step.words, step.line
        elif step.what in ("on", "off"):
            self.triggers = [trigger for trigger in self.triggers if trigger != step.words] + [step.words] * (step.what == "on")
            self.lines[step.words] = step.line

    def calls(self):
        """Calls are made here."""
        if self.start is None:
            self.start = (self.is_on, self.triggers)
        is_on, triggers = self.start
        if self.is_on != is_on:
            why = "a script says whether tracing is on at its start alone, so the calls after this line are made as before it"
            self.told.append((self.lines[None], f"tracing_on: {why}"))
        for it in self.triggers:
            if it not in triggers:
                why = "a trigger is there from the start, and this one comes after calls; it is left out"
                self.told.append((self.lines[it], f"{it.text}: {why}"))
        for it in triggers:
            if it not in self.triggers:
                why = "a trigger is there to the end, and this one is taken off after calls; it stays"
                self.told.append((self.lines[it], f"{it.text}: {why}"))


def tracing(steps, at):
    """Whether tracing is on and which triggers there are at the first calls, and what of them changes later."""
    tracer, most = Tracer(), MOST["TRIGGERS"]
    for number, step in enumerate(steps):
        if number in at:
            tracer.calls()
        if step.what == "clear" and tracer.start and at[-1] > number:
            tracer.told.append((step.line, "trace: a ring isn't cleared; it keeps what was written before"))
        tracer.change(step)
    if len(steps) in at:
        tracer.calls()
    is_on, triggers = tracer.start
    tracer.told += [(it.line, f"{it.text}: a script has at most {most} triggers") for it in triggers[most:]]
    return Tracing(is_on, triggers[:most], tracer.told)


class Tasks:
    """The tasks of a script: one for each pid and each process of the pid lists, and one that is on none of them."""

    def __init__(self, steps):
        named = [pid for step in steps if isinstance(step.words, tuple) and step.what == "ctl" for pid in step.words[1]]
        self.told, self.pids = [], {}
        numbers = [pid for pid in dict.fromkeys(named) if not isinstance(pid, str)]
        free = (pid for pid in itertools.count(FIRST_PID) if pid not in numbers)
        self.main = next(free)
        for pid in dict.fromkeys(named):
            self.pids[pid] = next(free) if isinstance(pid, str) else pid
        self.left = list(self.pids)[MOST["TASKS"] - 1 :]
        for pid in self.left:
            del self.pids[pid]

    def all(self):
        """Each task's pid, with the process that it stands for, if it does."""
        return [(self.main, None)] + [(pid, one_line(named) if isinstance(named, str) else None) for named, pid in self.pids.items()]


class Writer:
    """Writes the script of a state."""

    def __init__(self, state, called=(), most=limits.VERSION_2.funcs):
        self.state, self.told = state, list(state.told)
        self.steps, self.at = state.steps, rounds(state.steps)
        self.tasks, self.tracing = Tasks(state.steps), tracing(state.steps, self.at)
        self.told += self.tracing.told
        chosen = [step.chosen for step in self.steps if step.chosen]
        self.kept = Chooser(state.functions, chosen, called).keep(most, self.needs_other())
        self.users = list(state.flags)
        self.called = sorted(set(called) & set(self.kept.numbers)) if called else self.kept.numbers
        self.commands, self.numbers, self.parts = 0, set(self.kept.numbers), []
        self.sets, self.missing, self.calls = {}, {}, self.calls_of_rounds()
        self.modules = {state.functions.functions[number].module for number in self.numbers}
        self.absent = sorted(state.absent_at_first & self.modules)

    def needs_other(self):
        """Whether a user with an empty filter is registered when calls are made: it traces functions that no text selects."""
        return any(self.steps[number - 1].is_open for number in self.at if number)

    def version(self):
        """The lowest version of the language that has room."""
        has_room = len(self.numbers) <= limits.VERSION_1.funcs and len(self.users) <= limits.VERSION_1.users
        return limits.VERSION_1 if has_room else limits.VERSION_2

    def text(self):
        """The script."""
        version = self.version()
        for user in self.users[version.users :]:
            line = next(step.line for step in self.steps if step.what == "ctl" and user in step.words)
            self.tell(line, f"{user}: a script has at most {version.users} users")
        self.users = self.users[: version.users]
        loads = sum(is_module(step.words) for step in self.steps) + bool(self.absent)
        self.room = MOST["COMMANDS"] - loads * (len(self.users) + 1)
        control = self.control()
        for (line, user), texts in self.missing.items():
            self.tell(line, f"{some(texts)}: none of the functions that {'it selects' if len(texts) == 1 else 'they select'} is in the script")
        lines = [f"ftrace {version.number}", *self.functions(), *(f"absent {name}" for name in self.absent), *self.tracing_lines()]
        return "\n".join([*lines, *self.user_lines(), *self.task_lines(), *control, *self.schedule(), ""])

    def functions(self):
        """The lines of the functions."""
        for number in self.kept.numbers:
            function = self.state.functions.functions[number]
            if number == self.kept.other:
                yield "# no text selects this one: it stands for all others"
            yield f"func {function.name}" + (f" {function.module}" if function.module is not None else "")

    def tracing_lines(self):
        """The lines of tracing and triggers."""
        return ([] if self.tracing.is_on else ["tracing off"]) + [f"trigger {trigger.text}" for trigger in self.tracing.triggers]

    def user_lines(self):
        """The lines of the users; one that isn't registered is said to be so."""
        commands = [step.words for step in self.steps if step.what == "ctl" and isinstance(step.words, str)]
        registered = {command.split()[1] for command in commands if command.startswith("register ")}
        for user in self.users:
            if user not in registered:
                yield f"# no line sets a tracer, so {user} isn't registered"
            yield f"user {user} {self.state.flags[user]}"

    # Control. `parts` has how many commands come before each of the rounds.

    def control(self):
        """The lines of control. After calls that commands follow control waits for them."""
        found, line, is_waiting = [], None, False
        for number, step in enumerate([*self.steps, None]):
            if number in self.at:
                self.parts.append(self.commands)
                is_waiting = bool(self.calls[len(self.parts) - 1])
            text = self.command(step) if step and step.what == "ctl" else None
            if text is None:
                continue
            if is_waiting:
                found += [f"ctl until {pid} {self.acts()}" for pid, _ in self.tasks.all()]
                is_waiting = False
            if step.line != line:
                found.append(f"# line {step.line}")
            line = step.line
            found.append(f"ctl {text}")
            self.commands += 1
        return found

    def command(self, step):
        """A command's text; None if the script can't have it."""
        text = self.list_of_pids(step) if isinstance(step.words, tuple) else step.words
        word, *others = text.split()
        if word in ("register", "unregister", "filter", "notrace") and others[0] not in self.users:
            return None
        if word in SETS:
            text = self.edit(step, word, *others)
        if is_module(text):
            if others[0] in self.modules:
                return text
            self.tell(step.line, f"{text}: none of the functions of the module is in the script")
            return None
        if text is not None and self.room < 1:
            self.tell(step.line, f"a script has at most {MOST['COMMANDS']:,} commands")
            return None
        self.room -= text is not None
        return text

    def list_of_pids(self, step):
        """A command that sets a pid list, with the pids of tasks."""
        word, pids = step.words
        if any(pid in self.tasks.left for pid in pids):
            self.tell(step.line, f"{word}: a script has at most {MOST['TASKS']} tasks")
        return " ".join([word, *(str(self.tasks.pids[pid]) for pid in pids if pid in self.tasks.pids)])

    def edit(self, step, word, user, mode, text=None):
        """A command that edits a set.

        If no function of its text is in the script, it can only clear the set. A filter that is empty here alone is told.
        """
        chosen = (step.chosen or frozenset()) & self.numbers
        if text is not None and not chosen:
            self.missing.setdefault((step.line, user), []).append(text)
            text = None
            if mode == ">>":
                return None
        own = self.sets.setdefault((word, user), set())
        if mode == ">":
            own.clear()
        (own.difference_update if text and text.startswith("!") else own.update)(chosen)
        if word == "filter" and not own and not step.is_empty:
            self.tell(step.line, f"{user}: no function of its filter is in the script; here the filter is empty, which means all functions")
        return f"{word} {user} {mode}" + (f" {text}" if text is not None else "")

    def tell(self, line, why):
        """Says that something of a line isn't in the script."""
        if (line, why) not in self.told:
            self.told.append((line, why))

    # Tasks.

    def calls_of_rounds(self):
        """Which functions a task calls in each round: all that are there then, or as many as there is room for."""
        room = MOST["ACTS"] // (len(self.at) * len(self.tasks.all())) - 1
        count = min(len(self.called), max(room // 2, 0))
        if count < len(self.called):
            self.kept.told.append(f"{count:,} of {len(self.called):,} functions are called: a script has at most {MOST['ACTS']:,} acts")
        functions = self.state.functions.functions
        absent = [self.steps[number - 1].absent if number else self.state.absent_at_first for number in self.at]
        return [[functions[it].name for it in self.called[:count] if functions[it].module not in gone] for gone in absent]

    def acts(self):
        """How many acts a task has made after the rounds so far."""
        return sum(2 * len(calls) + (commands > 0) for commands, calls in zip(self.parts, self.calls) if calls)

    def task_lines(self):
        """The lines of the CPU and of its tasks, each with its calls in each round."""
        if not any(self.calls) and not self.tasks.pids:
            return
        yield f"cpu 0 quantum {QUANTUM}"
        for pid, process in self.tasks.all():
            if process:
                yield f"# {process}"
            yield f"task {pid} cpu 0"
            for commands, calls in zip(self.parts, self.calls):
                if commands and calls:
                    yield f"after {commands}"
                for name in calls:
                    yield f"call {name}"
                    yield "ret"

    def schedule(self):
        """A longer schedule than the usual one, if the calls need it."""
        call, user = STEPS_OF_CALL
        calls = sum(map(len, self.calls)) * len(self.tasks.all())
        return [f"sched all*{MOST['STEPS'] // 2}"] if calls * (call + user * len(self.users)) > LONG else []
