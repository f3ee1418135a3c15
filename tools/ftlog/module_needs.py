"""Which lines of a script may find a module unloaded when they need it. The rule is that of docs/LANGUAGE.md, "unloaded"."""
from typing import List, NamedTuple

from ftlog import control_lines, covered_calls
from ftlog.declared import Wait
from ftlog.script_lines import Line, here


class Need(NamedTuple):
    """A line that may find a module unloaded, why, and how to fix it."""

    line: Line
    facts: List[str]
    fix: str


def user_needs(above, changing):
    """The users that name a function of a module that comes and goes."""
    for line in above.users.values():
        for option in ("ipmodify", "FUNC"):
            name = line.form.said.get(option)
            module = above.owners.get(name)
            if module in changing:
                facts = [f"{name} lies in the module {module}, which comes and goes, and nothing in a script says when a callback needs it"]
                yield Need(line, facts, "name another function, in the kernel proper or in a module that stays")
                break


class Calls:
    """The calls of a script in which modules come and go, with the lines of control as lists of words."""

    def __init__(self, above):
        self.above = above
        self.control = [(line.line if isinstance(line, Wait) else line).words[1:] for line in above.control]
        self.lines = above.command_lines()
        self.script = above.script()._replace(lines=[line.words[1:] for line in self.lines])
        self.changing = control_lines.changing(self.script)
        self.tasks = [(task.pid, 0, [act.line.words for act in task.acts]) for task in above.tasks]

    def needs(self):
        """Those that may find their module unloaded."""
        found = {id(words) for words in covered_calls.uncovered(self.script, self.tasks, self.control)}
        away = control_lines.through(self.script).away
        for task, (pid, _, todo) in zip(self.above.tasks, self.tasks):
            for place, act in enumerate(task.acts):
                if id(act.line.words) in found:
                    yield self.need(task, todo, place, away)

    def need(self, task, todo, place, away):
        """What is told of the call at this place of a task."""
        line = task.acts[place].line
        module = self.above.owners[line.form.said["FUNC"]]
        first, returned = covered_calls.first_line(todo, place), covered_calls.return_number(todo, place)
        last = covered_calls.last_line(self.control, task.pid, returned)
        moment = next(number for number in range(first, last + 1) if module in away[number])
        facts = [f"{line.form.said['FUNC']} lies in the module {module}, which comes and goes", *self.span(first, last)]
        facts.append(f"{f'after {self.told(moment)}' if moment else 'before the first command'} {module} isn't loaded")
        return Need(line, facts, self.fix(task, module, first, returned, moment, away))

    def told(self, number):
        """A command by its number, as it is told in a sentence."""
        return f"command {number}, on {here(self.lines[number - 1])},"

    def span(self, first, last):
        """When a call may be under way: after command `first` has returned, and before the one after command `last` begins."""
        begin = f"it may begin once {self.told(first)} has returned" if first else "it may begin at once: no `after` is above it"
        end = f"it is over before {self.told(last + 1)} begins" if last < len(self.lines) else "no `ctl until` waits for its `ret`"
        return [begin, end]

    def fix(self, task, module, first, returned, moment, away):
        """How to have the module loaded throughout the call."""
        if moment > first:
            return f"`ctl until {task.pid} {returned}` above line {self.lines[moment - 1].number}, which unloads it"
        loaded = next((number for number in range(moment, len(away)) if module not in away[number]), None)
        if loaded is None:
            return f"`ctl load {module}`, and an `after` above the call that waits for it"
        return f"`after {loaded}` above the call: command {loaded}, on {here(self.lines[loaded - 1])}, loads it"


def unmet(above):
    """The lines that may find a module unloaded, in the order of the lines. No line may have another cause but a deadlock."""
    calls = Calls(above)
    if not calls.changing:
        return []
    found = [*user_needs(above, calls.changing), *calls.needs()]
    return sorted(found, key=lambda need: need.line.number)
