"""Which waits of a script are never met, each with its partner. The rule is that of docs/LANGUAGE.md, "deadlock"."""
from typing import List, NamedTuple

from ftlog.declared import Wait
from ftlog.script_lines import Line, here


class Unmet(NamedTuple):
    """A wait that isn't met, why, and how to fix it."""

    line: Line
    facts: List[str]
    fix: str


class Run:
    """All go as far as they can: each task through its acts, control through its lines."""

    def __init__(self, above):
        self.above = above
        self.at = [0] * len(above.tasks)  # the act at which each task is
        self.line = 0  # the line of control at which that is
        self.commands = above.command_lines()
        self.passed = 0  # how many commands control has passed
        self.number = {task.pid: number for number, task in reversed(list(enumerate(above.tasks)))}

    def act(self, number):
        """The act at which a task is, None at its end."""
        acts = self.above.tasks[number].acts
        return acts[self.at[number]] if self.at[number] < len(acts) else None

    def next_line(self):
        """The line at which control is, None at its end."""
        return self.above.control[self.line] if self.line < len(self.above.control) else None

    def is_met(self, line):
        """Whether control can pass its line."""
        return not isinstance(line, Wait) or line.acts == 0 or line.pid not in self.number or self.at[self.number[line.pid]] >= line.acts

    def pass_line(self):
        """Control passes its line."""
        self.passed += not isinstance(self.next_line(), Wait)
        self.line += 1

    def go(self):
        """Until nobody can go any more."""
        before = None
        while before != (self.line, sum(self.at)):
            before = (self.line, sum(self.at))
            for number in range(len(self.at)):
                while self.act(number) and self.act(number).commands <= self.passed:
                    self.at[number] += 1
            while self.next_line() and self.is_met(self.next_line()):
                self.pass_line()

    def waiting(self):
        """What is left waiting: the number of each such task with its line, and None with the line of control."""
        found = [(self.act(number).line, number) for number in range(len(self.at)) if self.act(number)]
        return found + ([(self.next_line().line, None)] if self.next_line() else [])

    def unmet(self, line, number):
        """Why the wait of this line isn't met."""
        return Unmet(line, *(self.told_wait(self.next_line()) if number is None else self.told_after(self.act(number).commands)))

    def told_after(self, count):
        """Why an `after` that waits for so many commands isn't met, and how to fix it."""
        there = len(self.commands)
        if there == 0:
            return [f"it waits for command {count}, and there are no commands"], "add a command, or drop the wait"
        if count > there:
            told = f"there {'is' if there == 1 else 'are'} {there} command{'s' * (there > 1)}, the last on {here(self.commands[-1])}"
            return [f"it waits for command {count}, and {told}"], f"`after {there}` at most, or more commands"
        partner, held = self.commands[count - 1], self.next_line()
        facts = [f"it waits for command {count}, on {here(partner)}", f"control is held up above that, by {here(held.line)}",
                 *self.told_wait(held)[0]]
        return facts, f"put line {partner.number} above line {held.line.number}, or let that one wait for fewer acts"

    def told_wait(self, wait):
        """Why a wait of control isn't met, and how to fix it."""
        task = self.above.tasks[self.number[wait.pid]]
        acts = len(task.acts)
        if wait.acts > acts:
            told = f"{acts} act{'s' * (acts > 1)}, the last on {here(task.acts[-1].line)}" if acts else "no acts"
            fact = f"line {wait.line.number} waits for act {wait.acts} of task {wait.pid}, which has {told}"
            return [fact], f"`ctl until {wait.pid} {acts}`" if acts else "drop the wait"
        act, held = task.acts[wait.acts - 1].line, self.act(self.number[wait.pid])
        facts = [f"line {wait.line.number} waits for act {wait.acts} of task {wait.pid}, on {here(act)}"]
        if held and held.line is not act:
            facts.append(f"that task is held up at {here(held.line)}")
        return facts, "let it wait for fewer acts, or put the commands that the task waits for above it"

    def force(self, number):
        """A wait that isn't met is passed all the same."""
        if number is None:
            self.pass_line()
        else:
            self.at[number] += 1


def unmet(above):
    """The waits that aren't met: the lowest line that is left waiting, and those that are left if that one is as good as met, and so on."""
    run, found = Run(above), []
    run.go()
    while run.waiting():
        line, number = min(run.waiting(), key=lambda one: one[0].number)
        found.append(run.unmet(line, number))
        run.force(number)
        run.go()
    return found
