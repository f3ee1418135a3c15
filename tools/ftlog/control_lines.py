"""What a script's lines of control come to in its log: the commands and, where modules come and go, the answers of loads and unloads.

The rules are those of docs/LANGUAGE.md, "Modules that come and go"; the answers of commands are worked out by log_desk.py. If no line
names a module, each line is one command, and nothing is worked out.
"""
from typing import NamedTuple, Optional

from ftlog import log_desk

LOADS = ("load", "unload")


class Command(NamedTuple):
    """A command of the log: the line that it belongs to, and what it does, in words for log_desk.Desk.

    Those before the first line belong to one that isn't in the script, as `hides ext3`. The last command of a load or an
    unload has the answer of its line.
    """

    line: str
    words: list
    answer: Optional[str] = None


class ModuleLine(NamedTuple):
    """A line that loads or unloads a module, with its answer, and the numbers from 0 of its first and its last command."""

    word: str
    module: str
    answer: str
    first: int
    last: int


def changing(script):
    """The modules that some line names: those that are absent at first, and those that are loaded or unloaded."""
    named = script.absent + [words[1] for words in script.lines if words[0] in LOADS]
    return sorted(set(named), key=named.index)


class Control:
    """Goes through the lines of control, and keeps the desk and the modules that aren't loaded, their functions hidden from each user."""

    def __init__(self, script):
        self.script, self.desk = script, log_desk.Desk(script)
        self.commands, self.module_lines = [], []
        self.away = [frozenset(script.absent)]  # the modules that aren't loaded, before the first line and after each one
        if script.absent:
            self.hide(f"hides {' '.join(script.absent)}")

    def run(self, line, words, answer=None):
        """An accepted command."""
        self.desk.carry_out(*words)
        self.commands.append(Command(line, words, answer))

    def hidden(self, away):
        """The functions of these modules."""
        return frozenset(number for number, function in enumerate(self.script.functions) if function.module in away)

    def hide(self, line):
        """A command for each user, which keeps out the functions of the modules that aren't loaded."""
        hidden = self.hidden(self.away[-1])
        for user in self.script.users:
            self.run(line, [log_desk.HIDE, user, hidden])

    def command(self, words):
        """A line that is one command."""
        if self.desk.answer(*words) == "ok":
            self.run(" ".join(words), words)
        else:
            self.commands.append(Command(" ".join(words), words))
        self.away.append(self.away[-1])

    def answer(self, word, module):
        """That of a load or an unload."""
        is_away = module in self.away[-1]
        if word == "unload":
            return "not-there" if is_away else "ok"
        return self.desk.clash(self.hidden(self.away[-1] - {module})) if is_away else "already"

    def load(self, word, module):
        """A line that loads or unloads a module. Its last command sets the graph depth to what it is, so it changes nothing."""
        line, answer, first = f"{word} {module}", self.answer(word, module), len(self.commands)
        self.away.append(self.away[-1] ^ {module} if answer == "ok" else self.away[-1])
        if answer == "ok":
            self.hide(line)
        self.run(line, ["maxdepth"], answer)
        self.module_lines.append(ModuleLine(word, module, answer, first, len(self.commands) - 1))


def through(script):
    """What is known after all lines of a script in which some line names a module."""
    control = Control(script)
    for words in script.lines:
        if words[0] in LOADS:
            control.load(*words)
        else:
            control.command(words)
    return control


def expanded(script):
    """The commands of a script, and its loads and unloads."""
    if not changing(script):
        return [Command(" ".join(words), words) for words in script.lines], []
    control = through(script)
    return control.commands, control.module_lines
