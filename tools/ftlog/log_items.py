"""The items of a log one by one, as `fttell items` tells them, each with what the script says of it.

fttell refuses a log with a line that is none of the script's items. Whether commands and calls lie in one another, which it doesn't ask, is
asked here, since who draws or counts goes by it. Only what is open is kept.
"""
import itertools
import json
import re
import shutil
import subprocess
import tempfile

from ftlog import programs
from ftlog.fault import Fault
from ftlog.given_logs import shown

ENDS = ("end", "stopped")
REFUSAL = re.compile(r"line ([0-9]+): [a-z]+")
ITEMS = ("begin", "return", "enter", "back", "back-end", "refuse", "miss", "body", "leave", "exit", "exit-end", "ret")
OPENS = {"back": "entry", "body": "body", "exit": "exit"}  # what these items open in a call
ENDED_BY = {"ret": "call", "back-end": "entry", "leave": "body", "exit-end": "exit"}
OF_USER = ("entry", "exit")  # what belongs to a user


def told(script, log):
    """The lines of JSON that tell of a log, which is an open file, below its script."""
    with tempfile.TemporaryFile() as given:
        given.write(script.text + b"log\n")
        shutil.copyfileobj(log, given)
        given.seek(0)
        with subprocess.Popen([programs.for_tool("fttell"), "items"], stdin=given, stdout=subprocess.PIPE) as program:
            first = program.stdout.readline()
            is_refused = first.startswith(b"line ")
            yield from () if is_refused else itertools.chain([first], program.stdout)
        if is_refused:
            given.seek(0)
            number = int(first.split()[1].rstrip(b":"))
            line = next(itertools.islice(given, number - 1, None), b"").decode("latin-1").rstrip("\n")
            refuse(first.decode().strip(), number - script.text.count(b"\n") - 1, line)
        if program.returncode:
            raise Fault(f"fttell: {programs.STATUSES.get(program.returncode, f'it ended with the status {program.returncode}')}")


def refuse(said, number, line):
    """Says why there are no items: fttell names a line of the script, or this one of the log."""
    if number < 1:
        raise Fault(f"the script is refused: {said}")
    if REFUSAL.fullmatch(line):
        raise Fault(f"the script was refused ({line}), so there is no history")
    raise Fault(f"the log doesn't fit the script: its line {number} is {f'no such item: {shown(line)}' if line else 'missing'}")


class Turns:
    """Which command of a script begins next: the next one or, in a script with lanes, the next one of the lane that the log names."""

    def __init__(self, script):
        lists = {f"lane {lane}": numbers for lane, numbers in enumerate(script.lanes)} or {"": range(len(script.commands))}
        self.left = {named: iter(numbers) for named, numbers in lists.items()}

    def next(self, named):
        """The number, from 0, of the command whose item `begin` ends with this after its own number; None if there is no such command."""
        return next(self.left.get(named, iter([])), None)


class Items:
    """Goes through the items of a log, and gives the fields of each. One that lies in none that is open ends it by a fault."""

    def __init__(self, script):
        self.script, self.turns = script, Turns(script)
        self.begun, self.command = 0, None  # how many commands have begun, and the one that is under way
        self.number = None  # of the latest command that has begun, from 0, in the order of the script
        self.calls = dict.fromkeys(script.tasks, 0)
        self.open = {pid: [] for pid in script.tasks}  # what is open in each task, the innermost last: what it is, its call and its user

    def through(self, log):
        """The fields of each item of a log, which is an open file, and then the last line, `end` or `stopped`."""
        for line in told(self.script, log):
            fields = json.loads(line)
            if "pid" in fields:
                self.require(self.nests(fields), fields["place"])
            yield fields["last"] if "last" in fields else fields if "pid" in fields else self.control(fields)

    @staticmethod
    def require(is_so, place, what="it lies in what isn't the innermost open one"):
        """What is asked of the item at a place."""
        if not is_so:
            raise Fault(f"the log doesn't fit the script: at place {place} {what}")

    def control(self, fields):
        """The fields of an item of control, with the command's text, and the answer of its line at the last one of a load or an unload."""
        is_begin = fields["item"] == "begin"
        if is_begin:
            self.begun += 1
            self.require(self.command is None, fields["place"])
            self.number = self.turns.next(f"lane {fields['lane']}" if "lane" in fields else "")
            self.command = None if self.number is None else self.script.commands[self.number]
        self.require(self.command is not None and fields["command"] == self.begun, fields["place"], "there is no such command")
        first = {name: fields[name] for name in ("place", "item", "command")}
        found = {**first, "text": self.command.line, **fields}
        if not is_begin:
            found.update({} if self.command.answer is None else {"line_answer": self.command.answer})
            self.command = None
        return found

    def nests(self, fields):
        """Whether an item of a task lies in what is open there, which it then opens or ends."""
        item, call, task = fields["item"], fields["call"], self.open[fields["pid"]]
        inner = task[-1] if task else (None, None, None)
        if item == "enter":
            self.calls[fields["pid"]] += 1
            task.append(("call", call, None))
            return (call, fields["caller"]) == (f"{fields['pid']}.{self.calls[fields['pid']]}", inner[1])
        what = "entry" if item == "miss" else ENDED_BY.get(item, "call")
        is_inner = inner == (what, call, fields.get("user") if what in OF_USER else None)
        if item in ENDED_BY and task:
            task.pop()
        if item in OPENS:
            task.append((OPENS[item], call, fields["user"] if OPENS[item] in OF_USER else None))
        return is_inner and (item != "ret" or fields["caller"] == (task[-1][1] if task else None))
