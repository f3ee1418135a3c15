"""Reads a whole log: what happened, as boxes that lie in one another.

The items are those of log_items.py, each of which lies in what is open; here an exit has to name its entry, too, and a call to have one
body. A log can have millions of items, so what is known of its boxes is kept in arrays (log_boxes.py).
"""
import dataclasses
import io
from typing import Dict, List, NamedTuple, Optional

from ftlog import log_boxes, log_items
from ftlog.fault import Fault

# The kinds of boxes that items of a task begin, the items that end one, and those that are a box at a single place.
KINDS = {"back": log_boxes.ENTRY, "body": log_boxes.BODY, "exit": log_boxes.EXIT, "refuse": log_boxes.REFUSAL, "miss": log_boxes.MISS}
ENDED = ("ret", "back-end", "leave", "exit-end")
POINTS = ("refuse", "miss")


@dataclasses.dataclass(eq=False)
class CommandBox:
    """A command of the log. It has what a box of a task has (log_boxes.Box), so that both are drawn alike."""

    key: str  # its number
    name: str  # its line
    begin: int
    note: Optional[str] = None  # the answer, None before the return
    end: Optional[int] = None  # None if the log ends before it returns
    lane: Optional[int] = None  # None if the script has no lanes
    words: List[str] = ()  # what it does
    what = "command"
    parent = None
    depth = 0


class History(NamedTuple):
    """What a log tells. The boxes of control and of a task are in the order in which they begin."""

    lines: log_boxes.Lines  # the items
    commands: List[CommandBox]
    order: List[int]  # which command of the script each of these is
    tasks: Dict[int, log_boxes.OfTask]
    calls: log_boxes.Calls  # by the call, as 10.1
    bodies: log_boxes.Calls  # of the calls whose body began
    is_ended: bool
    boxes: log_boxes.Boxes  # those of all tasks


class Reader:
    """Makes boxes of the items of a log, which log_items.py gives one by one, and keeps which boxes are open."""

    def __init__(self, script):
        self.script, self.items = script, log_items.Items(script)
        self.commands, self.order = [], []
        self.boxes = log_boxes.Boxes([function.name for function in script.functions], list(script.users), list(script.tasks))
        self.functions, self.users = ({name: number for number, name in enumerate(names)} for names in self.boxes.names)
        self.tasks = {pid: number for number, pid in enumerate(script.tasks)}
        self.open: List[List[int]] = [[] for _ in script.tasks]  # the boxes of each task that are open, by their numbers

    def keep(self, fields):
        """One more item, by its fields."""
        item = fields["item"]
        if item == "begin":
            self.begin_command(fields)
        elif item == "return":
            self.end_command(fields)
        elif item in ENDED:
            self.boxes.end[self.open[self.tasks[fields["pid"]]].pop()] = fields["place"]
        elif item == "enter":
            self.enter(fields)
        else:
            self.begin(fields)

    def begin_command(self, fields):
        """A command begins; in a script with lanes its lane is named."""
        number = self.items.number
        command = self.script.commands[number]
        self.commands.append(CommandBox(str(fields["command"]), command.line, fields["place"], lane=fields.get("lane"), words=command.words))
        self.order.append(number)

    def end_command(self, fields):
        """The command that is under way returns."""
        shared = [fields[name] for name in ("function", "user") if name in fields]
        self.commands[-1].end = fields["place"]
        self.commands[-1].note = fields.get("line_answer") or " ".join([fields["answer"], *shared])

    def enter(self, fields):
        """A call begins."""
        task = self.tasks[fields["pid"]]
        stack, note = self.open[task], self.boxes.noted(fields["context"])
        box = self.boxes.add(log_boxes.CALL, task, self.functions[fields["function"]], stack[-1] if stack else None, fields["place"], note)
        self.boxes.calls[task].append(box)
        self.boxes.bodies[task].append(log_boxes.NONE)
        stack.append(box)

    def begin(self, fields):
        """A box begins in a call; a refusal and a miss end at once."""
        item, task, boxes = fields["item"], self.tasks[fields["pid"]], self.boxes
        stack = self.open[task]
        named = self.functions[fields["body"]] if item == "body" else self.users[fields["user"]]
        note = self.entry(task, stack[-1], fields) if item == "exit" else boxes.noted(self.note(fields))
        box = boxes.add(KINDS[item], task, named, stack[-1], fields["place"], note)
        if item in POINTS:
            boxes.end[box] = fields["place"]
        else:
            stack.append(box)
        if item == "miss":
            boxes.forgive(stack[-1])
        elif item == "body":
            self.begin_body(task, box, fields)
        elif item == "back" and self.script.users[fields["user"]].takes_frame:
            boxes.owes[box] = not self.script.users[fields["user"]].cancels
            boxes.framed[box] = True

    @staticmethod
    def note(fields):
        """What a box tells besides: why a callback was refused, or what the site of a call called; None if there is nothing."""
        if fields["item"] == "body":
            return f"own {fields['user']}" if fields["ran"] == "own" else fields["ran"]
        return fields.get("reason")

    def entry(self, task, inner, fields):
        """The box of the entry callback that an exit names by its place."""
        box = self.boxes.at(str(fields["entry"]))
        is_one = box is not None and self.boxes.is_entry_of(box, task, self.boxes.number[inner], self.users[fields["user"]])
        self.items.require(is_one, fields["place"], "there is no such entry")
        self.boxes.owes[box] = False
        return box

    def begin_body(self, task, box, fields):
        """A call has one body."""
        call = self.boxes.number[box] - 1
        self.items.require(self.boxes.bodies[task][call] == log_boxes.NONE, fields["place"], "there is one already")
        self.boxes.bodies[task][call] = box

    def history(self, lines, is_ended):
        """What was read."""
        tasks = {pid: log_boxes.OfTask(self.boxes, numbers) for pid, numbers in zip(self.boxes.pids, self.boxes.of_tasks)}
        calls, bodies = (log_boxes.Calls(self.boxes, kept) for kept in (self.boxes.calls, self.boxes.bodies))
        return History(lines, self.commands, self.order, tasks, calls, bodies, is_ended, self.boxes)


def is_number(word):
    """Whether this is a number as a log has it."""
    return word.isascii() and word.isdigit()


def read_log(text, script, told=lambda count: None):
    """The history that a log with these bytes tells of a script. After each item, `told` gets how many there are so far."""
    reader, lines, end = Reader(script), log_boxes.Lines(text), 0
    for fields in reader.items.through(io.BytesIO(text)):
        if fields in log_items.ENDS:
            return reader.history(lines, fields == "end")
        reader.keep(fields)
        end = text.index(b"\n", end) + 1
        lines.ends_at(end)
        told(fields["place"] + 1)
    raise AssertionError("the last of the items is the last line")


def window_places(history, call):
    """The places of a call's `enter` and of its `body`, or of the last item if it has none."""
    if call not in history.calls:
        raise Fault(f"the log has no call {call}")
    body = history.bodies.get(call)
    return history.calls[call].begin, len(history.lines) - 1 if body is None else body.begin


def window(history, call):
    """The commands of a call's window: the number of the last that had returned at its `enter`, and of the last that had begun at its `body`."""
    entered, ran = window_places(history, call)
    done = sum(command.end is not None and command.end < entered for command in history.commands)
    return done, sum(command.begin <= ran for command in history.commands)
