"""Which part of a history a picture shows: a section, some tasks alone, or one call with what is nested in it.

If tasks or a call are chosen, the picture has columns for their items and for those of control alone.
"""
import array
import bisect
import itertools
from typing import Dict, NamedTuple, Optional, Sequence, Set

from ftlog import log_boxes, log_reader
from ftlog.fault import Fault


class Choice(NamedTuple):
    """What a picture shows."""

    first: int  # the section, from this place
    last: int  # to this one
    places: Sequence[int]  # those in it that have a column, in order
    boxes: Dict[int, Sequence[int]]  # the boxes that it shows of each task that has a row
    whose: str = ""  # whose items have columns besides those of control; all have, if it is empty
    functions: Optional[Set[int]] = None  # those that are called there; None if all are of interest
    depth: int = 0  # how many boxes the outermost ones lie in


def whole_number(word, what):
    """The number that a word says."""
    if not log_reader.is_number(word) or len(word) > len(str(log_boxes.NONE)):
        raise Fault(f"{word[:40]!r} is no {what}")
    return int(word)


def pids_of(words, script):
    """The tasks that these words name, in the order in which they are declared."""
    chosen = {whole_number(word, "pid") for word in words}
    for pid in sorted(chosen):
        if pid not in script.tasks:
            raise Fault(f"the script has no task {pid}")
    return [pid for pid in script.tasks if pid in chosen]


def call_of(history, key):
    """The box of the call that a word names."""
    box = history.calls.find(key)
    if box is None:
        raise Fault(f"the log has no call {key[:40]}; a call is PID.N, as 10.1")
    return box


def seen(boxes, numbers, first, last):
    """Those of these boxes that are in a section, wholly or in part."""
    over = bisect.bisect_right(numbers, bisect.bisect_right(boxes.begin, last) - 1)  # boxes are numbered as they begin
    return array.array("I", (box for box in numbers[:over] if boxes.end[box] >= first))


def all_of(history, first, last):
    """All of a section."""
    boxes = {pid: seen(history.boxes, of_task.numbers, first, last) for pid, of_task in history.tasks.items()}
    return Choice(first, last, range(first, last + 1), boxes)


def of_tasks(history, first, last, pids):
    """What concerns these tasks in a section."""
    shown = {pid: seen(history.boxes, history.tasks[pid].numbers, first, last) for pid in pids}
    whose = f"task{'s' * (len(pids) > 1)} {' and '.join(map(str, pids))}"
    return chosen(history, first, last, shown, whose)


def of_call(history, first, last, call):
    """A call and what is nested in it, in a section within it. A task does one thing at a time, so that is all it does meanwhile."""
    boxes, pid = history.boxes, history.boxes.pids[history.boxes.task[call]]
    inner = seen(boxes, history.tasks[pid].numbers, first, last)
    inner = array.array("I", (box for box in inner if box >= call))
    return chosen(history, first, last, {pid: inner}, f"call {boxes.key(call)}")._replace(depth=boxes.depth[call])


def chosen(history, first, last, shown, whose):
    """A choice of these boxes."""
    boxes, is_shown = history.boxes, bytearray(last - first + 1)
    of_tasks = ((boxes.begin[box], boxes.end[box]) for numbers in shown.values() for box in numbers)
    of_control = ((command.begin, log_boxes.NONE if command.end is None else command.end) for command in history.commands)
    for place in itertools.chain.from_iterable(itertools.chain(of_tasks, of_control)):
        if first <= place <= last:
            is_shown[place - first] = True
    places = array.array("I", (first + at for at, is_one in enumerate(is_shown) if is_one))
    functions = {boxes.name[box] for numbers in shown.values() for box in numbers if boxes.what[box] == log_boxes.CALL}
    return Choice(first, last, places, shown, whose, functions)


def section(history, first, last):
    """The first and the last place of a section, of which the words that ask for it may leave out either."""
    count = len(history.lines)
    first = 0 if first is None else whole_number(first, "place")
    last = count - 1 if last is None else min(whole_number(last, "place"), count - 1)
    if first > last and (first, count) != (0, 0):
        raise Fault(f"there are no items from place {first} to place {last}")
    return first, last


def choice(script, history, first=None, last=None, tasks=(), call=None):
    """What a picture shows for which these words were given."""
    if tasks and call:
        raise Fault("a picture is of tasks or of a call, not of both")
    first, last = section(history, first, last)
    if tasks:
        return of_tasks(history, first, last, pids_of(tasks, script))
    if not call:
        return all_of(history, first, last)
    box = call_of(history, call)
    begin, end = history.boxes.begin[box], history.boxes.end_of(box)
    end = len(history.lines) - 1 if end is None else end
    if begin > last or end < first:
        raise Fault(f"the call {call} is from place {begin} to place {end}, outside the picture")
    return of_call(history, max(first, begin), min(last, end), box)
