"""The boxes of a log's tasks, in arrays: a log has millions of items, and an object for each would take ten times as much memory.

A box is something that has a beginning and an end in the history. Each has a number, counted from 0 as they begin, and an entry in each
array of `Boxes`. `Box` shows one of them as an object, made when it is asked for.

    what     name             note
    call     the function     the context
    entry    the user         -
    exit     the user         the place of its entry
    body     whose it is      what was fetched: `nop`, `list` or `own U`
    refusal  the user         the reason; it begins and ends at one place, as a miss does
    miss     the user         -
"""
import array
import bisect
import collections.abc

NONE = 2**32 - 1  # in an array, for what isn't there
CALL, ENTRY, EXIT, BODY, REFUSAL, MISS = range(6)
WHAT = ["call", "entry", "exit", "body", "refusal", "miss"]
FUNCTIONS, USERS = 0, 1  # the lists of names
LIST_OF = [FUNCTIONS, USERS, USERS, FUNCTIONS, USERS, USERS]  # in which of them the name of a box is


def numbers():
    """An array of numbers below 2^32."""
    return array.array("I")


class Lines(collections.abc.Sequence):
    """The lines of a text, each as a string when it is asked for."""

    def __init__(self, text):
        self.text, self.ends = text, array.array("Q", [0])

    def ends_at(self, end):
        """One more line ends there, its line feed included."""
        self.ends.append(end)

    def __len__(self):
        return len(self.ends) - 1

    def __getitem__(self, place):
        if isinstance(place, slice):
            return [self[at] for at in range(*place.indices(len(self)))]
        at = place + len(self) if place < 0 else place
        if not 0 <= at < len(self):
            raise IndexError(place)
        return self.text[self.ends[at]:self.ends[at + 1] - 1].decode("latin-1")


class Boxes:
    """The boxes of all tasks, in the order in which they begin. Tasks, functions and users are numbered from 0, as they are declared."""

    def __init__(self, functions, users, pids):
        self.names, self.pids = (functions, users), pids
        self.notes, self.note_numbers = [], {}  # the texts that boxes have as their notes, each once
        self.what = bytearray()
        self.task, self.number, self.name, self.note = numbers(), numbers(), numbers(), numbers()
        self.begin, self.end, self.parent, self.depth = numbers(), numbers(), numbers(), numbers()
        self.framed = bytearray()  # whether an entry set up an exit
        self.owes = bytearray()  # whether it still waits for that exit
        self.calls = [numbers() for _ in pids]  # the calls of each task, in order
        self.bodies = [numbers() for _ in pids]  # the body of each
        self.of_tasks = [numbers() for _ in pids]  # all boxes of each task

    def __len__(self):
        return len(self.what)

    def noted(self, text):
        """The number of a note, which is kept if it is new."""
        if text is None:
            return NONE
        if text not in self.note_numbers:
            self.note_numbers[text] = len(self.notes)
            self.notes.append(text)
        return self.note_numbers[text]

    def add(self, what, task, name, parent, place, note):
        """One more box, which begins at this place in its parent; a call is the next one of its task. Gives its number."""
        box = len(self.what)
        self.what.append(what)
        self.task.append(task)
        self.number.append(len(self.calls[task]) + 1 if what == CALL else self.number[parent])
        self.name.append(name)
        self.note.append(note)
        self.begin.append(place)
        self.end.append(NONE)
        self.parent.append(NONE if parent is None else parent)
        self.depth.append(0 if parent is None else self.depth[parent] + 1)
        self.framed.append(False)
        self.owes.append(False)
        self.of_tasks[task].append(box)
        return box

    def forgive(self, box):
        """An entry found no frame for its exit."""
        self.framed[box] = self.owes[box] = False

    def at(self, place):
        """The box that begins at the place that a word says, None if there is none."""
        if not (place.isascii() and place.isdigit()) or len(place) > len(str(NONE)):
            return None
        box = bisect.bisect_left(self.begin, int(place))
        return box if box < len(self) and str(self.begin[box]) == place else None

    def is_entry_of(self, box, task, number, user):
        """Whether a box is an entry callback of this user in this call."""
        return (self.what[box], self.task[box], self.number[box], self.name[box]) == (ENTRY, task, number, user)

    # What a box is, in words.

    def key(self, box):
        """The call that a box is or is in, as 10.1."""
        return f"{self.pids[self.task[box]]}.{self.number[box]}"

    def name_of(self, box):
        """The name of the box's function or user."""
        return self.names[LIST_OF[self.what[box]]][self.name[box]]

    def note_of(self, box):
        """The note of a box; that of an exit is the place of its entry."""
        note = self.note[box]
        if note == NONE:
            return None
        return str(self.begin[note]) if self.what[box] == EXIT else self.notes[note]

    def end_of(self, box):
        """The place of the item that ends a box, None if the log ends before."""
        end = self.end[box]
        return None if end == NONE else end

    def call_of(self, box):
        """The box of the call that a box is or is in."""
        return self.calls[self.task[box]][self.number[box] - 1]

    def lost(self):
        """The entries whose exits were lost, in order: their calls have returned without them."""
        found, box = [], self.owes.find(True)
        while box >= 0:
            if self.end[self.call_of(box)] != NONE:
                found.append(box)
            box = self.owes.find(True, box + 1)
        return found


class Box:
    """A box of a task. Two of them are equal if they are the same box."""

    __slots__ = ("boxes", "at")

    def __init__(self, boxes, at):
        self.boxes, self.at = boxes, at

    def __eq__(self, other):
        return isinstance(other, Box) and self.at == other.at and self.boxes is other.boxes

    def __hash__(self):
        return hash(self.at)

    @property
    def what(self):
        """Which kind of box it is, in a word."""
        return WHAT[self.boxes.what[self.at]]

    @property
    def key(self):
        """The call that it is or is in, as 10.1."""
        return self.boxes.key(self.at)

    @property
    def name(self):
        """Its function or its user."""
        return self.boxes.name_of(self.at)

    @property
    def note(self):
        """What else its first item says."""
        return self.boxes.note_of(self.at)

    @property
    def begin(self):
        """The place of its first item."""
        return self.boxes.begin[self.at]

    @property
    def end(self):
        """The place of its last item, None if the log ends before."""
        return self.boxes.end_of(self.at)

    @property
    def parent(self):
        """The box that it lies in, None if there is none."""
        parent = self.boxes.parent[self.at]
        return None if parent == NONE else Box(self.boxes, parent)

    @property
    def depth(self):
        """How many boxes it lies in."""
        return self.boxes.depth[self.at]


class OfTask(collections.abc.Sequence):
    """The boxes of a task with these numbers, in order."""

    def __init__(self, boxes, numbers_of):
        self.boxes, self.numbers = boxes, numbers_of

    def __len__(self):
        return len(self.numbers)

    def __getitem__(self, place):
        if isinstance(place, slice):
            return [Box(self.boxes, at) for at in self.numbers[place]]
        return Box(self.boxes, self.numbers[place])


class Calls(collections.abc.Mapping):
    """Boxes by their calls, in the order of tasks."""

    def __init__(self, boxes, of_tasks):
        self.boxes, self.of_tasks = boxes, of_tasks
        self.tasks = {str(pid): task for task, pid in enumerate(boxes.pids)}

    def find(self, key):
        """The number of the box of this call, None if there is none."""
        pid, _, number = key.partition(".")
        of_task = self.of_tasks[self.tasks[pid]] if pid in self.tasks else ()
        if not (number.isascii() and number.isdigit()) or len(number) > len(str(NONE)) or not 0 < int(number) <= len(of_task):
            return None
        box = of_task[int(number) - 1]
        return None if box == NONE or str(int(number)) != number else box

    def __getitem__(self, key):
        box = self.find(key)
        if box is None:
            raise KeyError(key)
        return Box(self.boxes, box)

    def __iter__(self):
        return (self.boxes.key(box) for of_task in self.of_tasks for box in of_task if box != NONE)

    def __len__(self):
        return sum(box != NONE for of_task in self.of_tasks for box in of_task)
