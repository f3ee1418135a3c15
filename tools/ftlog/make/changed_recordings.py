"""Recorded logs that are broken at one place, as a tracer at fault would do it, or changed so that nothing is broken.

Of each it is known whether it has to be found: a callback that is missing, or that comes before another one, breaks a rule unless a
command was under way that may have had its user on, or off.
"""
from ftlog.recorded.control import Control, name_of
from ftlog.recorded.convert import calls_of

NEAR = 400  # items in which the next ones of a task are looked for
MANY = 3  # exchanges of neighbours for each item
END = "end"


def task_of(item):
    """The task of an item, None for one of control."""
    return None if item[0] in ("begin", "return") else item[1].partition(".")[0]


class Recording:
    """The log of a recorded run as items, the words after each place, and what is known of its calls and users."""

    def __init__(self, run, script, log):
        self.script, self.items, self.entries = script, [], {}
        for line in log.decode().splitlines()[:-1]:
            item = line.split()[1:]
            self.items.append(item)
            if item[0] == "exit":
                self.entries[id(item)] = self.items[int(item[3])]
        self.backs = [place for place, item in enumerate(self.items) if item[0] == "back"]
        self.control = Control(run)
        self.calls = {f"{10 + task}.{call}": known for (task, call), known in calls_of(run.events, self.control).items()}
        self.users = {name_of(user): user for user in self.control.users}

    def is_free(self, call, user):
        """Whether the user may have been on and off in the window of the call, so that the rules allow either."""
        known, user = self.calls[call], self.users[user]
        return len({self.control.desks[number][user].on(known.function) for number in known.window()}) > 1

    def text(self, items, last):
        """The log of these items, each with its place, and an exit with the place of its entry."""
        places = {id(item): place for place, item in enumerate(items)}
        told = lambda item: [*item[:3], str(places.get(id(self.entries[id(item)]), 0))] if item[0] == "exit" else item
        return "".join(f"{place} {' '.join(told(item))}\n" for place, item in enumerate(items)).encode() + f"{last}\n".encode()

    def callbacks(self, at, count):
        """The places of so many callbacks of a call in a row from here on, each by its begin and its end; none if there aren't so many."""
        task, call = task_of(self.items[at]), self.items[at][1]
        near = range(at, min(at + NEAR, len(self.items)))
        places = [place for place in near if task_of(self.items[place]) == task][:2 * count]
        is_row = [self.items[place][:2] for place in places] == [["back", call], ["back-end", call]] * count
        return places if is_row else []


# The changes at a callback's place: each gives the items, the last line, and the pairs of a call and a user by which the rules may allow
# it; or nothing if the place isn't fit for it.

def told_twice(rng, recording, at):
    """a callback is told twice"""
    items, end = recording.items, max(recording.callbacks(at, 1), default=None)
    return end and (items[:end + 1] + [items[at][:], items[end][:]] + items[end + 1:], END, [])


def exchanged(rng, recording, at):
    """two callbacks of a call are exchanged"""
    items, places = list(recording.items), recording.callbacks(at, 2)
    for place, other in zip(places, places[2:] + places[:2]):
        items[place] = recording.items[other]
    return places and (items, END, [recording.items[place][1:3] for place in places[::2]])


def returned_early(rng, recording, at):
    """an unregistration returns before a callback's end"""
    items = recording.items
    end, wanted = max(recording.callbacks(at, 1), default=len(items)), f"unregister {items[at][2]}"
    for place in range(end, len(items)):
        if items[place][0] == "return" and items[place][2] == "ok" and recording.control.lines[int(items[place][1]) - 1] == wanted:
            return items[:end] + [item for item in items[end:place + 1] if task_of(item) != task_of(items[at])], "stopped", []


def returned_to_nobody(rng, recording, at):
    """a nested call returns to nobody"""
    for place in range(at, min(at + NEAR, len(recording.items))):
        item = recording.items[place]
        if item[0] == "ret" and item[2] != "-":
            return recording.items[:place] + [[*item[:2], "-"]] + recording.items[place + 1:], END, []


def left_out(rng, recording, at):
    """a callback is left out, and its exit"""
    items, dropped = recording.items, set(recording.callbacks(at, 1))
    for place in range(at, len(items)) if dropped else []:
        if recording.entries.get(id(items[place])) is items[at]:
            dropped |= {place, items.index(["exit-end", *items[at][1:3]], place)}
    return dropped and ([item for place, item in enumerate(items) if place not in dropped], END, [items[at][1:3]])


def shuffled(rng, recording, at):
    """neighbours of different tasks are exchanged"""
    items = list(recording.items)
    for place in (rng.randrange(len(items) - 1) for _ in range(MANY * len(items))):
        one, other = items[place:place + 2]
        if task_of(one) and task_of(other) and task_of(one) != task_of(other):
            items[place:place + 2] = other, one
    return items, END, []


BREAKS, KEEPS = (told_twice, exchanged, returned_early, returned_to_nobody, left_out), (shuffled,)


def changed(rng, recordings, change):
    """One of these recordings, the text of what a change makes of it, and whether the rules may allow that."""
    while True:
        recording = rng.choice(recordings)
        found = change(rng, recording, rng.choice(recording.backs))
        if found:
            return recording, recording.text(*found[:2]), any(recording.is_free(*pair) for pair in found[2])
