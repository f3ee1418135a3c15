"""The trace of a history, in the Trace Event Format, which ui.perfetto.dev and chrome://tracing open.

Times are in microseconds, and a place of the history is a millisecond, so the ruler counts places. Events are made one after the other, in the
order of time, so that a long trace is never whole in memory.
"""
import bisect
import heapq
import io
import itertools
import json

from ftlog import log_boxes, log_desk

PLACE = 1000
INSIDE = PLACE // 2  # where in a slice an arrow begins or ends: after its first item, and before any other
SITES = 12  # threads of call sites; if there are more functions, those that are alike share one
LOST = "lost exit"  # the category of the instant that says so
PASSING, KEPT = 1, 2  # a frame that goes with the body of its call, and one that stays until the return


def slice_name(box):
    """What is written on a slice, or on a refusal or a miss."""
    if box.what == "command":
        return f"{box.name}: {box.note}" if box.note else box.name
    if box.what == "call":
        return box.name if box.note == "normal" else f"{box.name} [{box.note}]"
    if box.what == "body":
        return f"body: {box.note}" if box.name == box.parent.name else f"body of {box.name}: {box.note}"
    return box.name + {"entry": " entry", "exit": " exit", "refusal": f" refused: {box.note}", "miss": " missed its exit"}[box.what]


class Tracks:
    """The processes and threads of a trace. Control, each CPU and the call sites are processes; lanes, tasks and sites are their threads."""

    def __init__(self, script, sites):
        self.metadata = []
        spare = (number for number in itertools.count(1) if number not in script.tasks)
        control = next(spare)
        self.threads = {}  # by the pid of a task, or `control` and the lane, if any, or `site` and a number: a process and a thread
        self.cpus = {}  # the process of each CPU
        self.process(control, "control", 0)
        for lane in range(len(script.lanes)) if script.lanes else [None]:
            self.threads["control", lane] = (control, control if lane is None else next(spare))
            self.thread(self.threads["control", lane], "control" if lane is None else f"lane {lane}", lane or 0)
        for order, cpu in enumerate(sorted(set(script.tasks.values())), 1):
            self.cpus[cpu] = next(spare)
            self.process(self.cpus[cpu], f"CPU {cpu}", order)
            for place, pid in enumerate(pid for pid, on in script.tasks.items() if on == cpu):
                self.threads[pid] = (self.cpus[cpu], pid)
                self.thread(self.threads[pid], f"task {pid}", place)
        self.add_sites(next(spare), sites, spare)

    def add_sites(self, process, sites, spare):
        """A thread for each row of call sites."""
        self.process(process, "call sites", len(self.cpus) + 1)
        for number, (name, _) in enumerate(sites):
            self.threads["site", number] = (process, next(spare))
            self.thread(self.threads["site", number], name, number)

    def process(self, process, name, order):
        """Names a process."""
        for kind, args in [("process_name", {"name": name}), ("process_sort_index", {"sort_index": order})]:
            self.metadata.append({"ph": "M", "name": kind, "pid": process, "args": args})

    def thread(self, track, name, order):
        """Names a thread."""
        for kind, args in [("thread_name", {"name": name}), ("thread_sort_index", {"sort_index": order})]:
            self.metadata.append({"ph": "M", "name": kind, "pid": track[0], "tid": track[1], "args": args})

    def event(self, phase, name, track, time, **more):
        """An event of a thread."""
        process, thread = self.threads[track]
        return {"ph": phase, "name": name, "pid": process, "tid": thread, "ts": time, **more}

    def counter(self, name, process, time, counts):
        """What a counter of a process comes to from then on."""
        return {"ph": "C", "name": name, "pid": process, "ts": time, "args": counts}


class Trace:
    """The events of a history."""

    def __init__(self, script, history):
        self.script, self.history, self.boxes = script, history, history.boxes
        self.sites = site_rows(script, history)
        self.tracks = Tracks(script, self.sites)
        self.lost = lost_exits(history.boxes)

    def events(self):
        """All of them, in the order of time."""
        time = lambda event: event["ts"]
        arrows = sorted(self.arrows(), key=time)
        return heapq.merge(self.items(), arrows, self.registered(), self.frames(), self.spans(), key=time)

    def steps(self):
        """For each place whether it begins something, and the command, or the number of the box, that begins or ends there."""
        ends, commands, following = self.ends(), {}, 0
        for command in self.history.commands:
            commands[command.begin] = commands[command.end] = command
        for place in range(len(self.history.lines)):
            if place in commands:
                yield place == commands[place].begin, commands[place], None
            elif following < len(self.boxes) and self.boxes.begin[following] == place:
                yield True, None, following
                following += 1
            else:
                yield False, None, ends[place]

    def items(self):
        """A slice for each box, and an instant for each refusal, miss and lost exit. What isn't over ends with the log."""
        for is_begin, command, box in self.steps():
            if not is_begin and command is None:
                yield from self.lost_at(box)
            yield (self.begin if is_begin else self.end)(command or log_boxes.Box(self.boxes, box))
        yield from map(self.end, self.unfinished())

    def ends(self):
        """The box that ends at each place, but for those that are there at one place alone."""
        found = log_boxes.numbers()
        found.frombytes(bytes(found.itemsize * len(self.history.lines)))
        for box, end in enumerate(self.boxes.end):
            if end != log_boxes.NONE:
                found[end] = box
        return found

    def unfinished(self):
        """What isn't over when the log ends: the command, and of each task the boxes, the innermost ones first."""
        yield from (command for command in self.history.commands if command.end is None)
        for of_task in self.history.tasks.values():
            for box in reversed(of_task.numbers):
                if self.boxes.end[box] == log_boxes.NONE:
                    yield log_boxes.Box(self.boxes, box)

    def track(self, box):
        """The thread of a box."""
        return ("control", box.lane) if box.what == "command" else self.boxes.pids[self.boxes.task[box.at]]

    def begin(self, box):
        """The event with which a box begins."""
        phase, more = ("B", {}) if box.what not in ("refusal", "miss") else ("i", {"s": "t"})
        args = {"item": self.history.lines[box.begin]}
        return self.tracks.event(phase, slice_name(box), self.track(box), box.begin * PLACE, cat=box.what, args=args, **more)

    def end(self, box):
        """The event with which a box ends."""
        lines = self.history.lines
        end, said = (len(lines), "none: the log ends") if box.end is None else (box.end, lines[box.end])
        return self.tracks.event("E", slice_name(box), self.track(box), end * PLACE, cat=box.what, args={"last item": said})

    def lost_at(self, box):
        """An instant for each exit that was lost, where its call returns."""
        for entry in self.lost.get(box, []):
            args = {"item": self.history.lines[self.boxes.begin[entry]]}
            name, track = f"{self.boxes.name_of(entry)} lost its exit", self.boxes.pids[self.boxes.task[box]]
            yield self.tracks.event("i", name, track, self.boxes.end[box] * PLACE, cat=LOST, args=args, s="t")

    # Arrows.

    def arrow(self, number, name, begin, end):
        """From a point of one track to one of another, each a track and a time."""
        yield self.tracks.event("s", name, *begin, cat="arrow", id=number)
        yield self.tracks.event("f", name, *end, cat="arrow", id=number, bp="e")

    def arrows(self):
        """From what turns a user on to its first callback, and from the last one to what turns it off again."""
        numbers, callbacks = itertools.count(1), self.callbacks()
        for user, on, off in times_on(self.history.commands):
            over = len(self.history.lines) if off is None else off.end
            first, last = (self.point(callbacks.get(user, ()), on.begin, over, is_last) for is_last in (False, True))
            if first:
                yield from self.arrow(next(numbers), f"{user} on", (("control", on.lane), on.begin * PLACE + INSIDE), first)
            if first and off:
                yield from self.arrow(next(numbers), f"{user} off", last, (("control", off.lane), off.end * PLACE - INSIDE))

    def callbacks(self):
        """The boxes of each user's callbacks, by the user."""
        found = {}
        for box, what in enumerate(self.boxes.what):
            if what in (log_boxes.ENTRY, log_boxes.EXIT):
                found.setdefault(self.boxes.name[box], log_boxes.numbers()).append(box)
        return {self.boxes.names[log_boxes.USERS][name]: boxes for name, boxes in found.items()}

    def point(self, callbacks, begin, end, is_last):
        """Where an arrow begins or ends: in the first or the last of these callbacks between two places; None if there is none."""
        first, over = (bisect.bisect_left(callbacks, bisect.bisect_left(self.boxes.begin, place)) for place in (begin, end))
        if first == over:
            return None
        box = callbacks[over - 1 if is_last else first]
        return self.boxes.pids[self.boxes.task[box]], self.boxes.begin[box] * PLACE + INSIDE

    # Counters.

    def registered(self):
        """How many users are registered, from the start and from each return that changes it."""
        control, users = self.tracks.threads["control", 0 if self.script.lanes else None][0], set()
        yield self.tracks.counter("users registered", control, 0, {"users": 0})
        for command in self.history.commands:
            if command.note == "ok" and command.words[0] in ("register", "unregister"):
                (users.add if command.words[0] == "register" else users.discard)(command.words[1])
                yield self.tracks.counter("users registered", control, command.end * PLACE, {"users": len(users)})

    def frames(self):
        """How many frames of its tasks' shadow stacks are held on each CPU, from the start and from each item that changes it."""
        held = dict.fromkeys(self.tracks.cpus, 0)
        yield from (self.tracks.counter("frames in use", process, 0, {"frames": 0}) for process in self.tracks.cpus.values())
        for place, by, box in self.frame_changes():
            cpu = self.script.tasks[self.boxes.pids[self.boxes.task[box]]]
            held[cpu] += by
            yield self.tracks.counter("frames in use", self.tracks.cpus[cpu], place * PLACE, {"frames": held[cpu]})

    def frame_changes(self):
        """Each place at which a call takes a frame (1) or leaves it (-1), and a box of the task, in order."""
        taken, state = self.frames_taken()
        left = sorted(self.frames_left(taken, state))
        return heapq.merge(((self.boxes.begin[box], 1, box) for box in taken), left)

    def frames_taken(self):
        """The entries with which calls take their frames, the first ones in them that set up an exit; and by the box of a call, whether it
        keeps its frame past its body, which it does if some such entry doesn't cancel its exit."""
        taken, state, users = log_boxes.numbers(), bytearray(len(self.boxes)), list(self.script.users.values())
        box = self.boxes.framed.find(True)
        while box >= 0:
            call = self.boxes.call_of(box)
            if not state[call]:
                taken.append(box)
            state[call] = max(state[call], PASSING if users[self.boxes.name[box]].cancels else KEPT)
            box = self.boxes.framed.find(True, box + 1)
        return taken, state

    def frames_left(self, taken, state):
        """The places at which calls leave the frames that these entries took, each with -1 and the box of the call."""
        for entry in taken:
            call = self.boxes.call_of(entry)
            if state[call] == KEPT:
                place = self.boxes.end[call]
            else:
                body = self.boxes.bodies[self.boxes.task[call]][self.boxes.number[call] - 1]
                place = log_boxes.NONE if body == log_boxes.NONE else self.boxes.begin[body]
            if place != log_boxes.NONE:
                yield place, -1, call

    # Call sites.

    def spans(self):
        """A slice for each time that a call site is meant to be the same, or that a command changes it."""
        found, over = [], len(self.history.lines) * PLACE
        for number, (_, spans) in enumerate(self.sites):
            for span in spans:
                begin = 0 if span.begin is None else (span.begin if span.later else max(span.begin - 1, 0)) * PLACE
                end = over if span.end is None else (span.end - 1 if span.later else span.end) * PLACE
                if begin < end:
                    name = f"{span.target} to {span.later}" if span.later else span.target
                    found.append(self.tracks.event("B", name, ("site", number), begin, cat="site"))
                    found.append(self.tracks.event("E", name, ("site", number), end, cat="site"))
        return sorted(found, key=lambda event: event["ts"])


def site_rows(script, history):
    """What the threads of call sites are: their names, and the spans of their sites."""
    names, found = [function.name for function in script.functions], []
    for numbers, targets in log_desk.alike(script, history.commands):
        spans, others = log_desk.spans(history.commands, targets), len(numbers) - 1
        if len(names) <= SITES:
            found += [(number, names[number], spans) for number in numbers]
        else:
            found.append((numbers[0], names[numbers[0]] + (f" and {others} other{'s' * (others > 1)}" if others else ""), spans))
    return [(name, spans) for _, name, spans in sorted(found, key=lambda row: row[0])]


def lost_exits(boxes):
    """The entries whose exits were lost, by the boxes of their calls."""
    found = {}
    for box in boxes.lost():
        found.setdefault(boxes.call_of(box), []).append(box)
    return found


def times_on(commands):
    """Each time that a user was on: the command that turned it on, and the one that turned it off, None if there is none that returned."""
    found, on = [], {}
    for command in commands:
        word, *rest = command.name.split(" ")
        if word in ("register", "enable") and command.note in (None, "ok"):
            on.setdefault(rest[0], command)
        elif word in ("unregister", "disable") and command.note == "ok" and rest[0] in on:
            found.append((rest[0], on.pop(rest[0]), command))
    return found + [(user, command, None) for user, command in on.items()]


def write(file, script, history, name):
    """Writes the trace: an event a line, in the order of time."""
    made = Trace(script, history)
    head = json.dumps({"displayTimeUnit": "ms", "otherData": {"script": name, "clock": "a millisecond is a place of the log"}})
    file.write(head[:-1] + ', "traceEvents": [')
    before = "\n"
    for event in itertools.chain(made.tracks.metadata, made.events()):
        file.write(before + json.dumps(event))
        before = ",\n"
    file.write("\n]}\n")


def trace(script, history, name):
    """The text of the trace."""
    file = io.StringIO()
    write(file, script, history, name)
    return file.getvalue()
