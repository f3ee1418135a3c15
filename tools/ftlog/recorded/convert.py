"""What ftjudge is told of a recorded run: a script of what was on the machine, and a log of what happened.

What the events tell is written as it is. What they don't tell is filled in, and counted: docs/RECORDED.md says why each filling is the
only one, or does no harm.
"""
from collections import Counter
from typing import NamedTuple

from ftlog.fault import Fault
from ftlog.recorded import differences
from ftlog.recorded.control import FUNCTIONS, OPS, REPLACEMENT, Control, name_of, target

CONTEXTS = ("normal", "softirq", "irq")
IRQ = 2
LEVELS = 2  # callbacks of a task and context that a guard lets be open, in version 2 of the language


class Event(NamedTuple):
    """A line of the recorder: the head of kernel/ftrec.c says what the three numbers are for each kind."""

    kind: str
    task: int
    call: int
    a: int
    b: int
    c: int


class Run(NamedTuple):
    """A recorded run: the kernel's release, the parameters that it was given, its events, and how many the recorder counted."""

    kernel: str
    given: dict
    events: list
    told: int


class Converted(NamedTuple):
    """The input of ftjudge in two parts, without the line `log` between them, and what was counted on the way."""

    script: bytes
    log: bytes
    counts: Counter

    def judged(self):
        """The whole input of ftjudge."""
        return self.script + b"log\n" + self.log


class Call:
    """What is known of a call: its function and context, the commands returned at its enter and begun at its body, who was visited, and
    how the call site was seen to lead there."""

    def __init__(self, event, done):
        self.function, self.caller, self.context, self.done = event.a, event.b, event.c, done
        self.begun, self.visited, self.seen = done, [], set()

    def window(self):
        """How many commands may have taken effect when it was dispatched."""
        return range(self.done, self.begun + 1)


def read(text):
    """The runs of a file of events."""
    runs, kernel = [], "unknown"
    for line in text.splitlines():
        words = line.split()
        if words[:1] == ["kernel"]:
            kernel = " ".join(words[1:])
        elif words[:1] == ["ftrec"]:
            runs.append(Run(kernel, {"probes": 0, "act": 0, **dict(zip(words[1::2], map(int, words[2::2])))}, [], -1))
        elif runs and words[:1] == ["end"]:
            runs[-1] = runs[-1]._replace(told=int(words[1]))
        elif runs and len(words) == len(Event._fields):
            runs[-1].events.append(Event(words[0], *map(int, words[1:])))
    return runs


def is_cut_off(run):
    """Whether some event of the run is missing."""
    return run.told != len(run.events) or any(event.kind == "?" for event in run.events)


def converted(run, slack=False, sort_exits=False, block=False, known=()):
    """What ftjudge is told of a run, with these differences allowed for: the three by name, and others of `differences.ALL`."""
    if is_cut_off(run):
        raise Fault(f"the recording is cut off: it has {len(run.events)} events, and the recorder counted {max(run.told, 0)}")
    control, events = Control(run), run.events
    named = {"slack": slack, "sort-exits": sort_exits, "block": block}
    counts = Counter()
    for name, allow in differences.ALL.items():
        if named.get(name) or name in known:
            events, counts[name] = allow(events, control)
    writer = Writer(run, control, events)
    counts.update(writer.counts + control.filled)
    counts.update(commands=len(control.lines), events=len(run.events))
    text = lambda lines: "".join(line + "\n" for line in lines).encode()
    return Converted(text(writer.script()), text(writer.items + ["end"]), counts)


def calls_of(events, control):
    """What is known of each call, by its task and number."""
    calls, done, begun = {}, 0, 0
    for event in events:
        key = event.task, event.call
        if event.kind == "b":
            begun = control.spans[event.call][1]
        elif event.kind == "r":
            done = control.spans[event.call][1]
        elif event.kind == "e":
            calls[key] = Call(event, done)
        elif event.kind in "kx":
            calls[key].visited.append(event.a)
            if event.kind == "k" and event.b:
                calls[key].seen.add(f"own {name_of(event.a)}" if event.b == 1 else "list")
        elif event.kind == "y":
            calls[key].begun = begun
    return calls


class Writer:
    """Writes the items of a run, and the acts of its tasks."""

    def __init__(self, run, control, events):
        self.control, self.calls, self.items, self.places = control, calls_of(events, control), [], {}
        self.acts, self.open = ({task: [] for task in range(run.given["threads"])} for _ in range(2))  # and who is called back now
        kinds = Counter(event.kind for event in run.events)
        self.counts = Counter({"calls": kinds["e"], "callbacks": kinds["k"], "exits": kinds["m"], "refusals seen": kinds["x"]})
        for event in events:
            self.tell(event)

    def item(self, *words):
        """Adds an item."""
        self.items.append(" ".join(map(str, (len(self.items), *words))))

    def name(self, task, call):
        """The name of a call in the log; `-` for none."""
        return f"{10 + task}.{call}" if call else "-"

    def is_interrupt(self, task, call):
        """Whether a call is the first one of an interrupt."""
        this = self.calls[task, call]
        return this.context == IRQ and not (this.caller and self.calls[task, this.caller].context == IRQ)

    def tell(self, event):
        """Writes the item of an event."""
        kind, task, call, user = event[:4]
        key, name = (task, call), self.name(task, call)
        if kind in "br":
            first, last = self.control.spans[call]
            for number in range(first, last) if kind == "b" else ():
                self.item("begin", number)
                self.item("return", number, self.control.answers[number - 1])
            self.item(*(("begin", last) if kind == "b" else ("return", last, self.control.answers[last - 1])))
        elif kind == "e":
            if not self.open[task]:  # no callback makes it: it is an act of the task
                self.acts[task] += ["irq"] * self.is_interrupt(*key) + [f"call ftr_f{event.a}"]
            self.item("enter", name, CONTEXTS[event.c], f"ftr_f{event.a}", self.name(task, event.b))
        elif kind in "kx":
            self.fill_refusals(event, self.since(self.calls[key], user))
            self.places[task, call, user] = len(self.items)
            self.item("back" if kind == "k" else "refuse", name, name_of(user), *["recursion"] * (kind == "x"))
        elif kind in "KM":
            self.item("back-end" if kind == "K" else "exit-end", name, name_of(user))
            self.open[task].remove((call, user))
        elif kind == "y":
            self.fill_refusals(event)
            self.item("body", name, f"ftr_f{event.a}", self.ran(self.calls[key]))
        elif kind == "l":
            self.item("leave", name)
        elif kind == "m":
            self.item("exit", name, name_of(user), self.places.get((task, call, user), 0))
        elif kind == "t":
            self.item("ret", name, self.name(task, event.a))
            if not self.open[task]:
                self.acts[task] += ["ret"] + ["iret"] * self.is_interrupt(*key)
        if kind in "km":
            self.open[task].append((call, user))

    def since(self, call, user):
        """Which command registered the user that is visited in this call."""
        return max(self.control.desks[number][user].since for number in call.window())

    def fill_refusals(self, event, after=-1):
        """Writes the refusals that no callback saw: if the guard is full, of each user registered later than `after` that was on all along
        and wasn't visited, the latest registered first."""
        call = self.calls[event.task, event.call]
        if sum(self.calls[event.task, number].context == call.context for number, _ in self.open[event.task]) < LEVELS:
            return
        for user in sorted(self.control.users, key=lambda user: self.since(call, user), reverse=True):
            is_on = all(self.control.desks[number][user].on(call.function) for number in call.window())
            if is_on and self.since(call, user) > after and user not in call.visited:
                self.item("refuse", self.name(event.task, event.call), name_of(user), "recursion")
                call.visited.append(user)
                self.counts["refusals filled in"] += 1

    def ran(self, call):
        """What a call found at its site."""
        self.counts["calls under a race"] += call.begun > call.done
        if call.seen:
            self.counts["sites seen"] += 1
            return max(call.seen)  # of `list` and a user's own, that which lets in fewer
        self.counts["sites filled in"] += 1
        held = [target(self.control.desks[number], call.function) for number in call.window()]
        visited = {name_of(user) for user in call.visited}
        return next((word for word in held if word == "list" or visited <= set(word.split()[1:])), held[0])

    def script(self):
        """The lines of the script."""
        lines = ["ftrace 2"] + [f"func ftr_f{function}" for function in FUNCTIONS]
        for user in self.control.users:
            replaces = f" regs ipmodify ftr_f{REPLACEMENT}" * (user in self.control.replacing)
            calls = " call ftr_f0" * (user == 0 and self.control.acts)
            lines.append(f"user {name_of(user)} " + ("fprobe exit" if user >= OPS else "function" + replaces) + calls)
        lines += [f"cpu {number} quantum 100" for number in range(len(self.acts))]
        for task, acts in self.acts.items():
            lines += [f"task {10 + task} cpu {task}"] + acts
        return lines + ["ctl " + line for line in self.control.lines]
