"""Which task makes each step of a CPU, and which steps are a look's, neither of which a step trace says.

A mark names its call, and so its task. For the steps between marks it is worked out from the script by the rules of docs/LANGUAGE.md,
"Switches and the quantum", and each mark is compared with what comes out. If one is another task's, it can't be told from there on which
tasks that CPU's loads and stores belong to, and only its marks are given to tasks.
"""
from typing import List, NamedTuple, Optional, Set

from ftlog.limits import LIMITS

INTERRUPTS = ("softirq", "irq", "nmi", "iret")
COMMANDS = 2**33  # what one command that has returned adds to the clock: its two items


class Told(NamedTuple):
    """Of each step the number of its task, in the order of the script's tasks: None for control, for a CPU's last poll, and for what can't
    be told. Then the steps of looks by their numbers, and the CPUs of which the tasks can't be told to the end."""

    tasks: List[Optional[int]]
    looks: Set[int]
    untold: List[int]


class Cpu:
    """Goes along the steps of a CPU, and keeps which of its tasks it runs."""

    def __init__(self, quantum, tasks, has_looks=False):
        self.quantum, self.tasks = quantum, tasks  # the tasks by their numbers in the script
        self.has_looks, self.is_looking = has_looks, False
        self.polled = dict.fromkeys(tasks, False)  # whether each has had the poll before its present act
        self.order = list(tasks)
        self.done = dict.fromkeys(tasks, 0)  # how many acts each has finished
        self.callbacks = dict.fromkeys(tasks, 0)  # how many of its entry callbacks are open
        self.count, self.is_told = 0, True
        self.present: Optional[int] = next((task for task in self.order if self.is_left(task)), None)

    def is_left(self, task):
        """Whether a task has an act left."""
        return self.done[task] < len(self.tasks[task].acts)

    def act(self):
        """The words of the present task's next act; none if it has ended."""
        task = self.present
        return self.tasks[task].acts[self.done[task]] if task is not None and self.is_left(task) else []

    def step(self, word, value, fields, is_polling):
        """The number of the task that makes this step; None if it is none's, or can't be told.

        The fields are those of the item if the step marks. `is_polling` says of a poll's step whether the CPU's next one belongs to that
        poll, too, and is None for any other.
        """
        if fields is not None and self.is_told and (self.present is None or self.tasks[self.present].pid != fields["pid"]):
            self.is_told = False
        if not self.is_told:
            return next((task for task in self.order if fields and self.tasks[task].pid == fields["pid"]), None)
        task, must_switch = self.present, False
        if self.looks(word):
            return task
        self.count += 1
        if fields is not None:
            self.mark(task, fields["item"])
        elif word == "clock" and self.act()[:1] == ["after"]:
            is_met = value // COMMANDS >= int(self.act()[1])
            self.finish(task, is_met)
            must_switch = not is_met
        elif is_polling is False and self.act():
            self.polled[task] = True
            if self.act()[0] in INTERRUPTS:
                self.finish(task)  # it is done with the last step of the poll
        if not is_polling and not word.startswith("head."):
            self.switch(must_switch)
        return task

    def looks(self, word):
        """Whether a step is one of a look: it comes after the poll of the present task's act. It isn't counted for the quantum."""
        is_after_poll = self.has_looks and self.present is not None and self.polled[self.present]
        self.is_looking = is_after_poll and (word == "want" or (self.is_looking and word.startswith("ack.")))
        return self.is_looking

    def finish(self, task, is_done=True):
        """The task's act is done, or is tried again; either way a poll comes next."""
        self.done[task] += is_done
        self.polled[task] = False

    def mark(self, task, item):
        """The task's act is done with the mark of the body or of the return, unless that is of a call in one of its callbacks."""
        self.callbacks[task] += {"back": 1, "back-end": -1}.get(item, 0)
        if item in ("body", "ret") and not self.callbacks[task]:
            self.finish(task)

    def switch(self, must_switch):
        """The CPU goes on to the next task that is left if it has to, or if the present one has ended or its quantum is used up."""
        if self.present is None or not (must_switch or self.count >= self.quantum or not self.is_left(self.present)):
            return
        at = self.order.index(self.present) + 1
        self.present = next((task for task in self.order[at:] + self.order[:at] if self.is_left(task)), None)
        self.count = 0


def is_answer(word):
    """Whether a CPU's step on this word belongs to a poll that an earlier step has begun."""
    return word.startswith(("ack.", "quiet."))


def tasks_of(trace, script):
    """What is told of the steps of a trace."""
    quanta, tasks = script.quanta, script.acts
    has_looks = script.version >= LIMITS["LOOKS_SINCE"]
    cpus = [Cpu(quantum, {at: task for at, task in enumerate(tasks) if task.cpu == number}, has_looks) for number, quantum in enumerate(quanta)]
    names, fields = list(trace.words), iter(trace.fields)
    later = [False] * len(trace.steps)  # whether the next step of the same actor goes on with a poll
    last = {}
    for at, step in enumerate(trace.steps):
        if step.actor in last:
            later[last[step.actor]] = is_answer(names[step.word])
        last[step.actor] = at
    found, looks = [], set()
    for at, step in enumerate(trace.steps):
        item = next(fields) if step.op == "m" else None
        if step.actor == "k":
            found.append(None)
            continue
        word, cpu = names[step.word], cpus[int(step.actor)]
        in_poll = later[at] if word == "want" or is_answer(word) else None
        found.append(cpu.step(word, step.value, item, in_poll))
        if cpu.is_told and cpu.is_looking:
            looks.add(at)
    return Told(found, looks, [number for number, cpu in enumerate(cpus) if not cpu.is_told])
