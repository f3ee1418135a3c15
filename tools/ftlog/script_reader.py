"""Reads a script: what its lines declare, and what they are to do.

A script is taken to be an accepted one: its lines have forms (script_lines.py), and nothing else of it is judged; `check` asks for what a
reader of its logs goes by. What its lines of control come to is worked out by control_lines.py.
"""
import re
from typing import Dict, List, NamedTuple, Optional

from ftlog import control_lines, limits, script_lines
from ftlog.fault import Fault
from ftlog.limits import LIMITS

USUAL_DEPTH = 50  # frames of a shadow stack, if the script doesn't say
TRIGGER = re.compile("([^:]*):(traceon|traceoff)(?::([0-9]{1,9}))?")
WITH_FRAMES = ("graph", "profile")  # the kinds of users whose entry callbacks set up an exit in any case


class Function(NamedTuple):
    """A function, and the module that it lies in, if it lies in one."""

    name: str
    module: Optional[str]


class User(NamedTuple):
    """A user of ftrace, as its line says."""

    name: str
    kind: str  # one of script_lines.KINDS
    has_regs: bool
    is_replacing: bool
    needs: List[str]  # the functions that it puts in the place of others, and that its callbacks call
    takes_frame: bool = False  # whether an entry callback of it sets up an exit, if there is room
    cancels: bool = False  # whether it then cancels that exit
    has_pid: bool = False  # whether it follows the lists of pids
    calls: str = ""  # `call` or `irq`, if its entry callbacks call a function


class Trigger(NamedTuple):
    """What calls of the functions whose names a glob matches make of tracing, and how often they may; None if that has no limit."""

    glob: str
    is_on: bool
    limit: Optional[int]


class Task(NamedTuple):
    """A task: its pid, its CPU, and its acts, each as its words."""

    pid: int
    cpu: int
    acts: List[List[str]]


class Script(NamedTuple):
    """What a script declares, each in the order of its lines; what its lines of control come to is in control_lines.py."""

    functions: List[Function]
    slots: int
    absent: List[str]  # the modules that aren't loaded at first
    users: Dict[str, User]
    tasks: Dict[int, int]  # the CPU of each pid
    lines: List[List[str]]  # those of control that aren't waits: their words after `ctl`
    lanes: List[List[int]]  # the commands of each lane, by their numbers from 0; none if the script has no lanes
    commands: List[control_lines.Command] = []
    module_lines: List[control_lines.ModuleLine] = []  # the loads and unloads
    cpus: int = 0
    ring: int = LIMITS["USUAL_RING"]  # how many entries a CPU's ring holds
    is_tracing: bool = True  # whether tracing is on at first
    triggers: List[Trigger] = []
    version: int = 1
    frames: int = USUAL_DEPTH  # of each task's shadow stack
    quanta: List[int] = []  # of each CPU
    acts: List[Task] = []  # the tasks, with what they do
    control: List[List[str]] = []  # all lines of control, waits among them: their words after `ctl`
    turns: List[script_lines.Item] = []  # the schedule
    said: List[script_lines.Line] = []  # the lines that say something
    text: bytes = b""  # all of it


def user_of(said):
    """The user that a line says, by what its form names."""
    kind, *parts = said["KIND"].split()
    replacing = [said["ipmodify"]] if "ipmodify" in said else []
    called = [said["FUNC"]] if "act" in said else []
    return User(said["NAME"], kind, said["regs"], bool(replacing), replacing + called, kind in WITH_FRAMES or "exit" in parts, "cancel" in parts,
                said["pid"], said.get("act", ""))


def trigger_of(text):
    """The trigger of a line's text.

    >>> trigger_of("ext3_*:traceoff:0002")
    Trigger(glob='ext3_*', is_on=False, limit=2)
    """
    found = TRIGGER.fullmatch(text)
    if not found:
        raise ValueError("it is no trigger's text")
    return Trigger(found[1], found[2] == "traceon", int(found[3]) if found[3] else None)


# Of the lines that come once: what their number is in Script, and in their form.
ONCE = {"ftrace": ("version", "N"), "depth": ("frames", "N"), "tramps": ("slots", "N"), "ring": ("ring", "CAP")}


class Reader:
    """Goes through the lines of a script that have forms, and keeps what they declare."""

    def __init__(self):
        self.script = Script([], 0, [], {}, {}, [], [], triggers=[], quanta=[], acts=[], control=[], turns=[], said=[])
        self.one = {}  # what a script says once at most, by the name that it has in Script

    def add(self, line):
        """One more line."""
        key, said = line.form.key, line.form.said
        self.script.said.append(line)
        if key.startswith("ctl "):
            self.add_control(line)
        elif key in script_lines.ACTS:
            self.script.acts[-1].acts.append(line.words)
        elif key in ("func", "user", "cpu", "task", "lane", "sched", "absent", "trigger"):
            getattr(self, "add_" + key)(said)
        elif key == "tracing":
            self.one["is_tracing"] = False
        else:
            name, value = ONCE[key]
            self.one[name] = int(said[value])

    def add_control(self, line):
        """A line of control; one that isn't a wait belongs to the lane that was declared last."""
        self.script.control.append(line.words[1:])
        if line.form.key != "ctl until":
            self.script.lines.append(line.words[1:])
            for lane in self.script.lanes[-1:]:
                lane.append(len(self.script.lines) - 1)

    def add_func(self, said):
        """A function."""
        self.script.functions.append(Function(said["NAME"], said.get("MODULE")))

    def add_absent(self, said):
        """A module that isn't loaded at first."""
        self.script.absent.append(said["M"])

    def add_trigger(self, said):
        """A trigger."""
        self.script.triggers.append(trigger_of(said["TEXT"]))

    def add_user(self, said):
        """A user."""
        self.script.users[said["NAME"]] = user_of(said)

    def add_cpu(self, said):
        """A CPU."""
        self.script.quanta.append(said["Q"])

    def add_task(self, said):
        """A task, whose acts follow."""
        self.script.tasks[said["PID"]] = said["N"]
        self.script.acts.append(Task(said["PID"], said["N"], []))

    def add_lane(self, said):
        """A lane, whose commands follow."""
        self.script.lanes.append([])

    def add_sched(self, said):
        """More of the schedule."""
        self.script.turns.extend(said["ITEM"])

    def read(self):
        """What was read."""
        version = limits.VERSIONS[self.one.get("version", 1) - 1]
        script = self.script._replace(cpus=len(self.script.quanta), **{"slots": version.tramps, **self.one})
        try:
            commands, module_lines = control_lines.expanded(script)
        except LookupError:
            raise Fault("a line of control in the script names a user that isn't declared") from None
        return script._replace(commands=commands, module_lines=module_lines)


def read_script(text):
    """What the script with these bytes declares.

    >>> read_script(b"ftrace 1\\nfunc a\\ncpu 0 quantum 9\\ntask 10 cpu 0\\ncall a\\nret\\nctl pid 10\\n").acts
    [Task(pid=10, cpu=0, acts=[['call', 'a'], ['ret']])]
    """
    reader = Reader()
    for line in script_lines.lines_of(text):
        if line.form is None:
            raise Fault(f"line {line.number} of the script has no form: {script_lines.quoted(line.text)}: {line.reason.why}")
        if line.words:
            try:
                reader.add(line)
            except (IndexError, ValueError):  # an act above all tasks, or a trigger of another form
                raise Fault(f"line {line.number} of the script can't stand there: {script_lines.quoted(line.text)}") from None
    return reader.read()._replace(text=text)


def check(script):
    """What is asked of a script besides its forms, so that what it does can be worked out: it is to be one that would be accepted."""
    for name in [*(part for function in script.functions for part in function if part is not None), *script.users]:
        if len(name) > LIMITS["NAME_BYTES"]:
            raise Fault(f"the script has a name of more than {LIMITS['NAME_BYTES']} bytes: {name[:40]}..")
    for line in script.said:
        user = line.form.said.get("U")
        if user is not None and user not in script.users:
            raise Fault(f"the script has no such user: {script_lines.quoted(line.text)}")
    for pid, cpu in script.tasks.items():
        if cpu not in range(script.cpus):
            raise Fault(f"the script has no CPU for task {pid}: {cpu} isn't declared")
    if not 0 < script.ring <= LIMITS["RING"]:
        raise Fault("the script has rings of a size that there isn't")
