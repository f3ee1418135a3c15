"""What the options of `trace-cmd record` and `perf ftrace` ask for, as writes to the files of tracefs.

They are those of the manual pages of trace-cmd 3.1.6 and perf 6.1.
"""
import getopt
import re
from typing import NamedTuple

UNKNOWN = "\0"
GLOB = re.compile(r"[A-Za-z0-9_*?.]+")  # what trace-cmd takes for a glob; another text is a regular expression


class Write(NamedTuple):
    """A write to a file of an instance, whose name is empty for the top. `>` clears the file first, `>>` appends."""

    line: int
    instance: str
    file: str
    text: str
    is_appended: bool


class Pause(NamedTuple):
    """Something else runs: here the kernel does what is traced."""

    line: int


class Left(NamedTuple):
    """What isn't in the script, and why."""

    line: int
    why: str


class Undo(NamedTuple):
    """Writes that a tool makes when it ends. They matter only if something comes after."""

    line: int
    writes: list


class Begun(NamedTuple):
    """A tool that begins by writing this to files of the top, whatever they have; only what changes something matters."""

    line: int
    writes: list


TRACE_CMD = "hae:f:FA:p:cC:dDGo:O:s:r:V:vg:l:n:P:N:tb:R:B:ksSiTm:M:H:q"
TRACE_CMD_LONG = (
    "date func-stack nosplice profile stderr by-comm ts-offset= max-graph-depth= cmdlines-size= module= no-filter quiet "
    "name= proc-map user= procmap tsync-interval= fork tsc2nsec poll compression= file-version= verbose debug temp= "
    "notimeout daemonize help fifos"
).split()
GRAPHED = "set_graph_function has no counterpart: a filter selects functions alone, and not what they call"
SIZED = "the size is in kilobytes, and that of a `ring` line in entries"
CHILDREN, STACKS, MASK = "children of a traced task have no counterpart", "stacks have no counterpart", "a mask of CPUs has no counterpart"
OFF = "nothing in a script switches all of ftrace off"
TRACE_CMD_LEFT = {
    "-e": "events have no counterpart",
    "-f": "a filter of an event has no counterpart",
    "-R": "a trigger of an event has no counterpart",
    "-g": GRAPHED,
    "-c": CHILDREN,
    "-O": "trace_options have no counterpart",
    "-T": STACKS,
    "--func-stack": STACKS,
    "-M": MASK,
    "-b": SIZED,
    "-m": SIZED,
    "-d": OFF,
    "-D": OFF,
    "--profile": "its events have no counterpart",
    "-A": "guests have no counterpart",
    "-S": "its events have no counterpart",
    "-H": "hooks have no counterpart",
}
PERF = "D:F:G:g:m:N:T:t:p:aC:vh"
PERF_LONG = (
    "delay= funcs graph-funcs= nograph-funcs= buffer-size= notrace-funcs= trace-funcs= tracer= func-opts= graph-opts= "
    "inherit pid= tid= all-cpus cpu= verbose"
).split()
PERF_SHORT = {
    "--delay": "-D", "--funcs": "-F", "--graph-funcs": "-G", "--nograph-funcs": "-g", "--buffer-size": "-m", "--notrace-funcs": "-N",
    "--trace-funcs": "-T", "--tracer": "-t", "--pid": "-p", "--tid": "-p", "--all-cpus": "-a", "--cpu": "-C",
}
PERF_LEFT = {
    "-D": "a delay has no counterpart: a script knows no time",
    "-G": GRAPHED,
    "-g": "set_graph_notrace has no counterpart",
    "-m": SIZED,
    "-C": MASK,
    "--inherit": CHILDREN,
}
FRESH = {"current_tracer": "nop", "set_ftrace_pid": ""}  # what trace-cmd record begins with; the lists stay if no option names them
RESET = {"current_tracer": "nop", "set_ftrace_filter": "", "set_ftrace_notrace": "", "set_ftrace_pid": "", "max_graph_depth": "0"}
SWITCHED = {"reset": RESET, "stop": {"tracing_on": "0"}, "restart": {"tracing_on": "1"}}  # what other words of trace-cmd write
SEVERAL = ["set_ftrace_filter", "set_ftrace_notrace"]


class Asked:
    """What is asked for one instance: its tracer, texts of its two lists, and pids."""

    def __init__(self):
        self.tracer, self.texts, self.pids = None, {file: [] for file in SEVERAL}, []

    def writes(self, line, instance, depth=None):
        """The writes: lists, pids, the depth, and the tracer last."""
        for file in SEVERAL:
            for number, text in enumerate(self.texts[file]):
                yield Write(line, instance, file, text, number > 0)
        if self.pids:
            yield Write(line, instance, "set_ftrace_pid", " ".join(self.pids), False)
        if depth is not None:
            yield Write(line, instance, "max_graph_depth", depth, False)
        if self.tracer:
            yield Write(line, instance, "current_tracer", self.tracer, False)

    def undone(self, line, instance, depth=None):
        """The writes that take all of it back."""
        if self.tracer:
            yield Write(line, instance, "current_tracer", "nop", False)
        for file in SEVERAL:
            if self.texts[file]:
                yield Write(line, instance, file, "", False)
        if self.pids:
            yield Write(line, instance, "set_ftrace_pid", "", False)
        if depth is not None:
            yield Write(line, instance, "max_graph_depth", "0", False)


def parsed(line, tool, words, short, long):
    """The options, and the words after them; or why they can't be read."""
    try:
        return getopt.getopt([word.replace(UNKNOWN, "") if not word.startswith(UNKNOWN) else word for word in words], short, long)
    except getopt.GetoptError as error:
        return Left(line, f"{tool}: {error.msg}"), None


def trace_cmd(line, words):
    """What a run of trace-cmd comes to."""
    word, words = (words[0], words[1:]) if words else ("", words)
    if word in ("record", "start", "stream", "set"):
        yield from trace_cmd_record(line, word, words)
    elif word in SWITCHED:
        for file, text in SWITCHED[word].items():
            yield Write(line, "", file, text, False)
    elif word in ("profile", "agent", "listen", "setup-guest", "snapshot", "stack", "clear"):
        yield Left(line, f"trace-cmd {word} has no counterpart")
    else:
        yield Pause(line)


def trace_cmd_record(line, word, words):
    """What `trace-cmd record`, or start, stream and set, comes to."""
    options, command = parsed(line, "trace-cmd", words, TRACE_CMD, TRACE_CMD_LONG)
    if command is None:
        yield options
        return
    asked, at, depth = {"": Asked()}, "", None
    module = next((value for option, value in options if option == "--module"), None)
    for option, value in options:
        if option == "-B":
            at = value
            asked.setdefault(at, Asked())
        elif option == "-p":
            asked[at].tracer = value
        elif option in ("-l", "-n"):
            left = add_text(asked[at], SEVERAL[option == "-n"], value, module)
            if left:
                yield Left(line, left)
        elif option == "-P":
            asked[at].pids += value.split(",")
        elif option == "-F":
            asked[at].pids.append(f"{UNKNOWN}{command[0] if command else 'trace-cmd'}{UNKNOWN}")
        elif option == "--max-graph-depth":
            depth = value
        elif option in TRACE_CMD_LEFT or (option == "-C" and value != "counter"):
            yield Left(line, f"{option}: {TRACE_CMD_LEFT.get(option, 'the only clock is the place in the log, as that of `counter`')}")
    if module and not any(texts for it in asked.values() for texts in it.texts.values()):
        asked[at].texts[SEVERAL[0]].append(f":mod:{module}")
    yield begun(line, FRESH)
    yield from carried_out(line, asked, depth, word == "record" and not any(option == "-k" for option, _ in options))


def add_text(asked, file, text, module):
    """Adds the text of `-l` or `-n`, and gives why it can't be."""
    if ":" not in text and not GLOB.fullmatch(text):
        return f"{text}: a regular expression has no counterpart"
    asked.texts[file].append(f"{text}:mod:{module}" if module else text)
    return None


def begun(line, files):
    """What a tool writes first."""
    return Begun(line, [Write(line, "", file, text, False) for file, text in files.items()])


def carried_out(line, asked, depth, is_undone):
    """The writes for all instances, that something runs, and the writes that take it back."""
    depths = [depth] + [None] * (len(asked) - 1)  # there is one for all instances
    parts = [(instance, it, own) for (instance, it), own in zip(asked.items(), depths)]
    for instance, it, own in parts:
        yield from it.writes(line, instance, own)
    yield Pause(line)
    if is_undone:
        yield Undo(line, [write for instance, it, own in parts for write in it.undone(line, instance, own)])


def perf(line, words):
    """What a run of perf comes to."""
    if words[:1] != ["ftrace"]:
        yield Pause(line)
        return
    words = words[1:]
    if words[:1] in (["latency"], ["profile"]):
        yield Left(line, f"perf ftrace {words[0]} has no counterpart: `--print graph` and `--print profile` have the times of calls")
        return
    words = words[1:] if words[:1] == ["trace"] else words
    options, command = parsed(line, "perf ftrace", words, PERF, PERF_LONG)
    if command is None:
        yield options
        return
    yield from perf_trace(line, [(PERF_SHORT.get(option, option), value) for option, value in options], command)


def perf_trace(line, options, command):
    """What `perf ftrace trace` comes to. Texts say which tracer it is, whatever `-t` says; without any it is function_graph."""
    asked, depth, has_all = Asked(), None, False
    asked.tracer = "function_graph"
    for option, value in options:
        if option == "-t":
            asked.tracer = value
        elif option in ("-T", "-N"):
            asked.texts[SEVERAL[option == "-N"]].append(value)
        elif option == "-p":
            asked.pids += value.split(",")
        elif option in ("--graph-opts", "--func-opts"):
            depth = next((part[6:] for part in value.split(",") if part.startswith("depth=")), depth)
            for part in value.split(","):
                if not part.startswith("depth=") and part != "irq-info":
                    yield Left(line, f"{option} {part} has no counterpart")
        elif option in PERF_LEFT:
            yield Left(line, f"{option}: {PERF_LEFT[option]}")
        has_all = has_all or option in ("-a", "-C")
    if any(option in ("-G", "-g") for option, _ in options):
        asked.tracer = "function_graph"
    elif any(asked.texts.values()):
        asked.tracer = "function"
    if command and not asked.pids and not has_all:
        asked.pids.append(f"{UNKNOWN}{command[0].replace(UNKNOWN, '')}{UNKNOWN}")
    if any(option == "-F" for option, _ in options):
        yield Pause(line)
        return
    yield begun(line, RESET)
    yield from carried_out(line, {"": asked}, depth, True)
