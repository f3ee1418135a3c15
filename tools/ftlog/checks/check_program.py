"""Runs the built program at its edges, where no proof reaches:

- the words of the command, in the language and not: those of command_words.py, which gives ftjudge words, too;
- scripts with what is printed for them, those of script_texts.py, and those that are refused or nearly so, of refused_scripts.py and line_forms.py;
- which functions a user traces, by patterns and filter texts, and which calls may find their module unloaded: the rows of
  selected_functions.py and module_lines.py;
- each status with its cause: streams that fail, too long an input, and memory from too little to begin up to ample;
- each limit of size reached and passed, in at most a hundred times the time that it takes now, and all at once;
- a long history in each printed form;
- runs by threads: scripts with one order only print what a replay of them prints, and others, with lanes too, come to their ends; ftjudge
  calls each log whole, of a script with lanes in the order that it tells. Rings and triggers of some come to the same in each run.

Each row asks for the status and for what is written; nothing may be written to standard error.
The last line is `edges: N passed, M failed`, and the status is 0 if nothing failed.
"""
import collections
import random
import resource
import shlex
from typing import Callable, NamedTuple, Optional

from ftlog import programs, runs
from ftlog.checks import check_docs, command_words, full_scripts, judging, line_forms, memory_limits, module_lines
from ftlog.checks import refused_scripts, script_texts, selected_functions
from ftlog.make import script_forms as forms, viewed_scripts

SCRIPT = b"ftrace 1\nfunc a\nuser tr function\ncpu 0 quantum 100\ntask 10 cpu 0\nafter 1\ncall a\nret\nctl register tr\n"
LOG = b"0 begin 1\n1 return 1 ok\n2 enter 10.1 normal a -\n3 back 10.1 tr\n4 back-end 10.1 tr\n"
LOG += b"5 body 10.1 a own tr\n6 leave 10.1\n7 ret 10.1 -\nend\n"
CALLED = b"     10 [000] .        3: a <-root (tr)\nend\n"  # the form function
CALLS_OF_TASK = 3_000  # that are made under limits on the address space


# The statuses with their causes.

class Stream(NamedTuple):
    """A script and words, run by a shell that says what the streams are: the words of the command are "$@" there."""

    what: str
    status: int
    out: bytes
    shell: str
    text: bytes = SCRIPT
    words: str = "replay"


NO_INPUTS = [("a directory as input", "</"), ("a closed input", "<&-"), ("an input that can't be read", "0>/dev/null")]
FILE_OF = "trap '' XFSZ; out=$(mktemp); (ulimit -f {}; \"$@\" >$out); status=$?; cat $out; rm $out; exit $status"  # of so many KiB
NO_OUTPUTS = [("a full device", ">/dev/full"), ("a closed output", ">&-"), ("an output that can't be written", "1</dev/null")]


def replay_streams():
    """Streams of `replay`, and of words that aren't in the language."""
    refused, form, words = b"ftrace 1\nfunc a\nfunc a\n", "replay --print function", "replay frob"
    yield Stream("a form", 0, CALLED, '"$@"', words=form)
    for name, order in [("", "replay"), (", a form", form), (", run", "run")]:
        yield Stream(f"a refused script{name}", 3, b"line 3: duplicate\n", '"$@"', refused, order)
        yield Stream(f"no bytes{name}", 3, b"line 1: version\n", '"$@" </dev/null', words=order)
        for what, given in NO_INPUTS:
            yield Stream(f"{what}{name}", 4, b"", f'"$@" {given}', words=order)
            yield Stream(f"{what}, a full device{name}", 4, b"", f'"$@" {given} >/dev/full', words=order)
        for what, given in NO_OUTPUTS:
            yield Stream(f"{what}{name}", 5, b"", f'"$@" {given}', words=order)
            yield Stream(f"{what}, a refused script{name}", 5, b"", f'"$@" {given}', refused, order)
        yield Stream(f"an input without an end{name}", 7, b"", '"$@" </dev/zero', words=order)
        yield Stream(f"an input without an end, a full device{name}", 7, b"", '"$@" </dev/zero >/dev/full', words=order)
    for what, given in [*NO_INPUTS, *NO_OUTPUTS, ("an input without an end", "</dev/zero")]:
        yield Stream(f"{what}, other words", 2, b"", f'"$@" {given}', words=words)
    yield Stream("an input byte by byte", 0, LOG, 'dd bs=1 status=none | "$@"')
    yield Stream("an input byte by byte, run", 0, LOG, 'dd bs=1 status=none | "$@"', words="run")


def bulk_streams(summary):
    """Streams of `bulk`, which reads nothing."""
    for what, given in [*NO_INPUTS, ("an input without an end", "</dev/zero"), ("no bytes", "</dev/null")]:
        yield Stream(f"{what}, bulk", 0, summary, f'"$@" {given}', words="bulk")
        for other, taken in NO_OUTPUTS:
            yield Stream(f"{what}, {other}, bulk", 5, b"", f'"$@" {given} {taken}', words="bulk")
    yield Stream("what bulk leaves of its input", 0, summary + SCRIPT, '{ "$@"; status=$?; cat; exit $status; }', words="bulk")
    yield Stream("a file that may have no bytes, bulk", 5, b"", FILE_OF.format(0), words="bulk")


def large_streams():
    """Outputs that are cut off."""
    many, log = acts(forms.ACTS), acts_log(forms.ACTS)
    yield Stream("a large output", 0, log, '"$@"', many)
    for count in (0, 10, 100_000):
        yield Stream(f"a reader that goes after {count} bytes", 5, log[:count], f'"$@" | head -c {count}; exit ${{PIPESTATUS[0]}}', many)
    called = CALLED.replace(b"tr", b"t")[:10]
    yield Stream("a reader that goes after 10 bytes, a form", 5, called, '"$@" | head -c 10; exit ${PIPESTATUS[0]}', many, "replay --print function")
    yield Stream("a file that may have 1,024 bytes", 5, log[:1024], FILE_OF.format(1), many)


def calls_log(count, pids, user):
    """What a script prints of its command, which registers the user, and then of so many calls of each task; they take turns step by step."""
    items = ["begin 1", "return 1 ok"]
    for number in range(1, count + 1):
        for item in ["enter {} normal a -", "back {} U", "back-end {} U", "body {} a own U", "leave {}", "ret {} -"]:
            items += [item.replace("U", user).format(f"{pid}.{number}") for pid in pids]
    return script([f"{place} {item}" for place, item in enumerate(items)], "end")


def acts_log(count):
    """What the script of this many acts prints."""
    return calls_log(count // 4 - 1, (10, 11), "t")


def check_streams(rows, program):
    """A row for each stream."""
    for stream in [*replay_streams(), *bulk_streams(command_words.summary(program, 1)), *large_streams()]:
        came = runs.answer(["bash", "-c", stream.shell, "bash", program, *shlex.split(stream.words)], stream.text)
        rows.row(f"streams: {stream.what}", runs.faults(came, stream.status, stream.out), came.seconds)


def take_memory():
    """Leaves the process one MiB for its data."""
    resource.setrlimit(resource.RLIMIT_DATA, (2**20, 2**20))


def check_memory(rows, program, top):
    """In one MiB of memory there is room for a small script, but not for the most bytes, acts or arguments, nor for a thread: a run then
    makes the steps of all actors in turn, with lanes too. And with any address space the program does all or nothing."""
    most = one_comment(forms.INPUT_BYTES)
    tries = [("a small script", 0, LOG, SCRIPT, ["replay"]), ("the most bytes", 6, b"", most, ["replay"])]
    tries += [("the most acts", 6, b"", acts(forms.ACTS), ["replay"]), ("the most bytes, other words", 2, b"", most, ["frob"])]
    tries += [("1,500,000 bytes of arguments", 6, b"", SCRIPT, ["x" * 100_000] * 15)]
    tries += [("a form", 0, CALLED, SCRIPT, ["replay", "--print", "function"]), ("bulk", 6, b"", b"", ["bulk"])]
    tries += [("a small script, run", 0, LOG, SCRIPT, ["run"]), ("the most acts, run", 6, b"", acts(forms.ACTS), ["run"])]
    for what, status, out, text, words in tries:
        came = runs.answer([program, *words], text, preexec_fn=take_memory)
        rows.row(f"memory: {what}", runs.faults(came, status, out), came.seconds)
    for name in LANED:
        text = (top / "examples" / f"{name}.ft").read_bytes()
        came = runs.answer([program, "run"], text, RUN_SECONDS, preexec_fn=take_memory)
        rows.row(f"memory: {name}, run", command_words.run_faults(came, "log", text), came.seconds)
    for what, words, text, status, out in orders_of_memory(program):
        memory_limits.check(rows, f"{what}: {' '.join(words)}", memory_limits.Order(program, words, text, status, out))


def orders_of_memory(program):
    """What is tried under each limit on the address space: each has one text that it may print, as one task makes all calls."""
    many, refused = SCRIPT.replace(b"call a\nret\n", b"call a\nret\n" * CALLS_OF_TASK), SCRIPT.replace(b"cpu", b"frob", 1)
    for mode in ("replay", "run"):
        yield "a small script", [mode], SCRIPT, 0, LOG
        yield f"{CALLS_OF_TASK:,} calls", [mode], many, 0, calls_log(CALLS_OF_TASK, [10], "tr")
        yield "a refused script", [mode], refused, 3, b"line 4: syntax\n"
    yield "a form", ["run", "--print", "function"], SCRIPT, 0, CALLED
    yield "no bytes", ["bulk"], b"", 0, command_words.summary(program, 1)


# The limits. Each function makes a script with this much of something.

FUNCTION = ["ftrace 1", "func a"]
USER = [*FUNCTION, "user t function"]
CPU = ["cpu 0 quantum 9"]
TASK = [*CPU, "task 10 cpu 0"]
CALL = ["call a", "ret"]


def script(*parts):
    """The text of these lines and lists of lines."""
    lines = [line for part in parts for line in ([part] if isinstance(part, str) else part)]
    return "".join(line + "\n" for line in lines).encode()


def in_version_2(make):
    """The same, in version 2."""
    return lambda *words: make(*words).replace(b"ftrace 1", b"ftrace 2", 1)


def functions(count):
    """With the longest names; the first and the last one are called."""
    names = [f"f{number:0{forms.NAME_BYTES - 1}}" for number in range(count)]
    return script("ftrace 1", [f"func {name}" for name in names], TASK, f"call {names[0]}", "ret", f"call {names[-1]}", "ret")


def users(count):
    """All of them are registered, and called back in one call."""
    names = [f"u{number}" for number in range(count)]
    return script(FUNCTION, [f"user {name} function" for name in names], TASK, f"after {count}", CALL, [f"ctl register {name}" for name in names])


def cpus(count):
    tasks = [line for cpu in range(count) for line in [f"task {10 + cpu} cpu {cpu}", *CALL]]
    return script(FUNCTION, [f"cpu {cpu} quantum 9" for cpu in range(count)], tasks)


def tasks(count):
    """On the most CPUs, in turn."""
    lines = [line for number in range(count) for line in [f"task {10 + number} cpu {number % forms.CPUS}", *CALL]]
    return script(FUNCTION, [f"cpu {cpu} quantum 9" for cpu in range(forms.CPUS)], lines)


def acts(count):
    """Half of them on each of two CPUs, whose tasks wait for the command and then go on in step."""
    half = ["after 1"] * 2 + CALL * (count // 4 - 1)
    return script(USER, CPU, "cpu 1 quantum 9", "task 10 cpu 0", half, "task 11 cpu 1", half, ["after 1"] * (count % 2), "ctl register t")


def levels_in_contexts(count):
    """A quarter of them in each context."""
    quarter, last = ["call a"] * (count // 4), ["call a"] * (count - count // 4 * 3)
    up = [line for context in forms.CONTEXTS[1:] for line in [*quarter, context]] + last
    down = ["ret"] * len(last) + ["iret", *["ret"] * len(quarter)] * 3
    return script(FUNCTION, TASK, up, down)


def calls(count, acts=("irq", "irq")):
    """Each is told to as many users as version 1 allows, which all make a call in an interrupt. The longest history of these scripts."""
    names = [f"u{number}" for number in range(forms.VERSION_1.users)]
    lines = [f"user {name} graph {acts[number % 2]} a" for number, name in enumerate(names)]
    registered = [f"ctl register {name}" for name in names]
    return script(FUNCTION, lines, TASK, f"after {len(names)}", CALL * count, registered, f"sched all*{forms.STEPS // 2}")


def nested_calls(count):
    """In version 2, and every other user makes its call in the context that it is called in: acts nest as deep as two guards have levels."""
    return in_version_2(calls)(count, ("call", "irq"))


def commands(count):
    return script(USER, (["ctl register t", "ctl unregister t"] * count)[:count])


def loads(count):
    """So many commands, all of which load and unload a module, and keep its functions out of the user's sight before."""
    lines = [f"ctl {('load', 'unload')[number % 2]} m" for number in range((count - 1) // 2)]
    return script("ftrace 1", "func a", "func b m", "absent m", "user t function", lines, ["ctl maxdepth 0"] * ((count - 1) % 2))


def lanes(count):
    """Each has a command."""
    return script(USER, [line for lane in range(count) for line in [f"lane {lane}", f"ctl {('register', 'unregister')[lane % 2]} t"]])


def waits(count):
    return script(FUNCTION, TASK, CALL, ["ctl until 10 1"] * count)


def steps(count):
    """Each turn is control's, which has nothing to do; the task has none."""
    return script(FUNCTION, TASK, CALL, "sched k*2000000", f"sched k*{count - 2_000_000}")


def step_items(count):
    return script(FUNCTION, TASK, CALL, "sched" + " k" * count)


def steps_in_a_wait(count):
    """Nearly all of them are control's, which waits for a task that has no turn any more."""
    return script(FUNCTION, TASK, CALL, "ctl maxdepth 1", f"sched 0*3 k*{count - 3}")


def pids(count):
    """In one list, the same pid each time."""
    return script(FUNCTION, TASK, CALL, "ctl nopid" + " 10" * count)


def one_comment(count):
    """A script of this many bytes."""
    return b"ftrace 1\n" + b"#" * (count - 10) + b"\n"


def comments(count):
    """A script of this many bytes; the last comment is the longest."""
    return b"ftrace 1\n" + b"# comment\n" * (count // 10 - 2) + b"#" * (count % 10 + 10) + b"\n"


def comments_in_calls(count):
    """Below the most calls that may be open."""
    return script(FUNCTION, TASK, ["call a"] * forms.LEVELS, ["# x"] * count, ["ret"] * forms.LEVELS)


def comments_in_call(count):
    return script(FUNCTION, TASK, "call a", ["# x"] * count, "ret")


def comments_between_acts(count):
    """Below each of the most acts."""
    return script(FUNCTION, TASK, ["call a", *["#"] * count, "ret", *["#"] * count] * (forms.ACTS // 2))


def words_of_line(count):
    return script("ftrace 1", "a " * count)


def turn_by_turn(count):
    """Before each call the task waits for control, and before each command control waits for the task."""
    todo = [line for number in range(1, count + 1) for line in [f"after {number}", *CALL]]
    edits = [("register", "unregister")[number % 2] for number in range(count)]
    control = [line for number, edit in enumerate(edits, 1) for line in [f"ctl {edit} t", f"ctl until 10 {3 * number}"]]
    return script(USER, TASK, todo, control)


def large(count):
    """The script of docs/BENCH.md: the most functions of version 1, CPUs and commands, too many for a schedule, and this many calls on each CPU."""
    lines = ["ftrace 1"] + [f"func f{number}" for number in range(forms.VERSION_1.funcs)] + ["user tr function"]
    lines += [f"cpu {cpu} quantum {5 + cpu}" for cpu in range(forms.CPUS)]
    for cpu in range(forms.CPUS):
        lines.append(f"task {100 + cpu} cpu {cpu}")
        for number in range(count // 2):
            lines += [f"call f{(7 * number + cpu) % forms.VERSION_1.funcs}", f"call f{(3 * number + cpu) % forms.VERSION_1.funcs}", "ret", "ret"]
    return script(lines, ["ctl register tr", "ctl unregister tr"] * (forms.COMMANDS // 2))


class Limit(NamedTuple):
    """A limit: the script with `at` of it prints `lines` lines, the last of them `last`, and the one with `past` of it is refused."""

    what: str
    make: Callable
    at: int
    last: str
    lines: int
    past: Optional[int] = None
    refusal: Optional[str] = None  # None: status 7, too long an input
    seconds: float = 0.02  # that the longer run takes; it may take a hundred times as long


def most_calls(version):
    """The calls that a script may have with the users of `calls`."""
    return forms.ITEMS // forms.call_bound([["user", "u", "graph", "irq", "a"]] * forms.VERSION_1.users, version)


ONE, TWO = forms.VERSION_1, forms.VERSION_2
CALLS, CALLS_IN_2 = most_calls(ONE), most_calls(TWO)

LIMITS = [
    Limit("functions, version 2", in_version_2(functions), TWO.funcs, "end", 9, TWO.funcs + 1, "line 4098: limit"),
    Limit("users, version 2", in_version_2(users), TWO.users, "end", 261, TWO.users + 1, "line 67: limit"),
    Limit("CPUs", cpus, forms.CPUS, "end", 33, forms.CPUS + 1, "line 11: limit"),
    Limit("tasks", tasks, forms.TASKS, "end", 257, forms.TASKS + 1, "line 203: limit"),
    Limit("acts", acts, forms.ACTS, "end", 59_991, forms.ACTS + 1, "line 20008: limit"),
    Limit("open calls in all contexts", levels_in_contexts, forms.LEVELS, "end", 2_049, forms.LEVELS + 1, "line 520: limit"),
    Limit("calls beside users that make calls", calls, CALLS, "end", 705_193, CALLS + 1, "line 1242: limit", 0.2),
    Limit("calls beside users that make calls, version 2", nested_calls, CALLS_IN_2, "end", 276_265, CALLS_IN_2 + 1, "line 26: limit", 0.2),
    Limit("commands", commands, forms.COMMANDS, "end", 2_049, forms.COMMANDS + 1, "line 1028: limit"),
    Limit("commands of loads and unloads", loads, forms.COMMANDS, "end", 2_049, forms.COMMANDS + 1, "line 517: limit"),
    Limit("lanes", lanes, forms.LANES, "end", 17, forms.LANES + 1, "line 20: limit"),
    Limit("until lines", waits, forms.UNTILS, "end", 5, forms.UNTILS + 1, "line 1031: limit"),
    Limit("steps", steps, forms.STEPS, "stopped", 1, forms.STEPS + 1, "line 8: limit"),
    Limit("steps, each an item", step_items, forms.STEPS, "stopped", 1, forms.STEPS + 1, "line 7: limit", 0.3),
    Limit("steps in a wait", steps_in_a_wait, forms.STEPS, "stopped", 3, forms.STEPS + 1, "line 8: limit", 0.05),
    # the most bytes, and scripts whose time could grow faster than their size
    Limit("bytes", one_comment, forms.INPUT_BYTES, "end", 1, forms.INPUT_BYTES + 1, None, 0.03),
    Limit("bytes in short lines", comments, forms.INPUT_BYTES, "end", 1, forms.INPUT_BYTES + 1, None, 0.06),
    Limit("comments in an open call", comments_in_call, 4_000_000, "end", 5, seconds=0.15),
    Limit("comments in 512 open calls", comments_in_calls, 4_000_000, "end", 2_049, seconds=0.15),
    Limit("comments between 20,000 acts", comments_between_acts, 400, "end", 40_001, seconds=0.25),
    Limit("words of a line", words_of_line, 8_000_000, "line 2: syntax", 1, seconds=0.2),
    Limit("pids in a list", pids, 2_000_000, "end", 7, seconds=0.2),
    Limit("task and control turn by turn", turn_by_turn, forms.UNTILS, "end", 7_169),
    Limit("the script of docs/BENCH.md", large, 1_250, "stopped", 46_500, seconds=0.06),
]


def limit_faults(came, last, count):
    """What is wrong with an answer that is to have this many lines, the last of them a refusal or the end of a log."""
    is_accepted = last.encode() + b"\n" in check_docs.ENDS
    found, lines = runs.faults(came, 0 if is_accepted else 3), came.out.split(b"\n")
    if len(lines) - 1 != count:
        found.append(f"{len(lines) - 1} lines, not {count}")
    if lines[-2:] != [last.encode(), b""]:
        found.append(f"the last line is {runs.brief(b' '.join(lines[-2:]))}, not {last!r}")
    return found


def check_limits(rows, program):
    for limit in LIMITS:
        seconds = max(2, 100 * limit.seconds)
        came = runs.answer([program, "replay"], limit.make(limit.at), seconds)
        rows.row(f"limits: {limit.what}: {limit.at:,}", limit_faults(came, limit.last, limit.lines), came.seconds)
        if limit.past is None:
            continue
        came = runs.answer([program, "replay"], limit.make(limit.past), seconds)
        found = runs.faults(came, 7, b"") if limit.refusal is None else limit_faults(came, limit.refusal, 1)
        rows.row(f"limits: {limit.what}: {limit.past:,}", found, came.seconds)


# A long history in each printed form.

NEST = 31  # calls within each other, fewer than a shadow stack has frames
NESTS = 5  # as many as the most tasks may each have
FORM_SECONDS = 10  # that a text may take; a body that looks through the history for each line takes hours


def nests():
    """Four users of each kind that a form is about, called back in nested calls of the most tasks, which take turns step by step."""
    users = [f"user u{number} {kind}" for number, kind in enumerate(["function", "graph", "profile", "fprobe exit"] * (forms.VERSION_1.users // 4))]
    todo = [f"after {len(users)}"] + (["call a"] * NEST + ["ret"] * NEST) * NESTS
    tasks = [line for number in range(forms.TASKS) for line in [f"task {10 + number} cpu {number % forms.CPUS}", *todo]]
    control = [f"ctl register u{number}" for number in range(len(users))]
    return script(FUNCTION, users, [f"cpu {cpu} quantum 9" for cpu in range(forms.CPUS)], tasks, control)


def nests_lines():
    """How many lines that script prints in each form. In a call 16 users are called back, of which 12 have an exit. Each ring is full."""
    calls = NEST * NESTS * forms.TASKS
    graph = 1 + (2 * NEST - 1) * NESTS * forms.TASKS  # a heading; the innermost call of a nest has one line
    counts = {"log": 2 * forms.VERSION_1.users + calls * (4 + 2 * 16 + 2 * 12) + 1, "function": 4 * calls + 1, "graph": 4 * graph + 1}
    return {**counts, "profile": 4 * 2 + 4 + 1, "enabled": 2, "rings": forms.CPUS * (1 + forms.LIMITS["USUAL_RING"]) + 1}


def check_forms(rows, program):
    text = nests()
    for form, count in nests_lines().items():
        came = runs.answer([program, "replay", "--print", form], text, FORM_SECONDS)
        found, lines = command_words.end_faults(came), came.out.count(b"\n")
        rows.row(f"forms: nests of calls: {form}", found + [f"{lines} lines, not {count}"] * (lines != count), came.seconds)


# Runs by threads.

# Examples whose waits leave one order of what happens, whoever steps when.
ORDERED = ["answers", "contexts", "filters", "first_path", "fprobe_cancel", "fprobe_exit", "full_shadow_stack", "graph", "graph_depth"]
ORDERED += ["interrupted_callback", "ipmodify", "list_then_own", "missed_exit", "module_busy", "module_loaded", "module_patched"]
ORDERED += ["module_unloaded", "nested_calls", "no_trampoline", "profile", "refused_depth"]
ORDERED += ["recursion_in_interrupt", "recursion_once", "refused_recursion", "registered_again", "ring_stops", "seventeen_users", "unregistered_in_call", "until"]
RUN_SECONDS = 60  # that a run may take


def visits(log):
    """How often each user is called back or refused in a log."""
    words = [line.split() for line in log.splitlines()]
    return collections.Counter((line[1], *line[3:]) for line in words if line[1:2] and line[1] in (b"back", b"refuse"))


def check_calls_after_commands(rows, program, path):
    """A run of a script whose calls come after all commands: whoever steps when, the same users are called back in them."""
    came = runs.answer([program, "run"], path.read_bytes(), RUN_SECONDS)
    same = visits(came.out) == visits(path.with_suffix(".log").read_bytes())
    found = command_words.run_faults(came, "log", path.read_bytes())
    rows.row(f"runs: {path.name}: callbacks", found + ["other users are called back"] * (not same), came.seconds)
    came = runs.answer([program, "run", "--print", "enabled"], path.read_bytes(), RUN_SECONDS)
    rows.row(f"runs: {path.name}: enabled", runs.faults(came, 0, path.with_suffix(".enabled").read_bytes()), came.seconds)


def check_runs(rows, program, top):
    check_calls_after_commands(rows, program, top / "examples" / "realistic.ft")
    for name in ORDERED:
        path = top / "examples" / f"{name}.ft"
        for form in programs.FORMS:
            if path.with_suffix(f".{form}").exists():
                came = runs.answer([program, "run", "--print", form], path.read_bytes(), RUN_SECONDS)
                rows.row(f"runs: {path.name}: {form}", runs.faults(came, 0, path.with_suffix(f".{form}").read_bytes()), came.seconds)
    most = [("CPUs", cpus, forms.CPUS), ("tasks", tasks, forms.TASKS), ("acts", acts, forms.ACTS), ("commands", commands, forms.COMMANDS)]
    texts = [(path.name, path.read_bytes()) for path in sorted((top / "examples").glob("*.ft")) if path.stem not in [*ORDERED, "refused"]]
    for what, text in texts + [(f"{what}: {count:,}", make(count)) for what, make, count in most]:
        came = runs.answer([program, "run"], text, RUN_SECONDS)
        rows.row(f"runs: {what}", command_words.run_faults(came, "log", text), came.seconds)
    for form, count in nests_lines().items():
        came = runs.answer([program, "run", "--print", form], nests(), RUN_SECONDS)
        found, lines = command_words.run_faults(came, form, nests()), came.out.count(b"\n")
        rows.row(f"runs: nests of calls: {form}", found + [f"{lines} lines, not {count}"] * (lines != count), came.seconds)


COUNTED = "ftrace 1; func a; trigger a:traceoff:3; trigger a:traceon:1000000; user t function; cpu 0 quantum 9; cpu 1 quantum 9; cpu 2 quantum 9; "
COUNTED += "task 10 cpu 0; {calls}; task 11 cpu 1; {calls}; task 12 cpu 2; {calls}; ctl register t".replace("{calls}", "call a; ret; " * 3 + "call a; ret")
# Scripts whose runs have the same lines that begin so, of rings or of triggers, whoever steps when.
RINGS = [("realistic", "# cpu", "# cpu 0 entries 30/30; # cpu 1 entries 20/20"), ("trigger_counts", "# trigger", "# trigger 0 fired 2; # trigger 1 fired 2"),
         (None, "# trigger", "# trigger 0 fired 3; # trigger 1 fired 12")]


def check_rings(rows, program, top):
    """Each of these, several times."""
    for name, start, wanted in RINGS * 5:
        text = (top / "examples" / f"{name}.ft").read_bytes() if name else script_texts.text(COUNTED)
        came = runs.answer([program, "run", "--print", "rings"], text, RUN_SECONDS)
        lines = "; ".join(line for line in came.out.decode().splitlines() if line.startswith(start))
        rows.row(f"runs: rings of {name or 'three CPUs'}", runs.faults(came, 0) or [f"the lines are {lines}, not {wanted}"] * (lines != wanted), came.seconds)


LANED = ["one_trampoline", "unregistered_by_another"]  # examples
TIMES, SEEDS = 10, 20  # that each of them is run, and random scripts


def most_lanes():
    """As many lanes and commands as there may be: each lane registers a user of its own, and unregisters it, again and again."""
    turns = range(forms.COMMANDS // forms.LANES)
    control = [[f"lane {lane}", *(f"ctl {('register', 'unregister')[turn % 2]} u{lane}" for turn in turns)] for lane in range(forms.LANES)]
    return script("ftrace 1", "func a", [f"user u{lane} function" for lane in range(forms.LANES)], "cpu 0 quantum 100", *control)


def check_lanes(rows, program, top):
    """Runs of scripts with lanes, the largest ones too."""
    texts = [(name, (top / "examples" / f"{name}.ft").read_bytes()) for name in LANED for _ in range(TIMES)]
    texts += [(f"ft make viewed --seed {seed} --lanes", viewed_scripts.laned(seed)) for seed in range(SEEDS)]
    full = [line.split() for line in full_scripts.script(TWO).decode().splitlines()]
    texts += [("the most lanes and commands", most_lanes())]
    texts += [("all limits of version 2", forms.text_of(viewed_scripts.with_lanes(random.Random("full"), full, forms.LANES)))]
    for what, text in texts:
        came = runs.answer([program, "run"], text, full_scripts.RUN_SECONDS)
        rows.row(f"lanes: {what}", command_words.run_faults(came, "log", text), came.seconds)


def add_words(parser):
    """Adds the words of `ft check program`."""
    runs.add_options(parser)


def run(options):
    """Checks all edges."""
    options.program = options.program.resolve()
    runs.want_program(options.program)
    judging.want_judge(judging.JUDGE)
    rows = runs.Rows("edges", options.verbose)
    command_words.check(rows, options.program, options.top)
    script_texts.check(rows, options.program)
    refused_scripts.check(rows, options.program)
    line_forms.check(rows, options.program)
    selected_functions.check(rows, options.program)
    module_lines.check(rows, options.program)
    check_streams(rows, options.program)
    check_memory(rows, options.program, options.top)
    check_limits(rows, options.program)
    full_scripts.check(rows, options.program)
    check_forms(rows, options.program)
    check_runs(rows, options.program, options.top)
    check_rings(rows, options.program, options.top)
    check_lanes(rows, options.program, options.top)
    return rows.end()
