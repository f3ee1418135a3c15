"""Scripts that are at all limits of a version at once, and how much memory the longest log takes.

What a crate does for a small job it has to do for the largest one too: these scripts have as many functions, users,
trampolines, CPUs, tasks, triggers, commands, waits and acts as a version allows, and the largest rings, so that nothing gives up between the sizes
that other rows have. Half of them have modules that come and go, whose lines are most of the commands.
"""
import itertools

from ftlog import programs, runs
from ftlog.checks import command_words, memory_limits
from ftlog.make import script_forms as forms

SECONDS, RUN_SECONDS = 60, 600  # of a replay, and of a run by threads, whose end depends on the system
OF_A_FEW_LINES = ["replay", "--print", "graph"]  # without graph users, so that it keeps no item
ITEM = 2 * 32  # bytes of an item of a history, in a list that has room for twice as many at most
PART = 4  # a log is written in pieces: it may take a fourth of its own length besides what its history takes


def script(version):
    """Each user has a filter of its own and is registered before the calls; then they go and come back, and control waits for tasks between."""
    registered = registrations(version)
    lines = [f"ftrace {version.number}"] + [f"func f{number}" for number in range(version.funcs)]
    lines += machine(version, []) + tasks(len(registered), lambda number: number % version.funcs)
    return text_of(lines + registered + rest_of_control(version.users, forms.COMMANDS - len(registered), forms.UNTILS))


def script_with_modules(version):
    """The same, but half of the functions lie in two modules. One is loaded before the calls; the other, which nobody calls, comes and goes."""
    registered, load = [*registrations(version), "ctl load m0"], 1 + version.users
    modules = {1: " m1", 2: " m0"}
    lines = [f"ftrace {version.number}"] + [f"func f{number}{modules.get(number % 4, '')}" for number in range(version.funcs)]
    lines += machine(version, ["absent m0", "absent m1"]) + tasks(len(registered), lambda number: 2 * number % version.funcs)
    left = forms.COMMANDS - version.users - 2 * version.users - load
    rest = rest_of_control(version.users, left - left // 2 // load * load, forms.UNTILS)
    for number in range(left // 2 // load):
        rest.insert((number + 1) * 100, f"ctl {('load', 'unload')[number % 2]} m1")
    return text_of(lines + registered + rest)


def text_of(lines):
    """The text of these lines."""
    return "".join(line + "\n" for line in lines).encode()


def machine(version, absent):
    """The sizes of the machine, the modules that are absent, the triggers, the users and the CPUs."""
    lines = [f"depth {forms.FRAMES}", f"tramps {version.tramps}", *absent, f"ring {forms.RING}"]
    lines += [f"trigger f*{number}:{('traceoff', 'traceon')[number % 2]}:{forms.TRIGGER_LIMIT}" for number in range(forms.TRIGGERS)]
    lines += [f"user u{number} function" for number in range(version.users)]
    return lines + [f"cpu {cpu} quantum 100" for cpu in range(forms.CPUS)]


def tasks(wait, function):
    """The tasks, which wait for so many lines of control. The number of the function of each call is worked out from the call's."""
    lines, calls = [], (forms.ACTS // forms.TASKS - 1) // 2
    for task in range(forms.TASKS):
        lines += [f"task {100 + task} cpu {task % forms.CPUS}", f"after {wait}"]
        lines += [line for call in range(calls) for line in [f"call f{function(37 * call + 61 * task)}", "ret"]]
    return lines


def registrations(version):
    """The commands by which each user gets a filter and is registered."""
    lines = [f"ctl filter u{user} > f{user}" for user in range(version.users)]
    return lines + [f"ctl register u{user}" for user in range(version.users)]


def rest_of_control(users, commands, waits):
    """So many commands, by which users go and come back in turn, and so many waits among them."""
    lines = []
    for number in range(max(commands, waits)):
        if number < waits:
            lines.append(f"ctl until {100 + number % forms.TASKS} {1 + number // 4}")
        if number < commands:
            lines.append(f"ctl {('unregister', 'register')[number % 2]} u{number // 2 % users}")
    return lines


def check_full(rows, program):
    """Each form has its text, and a run by threads comes to its end."""
    for version, make in itertools.product(forms.VERSIONS, [script, script_with_modules]):
        text, what = make(version), f"all limits of version {version.number}" + (", modules" if make is script_with_modules else "")
        for form in programs.FORMS:
            came = runs.answer([program, "replay", "--print", form], text, SECONDS)
            rows.row(f"{what}: {form}", command_words.end_faults(came), came.seconds)
        form = "log" if make is script_with_modules else "rings"
        came = runs.answer([program, "run", "--print", form], text, RUN_SECONDS)
        rows.row(f"{what}: run, {form}", command_words.run_faults(came, form, text), came.seconds)


def check_memory_of_log(rows, program):
    """The log needs hardly more address space than a form of a few lines and its own items: its text is never whole in memory."""
    text = script(forms.VERSION_2)
    log = runs.answer([program, "replay"], text, SECONDS)
    few = runs.answer([program, *OF_A_FEW_LINES], text, SECONDS)
    found = runs.faults(log, 0) + runs.faults(few, 0)
    if not found:
        least = memory_limits.beginning(program)
        whole = [memory_limits.WHOLE]
        of_log = memory_limits.Order(program, ["replay"], text, 0, log.out).least(whole, least)
        of_few = memory_limits.Order(program, OF_A_FEW_LINES, text, 0, few.out).least(whole, least)
        most = of_few + ITEM * log.out.count(b"\n") + len(log.out) // PART
        found = [f"{of_log:,} bytes of address space, and at most {most:,} are wanted"] * (of_log > most)
    rows.row(f"memory: a log of {len(log.out):,} bytes", found)


def check(rows, program):
    """Both."""
    check_full(rows, program)
    check_memory_of_log(rows, program)
