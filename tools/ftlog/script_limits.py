"""What of a line is past its limit, and how to fix it. The limits are those of docs/LANGUAGE.md, "limit".

Each answer is a fact and a fix and, if there is one line too many, what there are too many of; it is None if all is within the limits.
"""
from ftlog import limits
from ftlog.declared import steps_of
from ftlog.limits import LIMITS
from ftlog.script_lines import ACTS, NUMBER, SKIP, quoted


def between(what, value, least, most, fix=""):
    """A number that is outside its limits: the facts and the fix; None if it isn't."""
    if least <= value <= most:
        return None
    limit = f"the most is {most:,}" if value > most else f"the least is {least:,}"
    return f"{what} is {value:,}, and {limit}", fix or f"use {least:,} to {most:,}"


def one_too_many(what, have, most, fix):
    """One more than there may be; None if there is room."""
    if have < most:
        return None
    return f"there are {have:,} {what} above it already, and that is the most", fix, what


def long_name(name):
    """A name of too many bytes."""
    most = LIMITS["NAME_BYTES"]
    if len(name) <= most:
        return None
    return f"the name {quoted(name[:20])} has {len(name)} bytes, and the most is {most}", f"use a name of at most {most} bytes"


def first(found):
    """The first of these that is there."""
    return next((one for one in found if one), None)


def long_names(said):
    """The first name of a line that has too many bytes."""
    return first(long_name(said[key]) for key in ("NAME", "MODULE", "M", "FUNC", "U", "ipmodify") if key in said)


def by_version(above, what, have, name):
    """One too many of what differs by version."""
    most, more = getattr(above.version, name), getattr(limits.VERSION_2, name)
    found = one_too_many(what, have, most, f"drop some; from version 2 on {more:,} are allowed" if more > most else "drop some")
    return found and (f"{found[0]} in version {above.version.number}", *found[1:])


def count_fault(what, value):
    """A number of acts or of commands that nobody can wait for."""
    return between(what, value, 1, NUMBER, "drop the line: nothing is waited for" if value == 0 else "")


def pid_fault(pid):
    """A pid that no task can have."""
    return between("the pid", pid, 1, LIMITS["PID"])


def too_many_acts(above):
    """One act too many."""
    return one_too_many("acts", above.acts, LIMITS["ACTS"], "drop some acts: they are counted over all tasks")


def too_many_commands(above):
    """One command too many."""
    return one_too_many("commands", above.commands.count(above), LIMITS["COMMANDS"],
                        "drop some: a load or an unload counts as one for each user, and one more")


def too_many_calls(above):
    """One call too many: of the acts, of those that are open, or for the items that calls can make."""
    return too_many_acts(above) or too_many_open(above) or too_many_items(above)


def too_many_open(above):
    """One open call of a task too many."""
    count = len(above.task.open_calls()) if above.tasks else 0
    return one_too_many("open calls of this task", count, LIMITS["LEVELS"], "let some calls return before it")


def too_many_items(above):
    """With one call more the calls could make more items than a history may have."""
    bound, most = above.call_bound(), LIMITS["ITEMS"]
    if bound * (above.calls + 1) <= most:
        return None
    each = f"each of which can make {bound:,} items with {len(above.accepted_users)} users"
    why = f"it is call {above.calls + 1:,}, {each}; {bound * (above.calls + 1):,} are more than {most:,}"
    return why, f"make at most {most // bound:,} calls, or declare fewer users with `call` or `irq`", "calls"


def limit_of_size(above, key, said):
    """The limits of the lines of rank 2."""
    if key == "depth":
        return between("the number of frames", said["N"], 1, LIMITS["FRAMES"])
    if key == "tramps":
        most = above.version.tramps
        return between(f"in version {above.version.number} the number of slots", said["N"], 0, most)
    if key == "ring":
        return between("the number of entries", said["CAP"], 1, LIMITS["RING"])
    return one_too_many("triggers", len(above.triggers), LIMITS["TRIGGERS"],
                        "drop some: one glob can match several functions, as `[a-i]*:traceon`")


def limit_of_machine(above, key, said):
    """The limits of CPUs, tasks and lanes."""
    if key == "cpu":
        cpus = one_too_many("CPUs", len(above.cpus), LIMITS["CPUS"], "drop some CPUs")
        return between("the quantum", said["Q"], 1, LIMITS["QUANTUM"]) or cpus
    if key == "task":
        number = between("the number of the CPU", said["N"], 0, NUMBER)
        tasks = one_too_many("tasks", len(above.tasks), LIMITS["TASKS"], "drop some: they are counted over all CPUs")
        return pid_fault(said["PID"]) or number or tasks
    return one_too_many("lanes", len(above.lanes), LIMITS["LANES"], "put the commands of two tools into one lane")


def limit_of_act(above, key, said):
    """The limits of acts."""
    if key == "call":
        return too_many_calls(above)
    return (count_fault("the number of commands", said["N"]) if key == "after" else None) or too_many_acts(above)


def limit_of_control(above, key, said):
    """The limits of the lines of control, but for names."""
    if key == "ctl until":
        waits_found = one_too_many("waits of control", above.waits, LIMITS["UNTILS"], "drop some waits")
        return pid_fault(said["PID"]) or count_fault("the number of acts", said["N"]) or waits_found
    pids = first(pid_fault(pid) for pid in said["PID"]) if key in ("ctl pid", "ctl nopid") else None
    depth = between("the depth", said["N"], 0, LIMITS["GRAPH_DEPTH"]) if key == "ctl maxdepth" else None
    return pids or depth or too_many_commands(above)


def past_limit(above, line):
    """What of a line is past its limit: the fact, the fix, and what there is too much of."""
    key, said = line.form.key, line.form.said
    found = long_names(said)
    if found or key in ("ftrace", SKIP, "absent", "tracing", "sched"):
        return found
    if key == "func":
        return by_version(above, "functions", len(above.functions), "funcs")
    if key == "user":
        return by_version(above, "users", len(above.users), "users")
    if key in ("depth", "tramps", "ring", "trigger"):
        return limit_of_size(above, key, said)
    if key in ("cpu", "task", "lane"):
        return limit_of_machine(above, key, said)
    return (limit_of_act if key in ACTS else limit_of_control)(above, key, said)


def turns_past_limit(above, items):
    """The same of a schedule's counts, and of its steps."""
    most, steps = LIMITS["STEPS"], steps_of(above, items)
    for item in items:
        fix = "drop the item" if item.count == 0 else ""
        found = between(f"the count of {quoted(f'{item.who}*{item.count}')}", item.count, 1, NUMBER, fix)
        if found:
            return found
    if above.steps + steps <= most:
        return None
    is_many = above.cpus and any(item.who == "all" for item in items)
    each = f"; a count of `all` is {1 + len(above.cpus)} steps" if is_many else ""
    return f"steps of the schedule: {above.steps:,} above it, {steps:,} in it, and the most is {most:,}{each}", "use smaller counts"
