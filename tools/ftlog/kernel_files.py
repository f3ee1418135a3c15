"""What the files trace, enabled_functions and trace_stat of a kernel would hold after a history, in the columns of kernel_columns.py.

A place of the history is a microsecond. Each user is taken for a tracer of its own, as that of an instance is: its entries alone are in its
buffers. views_of_log.py and rings_of_log.py say which entries there are, and log_desk.py who is called at a site.
"""
from ftlog import given_logs, kernel_columns, log_desk, log_items, rings_of_log, views_of_log
from ftlog.fault import Fault

RAISED = ("softirq", "irq", "nmi")
ON_GRAPH = ("graph", "profile")  # the kinds that are one ops in 6.12, and of which 6.1 has one at a time
GRAPH_CALLBACK = "ftrace_graph_func"  # of that ops: graph_ops of kernel/trace/fgraph.c
MATCHED_DEPTH = 50  # below which the kernel keeps the function of an open entry (FTRACE_RETFUNC_DEPTH)
NANOSECONDS = 1000  # of a place


def user_of(told, name, kinds, what):
    """The user of one of these kinds whose file is printed; None if there is none and none is asked for."""
    users = [user for user in told.users if user.kind in kinds]
    if name is not None:
        users = [user for user in users if user.name == name]
        if not users:
            raise Fault(f"the script has no user {given_logs.shown(name)} of the kind {' or '.join(kinds)}, of which {what} would tell")
    if len(users) > 1:
        raise Fault(f"several users have a file {what}; say whose with --user: {', '.join(user.name for user in users)}")
    return users[0] if users else None


# The file trace.

def trace(told, name):
    """The lines of trace."""
    user = user_of(told, name, ("function", "graph"), "trace")
    if user is None:
        return kernel_columns.function_head("nop", 0, 0, told.script.cpus)
    return graph_trace(told, user.name) if user.kind == "graph" else function_trace(told, user)


def function_trace(told, user):
    """The function tracer's: the entries that the rings of all CPUs hold, in the order of time."""
    rings = rings_of_log.by_place(told.script._replace(users={user.name: user}), told.items)
    places = sorted(place for ring in rings.held for place in ring)
    yield from kernel_columns.function_head("function", len(places), sum(rings.written), told.script.cpus)
    entries, contexts = views_of_log.entry_lines(told), raised(told)
    for place in places:
        pid, _, _, _, func, parent, _ = entries[place].split()
        letter = letter_of(contexts[told.items[place][1]])
        yield kernel_columns.function_line(int(pid), told.script.tasks[int(pid)], letter, place, func, parent.removeprefix("<-"))


def raised_at_acts(script):
    """The contexts that are raised at each act `call` of each task, in the order of the acts."""
    found = {}
    for task in script.acts:
        found[task.pid], now = [], []
        for word, *_ in task.acts:
            if word in RAISED:
                now.append(word)
            elif word == "iret":
                now = now[:-1]
            elif word == "call":
                found[task.pid].append(set(now))
    return found


def raised(told):
    """The contexts that are raised in each call: those of its act, or of the call whose callback makes it, and its own."""
    left = {pid: iter(calls) for pid, calls in raised_at_acts(told.script).items()}
    found, called_back = {}, set()
    for words in told.items:
        if words[0] == "back":
            called_back.add(words[1])
        elif words[0] == "back-end":
            called_back.discard(words[1])
        elif words[0] == "enter":
            call, context, _, caller = words[1:]
            around = found[caller] if caller in called_back else next(left[views_of_log.pid_of(call)], set())
            found[call] = around | {context}
    return found


def letter_of(contexts):
    """The kernel's letter for these contexts (trace_print_lat_fmt)."""
    if "nmi" in contexts:
        return "Z" if "irq" in contexts else "z"
    if "irq" in contexts:
        return "H" if "softirq" in contexts else "h"
    return "s" if "softirq" in contexts else "."


def symbols(told):
    """Each function as `%ps` prints it: with its module, if it has one."""
    return {function.name: function.name + (f" [{function.module}]" if function.module else "") for function in told.script.functions}


def leaves(callbacks, cpus):
    """The exit of each leaf, by the place of its entry: what comes next in its CPU's buffer."""
    found, latest = {}, {}
    for callback in callbacks:
        cpu = cpus[views_of_log.pid_of(callback.call)]
        if callback.entry is not None and callback.entry == latest.get(cpu):
            found[callback.entry] = callback.place
        latest[cpu] = callback.place
    return found


def graph_trace(told, user):
    """The function graph tracer's."""
    yield from kernel_columns.graph_head()
    callbacks, levels, names = told.callbacks(user), views_of_log.levels(told, user), symbols(told)
    exits = leaves(callbacks, told.script.tasks)
    tasks, opened = {}, {}  # of each CPU the task of its last line; by CPU and level the function of the entry that is open
    for place, call, func, entry in callbacks:
        if entry in exits:
            continue
        pid, level = views_of_log.pid_of(call), levels[place]
        cpu = told.script.tasks[pid]
        if tasks.setdefault(cpu, pid) != pid:
            yield kernel_columns.switch(cpu, tasks[cpu], pid)
            tasks[cpu] = pid
        is_named = level < MATCHED_DEPTH and entry is not None and opened.get((cpu, level)) != func
        opened[cpu, level] = func if entry is None and place not in exits else None
        if entry is not None:
            yield kernel_columns.graph_line(cpu, (place - entry) * NANOSECONDS, level, f"}} /* {names[func]} */" if is_named else "}")
        elif place in exits:
            yield kernel_columns.graph_line(cpu, (exits[place] - place) * NANOSECONDS, level, f"{names[func]}();")
        else:
            yield kernel_columns.graph_line(cpu, None, level, f"{names[func]}() {{")


# The files of trace_stat.

def trace_stat(told, name, cpu):
    """The lines of trace_stat/functionN of one CPU or, if it is None, of each of them in order."""
    user = user_of(told, name, ("profile",), "trace_stat")
    if user is None:
        raise Fault("the script has no user of the kind profile, so no file of trace_stat tells of it")
    if cpu is not None and cpu not in range(told.script.cpus):
        raise Fault(f"the script has no CPU {cpu}")
    for number in range(told.script.cpus) if cpu is None else [cpu]:
        yield from kernel_columns.stat_head()
        yield from stat_lines(told, user.name, number)


def stat_lines(told, user, cpu):
    """A line for each function that was called on a CPU, the longest time first; of equal ones the kernel's tree has the later first."""
    rows = {}
    for callback in told.callbacks(user):
        if told.script.tasks[views_of_log.pid_of(callback.call)] == cpu:
            row = rows.setdefault(callback.func, [0, 0, 0])
            if callback.entry is None:
                row[0] += 1
            else:
                time = (callback.place - callback.entry) * NANOSECONDS
                row[1], row[2] = row[1] + time, row[2] + time * time
    for func, row in sorted(reversed(list(rows.items())), key=lambda item: -item[1][1]):
        yield kernel_columns.stat_line(func, *row)


# The file enabled_functions.

def enabled_functions(told, kernel):
    """The lines of enabled_functions after the commands that have returned."""
    desk, modified = desk_after(told)
    on_graph = [user.name for user in told.users if user.kind in ON_GRAPH and user.name in desk.registered]
    if kernel == "6.1" and len(on_graph) > 1:
        raise Fault(f"{' and '.join(on_graph)} are registered, and 6.1 has one graph user at a time: its file can't tell of both")
    for number, function in enumerate(told.script.functions):
        sited = [user for user in told.users if number in desk.matched.get(user.name, ())]
        if sited:
            callbacks = callbacks_of(sited)
            has = {"R": any(user.has_regs for user in sited), "I": any(user.is_replacing for user in sited), "M": number in modified}
            flags = [letter for letter in has if has[letter]]
            alone = callbacks[0] if len(callbacks) == 1 else None
            yield kernel_columns.enabled_line(kernel, function.name, function.module, len(callbacks), flags, alone)


def callbacks_of(users):
    """The callbacks of these users' ops; those on the graph are one."""
    others = [user.name for user in users if user.kind not in ON_GRAPH]
    return others + [GRAPH_CALLBACK] * (len(others) < len(users))


def desk_after(told):
    """The desk after the commands that have returned, and the functions that a user which replaces functions was sited at since they
    were loaded: a kernel forgets those of a module at its unload."""
    desk, turns, modified = log_desk.Desk(told.script), log_items.Turns(told.script), set()
    for words in told.items:
        if words[0] == "begin":
            command = told.script.commands[turns.next(" ".join(words[2:]))]
        elif words[0] == "return" and words[2] == "ok":
            desk.carry_out(*command.words)
            modified.update(*(desk.matched.get(user, ()) for user in desk.replacing()))
            modified.difference_update(command.words[2] if command.words[0] == log_desk.HIDE else ())
    return desk, modified
