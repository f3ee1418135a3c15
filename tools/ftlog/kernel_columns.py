"""The headings and columns that a kernel prints, as its sources have them: Linux 6.1.192 and 6.12.117, kernel/trace.

The function that prints the same there is named beside each. What a script says nothing of isn't guessed: a task has no name, so `<...>`
stands for it, as in the kernel; an address and the size of a function are 0x0.
"""
KERNELS = ("6.1", "6.12")
NAMELESS = "<...>"  # the name of a task that the kernel hasn't recorded
UNKNOWN = "0x0"
SWITCHED = " " + "-" * 42 + "\n"  # above and below a line that tells of another task
PROC_WIDTH = 14
NO_TIME = "              |  "
MARKS = [(1_000_000_000, "$"), (100_000_000, "@"), (10_000_000, "*"), (1_000_000, "#"), (100_000, "!"), (10_000, "+")]  # trace_output.c
LEGEND = ["  _-----=> irqs-off/BH-disabled", " / _----=> need-resched", "| / _---=> hardirq/softirq", "|| / _--=> preempt-depth",
          "||| / _-=> migrate-disable", "|||| /     delay"]


def function_head(tracer, held, written, cpus):
    """The heading of a trace with a line for each entry (trace.c: s_show, print_event_info, print_func_help_header_irq)."""
    yield f"# tracer: {tracer}\n#\n"
    yield f"# entries-in-buffer/entries-written: {held}/{written}   #P:{cpus}\n#\n"
    yield from (f"#{' ' * 30}{line}\n" for line in LEGEND)
    yield "#           TASK-PID     CPU#  |||||  TIMESTAMP  FUNCTION\n"
    yield "#              | |         |   |||||     |         |\n"


def function_line(pid, cpu, letter, microseconds, func, parent):
    """An entry of the function tracer (trace_output.c: trace_print_context, trace_print_lat_fmt, trace_fn_trace)."""
    seconds, rest = divmod(microseconds, 1_000_000)
    return f"{NAMELESS:>16}-{pid:<7} [{cpu:03}] ..{letter}.. {seconds:5}.{rest:06}: {func} <-{parent}\n"


def graph_head():
    """The heading of a graph (trace_functions_graph.c: print_graph_headers_flags)."""
    yield "# tracer: function_graph\n#\n"
    yield "# CPU  DURATION                  FUNCTION CALLS\n"
    yield "# |     |   |                     |   |   |   |\n"


def task(pid):
    """A task in the middle of its column (trace_functions_graph.c: print_graph_proc)."""
    text = f"{NAMELESS}-{pid}"
    spare = max(PROC_WIDTH - len(text), 0)
    return " " * (spare // 2) + text + " " * (spare - spare // 2)


def switch(cpu, before, after):
    """What comes before the first entry of another task on a CPU (trace_functions_graph.c: verif_pid)."""
    return f"{SWITCHED} {cpu}) {task(before)} => {task(after)}\n{SWITCHED}\n"


def duration(nanoseconds):
    """A time in microseconds, in at most seven digits (trace_functions_graph.c: trace_print_graph_duration)."""
    whole, rest = divmod(nanoseconds, 1000)
    text = str(whole)
    if len(text) < 7:
        text += "." + f"{rest:03}"[:min(4, 7 - len(text))]
    return f"{text} us " + " " * (8 - len(text))


def mark(nanoseconds):
    """The sign in front of a long time (trace_output.c: trace_find_mark)."""
    return next((sign for least, sign in MARKS if nanoseconds > least), " ")


def graph_line(cpu, time, level, text):
    """A line of a graph; the time is None if the line has none (trace_functions_graph.c: print_graph_entry, print_graph_return)."""
    column = NO_TIME if time is None else f"{mark(time)} {duration(time)}|  "
    return f" {cpu}) {column}{'  ' * level}{text}\n"


def stat_head():
    """The heading of a profile (ftrace.c: function_stat_headers)."""
    yield "  Function                               Hit    Time            Avg             s^2\n"
    yield "  --------                               ---    ----            ---             ---\n"


def stat_line(func, hits, time, squares):
    """A function's line, with its times and the sum of their squares in nanoseconds (ftrace.c: function_stat_show)."""
    spread = 0
    if hits > 1:
        spread = (hits * squares - time * time) % 2**64 // (hits * (hits - 1) * 1000)  # in 64 bits, as there
    columns = "    ".join(duration(value) for value in (time, time // hits, spread))
    return f"  {func[:30]:<30}  {hits:>10}    {columns}\n"


def symbol(name):
    """The place of a function in the code, with its size, as `%pS` prints it; the size isn't known."""
    return f"{name}+{UNKNOWN}/{UNKNOWN}"


def enabled_line(kernel, func, module, count, flags, callback):
    """A function's line in enabled_functions (ftrace.c: t_show). The callback is None if the site calls the list caller."""
    columns = "".join(f" {letter}" if letter in flags else "  " for letter in ("RID" if kernel == "6.1" else "RIDO"))
    if kernel != "6.1":
        columns += " M " if "M" in flags else "   "
    target = f" ->{symbol('arch_ftrace_ops_list_func')}"
    if callback is not None:
        target = f"\ttramp: {UNKNOWN} ({symbol(callback)}) ->{symbol(callback)}"
    return f"{func}{f' [{module}]' if module else ''} ({count}){columns}{target}\n"
