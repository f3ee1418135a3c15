"""Scripts whose modules come and go, each run by the program: which calls are refused since their module may not be there.
What the other program, which was written from the same rules by other hands, prints is the same.
"""
from ftlog.checks import script_texts

FOUR = "ftrace 1; func a; func e ext3; func g ext3; func s snd; "
TASK = "cpu 0 quantum 100; task 10 cpu 0; "

# What is absent and is done, after four functions of which one lies in no module, and the form `modules` of it.
COVERED = {
    "a call of a module that stays": (TASK + "call e; ret; ctl maxdepth 1", "end"),
    "a function of no module": ("absent ext3; absent snd; " + TASK + "call a; ret; ctl maxdepth 1", "end"),
    "the call waits until its module is loaded": ("absent ext3; " + TASK + "after 2; call g; ret; ctl maxdepth 1; ctl load ext3", "load ext3 ok 2 2; end"),
    "its module isn't unloaded before it has returned": (TASK + "call e; ret; ctl until 10 2; ctl unload ext3", "unload ext3 ok 1 1; end"),
    "the first wait counts, and not the last": (TASK + "call e; ret; ctl until 10 2; ctl unload ext3; ctl until 10 2", "unload ext3 ok 1 1; end"),
    "a wait is no command": (TASK + "call e; ret; task 11 cpu 0; softirq; iret; ctl until 11 1; ctl maxdepth 1; ctl until 10 2; ctl unload ext3", "unload ext3 ok 2 2; end"),
    "the inner call has returned, and the outer one's module stays": (TASK + "call e; call s; ret; ret; ctl until 10 3; ctl unload snd", "unload snd ok 1 1; end"),
    "the greatest of all waits counts": ("absent ext3; " + TASK + "after 2; after 1; call e; ret; ctl maxdepth 1; ctl load ext3", "load ext3 ok 2 2; end"),
    "the module comes, goes and comes": (TASK + "call e; ret; after 2; call g; ret; ctl until 10 2; ctl unload ext3; ctl load ext3",
                                         "unload ext3 ok 1 1; load ext3 ok 2 2; end"),
}
# The same, and the line for which it is refused.
UNCOVERED = {
    "the module is absent throughout": ("absent ext3; " + TASK + "call e; ret", 9),
    "the call may come before its module": ("absent ext3; " + TASK + "call e; ret; ctl maxdepth 1; ctl load ext3", 9),
    "it waits for a command too few": ("absent ext3; " + TASK + "after 1; call e; ret; ctl maxdepth 1; ctl load ext3", 10),
    "it waits too late": ("absent ext3; " + TASK + "call e; after 2; ret; ctl maxdepth 1; ctl load ext3", 9),
    "the call may come too late": (TASK + "call e; ret; ctl unload ext3", 8),
    "it may return too late": (TASK + "call e; ret; ctl until 10 1; ctl unload ext3", 8),
    "control waits for another task": (TASK + "call e; ret; task 11 cpu 0; call a; ret; ctl until 11 2; ctl unload ext3", 8),
    "control waits too late": (TASK + "call e; ret; ctl maxdepth 1; ctl unload ext3; ctl until 10 2", 8),
    "the module is there at first and in the end": (TASK + "call e; ret; ctl unload ext3; ctl load ext3", 8),
    "the outer call hasn't returned with the inner one": (TASK + "call e; call s; ret; ret; ctl until 10 3; ctl unload ext3", 8),
    "an interrupt and its end are acts too": (TASK + "call e; irq; iret; ret; ctl until 10 3; ctl unload ext3", 8),
    "the lowest line of two calls": ("absent ext3; absent snd; " + TASK + "call s; ret; task 11 cpu 0; call e; ret", 10),
    "the outer one of two calls": ("absent ext3; " + TASK + "call e; call g; ret; ret", 9),
}


def all_rows():
    """Each script with what is printed."""
    for what, (script, printed) in COVERED.items():
        yield f"modules: {what}", ["replay", "--print", "modules"], script_texts.text(FOUR + script), script_texts.text(printed)
    for what, (script, line) in UNCOVERED.items():
        yield f"modules: {what}", ["replay"], script_texts.text(FOUR + script), f"line {line}: unloaded\n".encode()


def check(rows, program):
    """A row for each."""
    script_texts.check_each(rows, program, all_rows())
