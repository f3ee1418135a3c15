"""The programs, by name: where they are, in the repository or where they are installed, and how they are run."""
import contextlib
import os
import shutil
import subprocess
import sys

from ftlog import files, runs
from ftlog.fault import Fault

NAMES = ("ftcore", "ftjudge", "fttell", "ftoutcomes")
DOOR = ("replay", "run", "bulk", "judge", "steps")  # the tools that only run a program
FORMS = ("log", "function", "graph", "profile", "enabled", "modules", "rings")  # in which ftcore prints a history
IS_INSTALLED = not (runs.TOP / "tools" / "prove.py").is_file()
FT = "ft" if IS_INSTALLED else "tools/ft"  # how the tools are called
SECONDS = 1_800  # that an unproved build may take
UNKNOWN = "--help"  # a word that no program knows: it ends with 2 and reads nothing
STATUSES = {  # with which a program doesn't say what failed
    2: "it doesn't know these words", 4: "its input can't be read", 5: "its output can't be written", 6: "out of memory", 7: "its input is too long"}


def built(name):
    """Where a program is built, and where its link is if it is installed."""
    return runs.TOP / "crates" / name / "out" / name


def is_program(path):
    """Whether there is a file at a path that can be run."""
    return os.access(path, os.X_OK) and not os.path.isdir(path)


def way_to(name):
    """What somebody does who hasn't a program."""
    return "install it from the repository" if IS_INSTALLED else f"./prove{'' if name == NAMES[0] else ' ' + name} builds it"


def start_of(name):
    """What starts a program: in the repository ./NAME, which answers by an unproved build as long as the program isn't built."""
    for path in (runs.TOP / name, built(name)):
        if is_program(path):
            return path
    raise Fault(f"the program {name} isn't there: {way_to(name)}")


def for_tool(name):
    """The program that a tool runs, maybe often: the built one or, as long as it isn't built, ./NAME with its unproved build made before."""
    if is_program(built(name)):
        return built(name)
    starter = start_of(name)
    print(f"ft: {name} isn't built; an unproved build answers, and is made first if there is none", file=sys.stderr, flush=True)
    came = runs.answer([starter, UNKNOWN], seconds=SECONDS)
    if came.status != 2:
        raise Fault((came.err.decode(errors="replace").splitlines() or [f"{starter} ended with the status {came.status}"])[-1])
    return starter


def hand_on(name, words, source, before=b""):
    """Runs a program with these words, whose input is these bytes and then a file, and gives its status. If it doesn't say what failed,
    that is said."""
    given = open(0 if source == files.STANDARD else source, "rb")
    with given, subprocess.Popen([start_of(name), *words], stdin=subprocess.PIPE if before else given) as program:
        if before:
            with contextlib.suppress(BrokenPipeError), program.stdin:  # it need not read all of its input
                program.stdin.write(before)
                shutil.copyfileobj(given, program.stdin)
    status = program.returncode
    if status in STATUSES and status != 5:  # with 5 who read the output has mostly gone, as `head` does
        print(f"{name}: status {status}: {STATUSES[status]}", file=sys.stderr)
    return status if status >= 0 else 128 - status
