"""Makes a script of a shell's writes to tracefs, and of trace-cmd and perf

It reads a shell's text and a list of functions as available_filter_functions has them, and prints a script with those functions that
some filter text or trigger selects. The filters and tracers of the text become users and commands, in the order of its lines, and a task
calls each function once. What a script can't have is told on standard error, line by line, and the status is 1 then, and 0 otherwise.
With --strace it reads what strace has written of a run, and takes the writes that were made.
"""
import re
import shlex
import sys

from ftlog import files, limits, tracefs_traced, tracefs_writes
from ftlog.fault import Fault
from ftlog.filter_texts import read_list
from ftlog.tool_options import Begun, Pause
from ftlog.tracefs_script import Writer, one_line
from ftlog.tracefs_state import State


def add_words(parser):
    """Adds the words of the command."""
    parser.add_argument("shell", metavar="WRITES", help="the shell's text; - is standard input")
    parser.add_argument("list", metavar="FUNCTIONS", help="the list of functions: a copy of available_filter_functions")
    calls = shlex.join(tracefs_traced.STRACE)
    parser.add_argument("--strace", action="store_true", help=f"WRITES is what `{calls} -o WRITES COMMAND` has written")
    add_choices(parser)


def add_choices(parser):
    """Adds the words that say which functions the script has."""
    told = "the functions that tasks call; else all of the script"
    parser.add_argument("--call", metavar="NAME", nargs="+", action="extend", default=[], help=told)
    room = str(limits.VERSION_2.funcs)
    parser.add_argument("--functions", metavar="N", default=room, help="at most so many functions; else as many as a script can have")


def called(functions, names):
    """The numbers of functions that have these names, the first of each name."""
    for name in names:
        if name not in functions.numbers:
            raise Fault(f"--call {name}: there is no such function")
    return [functions.numbers[name][0] for name in dict.fromkeys(names)]


def most(word):
    """The number of functions that a script may have, at most as many as the language lets it."""
    number = int(word) if re.fullmatch("[0-9]{1,9}", word) else 0
    if not 1 <= number <= limits.VERSION_2.funcs:
        raise Fault(f"--functions {word}: a number from 1 to {limits.VERSION_2.funcs:,} is needed")
    return number


def script_of(options, name, text, is_traced):
    """The script of a shell's text, or of what strace has written, of this name, and the lines that tell what isn't in it."""
    room, functions = most(options.functions), read_list(options.list, files.read(options.list))
    try:
        events = tracefs_traced.events(text) if is_traced else tracefs_writes.events(text, functions)
    except Fault as fault:
        raise Fault(one_line(f"{name}: {fault}")) from None
    if all(isinstance(event, (Begun, Pause)) for event in events):
        raise Fault(f"{name}: nothing is written to tracefs")
    writer = Writer(State(functions, events), called(functions, options.call), room)
    script = writer.text()
    told = [f"line {line}: {one_line(why)}" for line, why in sorted(dict.fromkeys(writer.told))]
    return script, told + [f"{options.list}: {one_line(why)}" for why in writer.kept.told]


def run(options):
    """Prints the script, tells what isn't in it, and gives the status."""
    if options.shell == files.STANDARD == options.list:
        raise Fault("standard input can't be both the shell's text and the list")
    script, told = script_of(options, options.shell, files.read(options.shell).decode("latin-1"), options.strace)
    sys.stdout.write(script)
    print(*told, sep="\n", end="\n" * bool(told), file=sys.stderr)
    return 1 if told else 0
