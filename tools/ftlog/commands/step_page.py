"""A page to walk through every step of a replay: one HTML file.

It reads the script and its step trace, which the program fttell makes if --steps names none, and writes the page to standard output, or to
the file of --out, and then says in a line what is in it. The page needs no server and no network. It links the pages of docs/ by --docs,
a folder or an address; else by the way from the page's folder to those of this repository.
"""
import pathlib
import sys

from ftlog import files, given_logs, programs, runs, step_data, step_trace
from ftlog.fault import Fault

SECONDS = 900  # that it may take
REFUSED = 3  # its status for a script that is refused


def add_words(parser):
    """Adds the words of this tool."""
    files.add_script(parser)
    parser.add_argument("--steps", metavar="TRACE", help="the step trace of the script; - is standard input")
    parser.add_argument("--out", metavar="FILE", help="the file for the page, in the place of standard output")
    parser.add_argument("--docs", metavar="BASE", help="where the pages of docs/ are, for the links of the page")


def trace_text(text):
    """The step trace of a script, by the program."""
    came = runs.answer([programs.for_tool("fttell"), "steps"], text, SECONDS)
    if came.status not in (0, REFUSED):
        raise Fault(f"fttell gave no step trace: {came.err.decode() if came.status is None else f'status {came.status}'}")
    return came.out


def write(page, name):
    """Writes the page into a file, or to standard output if there is no name."""
    if name is None:
        sys.stdout.write(page)
        return
    try:
        pathlib.Path(name).write_text(page, "ascii")
    except OSError as error:
        raise Fault(f"{name}: {error.strerror or error}") from None


def counted(number, what):
    """A number with its word."""
    return f"{number} {what}" + ("" if number == 1 else "s")


def run(options):
    """Writes the page, and gives the status."""
    if options.steps == files.STANDARD and options.script == files.STANDARD:
        raise Fault("the script and the step trace can't both be standard input")
    text, script = given_logs.read_script(options.script)
    if options.steps is None:
        trace = step_trace.read("the step trace", script, trace_text(text))
    else:
        trace = step_trace.read(options.steps, script)
    title = "standard input" if options.script == files.STANDARD else pathlib.Path(options.script).name
    folder = pathlib.Path(options.out).parent if options.out else pathlib.Path()
    docs = step_data.docs_from(folder) if options.docs is None else options.docs.rstrip("/") + "/"
    page = step_data.page_of(step_data.data_of(title, docs, text, script, trace))
    write(page, options.out)
    if options.out is not None:
        steps, cpus, items = counted(len(trace.steps), "step"), counted(script.cpus, "CPU"), counted(len(trace.items), "item")
        print(f"{options.out}: {steps} of control and {cpus}, {items}, {trace.last}")
    return 0
