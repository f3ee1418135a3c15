"""Draws a log as a picture, and writes it as a trace for Perfetto.

    ftcore replay < x.ft > x.log
    ft draw x.ft x.log --svg x.svg --trace x.json
    ft draw x.ft x.log --svg x.svg --from 100 --to 200 --task 10 --task 11
    ft draw x.ft x.log --svg x.svg --call 10.3

The picture has a column for each item of the log, in its order. On top are the commands of control, each
from its begin to its return, with its answer; in a script with lanes there is a row for each lane, with its
own commands. Then comes a row for each task, with its calls: the function, the number of the call, the
context if it isn't normal, the callbacks in it, and what its site called. At the bottom is, for each
function, what its call site is meant to be: a nop, a user's own trampoline, or the list caller. That isn't
in the log; it is worked out from the commands that were accepted. Hatched is the time in which a command
that changes it is under way. A browser shows the items of a box that the pointer is on.

If modules come and go, the commands of a load or an unload have its line as their label, as `load ext3`,
with the colour of the user whose notrace set is written, and the last of them the line's answer; those
before the first line have `hides ext3`. Above the call sites is a row for each such module: when it is
loaded and, hatched, when the commands of a line that loads or unloads it are under way. The log tells
nothing of modules: all this is worked out from the script.

If the script has a line `ring`, `tracing off` or `trigger`, there is a row below the tasks that says when
tracing is on, and a row for each trigger with a mark for each call that hits it, filled if it fires. The
box of an entry callback that a ring holds in the end has a thick edge. The log tells nothing of rings:
they are those of the history gone through by place, as a replay prints them; a run by threads may have
kept others.

An exit that was lost is a dashed box at the return of its call. A picture that is wider than a window has the headings of its rows
again every 800 px, and as many place numbers as there is room for. If there are more than 12 functions, those whose call sites are alike
share a row; with `here` in its heading they are alike in this picture, and not in all of the log.

With --task, which may be given several times, the picture has the rows of these tasks alone, the call sites and modules of what they call, and
columns for their items and those of control. With --call it is the same of one call, with what is nested in it.

The trace is for https://ui.perfetto.dev or chrome://tracing, which open it as a file. One place of the
log is a millisecond there. Control and the CPUs are processes; lanes are threads of control, and tasks are
threads of their CPUs. Arrows go from a command that turns a user on to the user's first callback, and from
the last one to the command that turns it off. A lost exit is an instant at the return of its call. There are counters of the users that are
registered and, for each CPU, of the frames that its tasks' calls hold; and a process with the call sites, a thread for each function or, if
there are more than 12, for those that are alike. The trace is always of the whole log, and has nothing of rings.

If there are more than 100,000 items, how far it has come is said on standard error. So it is if a picture is larger than 32,767 px in width
or height, which is more than cairo takes, and so rsvg-convert and what else draws with it.
"""
import pathlib
import sys

from ftlog import files, given_logs, log_reader
from ftlog.draw import log_choice, log_svg, log_trace
from ftlog.fault import Fault

LARGEST = 32_767  # px of a picture's width or height that cairo takes, by the integers of 16 bits that it counts pixels with
MANY = 100_000  # items; a longer log is told of, after each one of so many


def add_words(parser):
    """Adds the words of the command."""
    parser.add_argument("script", metavar="SCRIPT", help="the script")
    parser.add_argument("log", metavar="LOG", help="what `ftcore replay` printed of it; `-` reads it from standard input")
    parser.add_argument("--svg", metavar="FILE", help="write the picture there")
    parser.add_argument("--trace", metavar="FILE", help="write the trace there")
    parser.add_argument("--from", dest="first", metavar="P", help="let the picture begin at place P")
    parser.add_argument("--to", dest="last", metavar="Q", help="let the picture end with place Q")
    parser.add_argument("--task", dest="tasks", metavar="PID", action="append", default=[],
                        help="draw this task alone, or those of several such options")
    parser.add_argument("--call", metavar="PID.N", help="draw this call alone, with what is nested in it")
    parser.add_argument("--window", metavar="PID.N", help="shade the window of this call: from its `enter` to its `body`")


class Progress:
    """Says on standard error how far a long log has come; of a short one it says nothing."""

    def __init__(self, name):
        self.name, self.count = name, 0

    def say(self, words):
        """Says something."""
        print(f"{self.name}: {words}", file=sys.stderr, flush=True)

    def read(self, count):
        """So many items have been read."""
        self.count = count
        if count % MANY == 0:
            self.say(f"{count:,} items are read")

    def begin(self, words):
        """Something begins that takes long if there are many items."""
        if self.count > MANY:
            self.say(f"{words} of {self.count:,} items")


def read(words, progress):
    """The script, and the history of its log."""
    _, script = given_logs.read_script(words.script)
    return script, log_reader.read_log(files.read(words.log), script, progress.read)


def check_window(history, call, choice):
    """Some of the window of a call is to be in the picture."""
    begin, end = log_reader.window_places(history, call)
    if begin > choice.last or end < choice.first:
        raise Fault(f"the window of {call} is from place {begin} to place {end}, outside the picture")


def draw_picture(script, history, words, progress):
    """Writes the picture, and says so if it is too large for some."""
    choice = log_choice.choice(script, history, words.first, words.last, words.tasks, words.call)
    if words.window:
        check_window(history, words.window, choice)
    picture = log_svg.Picture(script, history, pathlib.Path(words.script).stem, choice, words.window)
    with open(words.svg, "w", encoding="utf-8", newline="") as file:
        width, height = picture.write(file)
    if max(width, height) > LARGEST:
        progress.say(f"the picture is {width:,} px wide and {height:,} px high; rsvg-convert, and what else draws with cairo, takes "
                     f"{LARGEST:,} px at most, and browsers become slow: --from and --to, --task or --call make it smaller")


def draw(words, progress):
    """Writes what these words ask for."""
    if not words.svg and not words.trace:
        raise Fault("say --svg FILE or --trace FILE, or both")
    script, history = read(words, progress)
    if words.svg:
        progress.begin("drawing a picture")
        draw_picture(script, history, words, progress)
    if words.trace:
        progress.begin("writing a trace")
        with open(words.trace, "w", encoding="utf-8", newline="") as file:
            log_trace.write(file, script, history, pathlib.Path(words.script).stem)


def run(options):
    """Writes the picture, the trace, or both."""
    try:
        draw(options, Progress("ft draw"))
    except OSError as error:
        raise Fault(f"{error.filename}: {error.strerror}" if error.filename else str(error)) from None
    return 0
