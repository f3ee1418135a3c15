"""Has ftjudge say whether a log is a legal history of its script.

    ft judge x.ft x.log
    ft judge x.judge

Two files are the script and its log. One file, or standard input, has both with a line `log` between them, which is what ftjudge reads.
A line that it names is one of all that: those of the script count first. The statuses are those of ftjudge.
"""
from ftlog import files, programs
from ftlog.fault import Fault


def add_words(parser):
    """Adds the words of this tool."""
    parser.add_argument("script", nargs="?", default=files.STANDARD, metavar="SCRIPT", help="the script, or both; - or none: standard input")
    parser.add_argument("log", nargs="?", metavar="LOG", help="its log; - is standard input")


def run(options):
    """Prints the verdict, and gives the status."""
    if options.log is None:
        return programs.hand_on("ftjudge", [], options.script)
    if options.script == options.log == files.STANDARD:
        raise Fault("the script and the log can't both be standard input")
    script = files.read(options.script)
    if not script.endswith(b"\n"):
        raise Fault(f"{options.script}: its last line isn't ended by a line feed")
    return programs.hand_on("ftjudge", [], options.log, script + b"log\n")
