"""Prints what a file of a kernel would hold after a history: trace, enabled_functions or trace_stat.

The headings and the columns are those of Linux 6.1 or 6.12, and a place of the log is a microsecond. What a script doesn't
say isn't guessed: tasks have no names (`<...>`), and addresses and sizes are 0x0. What is told is the history of the log;
`ft kernel-notes` tells where that kernel would have done something else.
"""
import sys

from ftlog import given_logs, kernel_columns, kernel_files, views_of_log
from ftlog.fault import Fault

FILES = ("trace", "enabled_functions", "trace_stat")


def add_words(parser):
    """Adds the words of this tool: the names of a script and a log, and which file of which kernel."""
    given_logs.add_words(parser)
    parser.add_argument("--file", required=True, choices=FILES, help="which file")
    parser.add_argument("--kernel", required=True, choices=kernel_columns.KERNELS, help="of which kernel")
    parser.add_argument("--user", metavar="U", help="whose trace or trace_stat it is, if several users have one")
    parser.add_argument("--cpu", type=int, metavar="N", help="trace_stat/functionN alone; otherwise one after the other")


def run(options):
    """Prints the file, and gives the status."""
    if options.cpu is not None and options.file != "trace_stat":
        raise Fault("--cpu goes with --file trace_stat alone")
    if options.user is not None and options.file == "enabled_functions":
        raise Fault("--user doesn't go with --file enabled_functions, which tells of all users")
    told = views_of_log.read(options.script, options.log)
    if options.file == "trace":
        lines = kernel_files.trace(told, options.user)
    elif options.file == "trace_stat":
        lines = kernel_files.trace_stat(told, options.user, options.cpu)
    else:
        lines = kernel_files.enabled_functions(told, options.kernel)
    sys.stdout.write("".join(lines))
    return 0
