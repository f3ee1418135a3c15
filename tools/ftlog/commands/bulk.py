"""Has ftcore replay a script that it generates from a number, and print a summary.

Nothing is read. The statuses are those of ftcore.
"""
import os

from ftlog import programs


def add_words(parser):
    """Adds the words of this tool."""
    parser.add_argument("--seed", metavar="N", default="1", help="the number, of 1 to 10 decimal digits; 1 if it isn't given")


def run(options):
    """Prints it, and gives the status."""
    return programs.hand_on("ftcore", ["bulk", "--seed", options.seed], os.devnull)
