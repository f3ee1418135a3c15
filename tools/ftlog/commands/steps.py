"""Has fttell tell each step of a replay.

A line has the turn, the actor, what it does with which word, and what the word held before and after. The statuses are those of ftcore.
"""
from ftlog import files, programs


def add_words(parser):
    """Adds the words of this tool."""
    files.add_script(parser)


def run(options):
    """Prints them, and gives the status."""
    return programs.hand_on("fttell", ["steps"], options.script)
