"""Has ftcore run a script with a thread for each CPU and each lane, and print what they did.

The schedule isn't used, so another run may print another history. The words and the statuses are those of `ft replay`.
"""
from ftlog import programs
from ftlog.commands import replay


def add_words(parser):
    """Adds the words of this tool."""
    replay.add_words(parser)


def run(options):
    """Prints it, and gives the status."""
    return programs.hand_on("ftcore", ["run", "--print", options.form], options.script)
