"""Has ftcore replay a script, one load, store or mark at a time, and print what happens.

A script that is refused gives one line, `line N: CAUSE`, and the status 3; `ft why` tells more of it. All statuses are those of ftcore.
"""
from ftlog import files, programs


def add_words(parser):
    """Adds the words of this tool."""
    files.add_script(parser)
    told = f"how it is printed: {', '.join(programs.FORMS)}; log if it isn't given"
    parser.add_argument("--print", dest="form", metavar="FORM", choices=programs.FORMS, default="log", help=told)


def run(options):
    """Prints it, and gives the status."""
    return programs.hand_on("ftcore", ["replay", "--print", options.form], options.script)
