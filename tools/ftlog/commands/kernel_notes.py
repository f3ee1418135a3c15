"""Tells to which lines of a script a kernel gives another answer than the program.

For each such line it says what happens here, what that kernel does, and which row of docs/KERNEL.md has it. The script
alone is read: a line that changes users or filters is judged after what the program makes of the lines above it, in their
order. What differs in how a thing is done, and not in an answer, isn't told.
"""
from ftlog import differing_lines, files, given_logs
from ftlog.kernel_differences import DIFFERENCES, KERNELS


def add_words(parser):
    """Adds the words of this tool: the name of a script, and which kernel."""
    files.add_script(parser)
    parser.add_argument("--kernel", required=True, choices=KERNELS, help="which kernel")


def told(note, kernel):
    """The line that is printed of a note."""
    difference = DIFFERENCES[note.name]
    line = given_logs.shown(" ".join(note.words))
    return f"line {note.number}: {line}: here {note.here}; {kernel}: {difference.there} (KERNEL.md, {difference.section}: {difference.row})"


def run(options):
    """Prints the notes, and gives the status."""
    text, script = given_logs.read_script(options.script)
    notes = [note for note in differing_lines.Finder(script).found() if options.kernel in DIFFERENCES[note.name].kernels]
    for note in notes:
        print(told(note, options.kernel))
    if not notes:
        print(f"nothing: {options.kernel} answers each line as the program does, as far as docs/KERNEL.md tells")
    return 0
