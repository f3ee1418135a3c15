"""Tells every refusal of a script, why each line is refused and how to fix it.

A line is told as the program tells it, `line N: CAUSE`, with its text, the facts that make it refused, and a fix. The first of them is the
one that the program answers; what comes after it is told as if each refused line said what it was meant to say. The status is 0 if the
script is accepted, and 1 if it is refused. If the program answers otherwise than the first refusal, that is said, with the status 2.
"""
import pathlib
import re
import sys

from ftlog import files, programs, refusals, runs
from ftlog.fault import Fault
from ftlog.limits import LIMITS
from ftlog.script_lines import quoted

SECONDS = 60  # that the program may take
MOST = 100  # refusals that are told if nothing else is said
LATER = ("deadlock", "unloaded")  # causes that come only if no line has another one
ACCEPTED = "accepted"


def add_words(parser):
    """Adds the words of this tool."""
    files.add_script(parser)
    parser.add_argument("--most", type=int, default=MOST, metavar="N", help=f"how many refusals are told; {MOST} if it isn't given")
    parser.add_argument("--program", type=pathlib.Path, default=runs.PROGRAM, metavar="PATH", help="the program ftcore, if it stands elsewhere")


def answer_of(program, text):
    """What the program says of a script: `accepted`, or the line of the refusal. None if there is no program."""
    if not programs.is_program(program):
        return None
    came = runs.answer([program.resolve(), "replay", "--print", "modules"], text, SECONDS)
    if came.status == 0:
        return ACCEPTED
    line = came.out.decode("latin-1").rstrip("\n")
    if came.status != 3 or not re.fullmatch("line [0-9]+: [a-z]+", line):
        why = came.err.decode("latin-1").strip() if came.status is None else f"it ended with the status {came.status}"
        raise Fault(f"the program gave no answer to compare with: {why}")
    return line


def head_of(refusal):
    """The line of a refusal, as the program has it."""
    return f"line {refusal.line.number}: {refusal.cause}"


def further_of(refusal):
    """What is told of later lines that are refused for the same."""
    if refusal.further == 1:
        return f"so is line {refusal.last}"
    return f"so are {refusal.further:,} more lines, down to line {refusal.last}"


def tell(refusal):
    """Prints a refusal."""
    print(head_of(refusal) + (f", {refusal.kind}" if refusal.kind else ""))
    if refusal.line.text.strip():
        print(f"    {quoted(refusal.line.text)}")
    for fact in refusal.facts + ([further_of(refusal)] if refusal.further else []):
        print(f"    {fact}")
    print(f"    fix: {refusal.mending()}")


def tell_all(found):
    """Prints the refusals."""
    is_mixed = found.kept[0].cause not in LATER
    for refusal in found.kept:
        if is_mixed and refusal.cause in LATER:
            print("once no line has another cause:")
            is_mixed = False
        tell(refusal)
    if found.count > len(found.kept):
        print(f"and {found.count - len(found.kept):,} more; --most N tells more of them")


def run(options):
    """Tells the refusals of a script, and gives the status."""
    if options.most < 1:
        raise Fault("--most needs a number above 0")
    text = files.read(options.script)
    if len(text) > LIMITS["INPUT_BYTES"]:
        raise Fault(f"the script has {len(text):,} bytes, and the program reads at most {LIMITS['INPUT_BYTES']:,}")
    found, answer = refusals.all_of(text, options.most), answer_of(options.program, text)
    ours = head_of(found.kept[0]) if found.kept else ACCEPTED
    if answer not in (None, ours):
        raise Fault(f"this tool and the program differ: the program says `{answer}`, and this tool `{ours}`; the program is right")
    if answer is None:
        print(f"ft why: not compared with the program: there is no program {options.program}; {programs.way_to('ftcore')}", file=sys.stderr)
    if not found.kept:
        print(ACCEPTED)
        return 0
    tell_all(found)
    return 1
