"""Works out the `sched` lines of a script from comments in words, `# hold: ..`.

Each comment `# hold: 0 until load tail a; k past store head a; all to end` is followed by the line of the schedule that it comes to; the
lines of the schedule that stand right below it are replaced. So the script that is printed can be given to this tool again. In a part an
actor, `k`, a CPU or `all`, goes on alone `until STEP`, `past STEP`, `for N` turns or `to end`. A step is `load` or `store` and the name of
a word, as `tail a`, or `mark` and the beginning of an item, as `mark back 10.1 tr`.
"""
import pathlib
import sys

from ftlog import files, holds, programs, refusals, steps
from ftlog.fault import Fault
from ftlog.limits import LIMITS
from ftlog.planner import Planner, text_of
from ftlog.script_lines import SKIP, here, line_of, texts_of


def add_words(parser):
    """Adds the words of this tool."""
    files.add_script(parser)
    parser.add_argument("--steps", type=pathlib.Path, metavar="PATH", help="the program fttell, if it stands elsewhere")


def read_lines(text):
    """The lines of a script without those that are to be replaced, and the text of the script in which these are empty comments."""
    found, kept, is_below = [], [], False
    for number, text_of_line, is_ended in texts_of(text):
        line = line_of(number, text_of_line, is_ended)
        is_old = is_below and line.words[:1] == ["sched"]
        is_below = is_old or holds.holds_in(line.text) is not None
        kept.append(("#" if is_old else line.text) + "\n" * is_ended)
        if not is_old:
            found.append(line)
    return found, "".join(kept).encode("latin-1")


def require_accepted(text):
    """A script that is refused has no steps."""
    found = refusals.all_of(text, 1).kept
    if found:
        raise Fault(f"the script is refused: line {found[0].line.number}: {found[0].cause}; {programs.FT} why tells more")


def require_place(lines):
    """The lines below the first hold comment are those of the schedule, and comments."""
    first = next((at for at, line in enumerate(lines) if holds.holds_in(line.text) is not None), None)
    if first is None:
        raise Fault("the script has no comment such as `# hold: k past store head a; all to end`")
    wrong = next((line for line in lines[first:] if line.form.key not in (SKIP, "sched")), None)
    if wrong:
        number = lines[first].number
        raise Fault(f"line {number}: hold comments stand among the lines of the schedule, and below it is {here(wrong)}")


def head_of(lines):
    """The script without its schedule."""
    return "".join(line.text + "\n" for line in lines if line.form.key != "sched").encode("latin-1")


def scheduled(lines, planner, names):
    """The lines of the script with what each hold comment comes to."""
    found = []
    for line in lines:
        found.append(line.text)
        said = holds.holds_in(line.text)
        if line.form.key == "sched":
            planner.keep(line.form.said["ITEM"], None)
        elif said is not None:
            found += worked_out(line.number, holds.parts_of(line.number, said, names), planner)
    if not planner.items:
        raise Fault("the hold comments come to no turn at all, and a schedule has one at least")
    return found


def worked_out(number, parts, planner):
    """The line of the schedule for the hold comment on the line of this number, if it comes to any turns."""
    items = []
    for part in parts:
        try:
            items += planner.add(part)
        except Fault as fault:
            raise Fault(f"line {number}: {fault}") from None
    return [text_of(items)] if items else []


def run(options):
    """Prints the script with its schedule worked out."""
    text = files.read(options.script)
    if len(text) > LIMITS["INPUT_BYTES"]:
        raise Fault(f"the script has {len(text):,} bytes, and at most {LIMITS['INPUT_BYTES']:,} are read")
    lines, unscheduled = read_lines(text)
    require_accepted(unscheduled)
    require_place(lines)
    names = holds.names_of(lines)
    for line in lines:
        if holds.holds_in(line.text) is not None:
            holds.parts_of(line.number, holds.holds_in(line.text), names)  # what can't be read is told before anything is run
    program = steps.Program(options.steps or programs.for_tool("fttell"))
    planner = Planner(program.steps, head_of(lines), names.CPU)
    found = scheduled(lines, planner, names)
    sys.stdout.buffer.write("".join(line + "\n" for line in found).encode("latin-1"))
    return 0
