"""Finds all outcomes of a script whose commands and calls race

It replays the script by very many schedules: at random, and all those in which the turn is taken from an actor that could go on at most
so many times. For each outcome (who was called back, missed and refused in which call, what each body ran, which commands were refused)
it tells how often it came at random, and a short schedule that shows it. The commands of lanes go in the order of their lines. The status
is 1 if an outcome matches a --never pattern, or one doesn't match an --always pattern; the script with the schedule that shows it is then
written, ready to replay.
"""
import re
import shlex
import sys

from ftlog import files, outcome_runs, programs
from ftlog.fault import Fault

PROGRAM = programs.built("ftoutcomes")
TRIES = 20_000
SWITCHES = 4
MOST_TRIES = 1_000_000_000
MOST_SEED = 1_000_000


def add_words(parser):
    """Adds the words of the command."""
    files.add_script(parser)
    told = f"so many replays at random, and of the search at most; {TRIES:,} if it isn't given"
    parser.add_argument("--tries", metavar="N", default=str(TRIES), help=told)
    parser.add_argument("--seed", metavar="N", default="1", help="the number that decides the schedules at random; 1 if it isn't given")
    told = f"the most switches of the search, `all`, or `none` for no search; {SWITCHES} if it isn't given"
    parser.add_argument("--switches", metavar="D", default=str(SWITCHES), help=told)
    pattern = "a regular expression that is searched in each outcome's text"
    parser.add_argument("--never", metavar="PATTERN", action="append", default=[], help=f"no outcome may match: {pattern}")
    parser.add_argument("--always", metavar="PATTERN", action="append", default=[], help="each outcome has to match")
    told = "where the script goes that breaks a pattern; else to standard output, after the table"
    parser.add_argument("--out", metavar="FILE", help=told)
    parser.add_argument("--program", metavar="PATH", help="the program ftoutcomes, if it stands elsewhere")


def number(option, word, least, most):
    """The number that a word is."""
    value = int(word) if re.fullmatch("[0-9]{1,10}", word) else -1
    if not least <= value <= most:
        raise Fault(f"{option} {word}: a number from {least} to {most:,} is needed")
    return value


def switches_of(word):
    """The most switches of the search that a word says; None if there is none."""
    if word == "none":
        return None
    if word == "all":
        return outcome_runs.ALL_SWITCHES
    return number("--switches", word, 0, outcome_runs.ALL_SWITCHES)


def patterns(option, words):
    """The patterns that these words are, each with the option and the word."""
    found = []
    for word in words:
        if not word.isprintable():
            raise Fault(f"{option} {ascii(word)}: a pattern is one line of text")
        try:
            found.append((option, word, re.compile(word)))
        except (re.error, OverflowError, RecursionError) as error:
            raise Fault(f"{option} {word}: {error}".split("\n")[0]) from None
    return found


def program_of(options):
    """The program, which has to be there."""
    if options.program is None:
        return programs.for_tool("ftoutcomes")
    if not programs.is_program(options.program):
        raise Fault(f"{options.program}: it isn't a program")
    return options.program


def is_broken(option, pattern, outcome):
    """Whether an outcome breaks a pattern."""
    return (pattern.search(outcome.text) is None) == (option == "--always")


def breaks(wanted, outcomes):
    """The shortest schedule's outcome that breaks a pattern, with the option and the word of that; None if none is broken."""
    broken = [(it.shown, it.text, option, word) for it in outcomes for option, word, pattern in wanted if is_broken(option, pattern, it)]
    return min(broken) if broken else None


def with_schedule(script, line, comments):
    """The script with this schedule in place of its own, and these comments above it."""
    kept = [it for it in script.removesuffix(b"\n").split(b"\n") if it.split()[:1] != [b"sched"]]
    added = [f"# {comment}".encode() for comment in comments] + [line.encode()]
    return b"".join(it + b"\n" for it in kept + added)


def lanes_told(script):
    """In which order the commands of several lanes went, of all those in which they could go; nothing if there is one order alone."""
    lane, having = -1, []
    for line in script.split(b"\n"):
        lane += line.split()[:1] == [b"lane"]
        if line.split()[:1] == [b"ctl"] and lane >= 0 and lane not in having:
            having.append(lane)
    return f", in one order of the lanes: {', then '.join(f'lane {lane}' for lane in having)}" if len(having) > 1 else ""


def heading(found, switches):
    """The first line: how many outcomes there are, and how they were looked for."""
    parts = [f"{found.tries:,} replays at random"] if found.tries else []
    if switches is not None:
        which = "through all schedules" if switches == outcome_runs.ALL_SWITCHES else f"with {switches:,} switch{'es' * (switches != 1)}"
        parts.append(f"a search {which}" + ("" if found.is_whole else f", cut off after {found.searched:,} replays"))
    count = len(found.outcomes)
    return f"{count:,} outcome{'s' * (count != 1)} by {' and '.join(parts) or 'no replay'}"


def table(script, found, switches):
    """The lines that tell what was found of a script."""
    yield heading(found, switches) + lanes_told(script)
    width = max([len(f"{it.times:,}") for it in found.outcomes], default=0)
    for it in found.outcomes:
        yield f"{it.times:>{width},}  {it.text}"
        yield f"{'':{width}}  {it.shown.line}"


def write(name, text):
    """Writes a text to a file, or to standard output if none is named."""
    if not name:
        sys.stdout.flush()
        sys.stdout.buffer.write(text)
        return
    try:
        with open(name, "wb") as file:
            file.write(text)
    except OSError as error:
        raise Fault(f"{name}: {error.strerror or error}") from None


def run(options):
    """Prints the outcomes, and the script that breaks a pattern if one does, and gives the status."""
    tries = number("--tries", options.tries, 0, MOST_TRIES)
    seed = number("--seed", options.seed, 0, MOST_SEED)
    switches = switches_of(options.switches)
    wanted = patterns("--never", options.never) + patterns("--always", options.always)
    program = program_of(options)
    script = files.read(options.script)
    found = outcome_runs.find(program, script, seed, tries, switches, tries)
    sys.stdout.writelines(line + "\n" for line in table(script, found, switches))
    broken = breaks(wanted, found.outcomes)
    if broken is None:
        return 0
    how, text, option, word = broken
    asked = f"{option} {shlex.quote(word)}"
    print(f"{asked} is broken; " + (f"{options.out} has a script that shows it" if options.out else "this script shows it:"))
    write(options.out, with_schedule(script, how.line, [asked, f"breaks it: {text}"]))
    return 1
