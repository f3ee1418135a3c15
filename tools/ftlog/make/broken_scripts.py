"""Writes a random script that is slightly broken, of one of any form, to standard output. Some of these are still accepted.

    tools/ft make broken --seed N

One seed gives one script. Each function changes the lines of a script in place, or does nothing if it finds no line to change.
"""
import random
import re

from ftlog import files, script_lines
from ftlog.make import script_forms as forms

RANKS = {**script_lines.RANKS, "ctl": 6}  # of the lines, by their first words
LIMITS = forms.LIMITS
# Good lines and bad ones, by rank, with the names of the script in the places of u, f and 10; `;` ends a line.
LINES = {
    2: "absent m|absent nobody|depth 1|depth 0|depth 65|tramps 0|tramps 17|tramps 65|ring 1|ring 0|ring a|ring 65537|tracing off|tracing on|trigger f:traceoff|"
       "trigger *:traceon:0|trigger *:traceon:1000001|trigger f traceoff|trigger a|trigger :traceon|trigger a:traceon:00000001|trigger a\\b:traceon",
    3: "user u2 graph|user u2 fprobe exit cancel|user u2 function regs ipmodify f|user u2 graph ipmodify f|user u2 function pid regs|user u2 fprobe cancel|"
       "user u2 function call nobody|user u2|user u graph|func u",
    5: "softirq|iret|irq;call f;ret;iret|irq;softirq;iret;iret|irq;call f;iret;ret|call f;irq;ret;iret|ret|after 0|after 2|after 1025|call nobody|task 55 cpu 0|"
       "task 10 cpu 0|task 55 cpu 8",
    6: "ctl enable u|ctl disable nobody|ctl maxdepth 513|ctl pid|ctl nopid 10 10|ctl pid 0|ctl pid 77|ctl filter u >|ctl filter u >>|ctl notrace u|ctl until 10 9|"
       "ctl until 77 1|ctl load m|ctl unload m;ctl load m|ctl load nobody|lane 0|lane 0;ctl pid|lane 1|lane 8|ctl lane 0|ctl",
    7: "sched k|sched 0*0 k|sched 7|sched k *2|sched all*4000000|sched k*4294967296",
}
TEXTS = "* a 1 !1 0 99 007 ! !! :mod:m :mod: :mod:! *:mod:s?d a:b a:mod:m:n a\\b [a [!] [c-a] a:mod:!!m : # >".split() + ["x" * 255, "x" * 256, "*:mod:" + "y" * 256]
WORDS = "ftrace 1 func user quantum task call after ctl register until lane load sched k all 0 8 07 k*0 zz 9x -1 +1 a/b function ring off".split() + ["x" * 64]
NUMBERS = [0, 1, 2, 3, script_lines.NUMBER, script_lines.NUMBER + 1, "00000000001", *(LIMITS[name] + more for name in ("QUANTUM", "PID", "CPUS", "RING", "FRAMES") for more in (0, 1))]


def rank_of(line):
    """The rank of a line by its first word."""
    return RANKS.get(line[0], 5) if line else 0


def put(rng, lines, rank, new):
    """Puts new lines where one of this rank may come, or now and then anywhere; of rank 5 below a `task` line."""
    first, last = sum(rank_of(line) < rank for line in lines), sum(rank_of(line) <= rank for line in lines)
    place = rng.randint(min(first + (rank == 5), last), last) if rng.random() < 0.9 else rng.randint(0, len(lines))
    lines[place:place] = new


def declared(rng, lines, key, other):
    """What a line of this word declares."""
    return rng.choice([line[1] for line in lines if line[:1] == [key] and len(line) > 1] or [other])


def change_word(rng, lines):
    """A word is another one, isn't there, or is there twice."""
    line = rng.choice(lines)
    if line:
        place = rng.randrange(len(line))
        line[place : place + 1] = rng.choice([[rng.choice(WORDS)], [], [line[place]] * 2])


def change_number(rng, lines):
    """A number is at a limit, or past one."""
    found = [(line, at) for line in lines for at, word in enumerate(line) if word.isdigit() and at]
    if found:
        line, at = rng.choice(found)
        line[at] = str(rng.choice(NUMBERS))


def move_line(rng, lines):
    """A line is elsewhere, isn't there, or is there twice."""
    place, other = rng.randrange(len(lines)), rng.randrange(len(lines))
    rng.choice([lambda: lines.insert(other, lines.pop(place)), lambda: lines.pop(place), lambda: lines.insert(other, list(lines[place]))])()


def add_lines(rng, lines):
    """Lines of any form, mostly where they may come."""
    rank = rng.choice(list(LINES))
    names = {"u": declared(rng, lines, "user", "nobody"), "f": declared(rng, lines, "func", "nobody"), "10": declared(rng, lines, "task", "10"),
             "m": rng.choice([line[2] for line in lines if line[:1] == ["func"] and len(line) > 2] or ["ext3"])}
    form = re.sub(r"(?<![\w*])(u|f|m|10)(?![\w*])", lambda found: names[found[1]], rng.choice(LINES[rank].split("|")))
    put(rng, lines, rank, [line.split() for line in form.split(";")])


def add_text(rng, lines):
    """An edit of a filter, whose text may be refused."""
    put(rng, lines, 6, [["ctl", rng.choice(["filter", "notrace"]), declared(rng, lines, "user", "nobody"), rng.choice([">", ">>"]), rng.choice(TEXTS)]])


def change_version(rng, lines):
    """The first line."""
    lines[:1] = [rng.choice(["ftrace 4", "ftrace", "ftrace 2 1", "ftrace 01", "# ftrace 1", "", "func a", "ftrace 1", "ftrace 2"]).split()]


def broken_bytes(rng, text):
    """A last line feed cut off, or a byte put in or taken out."""
    place = rng.randrange(len(text))
    bad = rng.choice([b"\x00", b"\x7f", b"\x80", b"\xff", b"\r", b"\x0b", b"~", b"!", b"\n", b"#", b" ", b""])
    return text[:-1] if rng.random() < 0.4 else text[:place] + bad + text[place + (rng.random() < 0.3):]


CHANGES = [change_word, change_word, change_number, move_line, add_lines, add_lines, add_lines, add_text, change_version]


def script(seed):
    """The text of the broken script of this seed."""
    rng = random.Random(f"broken {seed}")
    lines = [list(line) for line in forms.plain(rng)]
    for _ in range(rng.choice([0, 1, 1, 1, 1, 2])):
        rng.choice(CHANGES)(rng, lines)
    text = forms.dressed(rng, lines)
    return broken_bytes(rng, text) if text and rng.random() < 0.1 else text


def add_words(parser):
    """Adds the words of `ft make broken`."""
    parser.add_argument("--seed", type=int, required=True, metavar="N", help="which script")


def run(options):
    """Writes the script."""
    files.write(script(options.seed))
