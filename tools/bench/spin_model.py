#!/usr/bin/env python3
"""The model one_site.pml for Spin beside the program.

    tools/bench/spin_model.py edits                 does Spin find what is wrong with a model that leaves a step out?
    tools/bench/spin_model.py same --count 100      does the program print what the model does, by the same steps?
    tools/bench/spin_model.py search --calls 0      states, seconds and memory of a search
    tools/bench/spin_model.py ends --calls 0        the same of a search for a run in which control doesn't come to its end

They want `spin` (Debian's package of this name) and `gcc`. `same` runs the program of --program, or ./ftcore's proved one. Seconds are processor time, user and system: the least and the median of --times runs. The status is 1 if an edit
or a log isn't as it is to be, and 2 if a program is missing.
"""
import argparse
import os
import pathlib
import re
import shutil
import statistics
import subprocess
import sys
import tempfile
from typing import NamedTuple

sys.dont_write_bytecode = True
HERE = pathlib.Path(__file__).resolve().parent
MODEL = HERE / "one_site.pml"
SCRIPT = HERE / "one_site.ft"
PROGRAM = HERE.parent.parent / "crates" / "ftcore" / "out" / "ftcore"
STEP = re.compile(r" *\d+:\tproc +(\d+) .*\t\[(?!goto |break\]|\.\(goto\))")
ITEM = re.compile(r"(?:begin|return|enter|back|back-end|body|leave|ret) \d.*")
ACTORS = ["k", "0", "1"]  # by the number of the process


class Edit(NamedTuple):
    """A change of the model: the text `old`, which stands there once, gives way to `new`. So many trampolines are there."""

    name: str
    is_found: bool
    tramps: int
    old: str
    new: str = ""


FIRST_SYNC = "    sync(); /* 1 */\n"
TAIL = "    tail = TARGET(begun);\n"
ACK = "ack[me] = request };\n       quiet[me] = request\n"
EDITS = [
    Edit("as it is", False, 2, FIRST_SYNC, FIRST_SYNC),
    Edit("as it is", False, 0, FIRST_SYNC, FIRST_SYNC),
    Edit("no `next`", True, 2, "    next_insn = TARGET(begun);\n"),
    Edit("no breakpoint", True, 2, "    head = BREAK;\n"),
    Edit("no first sync", True, 2, FIRST_SYNC),
    Edit("no first sync", True, 0, FIRST_SYNC),
    Edit("no second sync", False, 2, "    sync(); /* 2 */\n"),
    Edit("no third sync", False, 2, ";\n    sync() /* 3 */\n", "\n"),
    Edit("a sync waits for one CPU alone", True, 2, "    EACH(HAS_TOLD)\n", "    HAS_TOLD(0)\n"),
    Edit("the displacement before the first sync", True, 2, FIRST_SYNC + TAIL, TAIL + FIRST_SYNC),
    Edit("no new first byte", True, 2, "    head = BYTE_OF(TARGET(begun));\n"),
    Edit("no trampoline's word", True, 2, "    TAKE(u)\n"),
    Edit("no wait for quiet points", False, 2, "FROM_ONE_TO_TWO quiet_points();", "FROM_ONE_TO_TWO"),
    Edit("no wait for quiet points", True, 0, "FROM_ONE_TO_TWO quiet_points();", "FROM_ONE_TO_TWO"),
    Edit("the wait is for one task alone", False, 2, "    EACH(WAS_QUIET)\n", "    WAS_QUIET(0)\n"),
    Edit("the wait is for one task alone", True, 0, "    EACH(WAS_QUIET)\n", "    WAS_QUIET(0)\n"),
    Edit("`link` after `first`", False, 2, "    link[u] = first;\n    first = u + 1\n", "    first = u + 1;\n    link[u] = u\n"),
    Edit("`link` after `first`", True, 0, "    link[u] = first;\n    first = u + 1\n", "    first = u + 1;\n    link[u] = u\n"),
    Edit("more is acknowledged than was loaded", True, 2, ACK, ACK.replace("request }", "request + 1 }")),
    Edit("no acknowledgement at the end", True, 2, "          ack[me] = ALL; /* it tells every request to come */\n"),
]


# ---- running ----


def run(command, folder, text=None):
    """Runs a command in a folder; what it prints, its seconds of processor time and the most kilobytes that it had."""
    with tempfile.TemporaryFile() as out, tempfile.TemporaryFile() as given:
        given.write(text or b"")
        given.seek(0)
        process = subprocess.Popen(command, cwd=folder, stdin=given, stdout=out, stderr=subprocess.STDOUT)
        _, status, used = os.wait4(process.pid, 0)
        process.returncode = os.waitstatus_to_exitcode(status)
        out.seek(0)
        return out.read().decode(), used.ru_utime + used.ru_stime, used.ru_maxrss


def defines(options):
    """The words of the preprocessor for so many rounds, calls, trampolines and callers."""
    is_long = options.rounds > 15 or options.calls > 250
    counts = [f"-D{name.upper()}={getattr(options, name)}" for name in ("rounds", "calls", "tramps", "callers")]
    return counts + ["-DLONG"] * is_long


def verifier(folder, text, words, flags):
    """Makes the verifier of a model; what Spin or the compiler complains about, if they do."""
    for old in folder.glob("pan*"):
        old.unlink()
    (folder / "model.pml").write_text(text)
    said = run(["spin", "-a", *words, "model.pml"], folder)[0]
    said += run(["gcc", *flags, "-o", "pan", "pan.c"], folder)[0]
    return "" if (folder / "pan").exists() else said or "gcc has made no program"


def number(pattern, text):
    """The number that a pattern finds in a text, or None."""
    found = re.search(pattern, text)
    return float(found[1]) if found else None


def told(seconds):
    """The least and the median of some times."""
    return f"{min(seconds):.4f} to {statistics.median(seconds):.4f} s"


# ---- the questions ----


def searched(edit, folder):
    """Searches the model with an edit: what Spin says is wrong, if it says so, and how many states there were; None if it can't be."""
    text = MODEL.read_text()
    if text.count(edit.old) != 1:
        return None
    words, flags = ["-DCALLS=0", f"-DTRAMPS={edit.tramps}"], ["-O1", "-DSAFETY", "-DMEMLIM=2000"]
    if verifier(folder, text.replace(edit.old, edit.new), words, flags):
        return None
    said = run(["./pan", "-m300000", "-w22"], folder)[0]
    if "Search not completed" in said and "pan:1:" not in said:
        return None
    error = re.search(r"pan:1: (assertion violated|invalid end state)", said)
    return error[1] if error else "no error", number(r"([\d.e+]+) states, stored", said)


def edits(options, folder):
    """Searches the model with each edit; how many aren't as they are to be."""
    wrong = 0
    for edit in EDITS:
        came = searched(edit, folder)
        is_right = came is not None and edit.is_found == (came[0] != "no error")
        wrong += not is_right
        told_of_it = f"{came[0]}, {came[1]:,.0f} states" if came else "it couldn't be searched"
        print(f"{edit.name}, {edit.tramps} trampolines: {told_of_it}{'' if is_right else '   NOT AS IT IS TO BE'}", flush=True)
    return wrong


def simulated(seed, options, folder):
    """A random simulation: who made each step, and the items, numbered as in a log."""
    said = run(["spin", "-T", "-p", f"-n{seed}", *defines(options), str(MODEL)], folder)[0]
    steps, items = [], []
    for line in said.splitlines():
        found = STEP.match(line)
        if found:
            steps.append(ACTORS[int(found[1])])
        elif ITEM.fullmatch(line):
            items.append(f"{len(items)} {line}")
    return steps, items


def script_of(options, turns):
    """The script of the model, with these turns."""
    text = SCRIPT.read_text()
    commands = text[text.index("ctl "):]
    text = text.replace(commands, commands * options.rounds).replace("call a\nret\n", "call a\nret\n" * options.calls)
    text = text.replace("func a\n", f"func a\ntramps {options.tramps}\n")
    lines = [f"sched {' '.join(turns[i:i + 10000])}\n" for i in range(0, len(turns), 10000)]
    return (text + "".join(lines)).encode()


def same(options, folder):
    """Replays random simulations; how many logs differ."""
    wrong, made, marked = 0, 0, 0
    for seed in range(1, options.count + 1):
        steps, items = simulated(seed, options, folder)
        log = run([options.program, "replay"], folder, script_of(options, steps))[0]
        made, marked = made + len(steps), marked + len(items)
        if log.splitlines() != items + ["end"]:
            print(f"seed {seed}: the program prints something else")
            wrong += 1
    print(f"same: {options.count - wrong} of {options.count} logs, {made:,} steps, {marked:,} items")
    return wrong


SAID = r"pan:1:.*|.*errors: .*|.*states, (?:stored|matched).*|.*hash factor.*|.*Search not completed.*|State-vector \d+.*"


def search_for(text, kind, words, options, folder):
    """Times a search of this model with these words for the compiler and the verifier."""
    complaint = verifier(folder, text, defines(options), ["-O2", f"-DMEMLIM={options.memory}", *kind, *options.flags])
    if complaint:
        print(complaint)
        return 1
    words = [*words, f"-m{options.depth}", f"-w{options.bits}"]
    runs = [run(["./pan", *words], folder) for _ in range(options.times)]
    said = runs[0][0]
    least = min(it[1] for it in runs)
    states, transitions = number(r"([\d.e+]+) states, stored", said), number(r"([\d.e+]+) transitions", said)
    print(" ".join([options.work, *defines(options), *kind, *options.flags, *words]))
    for line in re.findall(SAID, said):
        print(f"    {line.strip()}")
    print(f"    {told([it[1] for it in runs])}, {max(it[2] for it in runs) / 1000:.0f} MB")
    print(f"    {states / least:,.0f} states and {transitions / least:,.0f} transitions a second")
    return 0


def search(options, folder):
    """Times a search for an assertion that fails, and for a state in which nobody can go on."""
    return search_for(MODEL.read_text(), ["-DSAFETY"], [], options, folder)


def ends(options, folder):
    """Times a search for a run in which each process that can go on does so sooner or later, and yet not all commands return."""
    never = "never { accept: do :: done < 4 * ROUNDS od }\n"
    return search_for(MODEL.read_text() + never, [], ["-a", "-f"], options, folder)


WORK = {"edits": edits, "same": same, "search": search, "ends": ends}


def main():
    """Does what the first word says."""
    parser = argparse.ArgumentParser(description=__doc__, formatter_class=argparse.RawDescriptionHelpFormatter)
    parser.add_argument("work", choices=WORK)
    parser.add_argument("--rounds", type=int, default=1, help="how often both users are registered and unregistered")
    parser.add_argument("--calls", type=int, default=1, help="how many calls each caller makes; for a search 0 is any number")
    parser.add_argument("--tramps", type=int, default=2, choices=[0, 2], help="how many trampolines there are")
    parser.add_argument("--callers", type=int, default=2, choices=[1, 2, 3], help="how many callers a search has; one_site.ft has two")
    parser.add_argument("--count", type=int, default=100, help="how many simulations are compared")
    parser.add_argument("--times", type=int, default=5, help="how many runs are timed")
    parser.add_argument("--program", default=str(PROGRAM), help="the program that replays")
    parser.add_argument("--memory", type=int, default=3000, help="megabytes that a search may take")
    parser.add_argument("--depth", type=int, default=300000, help="steps of the longest run in a search")
    parser.add_argument("--bits", type=int, default=22, help="of the number of places in the table of states")
    parser.add_argument("--flags", type=str.split, default=[], help="words for the verifier's compiler, as --flags='-DNOREDUCE -DCOLLAPSE'")
    options = parser.parse_args()
    needed = ["spin", "gcc"] + ([options.program] if options.work == "same" else [])
    missing = [name for name in needed if not shutil.which(name)]
    if missing:
        parser.exit(2, f"spin_model: there is no program {missing[0]}\n")
    options.program = os.path.abspath(options.program)
    with tempfile.TemporaryDirectory(prefix="spin-") as folder:
        wrong = WORK[options.work](options, pathlib.Path(folder))
    return 1 if wrong else 0


if __name__ == "__main__":
    sys.exit(main())
