"""Tells what a run of the check costs, crate by crate, and what has grown.

Without COMMAND it prints what is known, as a table: processor seconds of each crate's proof, of its tests, and of its must-fail edits with
the check that they begin with, how many edits there are, and the most memory that one process took, in 10^9 bytes. That is the file
tools/ftlog/proving/costs.txt.

With COMMAND (put `--` before one that has options) it runs that, adds up meanwhile what its provers take, and says at the end what takes
more than a fifth and five seconds more than the file has. What is kept from an earlier run on this machine takes no time and isn't
compared, so a crate is looked at by itself by

    tools/ft cost rt ci NAME

after it has changed. A processor second is worth less while other work runs: then all crates seem to have grown alike.
--write puts what was measured into the file, and takes crates out of it that are no longer there.

The last line is then `cost: N crates, M processor minutes, K grew`, and the status is that of COMMAND.
"""
import collections
import subprocess
import time

from ftlog.fault import Fault
from ftlog.proving import cost_table, crate_list, rattle_processes

POLL = 0.2  # seconds between two looks
GROWN, LEAST = 1.2, 5  # what counts as grown: so many times as much, and so many seconds more


def watch(process):
    """The provers of a run until it ends, as they were seen last, each with the most memory that it was seen with."""
    seen = {}
    while process.poll() is None:
        for it in rattle_processes.provers_below(process.pid):
            most = max(it.memory, seen[it.key].memory) if it.key in seen else it.memory
            seen[it.key] = it._replace(memory=most)
        time.sleep(POLL)
    return list(seen.values())


def rows_of(provers):
    """What the provers took, by crate."""
    taken, tried = collections.defaultdict(collections.Counter), collections.Counter()
    memory = collections.defaultdict(float)
    for it in provers:
        part = "edits" if it.part == "seed" else it.part + "s" * (it.part == "edit")
        taken[it.crate][part] += it.seconds
        tried[it.crate] += it.part == "edit"
        memory[it.crate] = max(memory[it.crate], it.memory / 1e9)
    return {name: cost_table.Row(it["proof"], it["tests"], it["edits"], tried[name], memory[name]) for name, it in taken.items()}


def grown(rows, before):
    """A line for each part of a crate that has grown."""
    for name, row in sorted(rows.items()):
        old = before.get(name)
        for part in ("proof", "tests", "edits") if old else ():
            now, then = getattr(row, part), getattr(old, part)
            if then and now > GROWN * then and now > then + LEAST:
                yield f"cost: {name}: its {part} take {now:.0f} s, and {then:.0f} s in {cost_table.COSTS.name}"
        if old is None:
            yield f"cost: {name} isn't in {cost_table.COSTS.name}: {row.whole():.0f} s in all"


def joined(old, new):
    """What is known of a crate: what was measured now, and of the parts that were not what was known before."""
    parts = {part: now for part, now in new._asdict().items() if now}
    return old._replace(**{**parts, "memory": max(old.memory, new.memory)})


def add_words(parser):
    """Adds the words of this tool."""
    parser.add_argument("--write", action="store_true", help="put what was measured into costs.txt")
    parser.add_argument("command", nargs="*", metavar="COMMAND")


def run(words):
    """Runs the command, and compares what it cost with what is known; without a command, prints that."""
    before = cost_table.read()
    if not words.command:
        if words.write:
            raise Fault("--write takes a COMMAND that is measured")
        print(cost_table.table(before), end="")
        return 0
    try:
        process = subprocess.Popen(words.command, cwd=crate_list.TOP)
    except OSError as error:
        raise Fault(f"{words.command[0]} can't be run: {error.strerror}") from None
    rows = rows_of(watch(process))
    told = list(grown(rows, before))
    print("".join(line + "\n" for line in told), end="")
    if words.write and not process.returncode:
        known = {**before, **{name: joined(before.get(name, cost_table.Row()), row) for name, row in rows.items()}}
        cost_table.write({name: row for name, row in known.items() if name in crate_list.read_crates()})
    minutes = sum(row.whole() for row in rows.values()) / 60
    print(f"cost: {len(rows)} crates, {minutes:.1f} processor minutes, {len(told)} grew", flush=True)
    return process.returncode
