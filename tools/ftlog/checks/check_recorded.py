"""Judges recordings of kernels, and boots one.

- Each file of examples/recorded/ is judged as verdicts.txt there says: as it is, and with the differences that are allowed for.
- With `--boot`, `tools/ft kernel` boots a kernel once and judges a run of it; if something for that isn't installed, a line says what.
- With `--changed N`, N logs are made by each of the changes of make/changed_recordings.py, of recordings that are whole. One that is broken
  has to be found, but for those in which the rules allow either, since a command was under way that had the user on or off; and one in
  which neighbours of different tasks are exchanged has to stay whole. A table tells how many there were.

The last line is `recorded: N passed, M failed`, and the status is 0 if nothing failed.
"""
import collections
import gzip
import random
from typing import NamedTuple

from ftlog import runs
from ftlog.checks import judging
from ftlog.fault import Fault
from ftlog.make import changed_recordings
from ftlog.recorded import boot, convert, differences

FOLDER = runs.TOP / "examples" / "recorded"
LIST = "verdicts.txt"
BOOT = [runs.TOP / "tools" / "ft", "kernel", "--runs", "1", "--seed", "1", "--limit", "900"]
SECONDS = 1200  # that it may take
NOT_RECORDED = b"no run was recorded"  # what it says if the guest has recorded none
EVENTS = ".gz"  # the suffix of a recording; a log that was written by hand has another


class Told(NamedTuple):
    """What the list tells of a file: the kernel's release, the verdict, how often each difference was there that is allowed for (None if
    that isn't told, as of all of them), and the verdict then."""

    name: str
    kernel: str
    verdict: str
    counts: dict
    then: str


def read_list(path):
    """The lines of the list."""
    for cells in (line.split(" | ") for line in path.read_text().splitlines() if not line.startswith("#")):
        name, kernel, _, _, verdict, allowed, then = cells + ["", cells[-1]] * (len(cells) == 5)
        pairs = (pair.split() for pair in allowed.split(",") if pair)
        counts = dict.fromkeys(differences.ALL) if allowed == "all" else {difference: int(count) for difference, count in pairs}
        yield Told(name, kernel, verdict, counts, then)


def read_run(path):
    """The one run of a recording."""
    run, = convert.read(gzip.decompress(path.read_bytes()).decode())
    return run


def recording_faults(path, told, judge):
    """What is wrong with a recording: its head or its verdicts aren't those of its line, or a difference was there more often, or less."""
    run = read_run(path)
    found = [] if run.kernel == told.kernel else [f"its head names the kernel {run.kernel}"]
    for counts, wanted in [({}, told.verdict)] + [(told.counts, told.then)] * bool(told.counts):
        came = convert.converted(run, known=tuple(counts))
        found += judging.faults(came.script, came.log, judge, (wanted,))
        found += [f"{name} was there {came.counts[name]} times, not {count}" for name, count in counts.items() if count not in (None, came.counts[name])]
    return found


def check_files(rows, folder, lines, judge):
    """A row for each file of the folder; it and the list have the same."""
    for name in sorted({path.name for path in folder.iterdir()} ^ {told.name for told in lines} ^ {LIST}):
        rows.row(name, [f"it isn't both in the folder and in {LIST}"])
    for told in (told for told in lines if (folder / told.name).is_file()):
        path = folder / told.name
        by_hand = path.suffix != EVENTS and judging.faults(*path.read_bytes().split(b"log\n", 1), judge, (told.verdict,))
        rows.row(told.name, recording_faults(path, told, judge) if path.suffix == EVENTS else by_hand)


def check_boot(rows):
    """A row for a kernel that is booted, if what that needs is installed; else a line that says what isn't."""
    try:
        boot.require_packages(boot.PACKAGES)
        boot.found(None, None)
    except Fault as fault:
        print(f"recorded: skipped: no kernel is booted: {fault}", flush=True)
        return
    came = runs.answer(BOOT, seconds=SECONDS)
    print(f"{came.out.decode()}recorded: a kernel was booted in {came.seconds:.0f} s", flush=True)
    if NOT_RECORDED in came.err:
        print("recorded: skipped: the guest broke off, as emulation does now and then, so there is no verdict", flush=True)
    else:
        rows.row("ft kernel", runs.faults(came, 0))


def whole_recordings(folder, lines):
    """The recordings that are whole, if need be with what is allowed for."""
    read = [(told, read_run(folder / told.name)) for told in lines if told.then == "whole" and told.name.endswith(EVENTS)]
    return [changed_recordings.Recording(run, *convert.converted(run, known=tuple(told.counts))[:2]) for told, run in read]


def check_changed(rows, recordings, options):
    """A row for each change, with a line of the table."""
    print(f"recorded: {'change':50} {'found':>6} {'either':>7} {'whole':>6}")
    for change in (*changed_recordings.BREAKS, *changed_recordings.KEEPS):
        counts, rng = collections.Counter(), random.Random(f"{options.seed} {change.__name__}")
        for _ in range(options.changed):
            recording, log, is_free = changed_recordings.changed(rng, recordings, change)
            try:
                is_legal = judging.verdict(recording.script, log, options.judge).word in judging.LEGAL
            except judging.Fault as fault:
                raise Fault(str(fault)) from None
            counts["either" if is_legal and is_free else "whole" if is_legal else "found"] += 1
        print(f"recorded: {change.__doc__:50} {counts['found']:6} {counts['either']:7} {counts['whole']:6}", flush=True)
        wrong = counts["found" if change in changed_recordings.KEEPS else "whole"]
        rows.row(change.__doc__, [f"{wrong} are judged otherwise"] if wrong else [])


def add_words(parser):
    """Adds the words of `ft check recorded`."""
    judging.add_option(parser)
    parser.add_argument("--boot", action="store_true", help="boot a kernel once, too")
    parser.add_argument("--changed", type=int, default=0, metavar="N", help="change recordings, too, N times by each change; else none")
    parser.add_argument("--seed", type=int, default=0, metavar="S", help="which changes, else 0")
    runs.add_verbose(parser)


def run(options):
    """Judges the recordings and, if that is asked, changed ones, and boots a kernel."""
    judging.want_judge(options.judge)
    rows, lines = runs.Rows("recorded", options.verbose), list(read_list(FOLDER / LIST))
    check_files(rows, FOLDER, lines, options.judge)
    if options.changed:
        check_changed(rows, whole_recordings(FOLDER, lines), options)
    if options.boot:
        check_boot(rows)
    return rows.end()
