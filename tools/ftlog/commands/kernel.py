"""Records what a real kernel's ftrace does, and judges it

A kernel is booted in qemu with the module kernel/ftrec.c, which records what happens while users come and go under calls. ftjudge judges
each run; what kernel/known.txt tells of kernels is allowed for, and counted. The status is 1 if some verdict is neither `whole` nor
excused, and 0 otherwise. A run that wasn't recorded, since the guest broke off, is told as `no boot` and is no verdict.
"""
import gzip
import os
import pathlib
import sys
import tempfile

from ftlog import files, programs, runs
from ftlog.fault import Fault
from ftlog.recorded import boot, convert, known
from ftlog.recorded.table import Table

EACH = 4  # runs of one boot
SECONDS = 300  # that the judge may take


def add_words(parser):
    """Adds the words of this tool."""
    path = {"type": pathlib.Path, "metavar": "PATH"}
    told = "the kernel: vmlinuz or bzImage; else the newest one in /boot that has headers, or that of the build tree"
    parser.add_argument("--image", **path, help=told)
    parser.add_argument("--headers", **path, help="its headers or build tree; else /usr/src/linux-headers-RELEASE")
    parser.add_argument("--cpus", type=int, default=2, metavar="N", help="processors of the guest, and threads that call, 1 to 8; else 2")
    parser.add_argument("--seed", type=int, default=1, metavar="N", help="the seed of the first run; else 1")
    parser.add_argument("--runs", type=int, default=4, metavar="N", help="runs, each with a seed of its own; else 4")
    parser.add_argument("--known", default=known.KNOWN, metavar="FILE", help="what kernels are known to do; else kernel/known.txt")
    parser.add_argument("--emulate", action="store_true", help="emulation, also if there is KVM")
    parser.add_argument("--limit", type=int, default=300, metavar="SECONDS", help="that a guest may take, which makes four runs; else 300")
    parser.add_argument("--keep", **path, help="a folder for the recordings, and for what ftjudge was told of a new verdict")
    parser.add_argument("--here", action="store_true", help="this machine's own kernel, without qemu; for root")
    parser.add_argument("--events", nargs="+", metavar="FILE", help="recordings that are there, .events or .events.gz; nothing is booted")
    parser.add_argument("--judge", **path, help="the program ftjudge, if it stands elsewhere")


def judge_by(program):
    """What gives ftjudge's words for an input."""
    program = pathlib.Path(program or programs.for_tool("ftjudge"))
    if not programs.is_program(program):
        raise Fault(f"there is no program {program}; {programs.way_to('ftjudge')}")

    def judge(text):
        """What it says of this input."""
        came = runs.answer([program.resolve()], text, SECONDS)
        if came.status not in (0, 1):
            raise Fault(f"ftjudge gives no verdict: {(came.out or came.err).decode('latin-1').strip() or came.status}")
        return came.out.decode("latin-1").strip()

    return judge


class Recordings:
    """Judges runs one after the other, and keeps them if there is a folder for it."""

    def __init__(self, options):
        self.judge, self.known, self.keep = judge_by(options.judge), known.rows(options.known), options.keep
        if self.keep:
            self.keep.mkdir(parents=True, exist_ok=True)
        self.table = Table()

    def add(self, run, name):
        """Judges a run."""
        verdict = known.judged(run, self.known, self.judge)
        if self.keep and verdict.is_new():
            (self.keep / f"{run.given['seed']}.judge").write_bytes(convert.converted(run, known=verdict.excused).judged())
        self.table.add(run, name, verdict)

    def booted(self, text, why, cpus, names):
        """Judges what one boot has recorded; `names` has what its runs are called, by their seeds."""
        found = {run.given["seed"]: run for run in convert.read(text) if not convert.is_cut_off(run)}
        if len(found) == len(names) and why != boot.NOTHING:
            print(f"ft kernel: the guest that made the runs from {min(names)} on said: {why}", file=sys.stderr)
        for seed, name in names.items():
            if seed in found:
                self.add(found[seed], f"{seed}: {name}")
            else:
                self.table.missing(cpus, f"{seed}: {name}", why)
        if self.keep:
            (self.keep / f"{min(names)}.events.gz").write_bytes(gzip.compress(text.encode()))

    def status(self):
        """Prints the sums, and gives the status."""
        if not self.table.judged:
            raise Fault("no run was recorded")
        self.table.sums()
        return 1 if self.table.new else 0


def text_of(name):
    """The text of a file of events."""
    text = files.read(name)
    try:
        return (gzip.decompress(text) if name.endswith(".gz") else text).decode("utf-8", "replace")
    except (OSError, EOFError) as error:
        raise Fault(f"{name}: {error}") from None


def judge_files(options):
    """Judges the runs of files."""
    recordings = Recordings(options)
    for name in options.events:
        for number, run in enumerate(convert.read(text_of(name))):
            try:
                recordings.add(run, f"{pathlib.Path(name).name.split('.events')[0]}, {number}")
            except Fault as fault:
                raise Fault(f"{name}: run {number}: {fault}") from None
    return recordings.status()


def require_here():
    """This machine can be recorded: there is ftrace, and root asks."""
    if not os.path.exists("/proc/sys/kernel/ftrace_enabled"):
        raise Fault("this kernel has no ftrace that can be switched: there is no /proc/sys/kernel/ftrace_enabled")
    if os.geteuid() != 0:
        raise Fault("--here loads a module, which root alone may")


def record(options, room):
    """Records runs, a boot or this machine at a time, and judges them."""
    if options.here:
        image, headers = None, boot.usable(options.headers or pathlib.Path(f"/lib/modules/{os.uname().release}/build"))
    else:
        image, headers = boot.found(options.image, options.headers)
    built, has_fprobes = boot.module(headers, room), boot.is_set(headers, "CONFIG_FPROBE")
    archive = None if options.here else boot.initramfs(built, room)
    accelerator = boot.EMULATION if options.here or options.emulate else boot.accelerator_for(image, room)
    recordings = Recordings(options)
    seeds = range(options.seed, options.seed + options.runs)
    for first in seeds[::EACH]:
        names = {seed: boot.parameters(seed, options.cpus, has_fprobes) for seed in seeds if first <= seed < first + EACH}
        given = [words for _, words in names.values()]
        if options.here:
            text, why = "".join(boot.here(built, words) for words in given), boot.NOTHING
        else:
            text, why = boot.boot(image, accelerator, archive, options.cpus, given, room, options.limit)
        recordings.booted(text, why, options.cpus, {seed: name for seed, (name, _) in names.items()})
    return recordings.status()


def run(options):
    """Records and judges, and gives the status."""
    for word, most in (("cpus", 8), ("runs", 1000), ("limit", 86_400), ("seed", 10 ** 6)):
        if not 1 <= getattr(options, word) <= most:
            raise Fault(f"--{word} {getattr(options, word)}: a number from 1 to {most:,} is needed")
    if options.events:
        return judge_files(options)
    if options.here:
        require_here()
    boot.require_packages(["make", "gcc"] if options.here else boot.PACKAGES)
    judge_by(options.judge)
    with tempfile.TemporaryDirectory() as room:
        return record(options, pathlib.Path(room))
