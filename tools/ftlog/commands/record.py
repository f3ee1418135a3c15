"""Runs a command over a copy of the names of tracefs, without root, and makes a script of its writes

The copy is a folder of plain files. If user namespaces are there, the command finds it at /sys/kernel/tracing and at
/sys/kernel/debug/tracing; in any case TRACING_DIR, TRACEFS and TRACING name it. strace tells what is written, and the script is that of
from-tracefs --strace. What a script can't have is told on standard error, and the status is 1 then, and 0 otherwise.
"""
import os
import pathlib
import shutil
import signal
import subprocess
import sys
import tempfile

from ftlog import files, tracefs_writes
from ftlog.commands import from_tracefs
from ftlog.fault import Fault
from ftlog.tracefs_traced import STRACE

CONTENTS = {
    "README": "accepts: func_full_name or glob-matching-pattern", "available_tracers": "function_graph function nop", "current_tracer": "nop",
    "tracing_on": "1", "function_profile_enabled": "0", "max_graph_depth": "0", "tracing_thresh": "0", "options/func_stack_trace": "0",
    "events/enable": "0", "events/sched/enable": "0", "events/sched/sched_switch/enable": "0", "trace_stat/function0": "", "per_cpu/cpu0/trace": "",
}  # of files that aren't empty at first, or that aren't among those which a shell's text is searched for
NAMES = ("TRACING_DIR", "TRACEFS", "TRACING")
BIND = 'mount --bind "$0" /sys/kernel/debug && mount --bind "$0/tracing" /sys/kernel/tracing && exec "$@"'
COMMANDS = {**dict.fromkeys(tracefs_writes.MODULES, ""), "sudo": 'while case $1 in -*) ;; *) false;; esac; do shift; done; exec "$@"'}
BY_WRITE = ["copy_file_range", "sendfile"]  # calls that a file of tracefs refuses, so that the same is written by `write`


def add_words(parser):
    """Adds the words of the command."""
    parser.add_argument("command", metavar="COMMAND", nargs="+", help="the command and its words, after --")
    listed = f"{tracefs_writes.ROOT}/{tracefs_writes.LIST}"
    parser.add_argument("--list", metavar="FUNCTIONS", default=listed, help=f"the list of functions; else {listed}")
    parser.add_argument("-o", dest="script", metavar="FILE", help="where the script is written; else to standard output")
    parser.add_argument("--keep", metavar="FILE", help="where what strace writes is kept, whose lines are told")
    from_tracefs.add_choices(parser)


def make_copy(folder, listed):
    """Makes the names of tracefs in a folder, which it gives, and COMMANDS in another one."""
    copy = folder / "debug" / "tracing"
    for name in [*tracefs_writes.FILES, *CONTENTS]:
        (copy / name).parent.mkdir(parents=True, exist_ok=True)
        (copy / name).write_text(CONTENTS[name] + "\n" if CONTENTS.get(name) else "")
    (copy / tracefs_writes.LIST).write_bytes(listed)
    (copy / "instances").mkdir()
    (folder / "bin").mkdir()
    for name, text in COMMANDS.items():
        (folder / "bin" / name).write_text(f"#!/bin/sh\n{text}\n")
        (folder / "bin" / name).chmod(0o755)
    return copy


def namespace(folder):
    """What stands before a command so that it finds the copy in the kernel's place; nothing if that can't be."""
    front = ["unshare", "-rm", "sh", "-c", BIND, str(folder / "debug")]
    if shutil.which("unshare") and not subprocess.run([*front, "true"], capture_output=True).returncode:
        return front
    if os.geteuid() == 0:
        raise Fault("the copy can't be put in the kernel's place here, and root's writes would go to the kernel")
    return []


def traced(command, folder, listed, written):
    """Runs a command under strace, which writes to a file, and gives the command's status. What it prints goes to standard error."""
    copy, front = make_copy(folder, listed), namespace(folder)
    own = dict.fromkeys(NAMES, tracefs_writes.ROOT if front else str(copy))
    calls = [*STRACE[:-1], ",".join([STRACE[-1], *BY_WRITE]), "-e", f"inject={','.join(BY_WRITE)}:error=EINVAL"]
    signal.signal(signal.SIGINT, lambda *_: None)  # Ctrl-C ends the command, and the script is that of what it has done
    try:
        path = f"{folder / 'bin'}:{os.environ.get('PATH', os.defpath)}"
        return subprocess.run([*front, *calls, "-o", written, "--", *command], stdout=2, env={**os.environ, **own, "PATH": path}).returncode
    finally:
        signal.signal(signal.SIGINT, signal.default_int_handler)


def run(options):
    """Runs the command, writes the script, tells what isn't in it, and gives the status."""
    if not shutil.which("strace"):
        raise Fault("strace isn't there; the package strace has it")
    listed = files.read(options.list)
    with tempfile.TemporaryDirectory(prefix="ft-record-") as folder:
        written = options.keep or f"{folder}/strace"
        status = traced(options.command, pathlib.Path(folder), listed, written)
        script, told = from_tracefs.script_of(options, options.command[0], files.read(written).decode("latin-1"), True)
    if status:
        told.append(f"{options.command[0]}: it ended with {status}" if status > 0 else f"{options.command[0]}: signal {-status} ended it")
    if options.script:
        pathlib.Path(options.script).write_text(script)
    else:
        sys.stdout.write(script)
    print(*told, sep="\n", end="\n" * bool(told), file=sys.stderr)
    return 1 if told else 0
