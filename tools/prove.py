#!/usr/bin/env python3
"""Proves a program's crates and builds the program: ./prove [PROGRAM], ftcore, ftjudge, fttell or ftoutcomes, or all; ftcore if none is named

The crates that the program stands on, without tests and without must-fail edits, are copied to a folder of their own and
checked there by `rt ci`: side by side if they don't wait for each other, on all processors, as memory allows. What is proved
is kept on this machine, so after an interruption the next ./prove goes on where this one was. The program then stands in
crates/PROGRAM/out/PROGRAM, where ./PROGRAM finds it, with a mark of what was proved: it counts as long as the sources and the
kit are those. `all` proves the crates of all four programs at once.

Each crate that is proved gives a line. The first crate that isn't proved is named when that is known, and at the end. The status is 0 if
the program is there, 1 if something isn't proved (which is named, with the log), and 2 if nothing could be tried.
"""
import argparse
import os
import pathlib
import re
import shutil
import signal
import subprocess
import sys
import tempfile
import time

sys.dont_write_bytecode = True
from ftlog.proving import crate_list, marks, side_by_side  # noqa: E402
from ftlog.proving.marks import PROVED  # noqa: E402

ENDED = re.compile(r"rt: \w+ (?:proved|is kept)\b")
FAILED = re.compile(r"rt: (\w+)(?:: its tests are)? NOT PROVED")
FUNCTION = re.compile(r"fn (\S+): not proved")
PLACE = re.compile(r"(?:note: )?(?:\./)?((?:src|specs|proofs)/\S+?:\d+):\d+:")


def check(room, count, words, log_path):
    """Runs `rt ci` in a copy of so many crates, with its lines in a log, and tells of each that is proved. Gives the status, and what fails."""
    how = {"stdout": subprocess.PIPE, "stderr": subprocess.STDOUT, "stdin": subprocess.DEVNULL, "env": side_by_side.environment()}
    done, fault = 0, "nothing was built"
    with open(log_path, "w") as log, subprocess.Popen(["rt", "ci", *words], cwd=room, text=True, errors="replace", start_new_session=True, **how) as process:
        try:
            for line in process.stdout:
                log.write(line)
                log.flush()
                ended, failed = ENDED.match(line), FAILED.match(line)
                if ended:
                    done += 1
                    print(f"prove: {done} of {count} crates; {ended[0].removeprefix('rt: ')}", flush=True)
                elif failed and fault == "nothing was built":
                    fault = f"{failed[1]} isn't proved: {fault_of(failed[1], log_path.read_text())}"
                    print(f"prove: {fault}; crates that don't stand on it go on", flush=True)
            return process.wait(), fault
        finally:
            if process.poll() is None:
                os.killpg(process.pid, signal.SIGKILL)


def fault_of(name, text):
    """What the log of a run says of a crate that isn't proved: the first function and the first place, if it names them."""
    block = text.partition(f"== {name}\n")[2].partition(f"rt: {name} NOT PROVED")[0]
    function, place = FUNCTION.search(block), PLACE.search(block)
    said = [f"fn {function[1]}"] if function else []
    said += [f"crates/{name}/{place[1]}"] if place else []
    return ", ".join(said) or "no function is named"


def place(program, room):
    """Puts a program that has been proved in this copy in its place."""
    to = marks.program_of(program, PROVED)
    new = to.with_name(f"{program}.new")
    to.parent.mkdir(parents=True, exist_ok=True)
    shutil.copy(room / "crates" / program / "out" / program, new)
    new.rename(to)
    marks.write(program, PROVED, marks.sum_of(program, room))


def prove(programs, words):
    """Proves the crates of these programs and puts the programs in their places; gives the status."""
    started = time.monotonic()
    log_path = marks.out_of(programs[0]) / "prove.log"
    log_path.parent.mkdir(parents=True, exist_ok=True)
    with tempfile.TemporaryDirectory(prefix="prove-") as folder:
        room = pathlib.Path(folder) / "copy"
        names = crate_list.copy_repository(room, programs)
        status, fault = check(room, len(names), words, log_path)
        if status:
            print(f"prove: {fault}; the whole log is {log_path}", flush=True)
            return 1
        minutes = max(1, round((time.monotonic() - started) / 60))
        after = f"{minutes} minute" + "s" * (minutes > 1)
        for program in programs:
            place(program, room)
            print(f"prove: the proved program is there, after {after}: ./{program} runs it", flush=True)
    return 0


def mark(since):
    """Marks each program that `rt ci` at the top has proved and built since this file was written, if no source has changed since."""
    crates, is_newer = crate_list.read_crates(), lambda path: path.stat().st_ctime_ns > since.stat().st_mtime_ns
    changed = next(filter(is_newer, marks.sources_of(crates)), None)
    if changed:
        print(f"prove: {changed.relative_to(crate_list.TOP)} has changed since `rt ci` began; nothing is marked as proved")
        return
    for name in crates:
        program = marks.program_of(name, PROVED)
        if program.is_file() and is_newer(program):
            marks.write(name, PROVED, marks.sum_of(name))


def main():
    """Reads the options and proves."""
    parser = argparse.ArgumentParser(prog="prove", description=__doc__, formatter_class=argparse.RawDescriptionHelpFormatter)
    parser.add_argument("--anew", action="store_true", help="prove all again, whatever this machine has kept")
    parser.add_argument("--is-built", action="store_true", help="only tell, by the status, whether the proved program is there")
    parser.add_argument("--mark", type=pathlib.Path, metavar="FILE", help="prove nothing; what `rt ci` at the top has built since FILE was written is marked as proved")
    parser.add_argument("program", nargs="?", choices=[*crate_list.PROGRAMS, "all"], default=crate_list.PROGRAMS[0], help="the program; ftcore if none is named")
    words = parser.parse_args()
    if words.mark:
        mark(words.mark)
        return 0
    programs = crate_list.PROGRAMS if words.program == "all" else (words.program,)
    built = [it for it in programs if marks.is_current(it, PROVED)]
    if words.is_built:
        return 0 if len(built) == len(programs) else 1
    to_prove = [it for it in programs if words.anew or it not in built]
    for program in programs:
        if program not in to_prove:
            print(f"prove: the proved program is there: ./{program} runs it")
    if not to_prove:
        return 0
    if not shutil.which("rt"):
        parser.exit(2, "prove: rt, the command of the Rattle kit, isn't on the path\n")
    signal.signal(signal.SIGTERM, lambda number, _: sys.exit(128 + number))
    try:
        return prove(to_prove, ["--anew"] if words.anew else [])
    except KeyboardInterrupt:
        print("prove: broken off; what is proved is kept, and the next ./prove goes on there")
        return 130


if __name__ == "__main__":
    sys.exit(main())
