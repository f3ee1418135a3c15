"""The unproved build of a program, with run-time checks, which is kept until a source changes.

`rt try` builds it, runs it and takes it away. So it is asked for some runs on no input, and while it runs the program, a hard link keeps
that. Once `rt try` has ended, the program is whole; it counts if it ends with the status that `rt try` has seen.

python3 -m ftlog.proving.unproved NAME, in tools/, is what tools/start.sh asks if no mark is newer than all sources. It prints which program
answers: `proved`, `unproved`, which it makes first if it isn't there, or `none` if it couldn't be kept.
"""
import contextlib
import fcntl
import glob
import os
import re
import shutil
import signal
import stat
import subprocess
import sys
import time

from ftlog.fault import Fault
from ftlog.proving import crate_list, marks
from ftlog.proving.marks import PROVED, UNPROVED

RUNS = 8  # each is an occasion to take the program, and so is its linking; beside much other work about half of these are caught
PAUSE = 0.004  # seconds between two looks
SECONDS = 60  # that the program may take on no input
ENDED = re.compile(r"^case=.* run=ended status=(\d+)", re.M)
FAILED = re.compile(r"^.*\berror\b.*", re.M)


def take(folder, kept):
    """Links the newest program that `rt try` has made in this folder, if there is any: an executable file two folders below it."""
    new = f"{kept}.new"
    for path in glob.iglob(f"{folder}/*/*/*"):
        with contextlib.suppress(OSError):  # it may go at any moment
            told = os.stat(path)
            if stat.S_ISREG(told.st_mode) and told.st_mode & stat.S_IXUSR and not (kept.exists() and kept.samefile(path)):
                os.link(path, new)
                os.replace(new, kept)


def run_and_take(name, room, kept):
    """Has `rt try` build and run a program, and takes it; all in this folder. Gives what `rt try` has said."""
    cases, folder, log = room / "cases", room / "tmp", room / "log"
    folder.mkdir(parents=True)
    cases.mkdir()
    for number in range(RUNS):
        (cases / str(number)).touch()
    words = ["rt", "try", "--steps", "1", "--cases", str(cases)]
    how = {"cwd": crate_list.TOP / "crates" / name, "env": {**os.environ, "TMPDIR": str(folder)}, "stdin": subprocess.DEVNULL}
    with open(log, "wb") as said, subprocess.Popen(words, stdout=subprocess.DEVNULL, stderr=said, **how) as process:
        try:
            while process.poll() is None:
                take(folder, kept)
                time.sleep(PAUSE)
        finally:
            process.terminate()
    return log.read_text(errors="replace")


def status_of(program):
    """How a program ends on no words and no input."""
    how = dict.fromkeys(("stdin", "stdout", "stderr"), subprocess.DEVNULL)
    with contextlib.suppress(OSError, subprocess.TimeoutExpired):
        return subprocess.run([program], env={}, timeout=SECONDS, **how).returncode
    return None


def build(name):
    """Builds a program without proof, and tells whether it could be kept."""
    folder = marks.program_of(name, UNPROVED).parent
    room, kept = folder / "room", folder / "room" / "kept"
    shutil.rmtree(room, ignore_errors=True)
    of_sources = marks.sum_of(name)
    try:
        said = run_and_take(name, room, kept)
        ended = ENDED.findall(said)
        if not ended:
            failed = FAILED.search(said)
            raise Fault(failed[0] if failed else "rt try has run none")
        if not kept.exists() or status_of(kept) != int(ended[-1]):
            return False
        kept.chmod(0o755)
        kept.rename(marks.program_of(name, UNPROVED))
    finally:
        shutil.rmtree(room, ignore_errors=True)
    marks.write(name, UNPROVED, of_sources)
    return True


def find(name):
    """Which program answers. Only one is built at a time: who comes meanwhile waits for it."""
    for kind in (PROVED, UNPROVED):
        if marks.is_current(name, kind):
            return kind
    if not shutil.which("rt"):
        raise Fault("rt, the command of the Rattle kit, isn't on the path")
    print(f"{name}: an unproved build is made first, which takes a minute or two; it is kept until a source changes", file=sys.stderr)
    folder = marks.program_of(name, UNPROVED).parent
    try:
        folder.mkdir(parents=True, exist_ok=True)
        with open(folder / "lock", "w") as lock:
            fcntl.flock(lock, fcntl.LOCK_EX)
            if marks.is_current(name, UNPROVED) or build(name):
                return UNPROVED
            why = "it wasn't seen"
    except OSError as error:
        why = f"{error.filename}: {error.strerror}"
    print(f"{name}: it couldn't be kept ({why}), so it is made for this answer alone", file=sys.stderr)
    return "none"


def main(name):
    """Prints which program answers, and gives the status."""
    signal.signal(signal.SIGTERM, lambda number, _: sys.exit(128 + number))
    try:
        print(find(name))
    except KeyboardInterrupt:
        return 130
    except Fault as fault:
        print(f"{name}: no unproved build: {fault}", file=sys.stderr)
        return 1
    return 0


if __name__ == "__main__":
    sys.exit(main(sys.argv[1]))
