"""Marks: what a program was built of, noted beside it, so that it is known whether that is still what stands in the repository.

`crates/NAME/out/NAME.proved` is the mark of the proved program, `crates/NAME/out/NAME.unproved` that of the unproved build which is kept
in `crates/NAME/out/unproved/`. A mark has two lines: a sum of the sources, of the kit and of the program, and the names of the crates. As
long as nothing of these is newer than its mark, tools/start.sh takes that as true; else the sum is made anew.
"""
import contextlib
import functools
import hashlib
import os
import subprocess
import time

from ftlog.proving import crate_list

PROVED, UNPROVED = "proved", "unproved"
SOURCES = (".rt", ".antt")


def out_of(name):
    """Where a program is built."""
    return crate_list.TOP / "crates" / name / "out"


def program_of(name, kind):
    """Where a program stands that is built in this way."""
    return out_of(name) / name if kind == PROVED else out_of(name) / kind / name


def mark_of(name, kind):
    """The mark of such a program."""
    return out_of(name) / f"{name}.{kind}"


@functools.lru_cache(maxsize=None)
def kit_line():
    """What tells which kit proves and builds here; nothing if there is none."""
    try:
        return subprocess.run(["rt", "version"], stdin=subprocess.DEVNULL, capture_output=True, check=False).stdout
    except OSError:
        return b""


def sources_of(names, top=crate_list.TOP):
    """The files of these crates that a proof reads."""
    folders = (top / "crates" / name / part for name in names for part in crate_list.PARTS)
    return [path for folder in folders for path in sorted(folder.rglob("*")) if path.suffix in SOURCES]


def sum_of(name, top=crate_list.TOP):
    """A sum of what a program is proved and built of, in the repository `top`: the sources of its crates, and the kit."""
    crates = crate_list.read_crates(top)
    names = crate_list.with_those_below(crates, [name])
    parts = [kit_line(), (top / "HANDLES").read_bytes(), *(crates[it][0].encode() for it in names)]
    for path in sources_of(names, top):
        parts += [str(path.relative_to(top)).encode(), path.read_bytes()]
    return hash_of(parts)


def hash_of(parts):
    """One sum of these texts, each with its length."""
    found = hashlib.sha256()
    for part in parts:
        found.update(b"%d\n%b" % (len(part), part))
    return found.hexdigest()


def sum_with_program(name, kind, of_sources):
    """The sum that a mark has, of that of the sources and of the program as it stands."""
    return hash_of([of_sources.encode(), program_of(name, kind).read_bytes()])


def write(name, kind, of_sources):
    """Marks a program as built of what has this sum. It counts as long as that is what stands in the repository."""
    mark, names = mark_of(name, kind), crate_list.with_those_below(crate_list.read_crates(), [name])
    new = mark.with_name(f"{mark.name}.{os.getpid()}")
    new.write_text(f"{sum_with_program(name, kind, of_sources)}\n{' '.join(names)}\n")
    os.utime(new, ns=(0, 0))
    new.rename(mark)
    return is_current(name, kind)


def is_current(name, kind):
    """Whether a program is there that is marked as built of what stands in the repository now. Its mark then counts as of now."""
    now, mark, program = time.time_ns(), mark_of(name, kind), program_of(name, kind)
    if not os.access(program, os.X_OK) or not mark.is_file():
        return False
    if mark.read_text().split("\n")[0] != sum_with_program(name, kind, sum_of(name)):
        return False
    with contextlib.suppress(OSError):  # if it may not be written, the sum is made again the next time
        os.utime(mark, ns=(now, now))
    return True
