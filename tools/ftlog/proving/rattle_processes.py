"""The provers that run below a process, as /proc tells them: for which crate, what for, and how much they have taken."""
import os
from typing import NamedTuple

TICKS = os.sysconf("SC_CLK_TCK")  # a second
PAGE = os.sysconf("SC_PAGE_SIZE")


class Prover(NamedTuple):
    """A process of `rattle`. It checks `proof`, `tests`, `edit` (a crate with a changed line), or `seed` (the unchanged crate,
    for its edits to begin with). Times are in processor seconds, memory in bytes."""

    key: tuple  # the process's number and when it began, which no other process has
    crate: str
    part: str
    seconds: float
    memory: int


def read_processes():
    """What /proc tells of each process: its parent, when it began, its processor seconds and its memory."""
    found = {}
    for number in filter(str.isdigit, os.listdir("/proc")):
        try:
            with open(f"/proc/{number}/stat") as stat:
                fields = stat.read().rpartition(")")[2].split()
        except OSError:  # it has ended
            continue
        seconds = (int(fields[11]) + int(fields[12])) / TICKS
        found[int(number)] = (int(fields[1]), int(fields[19]), seconds, int(fields[21]) * PAGE)
    return found


def numbers_below(top, processes):
    """The numbers of the processes that `top` has started, and of those that these have."""
    found, grown = {top}, True
    while grown:
        new = {number for number, told in processes.items() if told[0] in found} - found
        found, grown = found | new, bool(new)
    return found - {top}


def part_of(words, folder):
    """What a call of `rattle` with these words is for, in this folder."""
    begins_with = words[words.index("--incremental") + 1] if "--incremental" in words else ""
    if os.path.basename(folder).startswith("rt-edit-"):
        return "seed" if begins_with.endswith("/seed") else "edit"
    return "tests" if "--test" in words else "proof"


def provers_below(top):
    """The provers that run now below the process `top`."""
    processes = read_processes()
    for number in numbers_below(top, processes):
        try:
            with open(f"/proc/{number}/cmdline") as line:
                words = line.read().split("\0")
            folder = os.readlink(f"/proc/{number}/cwd")
        except (OSError, KeyError):
            continue
        if os.path.basename(words[0]) == "rattle" and "--crate-name" in words:
            _, began, seconds, memory = processes[number]
            crate = words[words.index("--crate-name") + 1]
            yield Prover((number, began), crate, part_of(words, folder), seconds, memory)
