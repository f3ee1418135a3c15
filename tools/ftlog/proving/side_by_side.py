"""How many provers may run side by side on this machine, by its processors and by the memory that is free.

`rt ci` begins a check if what it reckons for it is free, and it reckons one of a crate high up at 4 to 7 GB, by lines; none has taken
more than 3.3 GB (docs/COST.md). So on a machine with 8 GB it would leave a second processor idle for most of the time. RT_JOBS in its
environment says how many to run, whatever they are reckoned at. The limits of a control group are looked at by `rt` alone.
"""
import os
import pathlib
import re

MOST = 3.5e9  # bytes; no prover has taken more
ENOUGH = 5e9  # bytes that are free for each processor, with which `rt ci` leaves none idle, and shares out those that are left over


def machine():
    """How many processors there are to use here, and how many bytes are free."""
    free = re.search(r"^MemAvailable: *(\d+) kB", pathlib.Path("/proc/meminfo").read_text(), re.M)
    return len(os.sched_getaffinity(0)), 1024 * int(free[1])


def as_many_as_fit(number, free):
    """How many provers may run side by side on so many processors, with so many bytes free.

    >>> as_many_as_fit(4, 23e9), as_many_as_fit(4, 7.5e9), as_many_as_fit(2, 1e9)
    (4, 2, 1)
    """
    return max(1, min(number, int(free / MOST)))


def words_for_rt(number, free):
    """What RT_JOBS is to say to `rt ci`: how many checks it is to run side by side, or nothing if it is to reckon that itself.

    >>> words_for_rt(4, 23e9), words_for_rt(4, 7.5e9), words_for_rt(2, 7.5e9)
    ('', '2', '2')
    """
    return "" if free >= ENOUGH * number else str(as_many_as_fit(number, free))


def provers():
    """How many provers may run side by side here and now."""
    return as_many_as_fit(*machine())


def rt_jobs():
    """What RT_JOBS is to say here and now: what it says, if somebody has set it."""
    return os.environ.get("RT_JOBS", words_for_rt(*machine()))


def environment():
    """The environment for `rt ci`."""
    return {**os.environ, "RT_JOBS": rt_jobs()}
