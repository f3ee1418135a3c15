"""Runs of a program under limits on its address space, from too little to start it up to ample.

What the system refuses before `main` is told apart: the kernel, which maps the program, ends it by a signal, and the
loader, which maps its libraries, by status 127 and a message. From then on the program is to end with status 6 and
write nothing, or to do all that it does without a limit; it never writes to standard error.
"""
import collections
import functools
import resource

from ftlog import runs

PAGE = resource.getpagesize()
MOST = 2**30  # bytes, which are ample for each order here
BELOW, BETWEEN, ABOVE = 8, 20, 8  # limits under which it can't start, may run out of memory, and has enough
TOLD = 3  # faults of an order, the first ones
UNMAPPED, UNLOADED, REFUSED, WHOLE = "not mapped", "not loaded", "out of memory", "whole"


class Order:
    """A run of the program that is to end with this status and to write this, if it has the memory."""

    def __init__(self, program, words, text, status, out):
        self.program, self.words, self.text, self.wanted = program, words, text, (status, out)

    def under(self, limit):
        """The answer with so many bytes of address space."""
        return runs.answer([self.program, *self.words], self.text, preexec_fn=lambda: resource.setrlimit(resource.RLIMIT_AS, (limit, limit)))

    def end(self, came):
        """How an answer ended; None if it may not end so."""
        if came.status is not None and came.status < 0 and not came.out + came.err:
            return UNMAPPED
        if came.status == 127 and came.err and not came.out:
            return UNLOADED
        if came[:3] == (6, b"", b""):
            return REFUSED
        return WHOLE if came[:3] == (*self.wanted, b"") else None

    def least(self, ends, low):
        """The least limit from `low` on, by halves, under which the program ends in one of these ways."""
        few, many = low // PAGE, MOST // PAGE
        while few < many:
            half = (few + many) // 2
            if self.end(self.under(half * PAGE)) in ends:
                many = half
            else:
                few = half + 1
        return few * PAGE

    def limits(self):
        """Limits in steps, from no memory on."""
        least = beginning(self.program)
        ample = self.least([WHOLE], least)
        found = [least * step // BELOW for step in range(BELOW)]
        found += [least + (ample - least) * step // BETWEEN // PAGE * PAGE for step in range(BETWEEN)]
        return found + [int(ample * (MOST / ample) ** (step / ABOVE)) for step in range(ABOVE + 1)]


@functools.cache
def beginning(program):
    """The least limit under which the program begins, tried with words that aren't in its language: it then does nothing more."""
    return Order(program, ["frob"], b"", 2, b"").least([REFUSED, WHOLE, None], 0)


def faults(order):
    """How many runs ended in which way, and what is wrong with the others."""
    ends, found = collections.Counter(), []
    for limit in order.limits():
        came = order.under(limit)
        end = order.end(came)
        # The kernel fails to map the program under the least limits alone.
        if end is None or (end == UNMAPPED and set(ends) - {UNMAPPED}):
            found.append(f"with {limit // 1024:,} KiB: {'; '.join(runs.faults(came, *order.wanted))}")
        else:
            ends[end] += 1
    return ends, found[:TOLD] + [f"no run ended so: {end}" for end in (UNLOADED, REFUSED, WHOLE) if not ends[end]]


def check(rows, what, order):
    """A row for an order, under all of its limits."""
    ends, found = faults(order)
    rows.row(f"memory: {what}: of {sum(ends.values())} limits " + ", ".join(f"{count} {end}" for end, count in ends.items()), found)
