"""Prints how many provers `rt ci` is to run side by side here, for RT_JOBS in its environment.

That is what RT_JOBS says if somebody has set it; else nothing, if there is memory enough for `rt ci` to leave no processor idle by its
own reckoning; else as many as there is memory for, by the most that a prover has taken.
"""
from ftlog.proving import side_by_side


def add_words(parser):
    """It takes none."""


def run(words):
    """Prints the number, or an empty line."""
    print(side_by_side.rt_jobs())
    return 0
