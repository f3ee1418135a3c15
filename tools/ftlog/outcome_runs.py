"""Runs of the program ftoutcomes, which replays one script by very many schedules, and what they found together."""
import concurrent.futures
import os
import re
import subprocess
from typing import NamedTuple

from ftlog import programs
from ftlog.fault import Fault

PARTS = 16  # of the replays at random, each with a seed of its own: as many on every machine, so that one seed gives one output
SEEDS = 4_096  # that belong to one seed
ALL_SWITCHES = 4_294_967_295  # that many no schedule has
OUTCOME = re.compile(r"([0-9]+) (.+)\n(sched(?: (?:k|all|[0-7])(?:\*[0-9]+)?)+)\n")
LAST = re.compile(r"[0-9]+ outcomes in ([0-9]+) replays(, and there are (no )?more to try)?\n")


class Shown(NamedTuple):
    """A schedule that shows an outcome, as a `sched` line; the shortest one comes first."""

    items: int
    turns: int
    line: str


class Outcome(NamedTuple):
    """An outcome: how often it came in the replays at random, and the shortest schedule that was found."""

    times: int
    text: str
    shown: Shown


class Found(NamedTuple):
    """What all runs found: the outcomes, the replays at random, those of the search, and whether the search came to its end."""

    outcomes: list
    tries: int
    searched: int
    is_whole: bool


def shown(line):
    """A `sched` line with its length: its items, and the turns of those before the last one."""
    items = line.split()[1:]
    turns = sum(int(item.partition("*")[2] or 1) for item in items[:-1])
    return Shown(len(items), turns, line)


def orders(seed, tries, switches, most):
    """The words of each run: those of the replays at random, and then those of the search."""
    words = []
    for part in range(PARTS):
        count = (tries + part) // PARTS
        if count:
            words.append(["random", str(seed * SEEDS + part), str(count)])
    if switches is not None:
        words.append(["search", str(switches), str(most)])
    return words


def run(program, words, script):
    """What the program writes for a script with these words."""
    try:
        done = subprocess.run([program, *words], input=script, stdout=subprocess.PIPE, stderr=subprocess.PIPE)
    except OSError as error:
        raise Fault(f"{program}: {error.strerror or error}") from None
    if done.returncode == 3:
        raise Fault(f"the script is refused: {done.stdout.decode(errors='replace').strip()}")
    if done.returncode:
        raise Fault(f"{program}: {programs.STATUSES.get(done.returncode, f'it ended with status {done.returncode}')}")
    return done.stdout.decode(errors="replace")


def read(program, text):
    """The outcomes of a run, each with how often it came and its schedule, the replays, and whether there are no more to try."""
    found, at = [], 0
    while True:
        match = OUTCOME.match(text, at)
        if not match:
            break
        found.append((int(match[1]), match[2], shown(match[3])))
        at = match.end()
    last = LAST.fullmatch(text, at)
    if not last:
        raise Fault(f"{program}: what it writes isn't what ftoutcomes writes")
    return found, int(last[1]), last[3] is not None


def merged(program, words, texts):
    """What the runs with these words found, together, the outcome that came most often first."""
    times, best, tries, searched, is_whole = {}, {}, 0, 0, True
    for order, text in zip(words, texts):
        found, replays, is_end = read(program, text)
        is_random = order[0] == "random"
        for count, outcome, how in found:
            times[outcome] = times.get(outcome, 0) + (count if is_random else 0)
            best[outcome] = min(best.get(outcome, how), how)
        if is_random:
            tries += replays
        else:
            searched, is_whole = replays, is_end
    outcomes = [Outcome(times[text], text, best[text]) for text in times]
    return Found(sorted(outcomes, key=lambda it: (-it.times, it.text)), tries, searched, is_whole)


def find(program, script, seed, tries, switches, most):
    """What is found of a script by so many replays at random, and a search with so many switches and replays at most; no search if
    `switches` is None. As many programs run at a time as there are processors."""
    words = orders(seed, tries, switches, most)
    with concurrent.futures.ThreadPoolExecutor(os.cpu_count() or 1) as pool:
        # The search is the longest run, so it begins first.
        runs = {index: pool.submit(run, program, words[index], script) for index in reversed(range(len(words)))}
        return merged(program, words, [runs[index].result() for index in range(len(words))])
