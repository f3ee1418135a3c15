"""The table of recorded runs with their verdicts, and the sums of it."""
from collections import Counter

from ftlog.recorded import known

FILLED = ("sites filled in", "refusals filled in", "filter of an fprobe", "function and user of a refusal")
COUNTED = ("calls", "commands", "calls under a race", *FILLED)
HEAD = f"| kernel | threads | run | calls | commands | under a race | filled in | verdict |\n|{'---|' * 8}"
SUMS = f"| kernel | threads | runs | calls | commands | under a race | filled in | whole | excused | new |\n|{'---|' * 10}"


def numbers(counts):
    """The numbers of a line."""
    return [counts["calls"], counts["commands"], counts["calls under a race"], sum(counts[name] for name in FILLED)]


def line(*cells):
    """A line of a table."""
    return f"| {' | '.join(f'{cell:,}' if isinstance(cell, int) else str(cell) for cell in cells)} |"


def excuses(counts):
    """How many places each row changed, in words."""
    return ", ".join(f"{name} {number:,}" for name, number in counts.items())


class Table:
    """Prints a line for each run as it comes, and the sums for each kernel and number of threads in the end."""

    def __init__(self):
        self.groups = {}
        self.new = self.judged = self.lines = 0

    def tell(self, *cells):
        """Prints a line, the first one below the head."""
        print("" if self.lines else HEAD + "\n", line(*cells), sep="", flush=True)
        self.lines += 1

    def add(self, run, name, verdict):
        """A run that was judged."""
        said = verdict.said + (" without " if verdict.excused else "") + excuses(verdict.excused)
        said += ", new" * verdict.is_new()
        counts = verdict.counts
        self.tell(run.kernel, run.given["threads"], name, *numbers(counts), said)
        group = self.groups.setdefault((run.kernel, run.given["threads"]), Counter())
        group.update({name: counts[name] for name in COUNTED})
        group.update(runs=1, new=verdict.is_new(), whole=verdict.said == known.WHOLE and not verdict.excused)
        if not verdict.is_new():
            group.update({("excused", row): number for row, number in verdict.excused.items()})
        self.new += verdict.is_new()
        self.judged += 1

    def missing(self, threads, name, why):
        """A run that came to nothing, which is no verdict."""
        self.tell("", threads, name, "", "", "", "", f"no boot: {why}")

    def sums(self):
        """Prints the sums."""
        print("\n" + SUMS)
        for (kernel, threads), group in self.groups.items():
            rows = {key[1]: number for key, number in group.items() if isinstance(key, tuple)}
            excused = group["runs"] - group["whole"] - group["new"]
            excused = f"{excused}: {excuses(rows)}" if excused else 0
            print(line(kernel, threads, group["runs"], *numbers(group), group["whole"], excused, group["new"]))
