"""What the check of each crate costs: costs.txt, beside this file, has a line for each. It is read here, and written by `ft cost`."""
import pathlib
from typing import NamedTuple

COSTS = pathlib.Path(__file__).with_name("costs.txt")
HEAD = "# crate, processor seconds of its proof, tests and edits, how many edits, the most memory of one process in 10^9 bytes\n"
TABLE = "| crate | proof | tests | edits | how many | memory |\n|---|---|---|---|---|---|\n"


class Row(NamedTuple):
    """What a crate's check costs: its proof, its tests and its edits (with the check that they begin with) in processor
    seconds, how many edits there are, and the most memory that one process took, in billions of bytes."""

    proof: float = 0
    tests: float = 0
    edits: float = 0
    tried: int = 0
    memory: float = 0

    def whole(self):
        """All seconds of the crate."""
        return self.proof + self.tests + self.edits


def read(path=COSTS):
    """The rows of the file by crate; none if there is no file."""
    lines = path.read_text().splitlines() if path.is_file() else []
    found = (line.split() for line in lines if not line.startswith("#"))
    return {name: Row(*map(float, numbers)) for name, *numbers in found}


def dearest_first(rows):
    """The crates with their rows, in the order in which they are written."""
    return sorted(rows.items(), key=lambda it: (-it[1].whole(), it[0]))


def write(rows, path=COSTS):
    """Writes these rows in the place of those that the file has."""
    lines = [f"{name} {it.proof:.0f} {it.tests:.0f} {it.edits:.0f} {it.tried:.0f} {it.memory:.1f}\n" for name, it in dearest_first(rows)]
    path.write_text(HEAD + "".join(lines))


def line_of(name, row):
    """The line of a crate in a table for who reads; nothing is `-` there."""
    cells = [f"{it:.0f}" if it else "-" for it in row[:4]] + [f"{row.memory:.1f}" if row.memory else "-"]
    return f"| {name} | {' | '.join(cells)} |\n"


def table(rows):
    """The rows as a table, with a line for all of them at its end."""
    every = Row(*[sum(it) for it in list(zip(*rows.values()))[:4]], max((it.memory for it in rows.values()), default=0))
    return TABLE + "".join(line_of(*it) for it in dearest_first(rows)) + line_of("**all**", every)
