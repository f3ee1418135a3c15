"""Tries changed definitions, each of which has to make a proof fail.

If none did, nothing would notice the change. The changes are in definitions.txt, beside this file. A line `# FILE` names a file of definitions
for the changes below it. A change is a line with the definition's name and, after a colon, where the
prover refuses the change, of several places the most telling; then `old: ` with a text that comes once
in that file; then `new: ` with what is put in its place. Both texts may go on over several lines. A definition that decides nothing by itself
says why after `not refused`. Lines that begin with `-- `, apart from these, are for who reads.

Each change is made in a copy of the repository, and `rt check` is run in the file's crate and in the
crates above it that CRATES names, until one isn't proved. That takes some minutes a change, on one
processor, after the libraries below are built. NAMES are names of definitions; without any, all are
tried.
"""
import pathlib
import re
import shutil
import subprocess
import tempfile

from ftlog import runs
from ftlog.fault import Fault

CHANGES = pathlib.Path(__file__).with_suffix(".txt")
CRATES = {  # where a change is noticed; of another crate, the crate itself
    "ft_base": ["ft_base", "ft_hist", "word_machine", "word_samples", "word_machine_laws"],
    "ft_hist": ["ft_hist", "word_machine", "word_samples", "word_machine_laws"],
    "word_machine": ["word_machine", "word_samples", "word_machine_laws"],
}
FAULT = re.compile(r"((?:proofs|specs|src)/[\w/]*)\.(?:antt|rt):\d+:\d+: error(?!: \d+ declarations? that depends? on)")


def read_changes(text):
    """The changes of a text: file, name, where it is refused, the old text and the new one.

    >>> read_changes("# F\\n\\n-- why\\nname: place\\nold: a\\nnew: b\\n-- c\\n")
    [{'file': 'F', 'name': 'name', 'place': 'place', 'old': 'a', 'new': 'b\\n-- c'}]
    """
    found, file, part = [], None, None
    for line in text.splitlines():
        if line.startswith("# "):
            file, part = line[2:], None
        elif line.startswith(("old: ", "new: ")):
            part = line[:3]
            found[-1][part] = line[5:]
        elif line == "":
            part = None
        elif part:
            found[-1][part] += "\n" + line
        elif not line.startswith("-- "):
            name, _, place = line.partition(": ")
            found.append({"file": file, "name": name, "place": place})
    return found


def places_in(crate, output):
    """Where the prover finds a fault of its own in a crate, by what it prints; the crate, if it names no place.

    >>> places_in("c", "./proofs/A.antt:1:2: error: x\\n./proofs/B.antt:3:1: error: 2 declarations that depend on `a`, ..")
    ['c/proofs/A']
    """
    return [f"{crate}/{place}" for place in dict.fromkeys(FAULT.findall(output))] or [crate]


def crates_of(change):
    """The crates in which a change is tried."""
    crate = change["file"].split("/")[1]
    return CRATES.get(crate, [crate])


def refused_in(room, change):
    """Where the prover refuses a change that is made in this copy: in the first crate that isn't proved, if there is one. The copy is then as before."""
    path = room / change["file"]
    text = path.read_text()
    if text.count(change["old"]) != 1:
        raise Fault(f"{change['name']}: its old text doesn't come exactly once in {change['file']}")
    path.write_text(text.replace(change["old"], change["new"]))
    try:
        for crate in crates_of(change):
            done = subprocess.run(["rt", "check", "--jobs", "1"], cwd=room / "crates" / crate, capture_output=True, text=True)
            if done.returncode:
                return places_in(crate, done.stdout + done.stderr)
        return ["not refused"]
    finally:
        path.write_text(text)


def add_words(parser):
    """Adds the words of the command."""
    parser.add_argument("names", nargs="*", metavar="NAME", help="a definition, as definitions.txt names it")


def run(words):
    """Tries the changes, and prints a line for each."""
    names, known = words.names, {it["name"].split(",")[0] for it in read_changes(CHANGES.read_text())}
    for name in names:
        if name not in known:
            raise Fault(f"no change of {name[:40]} is in {CHANGES.name}")
    changes = [it for it in read_changes(CHANGES.read_text()) if not names or it["name"].split(",")[0] in names]
    runs.want_words("rt")
    other = 0
    with tempfile.TemporaryDirectory() as folder:
        room = pathlib.Path(folder) / "copy"
        shutil.copytree(runs.TOP, room, ignore=shutil.ignore_patterns("out", ".git"))
        for change in changes:
            places = refused_in(room, change)
            as_said = change["place"].split(":")[0] in places
            other += not as_said
            print(f"{change['name']}: {', '.join(places)}" + ("" if as_said else f", which should be: {change['place']}"), flush=True)
    print(f"{len(changes) - other} as said, {other} otherwise")
    return 1 if other else 0
