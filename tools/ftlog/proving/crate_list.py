"""The crates of the repository, as crates.txt has them, and copies of some of them."""
import pathlib
import shutil

TOP = pathlib.Path(__file__).resolve().parents[3]
PROGRAMS = ("ftcore", "ftjudge", "fttell", "ftoutcomes")  # the crates that are programs for users, the first one above all
PARTS = ("src", "specs", "proofs")  # what a proof reads of a crate
STREAMS = ("args", "stdin", "stdout", "status", "data")  # what a program is run on


def read_crates(top=TOP):
    """The line of each crate, and the crates of the repository that it names, by the crate's name, in the order of crates.txt."""
    lines = [line.split("#")[0].strip() for line in (top / "crates.txt").read_text().splitlines()]
    heads = {line.partition(":")[0].split()[0]: line for line in lines if line}
    return {name: (line, [it for it in line.partition(":")[2].split() if it in heads]) for name, line in heads.items()}


def with_those_below(crates, names):
    """These crates and all that they stand on, in the order of crates.txt."""
    wanted, left = set(), list(names)
    while left:
        name = left.pop()
        if name not in wanted:
            wanted.add(name)
            left += crates[name][1]
    return [name for name in crates if name in wanted]


def copy_repository(to, names, extra=(), top=TOP):
    """Makes a repository in the folder `to` of these crates and those below them: what proofs read of them, what a program
    is run on, and the folders `extra`. Gives the names of its crates."""
    crates = read_crates(top)
    found = with_those_below(crates, names)
    (to / ".git").mkdir(parents=True)  # by which `rt ci` knows the top of a repository
    (to / "crates.txt").write_text("".join(crates[name][0] + "\n" for name in found))
    shutil.copy(top / "HANDLES", to / "HANDLES")
    for name in found:
        for part in (*PARTS, *STREAMS, *extra):
            source, copy = top / "crates" / name / part, to / "crates" / name / part
            if source.is_dir():
                shutil.copytree(source, copy)
            elif source.is_file():
                shutil.copy(source, copy)
    return found
