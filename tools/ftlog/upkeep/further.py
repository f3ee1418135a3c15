"""Tries the further wrong bodies of crates, each of which has to be refused.

`rt ci` tries the edits of each crate's must-fail/. Beside them a crate may have more in further/, of the same form, which
the whole check leaves out, since an edit costs it 10 to 40 seconds. Whoever changes a crate tries its further edits by this:
`rt ci` tries them in a copy of the repository, in which they are those of must-fail/. With no NAME all crates that have such
edits are tried; what they stand on is proved first, if it isn't kept on this machine.

The last line is `further: N passed, M failed`, and the status is 0 if nothing failed.
"""
import pathlib
import re
import subprocess
import tempfile

from ftlog import runs
from ftlog.fault import Fault
from ftlog.proving import crate_list, side_by_side

RESULT = re.compile(r"rt: (?:must-fail )?(\w+/[\w.-]+\.edit): (.*)")
NOT_PROVED = re.compile(r"rt: \w+ NOT PROVED")
REFUSED = "refused, as it must be"


def edits_of(name, top=crate_list.TOP):
    """The further edits of a crate, in order."""
    return sorted((top / "crates" / name / "further").glob("*.edit"))


def try_edits(names, room):
    """Tries the further edits of these crates in a copy, says the results as they come, and gives them by edit."""
    crate_list.copy_repository(room, names, extra=["further"])
    for name in names:
        (room / "crates" / name / "further").rename(room / "crates" / name / "must-fail")
    said = {}
    how = {"env": side_by_side.environment(), "stdout": subprocess.PIPE, "stderr": subprocess.STDOUT, "text": True}
    with subprocess.Popen(["rt", "ci"], cwd=room, **how) as tried:
        for line in tried.stdout:
            found = RESULT.match(line)
            if found:
                said[found[1]] = found[2]
            if found or NOT_PROVED.match(line):
                print(line, end="", flush=True)
    return said


def add_words(parser):
    """Adds the words of the command."""
    parser.add_argument("names", nargs="*", metavar="NAME", help="a crate that has further edits")


def run(words):
    """Tries the edits of the crates that are named, or of all, and counts them."""
    have = [name for name in crate_list.read_crates() if edits_of(name)]
    unknown = [name for name in words.names if name not in have]
    if unknown:
        raise Fault(f"there is no crate {unknown[0]} with further edits")
    runs.want_words("rt")
    names = [name for name in have if name in words.names or not words.names]
    with tempfile.TemporaryDirectory(prefix="further-") as folder:
        said = try_edits(names, pathlib.Path(folder) / "copy")
    wanted = [f"{name}/{it.name}" for name in names for it in edits_of(name)]
    failed = [edit for edit in wanted if not said.get(edit, "").startswith(REFUSED)]
    for edit in failed:
        print(f"further: FAILED: {edit}: {said.get(edit, 'it was not tried')[:200]}")
    print(f"further: {len(wanted) - len(failed)} passed, {len(failed)} failed")
    return 1 if failed else 0
