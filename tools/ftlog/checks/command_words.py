"""Words of the command line, in its language and not, each run by the program.

They are those of the tables of docs/LANGUAGE.md and those of the lists below. Words that aren't in the language give None in place of
an order.
"""
import functools
import os
import re
import shlex
import tempfile
from typing import NamedTuple, Optional

from ftlog import runs
from ftlog.checks import check_docs, judging

EXAMPLE = "realistic"  # of examples/: it has a text in each form, and these differ
BAD_WORDS = ["''", "replay ''", "'' replay", "bulk ''", "'' bulk", "replay 'replay '", "replay --print ' log'", "replay '--print log'"]
BAD_WORDS += ["run ''", "'run '", "replay '--print= log'", "bulk --seed '1\n'", "bulk '--seed 1'", "replay \u00e9", "r\u00e9play", "bulk --seed \u0661", "bulk --seed 1.0"]
NOT_TEXT = [[b"\xff"], [b"replay\xff"], [b"\xff", b"replay"], [b"replay", b"\xff"], [b"replay", b"--print", b"log\x80"]]
NOT_TEXT += [[b"--print=log", b"--", b"replay", b"\xc3"], [b"replay", b"\xc0\xaf"], [b"replay", b"\xed\xa0\x80"], [b"bulk", b"--seed", b"1\xff"]]
HUGE = [["replay"] * 1000, ["bulk", *["--seed", "1"] * 1000], ["replay", "x" * 100_000], ["bulk", "--seed", "0" * 100_000]]
GOOD = """
replay --print=log; replay --print=function; replay --print graph; replay --print=graph; replay --print profile; replay --print enabled; replay --print=enabled
replay --print modules; replay --print rings; replay --print=rings; --print graph replay; --print graph -- replay; --print graph replay --; replay --print graph --
--print=enabled replay; --print=enabled -- replay; --print=enabled replay --; replay --print=enabled --; run --; run --print=log; run --print function
run --print graph; run --print=graph; run --print=profile; run --print enabled; run --print=rings; --print graph run; --print graph -- run; --print=enabled run --
run --print=enabled --; -- bulk; bulk --; bulk --seed=7; --seed 7 bulk; --seed 7 bulk --; bulk --seed 7 --; --seed=7 -- bulk; --seed=7 bulk --; bulk --seed=7 --
bulk --seed=0; bulk --seed 1; bulk --seed 007; bulk --seed=007; bulk --seed 999999999; bulk --seed 1000000000; bulk --seed 1234567890; bulk --seed 0123456789
bulk --seed 0000000000; bulk --seed=0000000001; bulk --seed 4294967295; bulk --seed=4294967295
"""
BAD = """
Run; Replay; repla; Bulk; 'bulk '; --; --print log; --seed 1; replay -h; replay --help; bulk --help; run replay; run run; run --help; bulk bulk; run -- run
-- run --; -- run --print log; replay -- replay; replay -- --; -- replay --; -- replay --print log; -- bulk --seed 1; replay -- --print=log; bulk -- --seed=1
--seed -- bulk; replay --print -- log; bulk --seed -- 1; replay --prin log; bulk --see 1; bulk -s 1; replay --print=log --print=log; run --print=log --print=log
replay --print log --print graph; bulk --seed=1 --seed=1; replay --print log -- -- replay; --print log -- replay -- -- --; replay a b c d e f g h i j
replay --print ''; replay --print xml; replay --print Log; replay --print lo; replay --print logs; replay '--print=log '; replay --print==log
replay --print functions; replay --print module; replay --print 1; run --print; run --print=; run --print xml; bulk --seed ''; bulk --seed -1; bulk --seed=+1
bulk --seed=-1; bulk --seed '1 '; bulk --seed 0x1; bulk --seed 1_000; bulk --seed one; bulk --seed=4294967296; bulk --seed 9999999999; bulk --seed=00000000000
bulk --seed 12345678901; bulk --seed 18446744073709551617; run --seed=1; replay --print log --seed 1; run --print log --seed 1; bulk --print=log --seed=1
"""


class Order(NamedTuple):
    """What words order: a mode, with a form or a seed."""

    mode: str
    form: Optional[str] = None
    seed: Optional[int] = None


def order_of(words):
    """The order of words that are in the language."""
    said = dict(re.findall(r"--(print|seed)[ =](\S+)", " ".join(words)))
    mode = next(word for word in words if word in ("replay", "run", "bulk"))
    return Order(mode, seed=int(said.get("seed", 1))) if mode == "bulk" else Order(mode, form=said.get("print", "log"))


def page_words(rows, page):
    """The words of the page's tables with the columns `words` and `in the language`."""
    found = [row for row in check_docs.table_rows(page.read_text()) if row[1][:2] == ["words", "in the language"]]
    if {cells[1].startswith("yes") for _, _, cells in found} != {True, False}:
        rows.row(page.name, ["no table has the words that are in the language and those that aren't"])
    for number, _, cells in found:
        for words, _ in re.findall(r"`([^`]*)`|(no words)", cells[0]):
            words = shlex.split(words)
            yield f"{page.name}, line {number}", words, order_of(words) if cells[1].startswith("yes") else None


def listed_words():
    """The words of the blocks above, where `; ` or a line's end stands between two lists."""
    for name, block in (("good", GOOD), ("bad", BAD)):
        for words in re.split("; |\n", block.strip("\n")):
            yield name, shlex.split(words), order_of(shlex.split(words)) if name == "good" else None


def other_words():
    for words in BAD_WORDS:
        yield "text", shlex.split(words), None
    for words in NOT_TEXT:
        yield "not text", words, None
    for words in HUGE:
        yield "many or long", words, None


@functools.cache
def summary(program, seed):
    """The summary of this seed, as the plainest words order it. docs/LANGUAGE.md has that of one; that each counts its script's history is proved."""
    came = runs.answer([program, "bulk", "--seed", str(seed)])
    return came.out if came.out.startswith(b"seed %d\n" % seed) else b""


def end_faults(came):
    """What is wrong with the answer to a script that is accepted and comes to its end."""
    return runs.faults(came, 0) or ["the last line isn't end"] * (not f"\n{came.out.decode('latin-1')}".endswith("\nend\n"))


def run_faults(came, form, script):
    """The same of a run by threads, which may go in any order; a log is judged whole."""
    return end_faults(came) or (judging.run_faults(script, came.out) if form == "log" else [])


def answer_of_file(command, text):
    """The answer to an input that is a file, and whether some of it was read."""
    with tempfile.TemporaryFile() as source:
        source.write(text)
        source.flush()
        source.seek(0)
        came = runs.answer(command, stdin=source)
        return came, os.lseek(source.fileno(), 0, os.SEEK_CUR) > 0


def try_words(rows, program, example, name, words, order):
    """Words that order a replay have the script replayed in that form, and those that order a run have it run; with others nothing is
    read, and `bulk` prints its summary."""
    script = example.with_suffix(".ft").read_bytes()
    came, was_read = answer_of_file([program, *words], script)
    if order is None:
        found = runs.faults(came, 2, b"")
    elif order.mode == "run":
        found = run_faults(came, order.form, script)
    elif order.mode == "replay":
        found = runs.faults(came, 0, example.with_suffix("." + order.form).read_bytes())
    else:
        found = runs.faults(came, 0, summary(program, order.seed))
    if (order is None or order.mode == "bulk") and was_read:
        found.append("the input was read")
    rows.row(name, found, came.seconds)


def check_judge(rows, judge, example):
    """A row for words that ftjudge is given: with any of them it ends with status 2, and reads and writes nothing."""
    text = judging.input_of(example.with_suffix(".ft").read_bytes(), example.with_suffix(".log").read_bytes())
    for words in [], ["--help"], [""], [b"\xff"], ["x", "y"]:
        came, was_read = answer_of_file([judge, *words], text)
        found = runs.faults(came, 2, b"") if words else runs.faults(came, 0, b"whole\n")
        if was_read == bool(words):
            found.append("the input was read" if was_read else "the input was not read")
        rows.row(f"words of ftjudge: {words or 'none'}", found, came.seconds)


def check(rows, program, top):
    """A row for each list of words, and for those of ftjudge."""
    lists = [*page_words(rows, top / "docs" / "LANGUAGE.md"), *listed_words(), *other_words()]
    for where, words, order in lists:
        said = " ".join(words) if where != "not text" else repr(b" ".join(words))
        try_words(rows, program, top / "examples" / EXAMPLE, f"words: {said[:80] or 'none'} ({where})", words, order)
    check_judge(rows, judging.JUDGE, top / "examples" / "first_path")
