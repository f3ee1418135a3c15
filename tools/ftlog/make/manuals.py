"""Writes the manual pages, docs/man/NAME.1: of the programs by what the pages of docs/ say of them, and of ft by the help of its tools.

tests/test_manual_page.py compares those that are there with what this would write.
"""
import argparse
import ast
import importlib
import re
import textwrap
from typing import NamedTuple

from ftlog import programs, runs
from ftlog.checks import check_docs
from ftlog.fault import Fault

FOLDER = runs.TOP / "docs" / "man"
TOOLS = runs.TOP / "tools"
WIDTH = 120  # of a line of text
KINDS = {"    ": "code", "|": "table", "- ": "list", "": "text"}  # of a block, by how it begins
CHARACTERS = str.maketrans({"\\": r"\e", "-": r"\-", "'": r"\(aq", "`": r"\(ga", "^": r"\(ha", "~": r"\(ti"})  # in code


class Part(NamedTuple):
    """A part of a manual page: the first blocks of these kinds below a heading of a page; of tables those with these columns, or all."""

    title: str
    page: str
    heading: str
    kinds: str
    columns: tuple = ()
    most: int = 99


MANUALS = {  # of each what it is for, how it is called, and its parts
    "ft": ("programs and tools around a proved model of ftrace, the kernel's function tracer", "ft NAME WORDS..\nft help [NAME]", []),
    "ftcore": ("replay a script on a proved model of ftrace, the kernel's function tracer", "", [
        Part("SYNOPSIS", "LANGUAGE.md", "The command line", "code"),
        Part("DESCRIPTION", "LANGUAGE.md", "The command line", "text list"),
        Part("FORMS", "LANGUAGE.md", "The printed forms", "table", ("form", "its lines")),
        Part("EXIT STATUS", "LANGUAGE.md", "Statuses", "text table"),
        Part("REFUSALS", "LANGUAGE.md", "Refusals", "table", ("cause", "in short"))]),
    "ftjudge": ("judge whether a log of function tracing is a legal history", "ftjudge < INPUT", [
        Part("DESCRIPTION", "JUDGE.md", "Judging a log", "text", most=2),
        Part("VERDICTS AND EXIT STATUS", "JUDGE.md", "Judging a log", "table", ("it writes", "status", "if")),
        Part("RULES", "JUDGE.md", "Judging a log", "table", ("RULE", "what fails"))]),
    "fttell": ("tell what came of a script, for programs to read", "fttell facts < INPUT\nfttell items < INPUT\nfttell steps < SCRIPT", [
        Part("FACTS", "TOOLS.md", "The facts of a script", "text code table"),
        Part("ITEMS", "TOOLS.md", "The items as JSON", "text code table"), Part("STEPS", "TOOLS.md", "Step traces", "text code")]),
    "ftoutcomes": ("find the outcomes of a script whose commands and calls race",
                   "ftoutcomes random SEED TRIES < SCRIPT\nftoutcomes search SWITCHES TRIES < SCRIPT", [
        Part("DESCRIPTION", "OUTCOMES.md", "The program", "text", most=1),
        Part("OUTCOMES", "OUTCOMES.md", "What an outcome is", "text table")]),
}


def guarded(text):
    """A text without lines that man takes for requests."""
    return re.sub(r"^(?=[.'])", r"\\&", text, flags=re.M)


def inline(text):
    """A line of a page for man: code and what is stressed in other fonts, links without their targets, ./NAME as NAME, and nothing of ./prove."""
    text = re.sub(r"\[((?:[^][]|\[[^]]*\])*)\]\([^)\s]*\)", r"\1", text.replace("\\|", "|"))
    text = " ".join(it for it in re.split(r"(?<=\.) ", re.sub(r" \(`\./prove[^)]*\)", "", text)) if "`./prove" not in it)
    pieces = re.split(r"`([^`]+)`", re.sub(r"`(?:\./|tools/)(?=ft)", "`", text))
    pieces[1::2] = [rf"\fB{piece.translate(CHARACTERS)}\fR" for piece in pieces[1::2]]
    pieces[::2] = [re.sub(r"\*+([^*]+)\*+", r"\\fI\1\\fR", piece.replace("\\", r"\e")) for piece in pieces[::2]]
    return guarded("".join(pieces))


def filled(text):
    """A paragraph, in lines of some width."""
    return guarded(textwrap.fill(inline(" ".join(text.split())), WIDTH, break_long_words=False, break_on_hyphens=False)) + "\n"


def rows(block, columns):
    """The rows of a table with these columns, each with its first cell in front."""
    for _, head, cells in check_docs.table_rows(block):
        if set(columns) <= set(head):
            (_, first), *others = [(name, cells[head.index(name)]) for name in columns or head]
            yield f".TP\n{inline(first)}\n" + ".br\n".join(filled(text if len(others) == 1 else f"{name}: {text}") for name, text in others)


def for_man(kind, block, columns=()):
    """A block for man."""
    if kind == "code":
        return f".PP\n.RS 4\n.nf\n{guarded(textwrap.dedent(block).translate(CHARACTERS))}\n.fi\n.RE\n"
    if kind == "table":
        return "".join(rows(block, columns))
    if kind == "list":
        return "".join(".IP \\(bu 3\n" + filled(item) for item in re.split("^- ", block, flags=re.M)[1:])
    return ".PP\n" + filled(block)


def blocks(text, kinds="code table list text", most=99):
    """The first blocks of a text that are of these kinds, each with its kind."""
    found = [(KINDS[re.match(r"    |\||- |", block)[0]], block) for block in re.split(r"\n[ \t]*\n", text.strip("\n"))]
    return [it for it in found if it[0] in kinds and it[1]][:most]


def text_of(part):
    """The text of a part."""
    page = (runs.TOP / "docs" / part.page).read_text()
    found = re.search(rf"^#+ {re.escape(part.heading)}\n(.*?)(?=^#|\Z)", page, re.DOTALL | re.MULTILINE)
    text = "".join(for_man(*block, part.columns) for block in blocks(found[1] if found else "", part.kinds, part.most))
    if not text:
        raise Fault(f"docs/{part.page} has no {part.kinds} for the manual page below `{part.heading}`")
    return text


def word_of(action):
    """A word of a tool: an option with its value, or what is no option."""
    value = action.metavar or (f"{{{','.join(action.choices)}}}" if action.choices else action.dest.upper())
    return " ".join([*action.option_strings[:1], *[value] * (action.nargs != 0), *[".."] * (action.nargs in ("+", "*"))])


def tool(name):
    """The text of a tool: its words, what it does, and what each word is."""
    module, parser = importlib.import_module(f"ftlog.commands.{name.replace('-', '_')}"), argparse.ArgumentParser(add_help=False)
    module.add_words(parser)
    words = [(it, word_of(it)) for it in sorted(parser._actions, key=lambda it: not it.option_strings)]
    call = " ".join(["ft", name, *(word if it.required else f"[{word}]" for it, word in words)])
    summary, _, more = module.__doc__.partition("\n")
    told = [f".TP\n{inline(f'`{word}`')}\n{filled(it.help)}" for it, word in words]
    described = [for_man(*block) for block in blocks(f"{summary.rstrip('.')}.\n{more}")]
    return f".SS {name.translate(CHARACTERS)}\n" + "".join([filled(f"`{call}`"), *described, *told])


def manual(name):
    """The manual page of a program, or of ft."""
    what, synopsis, parts = MANUALS[name]
    texts = [("NAME", f"{name} \\- {what}\n"), *[("SYNOPSIS", for_man("code", synopsis))] * bool(synopsis)]
    texts += [(part.title, text_of(part)) for part in parts]
    if name == "ft":
        tools = {path.stem.replace("_", "-") for path in (TOOLS / "ftlog" / "commands").glob("[a-z]*.py")} - set(programs.DOOR)
        described = "".join(for_man(*block) for block in blocks(ast.get_docstring(ast.parse((TOOLS / "ft").read_text()))))
        texts += [("DESCRIPTION", described), ("TOOLS", "".join(map(tool, [*programs.DOOR, *sorted(tools)])))]
    others, pages = (f"\\fB{it}\\fR(1)" for it in MANUALS if it != name), sorted({part.page for part in parts}) or ["TOOLS.md"]
    texts.append(("SEE ALSO", ", ".join([*others, *(f"\\fIdocs/{page}\\fR in the repository" for page in pages)]) + "\n"))
    shown = "".join(f".SH {title}\n{text}" for title, text in texts)
    return f'.TH {name.upper()} 1 "" "ftcore" "ftcore"\n.ad l\n' + re.sub(r"^(\.SH .*\n)\.PP\n", r"\1", shown, flags=re.M)


def add_words(parser):
    """It takes none."""


def run(options):
    """Writes them all."""
    for name in MANUALS:
        (FOLDER / f"{name}.1").write_text(manual(name), "utf-8")
