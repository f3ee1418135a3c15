"""Prints docs/SIGNATURES.md, the public signatures of the library's crates, read off their sources.

The crates are those that programs on the library name, as docs/LIBRARY.md does. Of each there is what its lib.rt gives out. Of a
contract there is what it asks of the caller; what it promises is told in docs/CONTRACTS.md, and exactly in the source.
`tools/ft check docs` compares the page with what is printed here.
"""
import re

from ftlog import runs

CRATES = ("ft_base", "ft_io", "ft_hist", "func_table", "user_specs", "site_set", "site_bytes", "filter_hash", "filter_commands", "word_map",
          "ft_desk", "ft_schedule", "ft_job", "ft_machine", "ft_script", "history_check", "log_reader", "trace_print", "ring_rules",
          "trace_rings", "ring_table", "live_table", "live_seats", "live_lanes", "live_threads", "ft_app")
WIDTH = 140  # how long a line may be that the source has on several ones
GIVEN = re.compile(r"^pub use (\w+)::(?:\{([^}]*)\}|(\w+));", re.MULTILINE)
MODULE = re.compile(r"^(pub )?mod (\w+);", re.MULTILINE)
DEFINED = re.compile(r"pub (?:const (?=fn))?(fn|struct|enum|trait|const|type) (\w+)")
IMPL = re.compile(r"impl(?:<.*?>)? (?:([\w:]+)(?:<.*>)? for )?(\w+)")
CLAUSE = re.compile(r"\s*(requires|ensures)\b|[{}]")
HEAD = """# Signatures

What the crates give out that a program on the library names. [LIBRARY](LIBRARY.md) says what most of it is for, [CONTRACTS](CONTRACTS.md) what is
promised of it, and the sources in `crates/NAME/src` have both in full.

A `requires` is what a caller has to show, in the words of the crate's definitions. `..` stands for fields that are private. The ghost members of a trait
are written by whoever implements it: crates/ft_machine/src/taker.rt makes a `Taker` of a `History`, and crates/trace_print/src/kept.rt has another one.
A law is a function with an empty body, and only named here. `tools/ft signatures` has written this page.
"""


def items(lines, in_trait=False):
    """The items that these lines have, each a list of its lines, without comments and without attributes but what is derived."""
    item = []
    for line in lines:
        word = line.lstrip()
        if not word or word.startswith(("//", "#")) and not line.startswith("#[derive"):
            continue
        item.append(line)
        if line.endswith((";", "}")) and line[0] != " " or in_trait and line.endswith("};"):
            yield item
            item = []


def inner(item):
    """The lines between the braces of an item, less one indentation."""
    return [line[4:] for line in item if line.startswith("    ")]


def joined(lines):
    """These lines as one if that isn't too long."""
    flat = " ".join(line.strip() for line in lines)
    for old, new in (("( ", "("), (", )", ")"), (" )", ")"), (", }", " }")):
        flat = flat.replace(old, new)
    return [flat] if len(flat) <= WIDTH else lines


def function(item):
    """The signature of a function, and below it what it asks of its caller."""
    head, asked, place = [], [], ""
    for line in item:
        clause = CLAUSE.match(line)
        place = clause[1] or "body" if clause else place
        if not place:
            head.append(re.sub(r" \{(\})?$|;$", "", line))
            place = "body" if line.endswith("{") else ""
        elif place == "requires":
            asked += [line.strip()] if clause else []
            asked[-1] += "" if clause else " " + line.strip()
    head = joined(head)
    return [*head[:-1], head[-1] + ";", *("    " + it.rstrip(";") for it in asked)]


def is_law(item):
    """Whether a function is a law: nothing is handed to it, and its body is empty."""
    return "()" in item[0] and item[-1] == "{}"


def type_of(item):
    """An enum, or a struct with its public fields."""
    derived, rest = [line for line in item if line.startswith("#")], [line for line in item if not line.startswith("#")]
    if "struct" in rest[0] and rest[-1] == "}":
        names = [line for line in inner(rest) if line[0] not in " })"]
        known = ["    " + name for name in names if name.startswith("pub ")]
        rest = [rest[0], *known, *["    .."] * (len(known) < len(names)), "}"]
    return [*derived, *joined(rest)]


def members(item):
    """The public functions of an `impl`, or the ghost members and functions of a trait; nothing if there are none."""
    is_trait, found = item[0].startswith("pub trait"), []
    for it in items(inner(item), is_trait):
        if it[0].startswith("fn " if is_trait else "pub fn "):
            found += function(it)
        elif is_trait and not it[0].startswith("ghost use"):
            found += joined(it)
    return [item[0], *("    " + line for line in found), "}"] if found else []


def shown(item, names):
    """What the page has of an item, if it belongs to one of these names and is no law."""
    head = next(line for line in item if not line.startswith("#"))
    defined, implemented = DEFINED.match(head), IMPL.match(head)
    if implemented and implemented[2] in names:
        trait = implemented[1]
        return members(item) if not trait else [] if trait == "Model" else [head.rstrip("{} ") + " { .. }"]
    if not defined or defined[2] not in names or is_law(item):
        return []
    how = {"fn": function, "trait": members, "struct": type_of, "enum": type_of}
    return how.get(defined[1], joined)(item)


def section(crate, top):
    """The part of the page about a crate."""
    folder, laws, lines = top / "crates" / crate / "src", [], []
    text = (folder / "lib.rt").read_text()
    modules = {name: bool(public) for public, name in MODULE.findall(text)}
    given = [(found[1], re.findall(r"\w+", found[2] or found[3]), found[0]) for found in GIVEN.finditer(text)]
    lines += [" ".join(whole.split()) for module, _, whole in given if module not in modules]
    for module, is_public in modules.items():
        files = [folder / f"{module}.rt", *sorted((folder / module).rglob("*.rt"))]
        own = [item for file in files if file.exists() for item in items(file.read_text().splitlines())]
        names = {name for source, found, _ in given if source == module for name in found}
        names |= {name for item in own for _, name in DEFINED.findall("\n".join(item))} if is_public else set()
        found = [line for item in own for line in shown(item, names)]
        lines += [f"// {crate}::{module}"] * bool(found and is_public) + found
        laws += [name for item in own if is_law(item) for _, name in DEFINED.findall(item[0]) if name in names]
    told = f"\nLaws: {', '.join(f'`{it}`' for it in laws)}.\n" if laws else ""
    return f"\n## {crate}\n\n```rust\n" + "\n".join(lines) + f"\n```\n{told}"


def page(top=runs.TOP):
    """The page."""
    return HEAD + "".join(section(crate, top) for crate in CRATES)


def add_words(_parser):
    """There are no words."""


def run(_words):
    """Prints the page."""
    print(page(), end="")
