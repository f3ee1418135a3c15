"""What the pages name has to be there: links with their anchors, files, crates, functions, laws and edits; a figure that stands on
several pages is the same on each; and README.md's list of what is trusted has the crates of the kit that ours stand on, and the files
whose constants definitions take, and no others. check_docs.py counts what is found here."""
import re

from ftlog.proving import crate_list

LINK = re.compile(r"\]\(([^)\s]+)\)")
CODE = re.compile(r"`([^`\n]+)`")
BLOCK = re.compile(r"^```.*?^```$", re.DOTALL | re.MULTILINE)
FILE = re.compile(r"(?:tools|docs|examples|crates|\.ci)/[\w./-]*\w")
PATH = re.compile(r"(\w+)((?:::\w+)+)")
EDIT = re.compile(r"(\w+)/(\w+)")
NOT_THERE = re.compile(r"NAME|CRATE|/[A-Z]\b")  # what stands for any name
LISTED = re.compile(r"of the crates ((?:`\w+`(?:, | and )?)+)")
CONSTANTS = re.compile(r"Rattle\.(\w+)\.specs\.declared\.([\w.]+)\.TheConstants")
DEFINED = re.compile(r"\b(?:fn|struct|enum|trait|type|const|static|mod)\s+(\w+)|\b(?:pub )?use [^;]*?(\w+)[;,}]")
FIGURES = {
    "the minutes of ./prove": r"\babout (\d+) minutes on four processors",
    "the bytes that a script may have": r"(?:at most|more than) (\d+,\d+,\d+) bytes",
    "random scripts in an hour": r"(\d+,\d+) random scripts went through",
    "the kit": r"(rattle-kit-\w+ logic [0-9a-f]+)",
}


def slug(heading):
    """The anchor of a heading."""
    text = re.sub(r"[`*]|\]\([^)]*\)|\[", "", heading.strip().lower())
    return re.sub(r"\s", "-", re.sub(r"[^\w\s-]", "", text))


def anchors(text):
    """The anchors of a page."""
    return {slug(line.lstrip("#")) for line in BLOCK.sub("", text).splitlines() if line.startswith("#")}


def links(path, top):
    """What is wrong with the links of a page; those to other places of the net aren't looked at."""
    for target in LINK.findall(BLOCK.sub("", path.read_text())):
        if "://" in target:
            continue
        name, _, anchor = target.partition("#")
        page = (path.parent / name).resolve() if name else path
        if not page.exists() or top not in (page, *page.parents):
            yield f"there is no {target}"
        elif anchor and anchor not in anchors(page.read_text()):
            yield f"there is no heading for {target}"


class Names:
    """What the crates define, by crate, and their edits."""

    def __init__(self, top):
        self.top, self.crates = top, crate_list.read_crates(top)
        self.defined = {}

    def has(self, crate, name):
        """Whether a file of the crate's code defines this name, or gives it out."""
        if crate not in self.defined:
            files = sorted((self.top / "crates" / crate / "src").rglob("*.rt"))
            found = DEFINED.findall("\n".join(file.read_text() for file in files))
            self.defined[crate] = {name for pair in found for name in pair if name} | {file.stem for file in files}
            self.defined[crate] |= set(re.findall(r"\b(\w+)\b", " ".join(self.uses(files))))
        return name in self.defined[crate]

    @staticmethod
    def uses(files):
        """The lines by which files give out names of others."""
        return [it for file in files for it in re.findall(r"pub use [^;]*;", file.read_text())]

    def fault(self, code):
        """What is wrong with a piece of code of a page, if it names something that isn't there."""
        file, path, edit = FILE.fullmatch(code), PATH.match(code), EDIT.fullmatch(code)
        if file and not NOT_THERE.search(code) and not (self.top / code).exists():
            return f"there is no {code}"
        if path and path[1] in self.crates and not self.has(path[1], path[2].split("::")[-1]):
            return f"{path[1]} has no {path[2].split('::')[-1]}"
        if edit and edit[1] in self.crates and not self.is_in(*edit.groups()):
            return f"there is no edit {code}"
        return None

    def is_in(self, crate, name):
        """Whether the crate has such an edit, or such a folder or file of definitions, proofs or code."""
        folder = self.top / "crates" / crate
        parts = [folder / part / f"{name}.edit" for part in ("must-fail", "further")]
        return any(it.exists() for it in [*parts, folder / name])


def contracts(path, names):
    """What the rows of CONTRACTS.md name and a crate hasn't."""
    crate = None
    for line in path.read_text().splitlines():
        cells = [cell.strip() for cell in line.split("|")[1:-1]]
        if len(cells) != 3 or not (cells[0] in names.crates or cells[0] == ""):
            continue
        crate = cells[0] or crate
        for code in CODE.findall(cells[1]) if crate else ():
            name = re.split(r"::|\(", code)[-1]
            if not names.has(crate, name) and not any(names.has(it, name) for it in names.crates[crate][1]):
                yield f"{crate} has no {name}"


def trusted(text, names):
    """What README.md's list of what is trusted hasn't, or has and shouldn't."""
    part = text.partition("## What is trusted\n")[2]
    kit = {name for line, _ in names.crates.values() for name in line.partition(":")[2].split()} - names.crates.keys()
    specs = [path.read_text() for path in sorted((names.top / "crates").glob("*/specs/**/*.antt"))]
    files = {f"{crate}/src/{file.replace('.', '/')}.rt" for spec in specs for crate, file in CONSTANTS.findall(spec)}
    listed = LISTED.search(part)
    said = set(CODE.findall(listed[1])) if listed else set()
    for what, wanted, named in (("a crate of the kit", kit, said), ("a file of constants", files, {it for it in CODE.findall(part) if it.endswith(".rt")})):
        yield from (f"{name} isn't named, {what}" for name in sorted(wanted - named))
        yield from (f"{name} isn't {what} that is trusted" for name in sorted(named - wanted))


def figures(pages):
    """What is wrong with the figures that several pages have."""
    for what, form in FIGURES.items():
        found = [(path.name, value) for path in pages for value in re.findall(form, path.read_text())]
        if len({value for _, value in found}) > 1:
            yield f"{what}: {', '.join(f'{value} in {name}' for name, value in found)}"


def check(rows, top, pages):
    """A row for each page, one for the rows of contracts, one for what is trusted, and one for the figures."""
    names = Names(top)
    for path in pages:
        codes = CODE.findall(BLOCK.sub("", path.read_text()))
        rows.row(f"{path.name}: what it names", [*links(path, top), *filter(None, map(names.fault, codes))])
    rows.row("CONTRACTS.md: its rows", list(contracts(top / "docs" / "CONTRACTS.md", names)))
    rows.row("README.md: what is trusted", list(trusted((top / "README.md").read_text(), names)))
    rows.row("figures of several pages", list(figures(pages)))
