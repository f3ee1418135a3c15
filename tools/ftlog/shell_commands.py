"""The commands of a shell's text, one after the other, as far as they can be known without running them.

Quotes, variables that the text sets, `for` over words, groups, pipes and here-documents are followed. What stands within `if`, `while`,
`until`, `case`, a function, after `||`, or after a test with `&&` may run or not: such commands say so, and what they set a variable to isn't
known. What a `$(..)` or an unknown variable gives isn't known: it stands in a word between two UNKNOWN marks, as it is written.
"""
import itertools
import re
from typing import NamedTuple, Optional

from ftlog.fault import Fault

UNKNOWN = "\0"
DEPTH = 40  # of compounds within each other
COMMANDS = 100_000  # that are followed
PIPED = 100  # commands of a pipe
BYTES = 1_000_000  # of a variable

INNER = r"[^()]*(?:\([^()]*(?:\([^()]*\)[^()]*)*\)[^()]*)*"  # with pairs of brackets, three within each other
CALLED = rf"\$\({INNER}\)|`[^`]*`"
VARIABLE = r"\$\{(?:[^{}]|\$\{[^{}]*\})*\}|\$[A-Za-z_]\w*(?!\w)|\$[0-9$!?#@*-]"
DOLLAR = r"\$(?![A-Za-z_{(0-9$!?#@*-])"  # one that is itself; there is one way alone to read each, so that an open quote is found at once
DOUBLE = rf'"(?:[^"\\`$]|\\[\s\S]|{CALLED}|{VARIABLE}|{DOLLAR})*"'
SINGLE = r"\$?'[^']*'"
WORD = rf"(?:{DOUBLE}|{SINGLE}|\\[\s\S]|{CALLED}|{VARIABLE}|\$|[^\s;&|()<>'\"\\`$#]|(?<=[^\s;&|()<>])#)+"
TOKEN = re.compile(
    rf"(?P<blank>(?:[ \t\r]|\\\n)+)|(?P<comment>#[^\n]*)|(?P<newline>\n)|(?P<redirect>[0-9]*(?:<<<|<<-?|>>|>\||>&|<&|<>|>|<)|&>>?)"
    rf"|(?P<operator>&&|\|\||;;&?|;&|\|&|[;&|()])|(?P<word>{WORD})"
)
PART = re.compile(
    rf"(?P<double>{DOUBLE})|(?P<single>{SINGLE})|(?P<escaped>\\[\s\S])|(?P<called>{CALLED})|(?P<variable>{VARIABLE})|(?P<plain>[\s\S])"
)
ASSIGNED = re.compile(r"([A-Za-z_]\w*)(\+?)=([\s\S]*)")
DEFAULT = re.compile(r"\$\{([A-Za-z_]\w*)(?::?[-=]([\s\S]*))?\}")
BETWEEN = ("then", "elif", "else")
CLOSED = {"if": "fi", "for": "done", "while": "done", "until": "done", "case": "esac", "{": "}", "(": ")"}  # the compounds, and what ends each
ENDS = {*BETWEEN, "do", *CLOSED.values(), ";;", ";&", ";;&"}
DECLARING = {"export", "local", "readonly", "declare", "typeset"}
TESTS = {"[", "[[", "test", "grep"}


class Token(NamedTuple):
    """A piece of the text: its kind, as TOKEN names it, its bytes and its line. A here-document's redirect has its lines as bytes."""

    kind: str
    text: Optional[str]
    line: int


class Redirect(NamedTuple):
    """Where a stream goes or comes from: `>`, `>>`, `<`, `<<` or `<<<`, of which stream, and a word, or the lines of a here-document."""

    how: str
    stream: str
    word: str
    is_literal: bool = False  # a here-document in which nothing is replaced


class Node(NamedTuple):
    """A command as it is written, if it is a `simple` one; or commands that belong together: `for`, with its variable and words, `group`,
    `pipe`, or what may run or not, by name."""

    line: int
    what: str
    body: list
    words: list = []
    redirects: list = []
    name: Optional[str] = None


class Command(NamedTuple):
    """A command that runs, or may: `doubt` names what it is within if that isn't known. `fed` is the command before it in a pipe."""

    line: int
    words: list
    redirects: list
    doubt: Optional[str] = None
    fed: Optional["Command"] = None


def tokens(text, first=1):
    """The pieces of a text, whose first line has this number, and one for its end."""
    found, line, at, waiting = [], first, 0, []
    while at < len(text):
        match = TOKEN.match(text, at)
        if not match:
            raise Fault(f"line {line}: a quote or a bracket that isn't closed")
        kind, piece, at = match.lastgroup, match[0], match.end()
        if kind in ("redirect", "operator", "word"):
            if kind == "word" and found and found[-1].text.lstrip("0123456789") in ("<<", "<<-"):
                waiting.append(len(found))
            found.append(Token(kind, piece, line))
        line += piece.count("\n")
        if kind == "newline":
            found.append(Token("operator", "\n", line - 1))
            for number in waiting:
                body, end = here_document(found[number].text, text, at)
                found[number] = found[number]._replace(kind="here", text=body)
                line, at = line + text.count("\n", at, end), end
            waiting = []
    return [*found, Token("end", None, found[-1].line if found else first)]


def here_document(mark, text, at):
    """The lines up to one that is the mark alone, with the place after it. A `'` in front says that nothing is replaced."""
    last, lines = re.sub(r"['\"\\]", "", mark), []
    while at < len(text):
        stop = text.find("\n", at) % (len(text) + 1)
        line, at = text[at:stop].lstrip("\t"), stop + 1
        if line == last:
            break
        lines.append(line + "\n")
    return ("'" if last != mark else '"') + "".join(lines), at


class Parser:
    """Reads the pieces of a text into commands."""

    def __init__(self, pieces):
        self.pieces, self.at, self.depth = pieces, 0, 0
        self.kind, self.text, self.line = pieces[0]  # the next piece

    def next(self):
        """Goes past a piece, and gives its text."""
        text, self.at = self.text, min(self.at + 1, len(self.pieces) - 1)
        self.kind, self.text, self.line = self.pieces[self.at]
        return text

    def take(self, word, what, line):
        """Goes past a piece that has to be this one."""
        if self.text != word:
            raise Fault(f"line {line}: `{what}` without `{word}`")
        self.next()

    def skip(self, *words):
        """Goes past pieces that are one of these."""
        while self.text in words:
            self.next()

    def commands(self):
        """Those up to the next word that ends a compound, or to the end. What follows `||`, or a test with `&&`, may run or not."""
        found, doubt = [], None
        self.skip("\n", ";", "&")
        while self.text is not None and self.text not in ENDS:
            line, pipe = self.line, self.pipe()
            found.append(Node(line, doubt, [pipe]) if doubt else pipe)
            if self.text in ("&&", "||"):
                is_test = pipe.what == "simple" and pipe.words[:1] and pipe.words[0] in TESTS
                doubt = "||" if self.next() == "||" else "&&" if is_test or doubt == "&&" else None
                self.skip("\n")
            else:
                doubt = None
                self.skip("\n", ";", "&")
        return found

    def pipe(self):
        """One command, or several with `|` between them."""
        line, found = self.line, [self.command()]
        while self.text in ("|", "|&"):
            self.next()
            self.skip("\n")
            found.append(self.command())
            if len(found) > PIPED:
                raise Fault(f"line {line}: more than {PIPED} commands in a pipe")
        return found[0] if len(found) == 1 else Node(line, "pipe", found)

    def command(self):
        """A simple command or a compound, with its redirects."""
        self.skip("!")
        line, words, redirects = self.line, [], []
        is_function = self.text == "function" or self.kind == "word" and [it.text for it in self.pieces[self.at + 1 : self.at + 3]] == ["(", ")"]
        if self.kind not in ("word", "operator") or not (is_function or self.text in CLOSED):
            while self.kind in ("word", "redirect"):
                words += [self.next()] if self.kind == "word" else redirects.append(self.redirect()) or []
            if not words and not redirects:
                told = f"`{self.text}`" if self.text and self.text.strip() else "the end of a line"
                raise Fault(f"line {line}: a command is expected, and not {told}")
            return Node(line, "simple", [], words, redirects)
        self.depth += 1
        if self.depth > DEPTH:
            raise Fault(f"line {line}: more than {DEPTH} compounds within each other")
        found = self.function(line) if is_function else self.compound(self.next(), line)
        self.depth -= 1
        while self.kind == "redirect":
            redirects.append(self.redirect())
        return found._replace(redirects=redirects)

    def function(self, line):
        """A function that is defined: nothing says when it is called."""
        if self.next() == "function":
            self.next()
        self.skip("(", ")", "\n")
        return Node(line, "function", [self.command()])

    def compound(self, word, line):
        """What a word begins, up to its end. A `for` without `in` has words that aren't known."""
        name, words, what, body = None, [], "group" if word in "{(" else word, []
        if word in ("for", "case"):
            name = self.next()
            self.skip("\n")
        if word == "case":
            self.take("in", word, line)
            self.skip("\n")
            while self.text not in (CLOSED[word], None):
                while self.next() not in (")", None):
                    pass
                body += self.commands()
                self.skip(";;", ";&", ";;&", "\n")
        elif word == "for":
            what = word if self.text == "in" and name else "for without words"
            while self.text == "in" or what == word and self.kind == "word":
                words.append(self.next())
            self.skip("\n", ";")
        else:
            body += self.commands()
        while word == "if" and self.text in BETWEEN:
            self.next()
            body += self.commands()
        if CLOSED[word] == "done":
            self.take("do", word, line)
            body += self.commands()
        self.take(CLOSED[word], word, line)
        return Node(line, what, body, words[1:], name=name)

    def redirect(self):
        """A redirect with its word."""
        line, text = self.line, self.next()
        if self.kind not in ("word", "here"):
            raise Fault(f"line {line}: `{text}` without a word")
        if self.kind == "here":
            mark, *_ = lines = self.next()
            return Redirect("<<", "0", "".join(lines[1:]), mark == "'")
        how = text.lstrip("0123456789")
        stream = text[: len(text) - len(how)] or ("0" if how.startswith("<") else "1")
        return Redirect({">|": ">", "&>": ">", "&>>": ">>"}.get(how, how), stream, self.next())


ESCAPES = {"n": "\n", "t": "\t", "\\": "\\", "a": "\a", "b": "\b", "f": "\f", "r": "\r", "v": "\v", "e": "\x1b", "'": "'", '"': '"'}


def unescaped(text):
    """A text with the signs that echo -e, printf and $'..' write with a backslash; a zero byte is left out."""

    def sign(found):
        """What one of them stands for."""
        if found[3]:
            return ESCAPES.get(found[3], found[0])
        return chr(int(found[1], 8) % 256 if found[1] else int(found[2], 16)).strip("\0")

    return re.sub(r"\\(?:0?([0-7]{1,3})|x([0-9a-fA-F]{1,2})|([\s\S]))", sign, text)


def once(commands, first, count):
    """Commands for which these redirects, from this one on, are opened once: what the first command cleared the others append to."""
    for number, command in enumerate(commands):
        if number:
            own = range(first, first + count)
            again = [it._replace(how=">>") if at in own and it.how == ">" else it for at, it in enumerate(command.redirects)]
            command = command._replace(redirects=again)
        yield command


class Follower:
    """Goes through commands, keeps the variables, and gives the commands that run."""

    def __init__(self):
        self.variables, self.count = {}, 0

    def follow(self, nodes, doubt=None, redirects=()):
        """The commands of these nodes, with the redirects of what they are within. In a pipe each is fed by the one before it."""
        for node in nodes:
            if node.what == "simple":
                yield from self.simple(node, doubt, redirects)
            elif node.what == "pipe":
                fed = None
                for number, part in enumerate(node.body, 1):
                    for command in self.follow([part], doubt, redirects if number == len(node.body) else ()):
                        fed = command._replace(fed=fed)
                        yield fed
            else:
                own = self.replaced(node.redirects)
                yield from once(self.compound(node, doubt, [*redirects, *own]), len(redirects), len(own))

    def compound(self, node, doubt, redirects):
        """The commands of a compound that isn't a pipe."""
        if node.what != "for":
            yield from self.follow(node.body, doubt if node.what == "group" else doubt or node.what, redirects)
            return
        for word in [text for written in node.words for text in self.many(written)]:
            self.variables[node.name] = word
            yield from self.follow(node.body, doubt, redirects)
        if doubt:
            self.forget(node.name)

    def simple(self, node, doubt, redirects):
        """A command with its words replaced; none if it sets variables alone."""
        self.count += 1
        if self.count > COMMANDS:
            raise Fault(f"line {node.line}: more than {COMMANDS} commands to follow")
        words = [text for word in itertools.dropwhile(ASSIGNED.fullmatch, node.words) for text in self.many(word)]
        own = self.replaced(node.redirects)
        is_declaring = bool(words) and words[0] in DECLARING
        if is_declaring or not words:  # otherwise the command alone has them
            for word in filter(ASSIGNED.fullmatch, node.words):
                self.assign(word, node.line, doubt)
        if words[:1] in (["read"], ["unset"]):
            for word in words[1:]:
                self.forget(word)
        if own or words and not is_declaring:
            yield Command(node.line, words, [*redirects, *own], doubt)

    def assign(self, word, line, doubt):
        """Sets a variable. If it isn't known whether that happens, neither is what it has."""
        name, plus, value = ASSIGNED.fullmatch(word).groups()
        before = self.variable(f"${name}") if plus else ""
        self.variables[name] = before + self.one(value)
        if len(self.variables[name]) > BYTES:
            raise Fault(f"line {line}: {name} has more than {BYTES:,} bytes")
        if doubt:
            self.forget(name)

    def replaced(self, redirects):
        """Redirects with their words replaced."""
        return [it if it.is_literal else it._replace(word=self.one(it.word, it.how == "<<")) for it in redirects]

    # Words.

    def variable(self, text):
        """What a variable has, or its text as something that isn't known."""
        found = DEFAULT.fullmatch(text)
        name, default = (found[1], found[2]) if found else (text[1:], None)
        if name in self.variables:
            return self.variables[name]
        return self.one(default) if default else f"{UNKNOWN}{text}{UNKNOWN}"

    def forget(self, name):
        """What a variable has isn't known from here on."""
        self.variables[name] = f"{UNKNOWN}${name}{UNKNOWN}"

    def parts(self, word, is_quoted=False):
        """The pieces of a word, or of what stands between double quotes or in a here-document, each with whether blanks in it part words."""
        for part in PART.finditer(word):
            kind, piece = part.lastgroup, part[0]
            if kind == "called":
                piece = f"{UNKNOWN}{piece}{UNKNOWN}"
            elif kind == "variable":
                piece = self.variable(piece)
            elif kind == "escaped" and not (is_quoted and piece[1] not in '$`"\\\n'):
                piece = piece[1].replace("\n", "")
            elif kind == "double" and not is_quoted:
                piece = self.one(piece[1:-1], True)
            elif kind == "single" and not is_quoted:
                piece = unescaped(piece[2:-1]) if piece[0] == "$" else piece[1:-1]
            yield piece, kind == "variable" and not is_quoted

    def one(self, word, is_quoted=False):
        """A word as one text."""
        return "".join(text for text, _ in self.parts(word, is_quoted))

    def many(self, word):
        """The words that a word becomes: blanks of a variable without quotes part them."""
        found, is_begun = [""], False
        for text, is_parted in self.parts(word):
            is_whole = not is_parted or UNKNOWN in text
            first, *others = [text] if is_whole else re.split(r"[ \t\n]+", text)
            found[-1] += first
            found += others
            is_begun = is_begun or is_whole
        return [text for text in found if text or is_begun]


def commands(text, first=1, follower=None):
    """The commands that run, of a text whose first line has this number."""
    parser = Parser(tokens(text, first))
    nodes = parser.commands()
    if parser.text is not None:
        raise Fault(f"line {parser.line}: `{parser.text}` has no beginning")
    yield from (follower or Follower()).follow(nodes)
