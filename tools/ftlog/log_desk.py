"""What the call site of each function is meant to be, after each command of a script.

The rules are those of docs/RULES.md, "Users and matching" and "Commands and answers", and of docs/LANGUAGE.md, "Filter texts" and "Modules
that come and go". What is drawn goes by the answers of the log.
"""
from typing import List, NamedTuple, Optional, Tuple

from ftlog import filters

NOP, LIST = "nop", "list"  # besides these, `own U`, as the log has it
HIDE = "hide"  # what a command does that keeps functions out of a user's sight: `hide`, the user, and their numbers
LOADED, AWAY = "loaded", "not loaded"  # what a module is


class Desk:
    """Who is registered, who of them has a trampoline, and which functions each user's filter and notrace set have.

    On the desk a notrace set holds the functions of the modules that aren't loaded, too; here these are apart, `hidden`.
    """

    def __init__(self, script):
        self.functions, self.slots, self.users = script.functions, script.slots, script.users
        self.sets = {"filter": {user: set() for user in script.users}, "notrace": {user: set() for user in script.users}}
        self.hidden = dict.fromkeys(script.users, frozenset())
        self.registered = {}  # whether each registered user found a free slot, and so has a trampoline of its own
        self.matched = {}  # the numbers of the functions that a registered user matches
        self.listed = filters.FunctionList(self.functions)

    def carry_out(self, word, *words):
        """A command that is accepted."""
        if word == "register":
            self.registered[words[0]] = sum(self.registered.values()) < self.slots
        elif word == "unregister":
            self.registered.pop(words[0], None)
            self.matched.pop(words[0], None)
        elif word in self.sets:
            self.sets[word][words[0]] = self.edited(word, *words)
        elif word == HIDE:
            self.hidden[words[0]] = words[1]
        if words and words[0] in self.registered:
            self.matched[words[0]] = self.matching(words[0])

    def edited(self, word, user, mode, text=None):
        """A set after an edit: `>` starts from the empty set and `>>` from the set as it is; without a text the set is cleared."""
        before = self.sets[word][user] if mode == ">>" else set()
        if text is None:
            return set()
        return before - self.selected(text) if text.startswith("!") else before | self.selected(text)

    def selected(self, text):
        """The functions that a filter text selects."""
        return self.listed.selected(filters.read_text(text))

    def matching(self, user, **others):
        """An empty filter means all functions, and the notrace set wins. Other sets may stand in the place of the user's, or of what is hidden."""
        sets = {"filter": self.sets["filter"][user], "notrace": self.sets["notrace"][user], "hidden": self.hidden[user], **others}
        return (sets["filter"] or set(range(len(self.functions)))) - sets["notrace"] - sets["hidden"]

    # The answers.

    def answer(self, word, *words):
        """That of a command on this desk."""
        if word in ("pid", "nopid", "maxdepth"):
            return "ok"
        user = words[0]
        if word in self.sets:
            return self.answer_of_edit(word, *words)
        if word == "register":
            return "already" if user in self.registered else self.claim(user)
        if user not in self.registered:
            return "not-there"
        return "ok" if word == "unregister" or self.users[user].kind == "fprobe" else "invalid"

    def answer_of_edit(self, word, user, mode, text=None):
        """That of a command which edits a set."""
        if text is not None and not self.selected(text):
            return "no-match"
        return self.claim(user, **{word: self.edited(word, user, mode, text)}) if user in self.registered else "ok"

    def claim(self, user, **others):
        """The answer for a user that is registered or would be, with these sets: one that replaces functions can't share them."""
        if not self.users[user].is_replacing:
            return "ok"
        if not (others.get("filter", self.sets["filter"][user]) and self.users[user].has_regs):
            return "invalid"
        matched = {other: self.matched[other] for other in self.replacing() if other != user}
        shared = self.matching(user, **others).intersection(set().union(*matched.values()))
        return self.busy(min(shared), matched) if shared else "ok"

    def clash(self, hidden):
        """The answer of a load after which these functions are hidden."""
        matched = {user: self.matching(user, hidden=hidden) for user in self.replacing()}
        shared = [number for number in range(len(self.functions)) if sum(number in numbers for numbers in matched.values()) > 1]
        return self.busy(shared[0], matched) if shared else "ok"

    def replacing(self):
        """The registered users that replace functions, in the order of their lines."""
        return [user for user, told in self.users.items() if told.is_replacing and user in self.registered]

    def busy(self, number, matched):
        """The answer where one of these users has this function already."""
        return f"busy {self.functions[number].name} {next(user for user, numbers in matched.items() if number in numbers)}"

    # The sites.

    def target(self, number):
        """What the site of a function is meant to be, by the users that are registered and match it, enabled or not."""
        sited = [user for user, matched in self.matched.items() if number in matched]
        if not sited:
            return NOP
        return f"own {sited[0]}" if len(sited) == 1 and self.registered[sited[0]] else LIST

    def targets(self):
        """Those of all functions."""
        return [self.target(number) for number in range(len(self.functions))]


CHANGES_SITES = ("register", "unregister", "filter", "notrace", HIDE)  # the commands that may


def is_carried_out(command):
    """Whether a command of a log changes what sites are meant to be; one that hasn't returned counts as accepted."""
    return command.note in (None, "ok") and command.words[0] in CHANGES_SITES


class Sites:
    """Follows which users are sited at each function, command by command, so that only the sites that change are looked at.

    Functions whose sites were the same so far share a past: the number of the last command that changed them, their target since then,
    and the past before.
    """

    def __init__(self, script):
        self.desk, count = Desk(script), len(script.functions)
        self.users = list(script.users)
        self.sited = [0] * count  # how many users are sited at each function
        self.sums = [0] * count  # and the sum of their numbers, which is the number of the one if there is one
        self.pasts = [(0, NOP, None)] * count

    def target(self, number):
        """That of a function, as Desk.target has it."""
        if not self.sited[number]:
            return NOP
        user = self.users[self.sums[number]] if self.sited[number] == 1 else None
        return f"own {user}" if user is not None and self.desk.registered[user] else LIST

    def carry_out(self, number, words):
        """The command with this number, counted from 1."""
        before = self.desk.matched.get(words[1], set())
        self.desk.carry_out(*words)
        after, user = self.desk.matched.get(words[1], set()), self.users.index(words[1])
        for functions, by in ((before - after, -1), (after - before, 1)):
            for function in functions:
                self.sited[function] += by
                self.sums[function] += by * user
        self.split(number, before ^ after)

    def split(self, number, changed):
        """These functions have other users now, and maybe other targets. Those that had one past and have one target go on sharing one."""
        found = {}
        for function in changed:
            past, target = self.pasts[function], self.target(function)
            if target != past[1]:
                self.pasts[function] = found.setdefault((id(past), target), (number, target, past))


class Alike(NamedTuple):
    """Functions whose sites are alike throughout, and their targets: each with the number of the command that makes it so."""

    numbers: List[int]
    targets: List[Tuple[int, str]]


def alike(script, commands):
    """All functions of a script, those whose sites are alike together, in the order of their first ones."""
    sites, found = Sites(script), {}
    for number, command in enumerate(commands, 1):
        if is_carried_out(command):
            sites.carry_out(number, command.words)
    for number, past in enumerate(sites.pasts):
        found.setdefault(id(past), ([], past))[0].append(number)
    return [Alike(numbers, targets_of(past)) for numbers, past in found.values()]


def targets_of(past):
    """The targets of a past, the first one first."""
    found = []
    while past is not None:
        number, target, past = past
        found.append((number, target))
    return found[::-1]


class Span(NamedTuple):
    """A site from a command's end to the next one's begin, or, with `later`, while a command that changes it is under way; so too a module.

    The places are those of the first item in it, None for the start, and of the first after it, None for the end.
    """

    begin: Optional[int]
    end: Optional[int]
    target: str
    later: Optional[str] = None


def spans(commands, targets):
    """The spans of a site that has these targets, in order."""
    found, since = [], None
    for (_, before), (number, after) in zip(targets, targets[1:]):
        command = commands[number - 1]
        over = None if command.end is None else command.end + 1
        found.append(Span(since, command.begin, before))
        found.append(Span(command.begin, over, before, after))
        since = over
    if not found or since is not None:
        found.append(Span(since, None, targets[-1][1]))
    return found


def module_spans(script, commands, module):
    """The spans of a module, in order. It changes from the begin of a line's first command to the return of its last."""
    found, since, now = [], None, AWAY if module in script.absent else LOADED
    for line in script.module_lines:
        if (line.module, line.answer) != (module, "ok") or line.first >= len(commands):
            continue
        later = LOADED if line.word == "load" else AWAY
        over = commands[line.last].end + 1 if line.last < len(commands) and commands[line.last].end is not None else None
        found += [Span(since, commands[line.first].begin, now), Span(commands[line.first].begin, over, now, later)]
        since, now = over, later
    if not found or since is not None:
        found.append(Span(since, None, now))
    return found
