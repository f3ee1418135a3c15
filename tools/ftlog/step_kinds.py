"""What each kind of step does, and why it is there: who could be harmed without it (docs/PROTOCOL.md).

The sentences stand once, in KINDS. In what a step does, `{value}` is what the word holds then, in words, and `{owner}` is whose word it is.
"""
from typing import NamedTuple

PROTOCOL, LANGUAGE, RULES = "PROTOCOL.md", "LANGUAGE.md", "RULES.md"
SITE, SYNC, QUIET = PROTOCOL + "#how-a-site-is-changed", PROTOCOL + "#the-cpus-side-of-a-sync", PROTOCOL + "#the-wait-for-quiet-points"
LIST, COPIES, TRAMPOLINES = PROTOCOL + "#the-list-of-users", PROTOCOL + "#the-two-copies-of-a-users-sets", PROTOCOL + "#trampolines"
COMMANDS, TESTS, LOCK = PROTOCOL + "#the-commands", PROTOCOL + "#the-order-of-the-tests", PROTOCOL + "#several-lanes-one-lock"
STEP, HISTORY, DESK = LANGUAGE + "#one-step", RULES + "#histories-ft_histspecs", RULES + "#commands-and-answers-answer_on-changed-desk"


class Kind(NamedTuple):
    """A kind of step: what it does, why it is there, and where the pages tell more."""

    does: str
    why: str
    link: str


KINDS = {
    # Control: the commands.
    "begin": Kind(
        "marks the begin of a command",
        "Commands go one at a time, so each finds the words as the one before it left them. A call whose window reaches this item "
        "may go by this command.",
        LOCK),
    "return": Kind(
        "marks the return of the command",
        "From here on whoever gave the command relies on it: nobody uses any more what it took away.",
        DESK),
    "until": Kind(
        "looks how far task {owner} is: {value}",
        "This is `ctl until` of the script: control loads the word again in each turn until the task has told that it has finished "
        "enough acts.",
        STEP),
    "tramp-take": Kind(
        "gives trampoline {owner} to {value}",
        "The word tells a task in the trampoline whose it is. It is stored before any site calls the trampoline; later, a task "
        "would come there, load 0, and find nobody.",
        TRAMPOLINES),
    "tramp-free": Kind(
        "frees trampoline {owner}",
        "This comes after the wait for quiet points. Before it, a task that has fetched the call of the trampoline would load 0, "
        "and find nobody.",
        TRAMPOLINES),
    "bits": Kind(
        "writes 64 bits of {owner}: {value}",
        "The copy that isn't in use is written. In the copy in use, a walker would read words of two states, and pass over a user "
        "that selected the function before and after.",
        COPIES),
    "sel-register": Kind(
        "switches {owner} on: {value}",
        "The user is on, and its sets are in this copy, in one store. It comes before the user is linked, so that whoever finds it "
        "on the list can call it back.",
        LIST),
    "sel-unregister": Kind(
        "switches {owner} off: {value}",
        "A task that asks whether the user is on goes past it from now on, and a frame of an earlier call gives it no exit. Those that "
        "have loaded the word before are waited for.",
        LIST),
    "sel-sets": Kind(
        "names the copy of {owner} that was just written: {value}",
        "One store puts all words of the sets in use. Before the words are written, a walker would be sent to a copy that holds "
        "older sets.",
        COPIES),
    "sel-enable": Kind(
        "enables {owner}: {value}",
        "From here on tasks that load the word find the user on. Enabling takes nothing away, so nobody is waited for.",
        COMMANDS),
    "sel-disable": Kind(
        "disables {owner}: {value}",
        "From here on tasks that load the word find the user off. Those that have found it on may be in its callback, so the "
        "command waits for them.",
        COMMANDS),
    "link": Kind(
        "lets {owner} be followed by {value}",
        "The link is stored before `first`. After it, a walker would come to the new user, find the old content of its link, and "
        "leave out users that were on throughout.",
        LIST),
    "first": Kind(
        "puts {value} first on the list",
        "With this store walkers find the user, and all that they load of it is there already.",
        LIST),
    "unlink": Kind(
        "takes the user off the list: after {owner} comes {value}",
        "The word that named the user names the one after it. The user's own link stays, so that a walker that stands there still "
        "finds the users after it.",
        LIST),
    "pids-store": Kind(
        "sets the traced tasks: {value}",
        "The test of users with `pid` loads this word. A task that loaded the former one could still be traced, so the command "
        "waits for quiet points.",
        QUIET),
    "depth-store": Kind(
        "sets the graph depth: {value}",
        "The test of graph and profile users loads this word. A task that loaded the former one could still go by it, so the "
        "command waits for quiet points.",
        QUIET),
    # Control: a batch of sites.
    "next-store": Kind(
        "stores what {owner}'s site is going to be: {value}",
        "A task that meets the breakpoint learns from it what to run. Without it, the task would run what the site was at some "
        "earlier time, and leave out a user that was on throughout.",
        SITE),
    "breakpoint": Kind(
        "puts the breakpoint over the first byte of {owner}'s site",
        "From here on no task begins to read the old bytes. Without it, a task could load the old first byte and then the new "
        "displacement: five bytes of no instruction.",
        SITE),
    "want-first": Kind(
        "asks each CPU to answer request {value}: the first sync",
        "A task that has loaded the old first byte still loads the old displacement. No CPU answers between the two, so once all have "
        "answered, no such task is left.",
        SITE),
    "ack-first": Kind(
        "looks what CPU {owner} has answered in the first sync: {value}",
        "Until this CPU has answered, a task of it may hold the old first byte; its displacement must not change yet.",
        SITE),
    "tail-store": Kind(
        "stores the new displacement of {owner}'s site: {value}",
        "Nobody loads it now: whoever comes finds the breakpoint. Left out, a later task would join the new first byte with the old "
        "displacement.",
        SITE),
    "want-second": Kind(
        "asks each CPU to answer request {value}: the second sync",
        "It is one of the kernel's steps, there called very likely not necessary. No run goes wrong without it: a store is seen by "
        "all at once, and the breakpoint still stands.",
        SITE),
    "ack-second": Kind(
        "looks what CPU {owner} has answered in the second sync: {value}",
        "Control goes on when each CPU has answered. No run is harmed without this sync; it is here because the kernel has it.",
        SITE),
    "head-store": Kind(
        "stores the new first byte of {owner}'s site: {value}",
        "From here on tasks read the new bytes, and both parts are there. Left out, no history goes wrong, but the site would never "
        "be whole again.",
        SITE),
    "want-third": Kind(
        "asks each CPU to answer request {value}: the third sync",
        "After it no task is between the breakpoint and its load of `next`, so the command is done with its sites, whatever a later "
        "one does.",
        SITE),
    "ack-third": Kind(
        "looks what CPU {owner} has answered in the third sync: {value}",
        "Until this CPU has answered, a task of it may have met the breakpoint and not loaded `next` yet.",
        SITE),
    "want-quiet": Kind(
        "asks each task to pass a quiet point: request {value}",
        "A task may be switched away in the middle of a call, so each task is waited for, and not each CPU. Once all were between "
        "two acts since, nobody uses what was taken away.",
        QUIET),
    "quiet-load": Kind(
        "looks whether task {owner} was between two acts since: {value}",
        "A task that wasn't may hold what it loaded before: a user's state, a copy of its sets, a trampoline, a link.",
        QUIET),
    # A CPU between acts.
    "poll-want": Kind(
        "polls: it loads control's last request, {value}",
        "A CPU polls before each act of a task and never within a fetch. So its answer says that none of its tasks is between two "
        "loads of one.",
        SYNC),
    "poll-ack": Kind(
        "answers: {value}",
        "The answer is stored after `want` was loaded, and holds what was loaded. Told too early, control would go on, and the "
        "displacement would change between the two loads of a fetch that begins after the answer.",
        SYNC),
    "poll-ack-end": Kind(
        "says that it is at its end, and answers every request to come",
        "It polls no more. Without this a later command would wait for ever.",
        SYNC),
    "poll-quiet": Kind(
        "tells for task {owner}: {value}",
        "A task tells a request only when it is between two acts, also if its CPU polls for another task. Told within a call, a "
        "command would return while a callback that it waits for is running.",
        QUIET),
    "poll-quiet-end": Kind(
        "tells that task {owner} has ended",
        "It is in no call any more. Without this a later command would wait for it for ever.",
        QUIET),
    "after": Kind(
        "looks at the clock how many commands have returned: {value}",
        "This is `after` of the script. If it isn't met, the CPU switches to another task, and the next try has a poll of its own.",
        STEP),
    # A look, before a step of a task.
    "look-none": Kind(
        "looks, and finds no new request",
        "As a kernel's CPU takes an interrupt between any two instructions, a CPU looks before each step of a task but the second load of a "
        "fetch. Nothing is new, so the step comes next.",
        SYNC),
    "look-want": Kind(
        "looks, and finds request {value}",
        "The CPU answers it before the task's next step, also amid a call. Found between the two loads of a fetch, it would let the "
        "displacement change there.",
        SYNC),
    "look-ack": Kind(
        "answers in a look: {value}",
        "This answers a sync, and says nothing of tasks: told in a `quiet` word, a command would return while a callback that it waits for "
        "is running. The CPU looks once more before the task's step.",
        SYNC),
    # A task in a call.
    "enter": Kind(
        "marks the enter of a call",
        "The window of the call begins, at the last command that has returned: by one of the commands from there on the call has to "
        "be right.",
        HISTORY),
    "fetch-head": Kind(
        "loads the first byte of {owner}'s site: {value}",
        "This is the first half of the fetch. A task that holds this byte is going to load the displacement, which is why control "
        "waits for it in the first sync.",
        SITE),
    "fetch-breakpoint": Kind(
        "loads the first byte of {owner}'s site, and meets the breakpoint",
        "The site is being changed. The breakpoint sends the task to `next`, where a whole instruction stands.",
        SITE),
    "fetch-tail": Kind(
        "loads the displacement of {owner}'s site: {value}",
        "No CPU answers or switches tasks between the two loads, so both are of one instruction. Switched here, another task would "
        "answer for the CPU, and the displacement would change.",
        SYNC),
    "fetch-next": Kind(
        "loads what {owner}'s site is going to be: {value}",
        "The task runs that in place of the site's bytes. It is the target of a command that is under way or has just returned, so "
        "it is right for the call's window.",
        SITE),
    "own-tramp": Kind(
        "loads whose trampoline {owner} is: {value}",
        "The word isn't cleared, or given to another user, before a task that is in the trampoline has loaded it, and then that "
        "user's `sel`. From version 3 on a user of the kind `function` isn't asked, and is called back at once.",
        TRAMPOLINES),
    "own-sel": Kind(
        "loads the state of {owner}, whose trampoline it is: {value}",
        "The user is called back only if it is on, and registered under the number that the trampoline's word has. If it was "
        "switched off meanwhile, nobody is called.",
        TRAMPOLINES),
    "walk-first": Kind(
        "begins to walk the list: first comes {value}",
        "The walk goes from the latest registered user to the earliest. A user that is linked after this load isn't met.",
        LIST),
    "walk-sel": Kind(
        "loads the state of {owner}: {value}",
        "One load says whether the user is on and which copy of its sets to read, so all that the walker then reads is of one "
        "state. If the user is off, and is asked, the walker goes on to the link.",
        LIST),
    "walk-bits": Kind(
        "reads 64 bits of {owner}: {value}",
        "The walker reads the copy that `sel` named, and an edit waits for quiet points. So nobody writes this copy while it is "
        "going to be read.",
        COPIES),
    "walk-link": Kind(
        "goes on in the list: after {owner} comes {value}",
        "The walker goes on from where it is, and an unlinked user keeps its link, so those after it are met. If it began again, "
        "the first user would be called back for ever.",
        LIST),
    "visit-pids": Kind(
        "loads the traced tasks: {value}",
        "This test comes first. With the guard first, a call within a callback would be refused for recursion where the rules say "
        "for the pid.",
        TESTS),
    "visit-depth": Kind(
        "loads the graph depth: {value}",
        "This test comes last, after pid and recursion. If the calls around hold all frames, or as many as the depth says, the user "
        "is refused.",
        TESTS),
    "back": Kind(
        "marks that a user's entry callback begins",
        "The user was on by the words that were loaded. While the callback is open, the command that takes the user away doesn't "
        "return.",
        HISTORY),
    "refuse": Kind(
        "marks that a user is refused",
        "The user was on, so the history has to say why it isn't called back.",
        HISTORY),
    "miss": Kind(
        "marks that an fprobe's exit is missed",
        "No frame of the shadow stack was free, so there will be no exit for this entry.",
        HISTORY),
    "back-end": Kind(
        "marks that the entry callback ends",
        "The level of the guard that the callback took is free again.",
        HISTORY),
    "body": Kind(
        "marks that the body runs",
        "The dispatch is over, and so is the window of the call. Who was on for all of it has been called back or refused.",
        HISTORY),
    "leave": Kind(
        "marks that the body is over",
        "The return begins. The users of the call's frame are owed their exits, as far as they are still on.",
        HISTORY),
    "exit-sel": Kind(
        "loads the state of {owner}, of the call's frame: {value}",
        "The user gets its exit only if it is registered and enabled, by the same registration. By the bit alone, a user that was "
        "registered again would get an exit for an entry of its former registration.",
        TESTS),
    "exit": Kind(
        "marks that a user's exit callback begins",
        "The user is still on by the registration of its entry, which the last number names.",
        HISTORY),
    "exit-end": Kind(
        "marks that the exit callback ends",
        "The next user of the frame comes, or the return.",
        HISTORY),
    "ret": Kind(
        "marks the return to the caller",
        "The call's frame is free again, and its task is back in the call that made it.",
        HISTORY),
}

# Which rule of docs/RULES.md, "Histories" or "Commands and answers", speaks of each item.
RULES_OF = {
    "begin": ("Commands", HISTORY), "return": ("Commands and answers", DESK), "enter": ("Plain run", HISTORY),
    "back": ("Callbacks", HISTORY),
    "back-end": ("Plain run", HISTORY), "refuse": ("Refusals", HISTORY), "miss": ("Exits", HISTORY), "body": ("Silence, Fetches", HISTORY),
    "leave": ("Plain run", HISTORY), "exit": ("Exits", HISTORY), "exit-end": ("Plain run", HISTORY), "ret": ("Plain run, Exits", HISTORY)}

BREAKPOINT = 0xCC
ENDED_ACK, ENDED_QUIET = 2**64 - 1, 2**32 - 1
AFTER_STORE = {"breakpoint": "first", "tail-store": "second", "head-store": "third"}  # the sync that follows the last of these stores
SEL_OF = {"register": "sel-register", "unregister": "sel-unregister", "enable": "sel-enable", "disable": "sel-disable"}
STORES = {"bits": "bits", "pids": "pids-store", "depth": "depth-store", "next": "next-store", "tail": "tail-store"}
LOADS = {"clock": "after", "want": "poll-want", "tail": "fetch-tail", "next": "fetch-next", "tramp": "own-tramp", "first": "walk-first",
         "bits": "walk-bits", "link": "walk-link", "pids": "visit-pids", "depth": "visit-depth"}


class Control:
    """Tells the kinds of control's steps, one after the other."""

    def __init__(self):
        self.verb, self.user, self.sync, self.wait = None, None, None, None

    def mark(self, fields):
        """A mark: the begin or the return of a command, whose first word says what it does. What hides modules edits notrace sets."""
        self.verb = fields["text"].split()[0] if fields["item"] == "begin" else None
        self.user, self.sync = (fields["text"].split() + [""])[1], None
        return fields["item"]

    def load(self, word):
        """A load: control waits."""
        if word == "quiet":
            return "until" if self.verb is None else "quiet-load"
        return f"ack-{self.wait}"

    def store(self, word, owner, value):
        """A store of a command."""
        if word == "want":
            self.wait, self.sync = self.sync or "quiet", None
            return f"want-{self.wait}"
        kind = STORES.get(word) or self.other_store(word, owner, value)
        self.sync = AFTER_STORE.get(kind)
        return kind

    def other_store(self, word, owner, value):
        """A store whose kind depends on the command or on the value."""
        if word == "head":
            return "breakpoint" if value == BREAKPOINT else "head-store"
        if word == "tramp":
            return "tramp-take" if value else "tramp-free"
        if word == "sel":
            return SEL_OF.get(self.verb, "sel-sets")
        return "unlink" if self.verb == "unregister" else word


def load_of_cpu(word, value, before):
    """The kind of a CPU's load; `before` is the kind of the step before of the same task."""
    if word == "head":
        return "fetch-breakpoint" if value == BREAKPOINT else "fetch-head"
    if word == "sel":
        return "own-sel" if before == "own-tramp" else "exit-sel" if before in ("leave", "exit-sel", "exit-end") else "walk-sel"
    return LOADS.get(word)


def store_of_cpu(word, value):
    """The kind of a CPU's store."""
    if word == "ack":
        return "poll-ack-end" if value == ENDED_ACK else "poll-ack"
    return "poll-quiet-end" if value % 2**32 == ENDED_QUIET else "poll-quiet"


def kind_of_look(word, value, answered):
    """The kind of a look's step; `answered` is the request that its CPU has answered last."""
    if word == "ack":
        return "look-ack"
    return "look-none" if value == answered else "look-want"


def kinds_of(trace, told):
    """The kind of each step of a trace, by what step_tasks.py tells of them; None if there is no such step on the word machine."""
    control, before, answered = Control(), {}, {}
    names, fields, found = [name.partition(".") for name in trace.words], iter(trace.fields), []
    for at, step in enumerate(trace.steps):
        word, _, owner = names[step.word]
        item = next(fields) if step.op == "m" else None
        whose = (step.actor, told.tasks[at])
        if item is not None:
            kind = control.mark(item) if step.actor == "k" else item["item"]
        elif step.actor == "k":
            kind = control.store(word, owner, step.value) if step.op == "s" else control.load(word)
        elif at in told.looks:
            kind = kind_of_look(word, step.value, answered.get(step.actor, 0))
        else:
            kind = store_of_cpu(word, step.value) if step.op == "s" else load_of_cpu(word, step.value, before.get(whose))
        if word == "ack" and step.op == "s":
            answered[step.actor] = step.value
        if at not in told.looks:  # a look comes between two steps of a task
            before[whose] = kind
        found.append(kind if kind in KINDS else None)
    return found
