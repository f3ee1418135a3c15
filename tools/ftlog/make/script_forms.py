"""Writes a random script of any form, of any version of the language, to standard output. It is accepted.

    tools/ft make plain --seed N                   a script
    tools/ft make plain --seed N --step < SCRIPT   that script, with a schedule of single steps in place of its own

One seed gives one script. The limits are those of crates/ft_base/src/limits.rt. broken_scripts.py breaks these
scripts; `ft check program` takes `script` from here.
"""
import random

from ftlog import covered_calls, files, limits, script_reader
from ftlog.limits import LIMITS, VERSION_1, VERSION_2, VERSIONS
from ftlog.script_lines import CONTEXTS, DIGITS, NoForm, form_of

# The limits that the program has, but for those that differ by version.
CPUS = LIMITS["CPUS"]
TASKS = LIMITS["TASKS"]
LANES = LIMITS["LANES"]
COMMANDS = LIMITS["COMMANDS"]
UNTILS = LIMITS["UNTILS"]
ACTS = LIMITS["ACTS"]
LEVELS = LIMITS["LEVELS"]
ITEMS = LIMITS["ITEMS"]  # that the calls may make, by `call_bound`
STEPS = LIMITS["STEPS"]
QUANTUM = LIMITS["QUANTUM"]
PID = LIMITS["PID"]
NAME_BYTES = LIMITS["NAME_BYTES"]
FRAMES = LIMITS["FRAMES"]
GRAPH_DEPTH = LIMITS["GRAPH_DEPTH"]
RING = LIMITS["RING"]
TRIGGERS = LIMITS["TRIGGERS"]
TRIGGER_LIMIT = LIMITS["TRIGGER_LIMIT"]
INPUT_BYTES = LIMITS["INPUT_BYTES"]

# What the scripts are made of.
FUNCTIONS = ["a", "b", "vfs_read", "ext3_read", "ext3_write", "snd_play", "_", "_x.1", "k", "all", "ret", "regs", "pid", "call", "irq"]
FUNCTIONS += ["function", "Z9", "after", "mod.x", "x" * NAME_BYTES, "ftrace"]
USER_NAMES = ["t", "tr", "a", "function", "user_2", "u" * NAME_BYTES, "g", "p.1", "regs", "fprobe", "pid", "ipmodify", "call", "_", "Z", "all"]
USER_NAMES += ["exit", "k", "t2"]
MORE_USER_NAMES = [f"user{number}" for number in range(VERSION_2.users - len(USER_NAMES))]  # for as many users as there may be
KINDS = ["function", "function", "graph", "profile", "fprobe", "fprobe exit", "fprobe exit cancel"]
PIDS = [1, 2, 10, 11, 99, PID - 1, PID, *range(100, 170)]
GLOBS = ["*", "?", "*_*", "ext3_*", "*read", "[a-c]*", "[!a-c]*", "[_xk]*", "*e*t*", "a*b?c", "zz*", "[]a]", "[a", "[c-a]", "?*_w*"]
MODULE_GLOBS = ["ext3", "snd", "s?d", "*", "[em]*", "zz", "!ext3", "!s*", "!*", "![!a-m]*"]
MODULES = ["ext3", "snd", "m.1", "y" * NAME_BYTES]
COMMENTS = ["#", "# a comment", "#ret", "# func a a a", "#\tctl register", "# \u00e9\u20ac", "##"]
BLANKS = [" ", "\t", "  ", " \t ", "\t\t"]


# A script is a list of lines, a line a list of words.

def numeral(rng, number):
    """A number in decimal, now and then with leading zeros."""
    text = str(number)
    return text.rjust(rng.randint(len(text), DIGITS), "0") if rng.random() < 0.04 else text


def user(rng, name, functions, kinds=KINDS, acting=0.25):
    """The line of a user of one of these kinds, with options; so many users have an act."""
    kind = rng.choice(kinds)
    is_replacing = functions and kind == "function" and rng.random() < 0.4
    words = ["user", name, *kind.split()]
    words += ["regs"] * (rng.random() < (0.9 if is_replacing else 0.2))
    words += ["ipmodify", rng.choice(functions)] if is_replacing else []
    words += ["pid"] * (rng.random() < 0.25)
    return words + ([rng.choice(["call", "irq"]), rng.choice(functions)] if functions and rng.random() < acting else [])


def has_act(words):
    """Whether the line of a user says which function its entry callback calls."""
    try:
        return "act" in form_of(words).said
    except NoForm:
        return len(words) > 3 and words[-2] in ("call", "irq")  # it may be such a line, broken in another place


def call_bound(users, version):
    """The most items that a call of a script of this version with these lines of users can make."""
    return limits.call_bound(len(users), sum(map(has_act, users)), version)


def version_of(lines):
    """The version of these lines of a script."""
    return limits.version_of(lines[0] if lines else [])


def acts(rng, functions, count, deepest, room):
    """Calls that return and interrupts that end, with waits among them; at most `room` calls."""
    lines = [["after", str(rng.randint(1, 6))]] if rng.random() < 0.4 else []
    levels = [(0, 0)]  # the number of each context that is raised, and of its open calls
    interrupting = rng.choice([0, 0, 0.05, 0.2])
    for _ in range(count):
        (context, opened), pick = levels[-1], rng.random()
        if pick < 0.1:
            lines.append(["after", str(rng.choice([1, 1, 2, 3, rng.randint(1, 12)]))])
        elif pick < 0.1 + interrupting and context < 3:
            levels.append((rng.randint(context + 1, 3), 0))
            lines.append([CONTEXTS[levels[-1][0]]])
        elif context > 0 and opened == 0 and rng.random() < 0.3:
            levels.pop()
            lines.append(["iret"])
        elif functions and room > 0 and sum(calls for _, calls in levels) < deepest and (opened == 0 or rng.random() < 0.5):
            levels[-1], room = (context, opened + 1), room - 1
            lines.append(["call", rng.choice(functions)])
        elif opened > 0:
            levels[-1] = (context, opened - 1)
            lines.append(["ret"])
    for context, opened in reversed(levels):
        lines += [["ret"]] * opened + [["iret"]] * (context > 0)
    return lines


def good_text(rng, functions):
    """A filter text that is accepted."""
    mark = "!" * (rng.random() < 0.2)
    if functions and rng.random() < 0.2:
        return mark + numeral(rng, rng.randint(1, len(functions)))
    glob = rng.choice(GLOBS + functions)
    return mark + (f"{rng.choice([glob, glob, ''])}:mod:{rng.choice(MODULE_GLOBS)}" if rng.random() < 0.3 else glob)


def command(rng, names, functions, pids):
    """A command of any form."""
    of_users = ["register"] * 5 + ["unregister"] * 3 + ["filter"] * 3 + ["notrace"] * 2 + ["enable", "disable"]
    word = rng.choice((of_users if names else []) + ["pid", "nopid", "maxdepth"])
    if word == "maxdepth":
        return [word, numeral(rng, rng.choice([0, 0, 1, 2, 3, GRAPH_DEPTH, rng.randint(0, GRAPH_DEPTH)]))]
    if word in ("pid", "nopid"):
        return [word] + [numeral(rng, pid) for pid in (rng.choices(pids, k=rng.choice([0, 1, 1, 2, 5])) if pids else [])]
    if word in ("filter", "notrace"):
        edit = [">"] if rng.random() < 0.15 else [rng.choice([">", ">>"]), good_text(rng, functions)]
        return [word, rng.choice(names)] + edit
    return [word, rng.choice(names)]


def commands(rng, users, functions, tasks, count):
    """Lines of control: registrations, some of them with a filter, and then any commands and waits for tasks."""
    lines, names = [], [words[1] for words in users]
    for words in users:
        if functions and rng.random() < (0.8 if "ipmodify" in words[3:] else 0.2):
            lines.append(["filter", words[1], ">", rng.choice(functions + ["*", "?"])])
        lines += [["register", words[1]]] * (rng.random() < 0.5)
    for _ in range(count):
        if tasks and rng.random() < 0.2:
            pid, _, todo = rng.choice(tasks)
            lines.append(["until", str(pid), str(rng.randint(1, max(1, len(todo))))])
        else:
            lines.append(command(rng, names, functions, [pid for pid, _, _ in tasks]))
    return lines


# Rings and triggers.

def trigger_text(rng, functions):
    """The text of a trigger that is accepted; most of those with a limit are hit more often."""
    limit = rng.choice([1, 1, 2, 3, rng.randint(1, 20), TRIGGER_LIMIT])
    told = f":{str(limit).rjust(rng.choice([1, 1, 1, 7]), '0')}" if rng.random() < 0.6 else ""
    return f"{rng.choice(functions * 3 + GLOBS)}:{rng.choice(['traceon', 'traceoff'])}{told}"


def rings(rng, functions, most=RING):
    """Lines about rings, tracing and triggers, each of which may be missing. A ring holds so many entries at most."""
    lines = [["ring", numeral(rng, rng.choice([1, 1, 2, 3, 5, most, rng.randint(1, most)]))]] * (rng.random() < 0.7)
    lines += [["tracing", "off"]] * (rng.random() < 0.4)
    return lines + [["trigger", trigger_text(rng, functions)] for _ in range(rng.choice([0, 1, 1, 2, 3, TRIGGERS]))]


# Modules that come and go.

def owners_of(rng, functions):
    """The module of each function, if it lies in one."""
    return {name: rng.choice(MODULES) if rng.random() < 0.4 else None for name in functions}


def changing_modules(rng, owners):
    """The modules that come and go, in some scripts. One function at least stays."""
    modules = sorted({owner for owner in owners.values() if owner})
    changing = rng.sample(modules, rng.randint(1, len(modules))) if modules and rng.random() < 0.4 else []
    return changing if any(owner not in changing for owner in owners.values()) else []


def add_loads(rng, control, modules, count):
    """Puts so many lines that load and unload these modules among those of control."""
    for _ in range(count):
        control.insert(rng.randint(0, len(control)), [rng.choice(["load", "load", "unload"]), rng.choice(modules)])


def cover(rng, head, tasks, control, staying):
    """Has each call that may find its module unloaded call a function that stays; the head is what is above the CPUs."""
    script = script_reader.read_script(text_of(head + [["ctl"] + line for line in control]))
    for words in covered_calls.uncovered(script, tasks, control):
        words[1] = rng.choice(staying)


# All of a script.

def left_waiting(tasks, control):
    """What still waits when all have gone as far as they can: (list of lines, place) for each."""
    at, line, passed, moved = [0] * len(tasks), 0, 0, True
    pids = {pid: number for number, (pid, _, _) in enumerate(tasks)}
    while moved:
        moved = False
        for number, (_, _, todo) in enumerate(tasks):
            while at[number] < len(todo) and (todo[at[number]][0] != "after" or int(todo[at[number]][1]) <= passed):
                at[number] += 1
                moved = True
        while line < len(control) and (control[line][0] != "until" or at[pids[int(control[line][1])]] >= int(control[line][2])):
            passed += control[line][0] != "until"
            line += 1
            moved = True
    stuck = [(todo, at[number]) for number, (_, _, todo) in enumerate(tasks) if at[number] < len(todo)]
    return stuck + ([(control, line)] if line < len(control) else [])


def without_deadlock(rng, tasks, control):
    """Drops waits until all come to their ends."""
    while stuck := left_waiting(tasks, control):
        lines, place = rng.choice(stuck)
        del lines[place]


def in_lanes(rng, control, count):
    """The lines of control in this many lanes, of which some may have none. Waits go, since a script with lanes has none."""
    commands = [line for line in control if line[0] != "until"]
    firsts = [0, *sorted(rng.randint(0, len(commands)) for _ in range(count - 1)), len(commands)]
    lines = []
    for lane, (first, past) in enumerate(zip(firsts, firsts[1:])):
        lines += [["lane", numeral(rng, lane)]] + [["ctl"] + line for line in commands[first:past]]
    return lines


def item(rng, who, count):
    """An item of a schedule: so many turns of an actor, or of all."""
    return who if count == 1 and rng.random() < 0.8 else f"{who}*{numeral(rng, count)}"


def single_steps(rng, cpus, parts):
    """Turns of one actor each, some long enough for a whole command or call. In each part some actors are faster than others."""
    actors, items = ["k"] + [str(cpu) for cpu in range(cpus)], []
    for _ in range(parts):
        speeds = [rng.choice([1, 1, 1, 5, 30]) for _ in actors]
        most = rng.choice([1, 1, 3, 8, 20, 45, 200])
        for who in rng.choices(actors, speeds, k=rng.randint(1, 60)):
            items.append(item(rng, who, rng.randint(1, most)))
    return items


def full_turns(rng, cpus, most):
    """An item, at times, with which some scripts come to their ends: full turns of at most so many steps."""
    return [f"all*{rng.choice([300, 3_000, most // (1 + cpus)])}"] if rng.random() < 0.8 else []


def coarse_turns(rng, cpus):
    """Turns of any actors, at times many of them."""
    items = []
    for _ in range(rng.randint(1, 6)):
        who = rng.choice(["k", "all", "all"] + [str(cpu) for cpu in range(cpus)] * 2)
        items.append(item(rng, who, rng.choice([1, 1, 1, 2, 3, 7, rng.randint(1, 60), rng.randint(1, 3_000)])))
    return items


def schedule(rng, cpus):
    """The `sched` lines, none at times. They come to fewer steps than there may be."""
    lines = [coarse_turns(rng, cpus) for _ in range(rng.choice([0, 0, 1, 2]))]
    lines += [single_steps(rng, cpus, rng.randint(1, 12)) for _ in range(rng.choice([0, 1, 1, 2]))]
    rng.shuffle(lines)
    lines += [full_turns(rng, cpus, 1_000_000)] if lines else []
    return [["sched"] + items for items in lines if items]


def plain(rng):
    """The lines of a script that is accepted. In version 2 acts nest deeper, so fewer of many users have one."""
    version, scale = rng.choice(VERSIONS), rng.choice([1, 1, 2, 4, 12])
    functions = rng.sample(FUNCTIONS, rng.randint(0, min(len(FUNCTIONS), 2 * scale)))
    owners = owners_of(rng, functions)
    changing = changing_modules(rng, owners)
    staying = [name for name in functions if owners[name] not in changing]
    names = rng.sample(USER_NAMES + MORE_USER_NAMES, rng.choice([0, 1, 1, 2, 2, 3, 5, version.users]))
    acting = 0.25 if version == VERSION_1 else min(0.25, 2 / max(1, len(names)))
    users = [user(rng, name, staying, acting=acting) for name in names]
    sizes = [["depth", numeral(rng, rng.choice([1, 2, 3, FRAMES]))]] if rng.random() < 0.4 else []
    sizes += [["tramps", numeral(rng, rng.choice([0, 1, 2, version.tramps]))]] if rng.random() < 0.4 else []
    sizes += [["absent", module] for module in changing if rng.random() < 0.6]
    sizes += rings(rng, functions) if rng.random() < 0.3 else []
    cpus = rng.choice([0, 1, 1, 2, 2, 3, 5, CPUS])
    pids = rng.sample(PIDS, rng.choice([0, 1, 2, 3, cpus, cpus, 2 * cpus, 3 * cpus, TASKS if scale > 1 else 4])) if cpus else []
    deepest, most = rng.choice([1, 2, 3, 8, 40]), max(4, 12 * scale * cpus // max(1, len(pids)))
    tasks, room = [], ITEMS // call_bound(users, version)
    for pid in pids:
        todo = acts(rng, functions, rng.randint(0, most), deepest, room)
        room -= sum(line[0] == "call" for line in todo)
        tasks.append((pid, rng.randrange(cpus), todo))
    control = commands(rng, users, functions, tasks, rng.randint(0, 8 * scale))
    add_loads(rng, control, changing, rng.randint(0, 6) if changing else 0)
    without_deadlock(rng, tasks, control)
    lines = [["ftrace", str(version.number)]]
    lines += [["func", name] + ([owners[name]] if owners[name] else []) for name in functions]
    lines += rng.sample(sizes, len(sizes)) + users
    if changing:
        cover(rng, lines, tasks, control, staying)
    lines += [["cpu", numeral(rng, cpu), "quantum", numeral(rng, rng.choice([1, 2, 3, 7, 15, 40, 100, QUANTUM]))] for cpu in range(cpus)]
    for pid, cpu, todo in tasks:
        lines += [["task", numeral(rng, pid), "cpu", numeral(rng, cpu)]] + todo
    lanes = rng.choice([1, 2, 2, 3, 4, LANES]) if rng.random() < 0.2 and not changing else 0
    return lines + (in_lanes(rng, control, lanes) if lanes else [["ctl"] + line for line in control]) + schedule(rng, cpus)


def text_of(lines):
    """The text of these lines."""
    return "".join(" ".join(line) + "\n" for line in lines).encode()


def dressed(rng, lines):
    """The text of the lines, at times with blanks, blank lines and comments."""
    much = rng.choice([0, 0, 0.02, 0.2])
    out = []
    for number, line in enumerate(lines):
        if number > 0 and rng.random() < much:
            out.append(rng.choice(COMMENTS + ["", " ", "\t "]))
        around = [rng.choice(BLANKS) if rng.random() < much else "" for _ in range(2)]
        between = [rng.choice(BLANKS) if rng.random() < much else " " for _ in line]
        out.append(around[0] + "".join(word + gap for word, gap in zip(line, between[:-1] + [""])) + around[1])
    return "".join(line + "\n" for line in out).encode()


def script(seed):
    """The text of the accepted script of this seed."""
    rng = random.Random(f"plain {seed}")
    return dressed(rng, plain(rng))


def cpus_of(text):
    """How many CPUs the text of a script declares."""
    return sum(line.split()[:1] == [b"cpu"] for line in text.splitlines())


def scheduled(text, items):
    """The text of a script with this schedule, in place of its own."""
    lines = [line for line in text.splitlines(keepends=True) if line.split()[:1] != [b"sched"]]
    return b"".join(lines) + f"sched {' '.join(items)}\n".encode()


def stepped(text, seed):
    """The text of a script with the schedule of single steps of this seed, in place of its own."""
    rng, cpus = random.Random(f"stepped {seed}"), cpus_of(text)
    return scheduled(text, single_steps(rng, cpus, rng.choice([1, 3, 12, 40])) + full_turns(rng, cpus, STEPS // 2))


def add_words(parser):
    """Adds the words of `ft make plain`."""
    parser.add_argument("--seed", type=int, required=True, metavar="N", help="which script")
    parser.add_argument("--step", action="store_true", help="the script of standard input, with a schedule of single steps in place of its own")


def run(options):
    """Writes the script."""
    files.write(stepped(files.read(files.STANDARD), options.seed) if options.step else script(options.seed))
