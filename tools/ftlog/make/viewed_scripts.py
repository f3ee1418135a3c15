"""Writes a random script that most printed forms have lines of, to standard output.

    tools/ft make viewed --seed N                a script without lanes
    tools/ft make viewed --seed N --lanes        one with lanes, of other commands
    tools/ft make viewed --seed N --rings        one with rings and triggers, on up to the most CPUs
    tools/ft make viewed --seed N --modules      one with modules that come and go, many of whose functions are called

Of the scripts of script_forms.py most print nothing in some form: no user of its kind is called back. Here there are
a function, a graph and a profile user at least, nearly all users are registered before the tasks go on, and the calls
nest. Users are unregistered, registered again and given other sets while calls are open.

One seed gives one script, which is accepted.
"""
import random

from ftlog import files
from ftlog.make import script_forms as forms

ALWAYS = ["function", "graph", "profile"]  # the kinds that three of the forms are about
FURTHER = [*ALWAYS, "graph", "profile", "fprobe exit", "fprobe exit", "fprobe exit cancel", "fprobe"]
LANES = forms.LIMITS["LANES"]
MOST_FURTHER = 4  # users beside those of the kinds above
MOST_HELD = 12  # entries that a ring holds


def users(rng, functions):
    """The lines of the users, in any order."""
    kinds = ALWAYS + rng.choices(FURTHER, k=rng.randint(0, MOST_FURTHER))
    rng.shuffle(kinds)
    return [forms.user(rng, name, functions, [kind]) for name, kind in zip(rng.sample(forms.USER_NAMES, len(kinds)), kinds)]


def opening(rng, told, functions):
    """The commands before the calls: nearly all users are registered, some of them with a filter; one that replaces functions needs it."""
    lines = []
    for words in rng.sample(told, len(told)):
        lines += [["filter", words[1], ">", rng.choice(functions)]] * (rng.random() < (0.9 if "ipmodify" in words[3:] else 0.15))
        lines += [["register", words[1]]] * (rng.random() < 0.95)
    return lines + [["maxdepth", str(rng.randint(1, 4))]] * (rng.random() < 0.1)


def change(rng, names, functions, pids):
    """A command amid the calls, mostly one that takes a user off or puts it back."""
    kinds = [["unregister", rng.choice(names)], ["register", rng.choice(names)]]
    return rng.choice([*kinds, *kinds, forms.command(rng, names, functions, pids)])


def amid(rng, names, functions, tasks, count):
    """Commands amid the calls, and before most of them a wait until a task has got so far."""
    lines, at = [], dict.fromkeys((pid for pid, _, _ in tasks), 1)
    for _ in range(count):
        pid, _, todo = rng.choice(tasks)
        if rng.random() < 0.7 and at[pid] < len(todo):
            at[pid] = rng.randint(at[pid], len(todo) - 1)
            lines.append(["until", str(pid), str(at[pid])])
        lines.append(change(rng, names, functions, list(at)))
    return lines


# Modules that come and go.

def owners_of(rng, functions, changing):
    """The module of each function: the first one lies in none, and most others in the modules that come and go."""
    others = {name: rng.choice([*changing, *changing, *changing, None, rng.choice(forms.MODULES)]) for name in functions[2:]}
    return {functions[0]: None, functions[1]: changing[0], **others}


def rivals(rng, module, staying):
    """The lines of two users that replace the functions of a module, and the commands that register both: that can be done while it isn't loaded."""
    names = forms.MORE_USER_NAMES[:2]
    told = [["user", name, "function", "regs", "ipmodify", rng.choice(staying)] for name in names]
    return told, [line for name in names for line in [["filter", name, ">", f"*:mod:{module}"], ["register", name]]]


def until_some(rng, tasks, at):
    """Waits until some tasks have got a little further."""
    lines = []
    for pid, _, todo in tasks:
        if rng.random() < 0.7 and at[pid] < len(todo):
            at[pid] = rng.randint(at[pid] + 1, len(todo))
            lines.append(["until", str(pid), str(at[pid])])
    return lines


def await_line(rng, tasks, at, number):
    """Has some tasks wait for this line of control, no earlier than they have got."""
    for pid, _, todo in tasks:
        if rng.random() < 0.6:
            todo.insert(rng.randint(at[pid], len(todo)), ["after", str(number)])


def amid_loads(rng, names, functions, tasks, control, changing):
    """Adds lines amid the calls: modules that are loaded, which tasks wait for, and unloaded once tasks have got so far; and other changes."""
    at = dict.fromkeys((pid for pid, _, _ in tasks), 1)
    for _ in range(rng.randint(1, 10)):
        word = rng.choice(["load", "unload", "unload", "change"])
        control += until_some(rng, tasks, at) if word != "load" and rng.random() < 0.8 else []
        control.append(change(rng, names, functions, list(at)) if word == "change" else [word, rng.choice(changing)])
        if word == "load":
            await_line(rng, tasks, at, sum(line[0] != "until" for line in control))


def sizes(rng):
    """A short shadow stack and few trampolines, at times."""
    lines = [["depth", str(rng.choice([1, 2, 3, 5]))]] * (rng.random() < 0.3)
    return lines + [["tramps", str(rng.choice([0, 1, 2]))]] * (rng.random() < 0.2)


def schedule(rng, cpus):
    """Half of the scripts have the schedule that comes without a `sched` line; most of the others come to their ends too."""
    if rng.random() < 0.5:
        return []
    return [["sched"] + forms.single_steps(rng, cpus, rng.choice([3, 12, 40])) + forms.full_turns(rng, cpus, 1_000_000)]


def tasks_of(rng, functions, cpus, room, first):
    """Tasks with at most so many calls, nearly all of which wait for the first so many lines of control."""
    tasks = []
    for pid in rng.sample(forms.PIDS, rng.randint(1, 3 * cpus)):
        todo = forms.acts(rng, functions, rng.randint(6, 50), rng.choice([2, 3, 5, 8, 40]), room)
        room -= sum(line[0] == "call" for line in todo)
        wait = [["after", str(first)]] * (first > 0 and rng.random() < 0.9)
        tasks.append((pid, rng.randrange(cpus), wait + todo))
    return tasks


def below(rng, cpus, tasks, control):
    """The lines below the users."""
    lines = [["cpu", str(cpu), "quantum", str(rng.choice([1, 3, 7, 15, 40, 100, 1_000]))] for cpu in range(cpus)]
    for pid, cpu, todo in tasks:
        lines += [["task", str(pid), "cpu", str(cpu)]] + todo
    return lines + [["ctl"] + line for line in control] + schedule(rng, cpus)


def lines_of(rng, is_ringed=False):
    """The lines of a script, of any version, at times with rings and triggers and on more CPUs."""
    version, functions = rng.choice(forms.VERSIONS), rng.sample(forms.FUNCTIONS, rng.randint(2, 6))
    told = users(rng, functions)
    names, cpus = [words[1] for words in told], rng.choice([1, 2, 2, 3, 5, forms.CPUS] if is_ringed else [1, 1, 2, 3])
    first = opening(rng, told, functions)
    tasks = tasks_of(rng, functions, cpus, forms.ITEMS // forms.call_bound(told, version), len(first))
    control = first + amid(rng, names, functions, tasks, rng.randint(0, 10))
    forms.without_deadlock(rng, tasks, control)
    lines = [["ftrace", str(version.number)]] + [["func", name] + [rng.choice(forms.MODULES)] * (rng.random() < 0.3) for name in functions]
    lines += sizes(rng) + (forms.rings(rng, functions, MOST_HELD) if is_ringed else [])
    return lines + told + below(rng, cpus, tasks, control)


def lines_with_modules(rng):
    """The lines of a script with modules that come and go."""
    version, functions = rng.choice(forms.VERSIONS), rng.sample(forms.FUNCTIONS, rng.randint(3, 7))
    some = rng.sample(forms.MODULES, rng.choice([1, 1, 2]))
    owners = owners_of(rng, functions, some)
    changing = [module for module in some if module in owners.values()]
    staying = [name for name in functions if owners[name] not in changing]
    told = users(rng, staying)
    first, absent = opening(rng, told, functions), [module for module in changing if rng.random() < 0.7]
    if absent and rng.random() < 0.3:
        more, lines = rivals(rng, absent[0], staying)
        told, first = told + more, first + lines
    for module in absent:
        first.insert(rng.randint(0, len(first)) if rng.random() < 0.5 else len(first), ["load", module])
    names, cpus = [words[1] for words in told], rng.choice([1, 1, 2, 3])
    tasks = tasks_of(rng, functions, cpus, forms.ITEMS // forms.call_bound(told, version), len(first))
    control = list(first)
    amid_loads(rng, names, functions, tasks, control, changing)
    forms.without_deadlock(rng, tasks, control)
    head = [["ftrace", str(version.number)]] + [["func", name] + ([owners[name]] if owners[name] else []) for name in functions]
    head += sizes(rng) + [["absent", module] for module in absent] + told
    forms.cover(rng, head, tasks, control, staying)
    return head + below(rng, cpus, tasks, control)


def with_lanes(rng, lines, count):
    """The lines of a script with its commands dealt out to so many lanes, and without waits of control."""
    lanes = [[] for _ in range(count)]
    for line in lines:
        if line[0] == "ctl" and line[1] != "until":
            rng.choice(lanes).append(line)
    control = [line for number, lane in enumerate(lanes) for line in [["lane", str(number)], *lane]]
    above = [line for line in lines if line[0] not in ("ctl", "sched")]
    return above + control + [line for line in lines if line[0] == "sched"]


def script(seed):
    """The text of the script of this seed."""
    return forms.text_of(lines_of(random.Random(f"viewed {seed}")))


def laned(seed):
    """The text of the script with lanes of this seed."""
    rng = random.Random(f"laned {seed}")
    return forms.text_of(with_lanes(rng, lines_of(rng), rng.randint(1, LANES)))


def ringed(seed):
    """The text of the script with rings and triggers of this seed."""
    return forms.text_of(lines_of(random.Random(f"ringed {seed}"), is_ringed=True))


def loading(seed):
    """The text of the script with modules that come and go of this seed."""
    return forms.text_of(lines_with_modules(random.Random(f"loading {seed}")))


SOURCES = {"viewed": script, "laned": laned, "ringed": ringed, "loading": loading}


def add_words(parser):
    """Adds the words of `ft make viewed`."""
    parser.add_argument("--seed", type=int, required=True, metavar="N", help="which script")
    which = parser.add_mutually_exclusive_group()
    which.add_argument("--lanes", action="store_const", dest="make", const=laned, default=script, help="one with lanes")
    which.add_argument("--rings", action="store_const", dest="make", const=ringed, help="one with rings and triggers")
    which.add_argument("--modules", action="store_const", dest="make", const=loading, help="one with modules that come and go")


def run(options):
    """Writes the script."""
    files.write(options.make(options.seed))
