"""Prints samples of the word machine as a proof file.

Each script becomes a job, and its log, which `./ftcore replay` prints, a list of items; the proof says by computation that the definition of
the word machine gives that history and that end. samples.txt, beside this file, has the scripts of `rows`, which are worked examples, and of
`runs`, in which a machine goes wrong that leaves something out: the name says what. Those of `waits` take longer on a
machine that waits for more, and those of `quanta` switch elsewhere on one that counts other steps of a quantum. Those of `random` are `ft make plain`'s with a schedule of single steps, from the seed FIRST on. Passed over are those that have what no sample has (version 2, lanes, modules that come and go, a
ring or a trigger), and those whose histories are shorter or longer than samples are.

The first two are files of crates/word_machine/proofs, the others of crates/word_samples/proofs. Those that stand there have the histories
that another program printed, which was written from the same rules, and the random ones other scripts: they are made anew only if the form
of a job changes, and then the crates are proved anew.

    tools/ft samples rows > RowSamples.antt
    tools/ft samples runs > RunSamples.antt
    tools/ft samples waits > WaitSamples.antt
    tools/ft samples quanta > QuantumSamples.antt
    tools/ft samples random 1 50 > RandomSamples1.antt
"""
import random
import re

from ftlog import filters, programs, rings_of_log, runs, script_reader
from ftlog.fault import Fault
from ftlog.make import script_forms as forms

SCRIPTS = runs.TOP / "tools" / "ftlog" / "upkeep" / "samples.txt"
WHAT = {"rows": "worked examples", "runs": "runs in which a machine goes wrong that leaves something out",
        "waits": "runs that take longer on a machine that waits for more",
        "quanta": "runs that switch elsewhere on a machine that counts other steps of a quantum",
        "random": "random jobs under schedules of single steps"}
FULL_TURNS = "all*300"  # enough to end each script
ITEMS = range(11, 80)  # of a random history
FUNCTIONS, SECONDS = 70, 60
IMPORTS = """use Rattle.std.proofs.Common.{true, false, List, [], ◌∷◌, Some, None, codes, refl}
use Rattle.ft_base.specs.declared.context.Ctx.TheVariants.{Normal, Softirq, Irq, Nmi}
use Rattle.ft_base.specs.declared.item.Ran.TheVariants.{Own, Nop, List as ByList}
use Rattle.ft_base.specs.declared.item.Reason.TheVariants.{Depth, Recursion, Pid as ByPid}
use Rattle.ft_base.specs.declared.item.Answer.TheVariants.{Accepted, Already, NotThere, Invalid, NoMatch, Busy}
use Rattle.ft_base.specs.declared.item.Item.{Item}
use Rattle.ft_base.specs.declared.item.Item.TheVariants.{Begin, Return, Enter, Back, BackEnd, Refuse, Miss, Body, Leave, Exit, ExitEnd, Ret}
use Rattle.ft_base.specs.declared.user.Kind.TheVariants.{Graph, Function, Fprobe, Profile}
use Rattle.ft_base.specs.declared.user.Act.TheVariants.{CallIn, IrqIn}
use Rattle.ft_base.specs.declared.task.TaskAct.TheVariants.{Call, Ret as RetAct, After, Raise, Lower}
use Rattle.ft_base.specs.declared.turn.Who.TheVariants.{Control as OfControl, Cpu as OfCpu, All}
use Rattle.ft_base.specs.Job.{usual_lines, usual_rings, Job, Register, Unregister, Filter, Notrace, Enable, Disable, Pid, NoPid, MaxDepth, Run, Until}
use Rattle.ft_base.specs.Desk.{desk}
use Rattle.ft_base.specs.Schedule.{actors_of, repeated}
use Rattle.ft_hist.proofs.SmallJobs.{named, call_in}
use Rattle.word_machine.specs.Commands.{insn, moves}
use Rattle.word_machine.specs.Control.{control_next, control_got}
use Rattle.word_machine.specs.Cpu.{cpu_next, cpu_got}
use Rattle.word_machine.specs.Machine.{start, step, run, played, play, all_end}
use Rattle.word_machine.proofs.Plays.{Plays}
"""
UNFOLDED = "actors_of repeated start step run played play all_end control_next control_got cpu_next cpu_got insn moves desk"
SIGNED = {"ok": "Accepted", "list": "ByList", "k": "OfControl", "nopid": "NoPid", "maxdepth": "MaxDepth"}


def listed(parts):
    """A list of these."""
    return " ∷ ".join([*parts, "[]"])


def record(**fields):
    """A record with these fields."""
    return f"record {{ {'; '.join(f'{name} = {value}' for name, value in fields.items())} }}"


def number(n):
    """A number of one of the types that have one field."""
    return f"(record {{ 0 = {n} }})"


def sign(word):
    """The name of what the language calls by a word of its own."""
    return SIGNED.get(word) or "".join(part.capitalize() for part in word.split("-"))


def said(is_so):
    """A boolean."""
    return str(bool(is_so)).lower()


class Job:
    """A script as a job."""

    def __init__(self, text):
        self.script = script_reader.read_script(text)
        self.names, self.users, self.pids = [it.name for it in self.script.functions], list(self.script.users), list(self.script.tasks)
        self.listed = filters.FunctionList(self.script.functions)

    def func(self, name):
        """A function."""
        return number(self.names.index(name))

    def call(self, word):
        """A call."""
        pid, count = word.split(".")
        return f"(call_in {self.pids.index(int(pid))} {count})"

    def caller(self, word):
        """The call in which another one is made, if it is made in one."""
        return "None" if word == "-" else f"(Some {self.call(word)})"

    def user_text(self, user):
        """A user."""
        kind = f"Fprobe {said(user.takes_frame)} {said(user.cancels)}" if user.kind == "fprobe" else sign(user.kind)
        act = f"Some ({sign(user.calls)}In {self.func(user.needs[-1])})" if user.calls else "None"
        replaced = f"Some {self.func(user.needs[0])}" if user.is_replacing else "None"
        return record(name=f'codes "{user.name}"', kind=kind, regs=said(user.has_regs), ipmodify=replaced, pid=said(user.has_pid), act=act)

    def act_text(self, words):
        """An act of a task."""
        word, *named = words
        if named:
            return f"{sign(word)} {self.func(*named) if word == 'call' else int(*named)}"
        return "RetAct" if word == "ret" else "Lower" if word == "iret" else f"Raise {sign(word)}"

    def edit_text(self, user, arrow, word=""):
        """A user, and an edit of one of its sets."""
        text = filters.read_text(word)
        chosen = self.listed.selected(text) if word else ()
        marks = listed(said(at in chosen) for at in range(len(self.names)))
        edit = record(append=said(arrow == ">>"), remove=said(text.is_removing), clear=said(not word), set=marks)
        return f"{self.users.index(user)} ({edit})"

    def control_text(self, words):
        """A line of control."""
        word, *more = words
        if word == "until":
            return f"Until {self.pids.index(int(more[0]))} {more[1]}"
        if word in ("filter", "notrace"):
            told = self.edit_text(*more)
        elif word in ("pid", "nopid"):
            told = f"({listed(said(str(pid) in [it.lstrip('0') for it in more]) for pid in self.pids)})"
        else:
            told = int(more[0]) if word == "maxdepth" else self.users.index(more[0])
        return f"Run ({sign(word)} {told})"

    def text(self):
        """All of it."""
        it = self.script
        functions = [f'named (codes "{name}") ' + (f'(Some (codes "{module}"))' if module else "None") for name, module in it.functions]
        tasks = [record(pid=task.pid, cpu=task.cpu, acts=listed(map(self.act_text, task.acts))) for task in it.acts]
        turns = [record(who=sign(who) if who in ("k", "all") else f"OfCpu {number(who)}", count=count) for who, count in it.turns]
        return record(version=it.version, functions=listed(functions), users=listed(map(self.user_text, it.users.values())), frames=it.frames,
                      tramps=it.slots, quanta=listed(map(str, it.quanta)), tasks=listed(tasks), ctls=listed(map(self.control_text, it.control)),
                      lines="usual_lines", rings="usual_rings", schedule=listed(turns))

    def item(self, line):
        """An item of the log."""
        _, item, first, *more = line.split()
        told = {"enter": (sign, self.func, self.caller), "refuse": (self.user, self.reason), "ret": (self.caller,), "exit": (self.user, str)}
        if item in ("begin", "return"):
            answer = [f"(Busy {self.func(more[1])} {self.user(more[2])})"] if more[:1] == ["busy"] else map(sign, more)
            return " ".join([sign(item), first, *answer])
        if item == "body":
            ran = f"(Own {self.user(more[2])})" if more[1] == "own" else sign(more[1])
            return f"Body {self.call(first)} {self.func(more[0])} {ran}"
        return " ".join([sign(item), self.call(first), *(how(word) for how, word in zip(told.get(item, (self.user,)), more))])

    def user(self, name):
        """A user of an item."""
        return number(self.users.index(name))

    @staticmethod
    def reason(word):
        """Why a callback is refused."""
        return "ByPid" if word == "pid" else sign(word)


def log_of(program, text):
    """The lines that the program prints for a script; none if it refuses it."""
    came = runs.answer([program, "replay"], text, SECONDS)
    return came.out.decode().splitlines() if came.status == 0 else []


def sample(name, text, log):
    """A script and its history as a sample of this name."""
    job = Job(text)
    return (f"abbrev pub {name} : Job\n{name} = {job.text()}\n\nabbrev pub {name}-items : List Item\n{name}-items = {listed(map(job.item, log[:-1]))}\n\n"
            f"pub {name}-plays : Plays {name} {name}-items {said(log[-1] == 'end')}\nunfolding {UNFOLDED}\n{name}-plays = (refl, refl)\n")


def tabled(kind):
    """The scripts of samples.txt of this kind, each with its name; one without a schedule has that in which all take turns."""
    part = SCRIPTS.read_text().split(f"# {kind}\n")[1].split("\n# ")[0]
    for name, _, script in (line.partition(": ") for line in part.splitlines()):
        turns = "" if "sched" in script else f";sched {FULL_TURNS}"
        yield name, (script + turns).replace(";", "\n").encode() + b"\n"


def is_plain(text):
    """Whether a script has nothing that no sample has."""
    script = script_reader.read_script(text)
    has_more = script.lanes or script.absent or script.module_lines or rings_of_log.says_something(script)
    return script.version == 1 and len(script.functions) <= FUNCTIONS and not has_more


def stepped(seed):
    """The script of this seed, with single steps and then full turns."""
    rng, text = random.Random(f"sample {seed}"), forms.script(seed)
    return forms.scheduled(text, [*forms.single_steps(rng, forms.cpus_of(text), 1), FULL_TURNS])


def chosen(program, first, count):
    """So many random scripts with their names and logs, from this seed on."""
    for seed in range(first, first + 100 * count):
        text = stepped(seed)
        log = log_of(program, text) if is_plain(text) else []
        if count and len(log) - 1 in ITEMS:
            yield f"job_{seed}", text, log
            count -= 1


def imports_of(body):
    """The imports, with those names alone that the samples use, as `rt tidy` leaves them."""
    words = set(re.split(r"[\s();]+", body)) | {"◌∷◌"}
    for line in IMPORTS.splitlines():
        path, names = line[:-1].split(".{")
        used = [name for name in names.split(", ") if name.split(" as ")[-1] in words]
        if used:
            yield f"{path}.{{{', '.join(used)}}}\n"


def add_words(parser):
    """Adds the words of `ft samples`."""
    parser.add_argument("kind", choices=list(WHAT), metavar="KIND", help="rows, runs, waits, quanta or random")
    parser.add_argument("range", nargs="*", type=int, metavar="N", help="of `random` the first seed, and how many jobs")


def run(options):
    """Prints the file."""
    if len(options.range) != (2 if options.kind == "random" else 0):
        raise Fault("`random` takes FIRST and COUNT, and the others no number")
    program = programs.for_tool("ftcore")
    found = chosen(program, *options.range) if options.range else ((name, text, log_of(program, text)) for name, text in tabled(options.kind))
    body = "\n".join(sample(*it) for it in found)
    print(f"-- Written by tools/ft samples {' '.join([options.kind, *map(str, options.range)])}")
    print(f"-- The word machine at {WHAT[options.kind]}, beside the histories that ftcore prints.\n{''.join(imports_of(body))}\n{body}", end="")
