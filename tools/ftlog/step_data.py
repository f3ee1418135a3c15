"""The page of a step trace: its data, and the one file that it is put together to."""
import html
import json
import os
import pathlib
import re

from ftlog import limits, log_items, runs, step_kinds, step_tasks

FORMAT, VERSION = "ftcore-step-page", 1
FOLDER = pathlib.Path(__file__).resolve().parent / "page"
SCRIPTS = ("state.js", "words.js", "strip.js", "view.js", "main.js")
# Where code stands in memory, as crates/ft_base/src/address.rt and crates/site_bytes/src/codec.rt have it.
ADDRESSES = {"function": 0x1000, "function_step": 64, "site_bytes": 5, "list": 0x0F_0000, "trampoline": 0x10_0000, "trampoline_step": 256}


def column(values):
    """The values without repetition, and a function that gives the place of each."""
    places = {}
    for value in values:
        places.setdefault(value, len(places))
    return places


def steps_of(trace, tasks, kinds, values, names):
    """The steps of a trace as columns; -1 stands for no task, and for no kind."""
    steps = trace.steps
    return {"turn": [step.turn for step in steps], "actor": "".join(step.actor for step in steps), "op": "".join(step.op for step in steps),
            "word": [step.word for step in steps], "value": [values[step.value] for step in steps],
            "kind": [names.get(kind, -1) for kind in kinds], "task": [-1 if task is None else task for task in tasks]}


def declarations(script):
    """What the page needs of a script's lines besides its text."""
    words = {line.form.said["NAME"]: " ".join(line.words[2:]) for line in script.said if line.form.key == "user"}
    control = [line.number for line in script.said if line.words[0] == "ctl" and line.form.key != "ctl until"]
    own_lines = len(script.commands) == len(script.lines)  # no modules come and go, so each line is one command
    commands = [[command.line, control[at] if own_lines else 0] for at, command in enumerate(script.commands)]
    functions = [[function.name, function.module] for function in script.functions]
    return {"functions": functions, "users": [[name, words[name]] for name in script.users], "quanta": script.quanta,
            "tasks": [[task.pid, task.cpu, [" ".join(act) for act in task.acts]] for task in script.acts], "depth": script.frames,
            "slots": script.slots, "levels": limits.VERSIONS[script.version - 1].levels, "commands": commands}


def order_of(script, trace):
    """Which command of the script each `begin` is, from 0: with lanes the log's order may be another."""
    turns = log_items.Turns(script)
    begun = [item.split() for item in trace.items if item.startswith("begin ")]
    return [turns.next(" ".join(words[2:])) for words in begun]


def data_of(title, docs, text, script, trace):
    """The data of a page. `docs` is where the pages of docs/ are, as the page is going to reach them."""
    told = step_tasks.tasks_of(trace, script)
    kinds = step_kinds.kinds_of(trace, told)
    used = column(kind for kind in kinds if kind)
    values = column([*trace.opening, *(step.value for step in trace.steps)])
    return {"format": FORMAT, "version": VERSION, "title": title, "docs": docs, "script": text.decode("utf-8", "replace").splitlines(),
            **declarations(script), "order": order_of(script, trace), "addresses": ADDRESSES, "untold": told.untold,
            "words": [[name, values[trace.opening[at]]] for name, at in trace.words.items()], "values": [hex(value) for value in values],
            "steps": steps_of(trace, told.tasks, kinds, values, used), "items": trace.items,
            "kinds": [[kind, *step_kinds.KINDS[kind]] for kind in used],
            "rules": {item: list(rule) for item, rule in step_kinds.RULES_OF.items()}, "last": trace.last}


def docs_from(folder):
    """The way from a folder to the pages of docs/."""
    return pathlib.Path(os.path.relpath(runs.TOP / "docs", folder)).as_posix() + "/"


def ascii_of(text):
    """A text of which every other character than those of ASCII is written as HTML writes it."""
    return text.encode("ascii", "xmlcharrefreplace").decode()


def page_of(data):
    """The page with these data: one text, all in ASCII."""
    own = {name: (FOLDER / name).read_text("ascii") for name in ("page.html", "page.css", *SCRIPTS)}
    written = json.dumps(data, separators=(",", ":")).replace("<", "\\u003c")
    parts = {"TITLE": ascii_of(html.escape(data["title"])), "STYLE": own["page.css"], "DATA": written,
             "SCRIPTS": "\n".join(own[name] for name in SCRIPTS)}
    return re.sub("{{([A-Z]+)}}", lambda place: parts[place[1]], own["page.html"])
