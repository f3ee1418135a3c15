"""Writes a log as JSON, one object a line, with the names that the log leaves to its script.

The first line says the format, its version, what each field is, and what the script declares; then comes a line for each
item, as `fttell items` tells it, and the last line says how the log ends.
"""
import json
import sys

from ftlog import files, given_logs, log_items

FORMAT, VERSION = "ftcore-log", 1
FIELDS = {
    "place": "the number of the item from 0",
    "item": "the kind of item, a word of the log",
    "command": "the number of the command from 1, in the order in which commands begin",
    "text": "the command as the script has it, without `ctl`; of one that hides modules `hides` and their names",
    "lane": "the lane that gives the command, if the log names it",
    "answer": "what the command is answered",
    "line_answer": "the answer of the whole line, of the last command of a load or an unload",
    "pid": "the task",
    "cpu": "the task's CPU",
    "call": "the call: the task's pid, a dot and the number of the call in that task",
    "context": "the context of the call",
    "function": "the function that is called; of the answer `busy` the one that is shared",
    "caller": "the call in which the call is made, and to which it returns; null if there is none",
    "user": "who is called back or refused, or whose trampoline ran; of the answer `busy` who has the function already",
    "user_kind": "the user's kind",
    "reason": "why the user was refused",
    "body": "the function whose body runs: the called one or its replacement",
    "ran": "what the call's site called: nop, list or own",
    "entry": "the place of the entry callback that the exit belongs to",
    "lost": "the places of the call's entry callbacks whose exits didn't come",
    "last": "how the log ends: end or stopped",
    "items": "how many items there are",
}


def add_words(parser):
    """Adds the words of this tool: the names of a script and a log."""
    given_logs.add_words(parser)


def head(script):
    """The fields of the first line."""
    functions = [{"name": function.name, "module": function.module} for function in script.functions]
    users = [{"name": user.name, "kind": user.kind} for user in script.users.values()]
    tasks = [{"pid": pid, "cpu": cpu} for pid, cpu in script.tasks.items()]
    return {"format": FORMAT, "version": VERSION, "script_version": script.version, "fields": FIELDS, "functions": functions, "users": users,
            "tasks": tasks, "cpus": script.cpus, "lanes": len(script.lanes), "commands": len(script.commands)}


def run(options):
    """Writes the objects, and gives the status."""
    _, script = given_logs.read_script(options.script)
    items, begun = log_items.Items(script), json.dumps(head(script)) + "\n"
    with sys.stdin.buffer if options.log == files.STANDARD else open(options.log, "rb") as log:
        for line in log_items.told(script, log):
            fields = {} if b'"pid": ' in line else json.loads(line)
            if "last" in fields:
                fields = {name: fields[name] for name in ("last", "items")}
            elif fields:
                fields = items.control(fields)
            sys.stdout.write(begun + (json.dumps(fields) + "\n" if fields else line.decode()))
            begun = ""
    sys.stdout.flush()
    return 0
