"""Which calls of a script may find the module of their function unloaded. The rule is that of docs/LANGUAGE.md, "unloaded".

The acts of tasks and the lines of control are lists of words, as script_forms.py has them. A task is its pid, its CPU and its acts.
"""
from ftlog import control_lines


def first_line(todo, place):
    """How many command lines control has passed, at least, when the act at this place begins."""
    return max((int(words[1]) for words in todo[:place] if words[0] == "after"), default=0)


def return_number(todo, place):
    """The number, from 1, of the act by which the call at this place returns."""
    opened = 0
    for number, words in enumerate(todo[place:], place + 1):
        opened += {"call": 1, "ret": -1}.get(words[0], 0)
        if opened == 0:
            return number
    raise ValueError("the call doesn't return")


def last_line(control, pid, acts):
    """How many command lines control has passed, at most, before it waits until the task has finished so many acts."""
    passed = 0
    for words in control:
        if words[0] != "until":
            passed += 1
        elif int(words[1]) == pid and int(words[2]) >= acts:
            break
    return passed


def uncovered(script, tasks, control):
    """The acts of these tasks that are calls which may find their module unloaded."""
    owners, away = {function.name: function.module for function in script.functions}, control_lines.through(script).away
    for pid, _, todo in tasks:
        for place, words in enumerate(todo):
            if words[0] != "call" or owners[words[1]] is None:
                continue
            last = last_line(control, pid, return_number(todo, place))
            if any(owners[words[1]] in modules for modules in away[first_line(todo, place) : last + 1]):
                yield words
