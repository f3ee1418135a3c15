"""What a script and its log tell of rings: who hits which trigger where, and the rings of the history gone through by place.

It is written by the words of docs/LANGUAGE.md, "Rings and triggers". Of the history it takes the items' words, as views_of_log.Told has them.
"""
import collections
from typing import Dict, List, NamedTuple

from ftlog import filters, log_desk, script_reader

ON, OFF = "on", "off"  # what tracing is


class Rings(NamedTuple):
    """The entries that the ring of each CPU holds, by their places; how many were written into each; and where each trigger fired."""

    held: List[List[int]]
    written: List[int]
    fired: List[List[int]]


class Traced(NamedTuple):
    """What the items of a history are to rings. CPUs and triggers are numbered from 0."""

    cpus: Dict[int, int]  # the CPU of each place that hits triggers or may be written
    hits: Dict[int, List[int]]  # by the place of an `enter` the triggers that it hits, in the order of lines
    entries: List[int]  # the places of the entry callbacks of users of the kind function


def traced(script, items):
    """That of a script and the items of its log, each a list of words without the place."""
    sets = [{function.name for function in script.functions if filters.fits(trigger.glob, function.name)} for trigger in script.triggers]
    users = {user.name for user in script.users.values() if user.kind == "function"}
    found = Traced({}, {}, [])
    for place, words in enumerate(items):
        is_entry = words[0] == "back" and words[2] in users
        hit = [number for number, names in enumerate(sets) if words[3] in names] if words[0] == "enter" else []
        if is_entry or hit:
            found.cpus[place] = script.tasks[int(words[1].partition(".")[0])]
        if hit:
            found.hits[place] = hit
        if is_entry:
            found.entries.append(place)
    return found


def by_place(script, items):
    """The rings of a history that is gone through item by item."""
    told, is_on = traced(script, items), script.is_tracing
    rings = [collections.deque(maxlen=script.ring) for _ in range(script.cpus)]
    written, hits, fired, entries = [0] * script.cpus, [0] * len(script.triggers), [[] for _ in script.triggers], set(told.entries)
    for place in sorted(told.cpus):
        for number in told.hits.get(place, []):
            trigger = script.triggers[number]
            hits[number] += 1
            if trigger.limit is None or hits[number] <= trigger.limit:
                fired[number].append(place)
                is_on = trigger.is_on
        if place in entries and is_on:
            rings[told.cpus[place]].append(place)
            written[told.cpus[place]] += 1
    return Rings([list(ring) for ring in rings], written, fired)


def says_something(script):
    """Whether a script has a ring of another size than the usual one, tracing that is off at first, or a trigger."""
    return script.ring != script_reader.Script._field_defaults["ring"] or not script.is_tracing or bool(script.triggers)


def spans(script, rings):
    """When tracing is on, in order, if each of these fired places switches it for all CPUs."""
    found, since, now = [], None, script.is_tracing
    for place, number in sorted((place, number) for number, places in enumerate(rings.fired) for place in places):
        if script.triggers[number].is_on != now:
            found += [log_desk.Span(since, place, ON if now else OFF)] * (since != place)
            since, now = place, not now
    return [*found, log_desk.Span(since, None, ON if now else OFF)]
