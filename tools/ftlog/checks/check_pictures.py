"""Draws examples with `tools/ft draw`, and checks what comes of it:

- the pictures and traces of docs/pictures/, which must come out byte for byte;
- for each script of examples/ that isn't refused: its picture, whole, a part of it, and one task and one call alone, has a box for each item that
  begins one, and they lie in one another within the page; its trace has an end for each beginning, by name and in order, and time never goes
  back; with rings, the entries that are drawn as held are those of NAME.rings, and as many marks of each trigger are filled as it fired there;
- a log of 200,000 items: what is said on standard error, and the memory that is used.

After a change that is meant to change the pictures, --write writes them anew; look at them before they are kept.
The last line is `pictures: N passed, M failed`, and the status is 0 if nothing failed.
"""
import collections
import json
import pathlib
import re
import sys
import tempfile
import xml.etree.ElementTree as ElementTree

from ftlog import log_reader, rings_of_log, runs, script_reader
from ftlog.draw import log_choice, log_svg, log_trace
from ftlog.fault import Fault

TOOL = [sys.executable, str(runs.TOP / "tools" / "ft"), "draw"]
# The pictures that are kept: the example, the options, and whether the trace is kept, too.
KEPT = {
    "first_path": ("first_path", [], True),
    "contexts": ("contexts", [], True),
    "registered_again": ("registered_again", [], True),
    "one_trampoline": ("one_trampoline", [], True),
    "module_unloaded": ("module_unloaded", [], True),
    "preempted_in_callback": ("preempted_in_callback", ["--window", "10.1"], True),
    "ring_stops": ("ring_stops", [], True),
    "trigger_counts": ("trigger_counts", [], False),
    "two_cpus_of_realistic": ("realistic", ["--from", "12", "--to", "72"], False),
}
# The items that begin a box and those that end it, with the class of the box; a refusal and a miss are one item.
BEGINS = {"begin": "command", "enter": "call", "back": "entry", "body": "body", "exit": "exit", "refuse": "refusal", "miss": "miss"}
ENDS = {"return": "command", "ret": "call", "back-end": "entry", "leave": "body", "exit-end": "exit", "refuse": "refusal", "miss": "miss"}
ENTRY = re.compile(r"^.{16} *(\d+): ", re.M)  # in the form rings
FIRED = re.compile(r"^# trigger \d+ fired (\d+)$", re.M)
SVG = "{http://www.w3.org/2000/svg}"
NEAR = 0.2  # lengths are rounded
SECONDS, LONG_SECONDS = 60, 900  # that a run of the tool may take
MOST_BYTES = 300  # of memory for each item of a log
LONG_CALLS = 25_000  # of a log that is made here; each is eight items
# Runs the tool, and then says how much memory it used at most. (getrusage would count that of the process which started it, too.)
MEASURED = "import runpy, sys; sys.argv[:1] = []; ft = runpy.run_path(sys.argv[0]); status = ft['main'](sys.argv[1:])\n"
MEASURED += "print(open('/proc/self/status').read()); sys.exit(status)"
MOST_USED = re.compile(rb"^VmHWM:\s*(\d+) kB$", re.M)


# The files that are kept.

def draw(top, name, options, folder, file, has_trace):
    """Runs the tool on an example, and gives the answer and the files that it was to make in this folder."""
    made = [folder / f"{file}.svg"] + [folder / f"{file}.trace.json"] * has_trace
    words = [word for option, path in zip(["--svg", "--trace"], made) for word in (option, str(path))]
    return runs.answer([*TOOL, *(str(top / "examples" / f"{name}.{end}") for end in ("ft", "log")), *options, *words], seconds=SECONDS), made


def check_kept(rows, top, room):
    """A row for each picture with its trace."""
    for file, (name, options, has_trace) in KEPT.items():
        came, made = draw(top, name, options, room, file, has_trace)
        found = runs.faults(came, 0, b"")
        for path in made if not found else []:
            kept = top / "docs" / "pictures" / path.name
            other = runs.other_text(path.read_bytes(), kept.read_bytes() if kept.exists() else b"")
            found += [f"docs/pictures/{kept.name}: {other}"] if other else []
        rows.row(f"kept: {file}", found, came.seconds)


def write_kept(top):
    """Writes them anew."""
    for file, (name, options, has_trace) in KEPT.items():
        came, _ = draw(top, name, options, top / "docs" / "pictures", file, has_trace)
        if came.status != 0:
            raise Fault(came.err.decode().rstrip())
    return 0


# Pictures.

def boxes_of(log, first, last, calls=None):
    """The boxes in a picture of these places, by the lines of the log alone: how many of each class, and the commands and calls. If these
    calls are chosen, those of control and of these."""
    shown = {}
    for place, line in enumerate(log.decode().split("\n")[:-2]):
        _, kind, key, *rest = line.split(" ")
        what = BEGINS.get(kind) or ENDS[kind]
        box = (what, key, rest[0] if what in ("entry", "exit", "refusal", "miss") else "")
        if calls is not None and what != "command" and key not in calls:
            continue
        if kind in BEGINS and place <= last:
            shown[box] = True
        if kind in ENDS and place < first:
            del shown[box]
    return collections.Counter(what for what, _, _ in shown), sorted(f"{what}-{key}" for what, key, _ in shown if what in ("command", "call"))


def rectangle(group):
    """The left, upper, right and lower edge of a box."""
    x, y, width, height = (float(group.find(f"{SVG}rect").get(name)) for name in ("x", "y", "width", "height"))
    return x, y, x + width, y + height


def nesting_faults(groups):
    """What is wrong with the boxes of a row: any two are apart, or one lies in the other."""
    around = []
    for left, upper, right, lower in sorted(map(rectangle, groups), key=lambda box: (box[0], -box[2])):
        while around and around[-1][2] <= left + NEAR:
            around.pop()
        if around and not (right <= around[-1][2] + NEAR and around[-1][1] < upper and lower < around[-1][3]):
            return [f"the box at {left}, {upper} goes across the one at {around[-1][0]}, {around[-1][1]}"]
        around.append((left, upper, right, lower))
    return []


def picture_faults(text, log, first, last, calls=None):
    """What is wrong with a picture of these places of a log, and of these calls alone if some are chosen."""
    svg = ElementTree.fromstring(text)
    rows = [group.findall(f"{SVG}g") for group in svg.findall(f"{SVG}g") if group.get("class") in ("row control", "row task")]
    drawn = [group for row in rows for group in row]
    counts = collections.Counter(group.get("class").split(" ")[0] for group in drawn)
    del counts["ghost"]
    wanted, names = boxes_of(log, first, last, calls)
    found = [] if counts == wanted else [f"boxes {dict(counts)}, not {dict(wanted)}"]
    if sorted(group.get("id") for group in drawn if group.get("id")) != names:
        found.append("the commands and calls aren't those of the log")
    width, height = float(svg.get("width")), float(svg.get("height"))
    if any(not (0 <= left <= right <= width and 0 <= upper <= lower <= height) for left, upper, right, lower in map(rectangle, drawn)):
        found.append("a box isn't within the page")
    return found + [fault for row in rows for fault in nesting_faults(row)]


def ring_faults(text, printed):
    """What is wrong with what a picture of the whole history tells of rings, by what was printed of these."""
    held, drawn = [], []
    for group in ElementTree.fromstring(text).iter(f"{SVG}g"):
        kinds = group.get("class", "").split(" ")
        if kinds[0] == "entry" and "held" in kinds:
            held.append(int(group.find(f"{SVG}title").text.split(" ")[0]))
        if kinds == ["row", "trigger"]:
            drawn.append(len(group.findall(f"{SVG}g/{SVG}path[@class='fetch']")))
    wanted, fired = [int(place) for place in ENTRY.findall(printed)], [int(count) for count in FIRED.findall(printed)]
    found = [] if sorted(held) == sorted(wanted) else [f"the entries {sorted(held)} are drawn as held, not {sorted(wanted)}"]
    return found + ([] if drawn == fired else [f"the triggers are drawn as fired {drawn} times, not {fired}"])


# Traces.

def trace_faults(text, log):
    """What is wrong with a trace of a log: each slice ends, as the innermost open one of its track, and there is one for each item that begins one."""
    found, opened, time, named, counts = [], {}, 0, set(), collections.Counter()
    for event in json.loads(text)["traceEvents"]:
        phase, track = event["ph"], (event["pid"], event.get("tid"))
        if phase == "M":
            named.add(track)
            continue
        found += [f"time goes back at {event}"] * (event["ts"] < time) + [f"the track of {event} has no name"] * (track not in named)
        time, slices = event["ts"], opened.setdefault(track, [])
        if phase == "B":
            slices.append(event["name"])
        elif phase == "E" and (not slices or slices.pop() != event["name"]):
            found.append(f"{event['name']!r} ends, but it isn't the innermost open slice")
        counts[event.get("cat")] += phase in "Bi"
    found += [f"{names} don't end" for names in opened.values() if names]
    wanted = boxes_of(log, 0, len(log))[0]
    return found + [f"{counts[what]} slices of {what}, not {count}" for what, count in wanted.items() if counts[what] != count]


# Examples.

def nested_in(log, call):
    """A call and those that are nested in it, by the lines of the log alone."""
    found = {call}
    for words in (line.split(" ") for line in log.decode().split("\n")[:-2]):
        found |= {words[2]} if words[1] == "enter" and words[5] in found else set()
    return found


def choices(script, history, log):
    """What pictures are made of: all, a part, the last task, and the call in which most others are nested; and the calls that each shows, None for all."""
    last, calls = len(history.lines) - 1, list(history.calls)
    yield log_choice.all_of(history, 0, last), None
    if last > 0:
        yield log_choice.all_of(history, last // 3, max(last // 3, 2 * last // 3)), None
    for pid in list(script.tasks)[-1:]:
        yield log_choice.choice(script, history, tasks=[str(pid)]), {call for call in calls if call.split(".")[0] == str(pid)}
    if calls:
        call = max(calls, key=lambda call: len(nested_in(log, call)))
        yield log_choice.choice(script, history, call=call), nested_in(log, call)


def check_examples(rows, folder):
    """Each script of a folder, beside its log."""
    for path in sorted(folder.glob("*.ft")):
        log, rings = path.with_suffix(".log").read_bytes(), path.with_suffix(".rings")
        if log.startswith(b"line "):
            continue
        script = script_reader.read_script(path.read_bytes())
        history = log_reader.read_log(log, script)
        for choice, calls in choices(script, history, log):
            text = log_svg.Picture(script, history, path.stem, choice).whole()
            found = picture_faults(text, log, choice.first, choice.last, calls)
            if calls is None and len(choice.places) == len(history.lines) and rings.exists() and rings_of_log.says_something(script):
                found += ring_faults(text, rings.read_text())
            rows.row(f"{path.name}, picture of {len(choice.places)} places", found)
        rows.row(f"{path.name}, trace", trace_faults(log_trace.trace(script, history, path.stem), log))


# A long log.

def long_log(calls):
    """A script of one task and a graph user, and a log of so many calls in which it is called back; the exit of each fifth call is lost."""
    script = "ftrace 1\nfunc a\nuser gr graph\ncpu 0 quantum 9\ntask 10 cpu 0\nctl register gr\n"
    lines = ["begin 1", "return 1 ok"]
    for call in range(1, calls + 1):
        entry = len(lines) + 1
        lines += [f"enter 10.{call} normal a -", f"back 10.{call} gr", f"back-end 10.{call} gr", f"body 10.{call} a own gr", f"leave 10.{call}"]
        lines += [f"exit 10.{call} gr {entry}", f"exit-end 10.{call} gr"] * (call % 5 > 0) + [f"ret 10.{call} -"]
    return script.encode(), "".join(f"{place} {line}\n" for place, line in enumerate(lines)).encode() + b"end\n"


def check_long(rows, room):
    """What is said of a long log, and how much memory a part of it and the whole need."""
    script, log = long_log(LONG_CALLS)
    paths = [room / "long.ft", room / "long.log"]
    paths[0].write_bytes(script)
    paths[1].write_bytes(log)
    count = log.count(b"\n") - 1
    command = [TOOL[0], "-c", MEASURED, *TOOL[1:], *map(str, paths), "--svg", str(room / "long.svg")]
    part = ["--trace", str(room / "long.json"), "--from", str(count - 300), "--to", str(count - 280)]
    for words, last in ((part, f"ft draw: writing a trace of {count:,} items"), ([], "px wide")):
        came = runs.answer([*command, *words], seconds=LONG_SECONDS)
        used = MOST_USED.search(came.out)
        found = [] if came.status == 0 and last in "".join(came.err.decode().splitlines()[-1:]) else [f"it says {came.err.decode()!r}"]
        found += [] if used and int(used[1]) * 1024 <= MOST_BYTES * count else [f"it used {used and used[1]} kB"]
        rows.row("long: " + ("a part" if words else "the whole"), found, came.seconds)


def add_words(parser):
    """Adds the words of `ft check pictures`."""
    parser.add_argument("--top", type=pathlib.Path, default=runs.TOP, metavar="FOLDER", help="where docs/ and examples/ are; else this repository")
    parser.add_argument("--write", action="store_true", help="write the files of docs/pictures/, and check nothing")
    runs.add_verbose(parser)


def run(words):
    """Checks all pictures, or writes those that are kept."""
    if words.write:
        return write_kept(words.top)
    rows = runs.Rows("pictures", words.verbose)
    with tempfile.TemporaryDirectory() as room:
        check_kept(rows, words.top, pathlib.Path(room))
        check_long(rows, pathlib.Path(room))
    check_examples(rows, words.top / "examples")
    return rows.end()
