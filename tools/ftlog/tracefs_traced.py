"""The writes to the files of tracefs that strace has seen: those of all processes, in their order, wherever tracefs is mounted."""
import posixpath
import re

from ftlog import tracefs_writes
from ftlog.fault import Fault
from ftlog.tool_options import UNKNOWN, Left, Pause, Write
from ftlog.tracefs_state import PIDS, SETS

STRACE = ["strace", "-f", "-y", "-s", "99999", "-e", "trace=?open,openat,write,writev,execve,?rmdir,unlinkat,clock_nanosleep"]  # what writes the text
LINE = re.compile(r"(?:\[pid +(\d+)\] |(\d+) +)? *(?:[\d.:]+ +)?(.*)")
UNFINISHED, RESUMED = " <unfinished ...>", re.compile(r"<\.\.\. \w+ resumed>(.*)")
CALL = re.compile(r"(\w+)\((.*)\) += (-?\d{1,19}|\?)(.*)")
STRING = re.compile(r'"((?:[^"\\]|\\.)*)"(\.\.\.)?')
PATH = re.compile(r"<([^>]*)>")  # of a descriptor
TELLING = {"current_tracer", "tracing_on", "function_profile_enabled", "max_graph_depth", tracefs_writes.LIST, *SETS, *PIDS}
ROOT = re.compile(rf"(.+?)(?:/instances/[^/]+)?/(?:{'|'.join(TELLING)})")  # if tracefs isn't at its usual places, it is what has such files
SYSCTL = {"/proc/sys/kernel/ftrace_enabled": tracefs_writes.Place("", "ftrace_enabled")}
EMPTIED = {*SETS, *PIDS, "trace"}  # what is emptied when it is opened, even if nothing is written then
NOT_WORK = tracefs_writes.QUIET | tracefs_writes.SHELLS | tracefs_writes.FRONT.keys()


def calls(text):
    """The calls in what strace has written: the line on which each ended, its process, its name, its words, its answer, and what follows."""
    begun = {}
    for number, line in enumerate(text.split("\n"), 1):
        pid, other, what = LINE.match(line).groups()
        resumed = RESUMED.match(what)
        if what.endswith(UNFINISHED):
            begun[pid or other] = what.removesuffix(UNFINISHED)
        elif resumed:
            what = begun.pop(pid or other, "") + resumed[1]
        found = CALL.match(what)
        if found:
            name, words, came, rest = found.groups()
            yield number, pid or other, name, words, -1 if came == "?" else int(came), rest


def strings(line, words):
    """The strings among the words of a call; of one that strace has cut off, None."""
    try:
        found = [(text.encode("latin-1").decode("unicode_escape").replace(UNKNOWN, ""), is_cut) for text, is_cut in STRING.findall(words)]
    except ValueError:
        raise Fault(f"line {line} has a string that strace doesn't write") from None
    return [None if is_cut else text for text, is_cut in found]


class Traced:
    """Goes through the calls, and keeps the events. An event of which later calls show that it is none becomes None."""

    def __init__(self, text):
        found = list(calls(text))
        if not found:
            raise Fault("it has no line that strace writes")
        paths = {path for _, _, _, words, _, rest in found for path in PATH.findall(words + rest)}
        self.roots = {root[0] for root in map(tracefs_writes.ROOTS.match, paths) if root} or {root[1] for root in map(ROOT.fullmatch, paths) if root}
        self.events, self.emptied, self.edits, self.runs, self.folders = [], {}, {}, {}, {}
        for line, pid, name, words, came, rest in found:
            if name in TAKEN:
                TAKEN[name](self, line, pid, words, came, rest)

    def place(self, path, folder="/"):
        """The place in tracefs of a path, or of a name in a folder; None if it is elsewhere."""
        path = posixpath.normpath(posixpath.join(folder, path))
        root = next((root for root in self.roots if path.startswith(root + "/")), None)
        return root and tracefs_writes.place_of(tracefs_writes.ROOT + path[len(root) :])

    def opened(self, line, pid, words, came, rest):
        """A file is opened. If that empties it, the first write counts as one with `>`."""
        self.folders[pid] = "".join(PATH.findall(words)[:1])
        name = strings(line, words)[:1]
        if not name or name == [None] or not re.search("O_WRONLY|O_RDWR", words):
            return
        place = self.place("".join(PATH.findall(rest)[:1]) if came >= 0 else name[0], self.folders[pid])
        if place and came < 0:
            self.events.append(Left(line, f"{place.path}: it can't be opened: {rest.strip()}"))
        elif place:
            self.edits.pop(place, None)
            self.emptied.pop(place, None)
            if "O_TRUNC" in words:
                self.emptied[place] = len(self.events)
                self.events.append(Write(line, *place, "", False) if place.path in EMPTIED else None)

    def written(self, line, pid, words, came, rest):
        """Something is written. If it is to tracefs, its process isn't what is traced. What goes to a set after one opening is one write."""
        path = PATH.search(words)
        place = SYSCTL.get(path[1]) or self.place(path[1]) if path and came >= 0 else None
        if place is None:
            return
        texts, first, before = strings(line, words[path.end() :]), self.emptied.pop(place, None), self.edits.get(place)
        for number in {first, self.runs.pop(pid, None)} - {None}:
            self.events[number] = None
        text = "".join(text or "" for text in texts)[:came]
        if None in texts:
            self.events.append(Left(line, f"{place.path}: what is written is cut off: strace needs a larger -s"))
        elif before is not None:
            self.events[before] = self.events[before]._replace(text=self.events[before].text + text)
        else:
            self.edits.update({place: len(self.events)} if place.path in SETS else {})
            self.events.append(Write(line, *place, text, first is None))

    def executed(self, line, pid, words, came, rest):
        """A program runs: what is traced, unless it is a shell, does nothing to look for, or writes to tracefs itself."""
        path, *given = [text or "" for text in strings(line, words)] or [""]
        name = posixpath.basename(path)
        if came == 0 and name in tracefs_writes.MODULES:
            self.events += tracefs_writes.modules_of(line, name, given[1:])
        elif came == 0 and name not in NOT_WORK:
            self.runs[pid] = len(self.events)
            self.events.append(Pause(line))

    def slept(self, line, pid, words, came, rest):
        """A process sleeps."""
        self.events.append(Pause(line))

    def removed(self, line, pid, words, came, rest):
        """A folder is removed: an instance. One of files that aren't tracefs's isn't empty."""
        place = self.place("".join(text or "" for text in strings(line, words)), self.folders.get(pid, "/"))
        if place and place.instance and not place.path and (came == 0 or "ENOTEMPTY" in rest):
            self.events.append(Write(line, place.instance, "rmdir", "", False))


TAKEN = {"open": Traced.opened, "openat": Traced.opened, "write": Traced.written, "writev": Traced.written, "execve": Traced.executed,
         "clock_nanosleep": Traced.slept, "rmdir": Traced.removed, "unlinkat": Traced.removed}


def events(text):
    """What the calls come to that strace has written down."""
    return [event for event in Traced(text).events if event is not None]
