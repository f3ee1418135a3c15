"""What the commands of a shell write to the files of tracefs, and what they do besides."""
import getopt
import os
import posixpath
import re
from typing import NamedTuple

from ftlog import runs, shell_commands, tool_options
from ftlog.fault import Fault
from ftlog.shell_commands import BYTES, UNKNOWN
from ftlog.tool_options import Left, Pause, Write

ROOT = "/sys/kernel/tracing"
ROOTS = re.compile(r"/+sys/+kernel/+(?:debug/+)?tracing(?=/|$)|/d(?:ebug)?/tracing(?=/|$)")
FILES = set((
    "current_tracer set_ftrace_filter set_ftrace_notrace set_ftrace_pid set_ftrace_notrace_pid max_graph_depth "
    "function_profile_enabled tracing_on trace trace_clock buffer_size_kb set_graph_function set_graph_notrace "
    "trace_options set_event set_event_pid set_event_notrace_pid tracing_cpumask tracing_thresh tracing_max_latency "
    "snapshot trace_marker kprobe_events uprobe_events dynamic_events synthetic_events buffer_total_size_kb buffer_percent "
    "saved_cmdlines_size stack_trace_filter trace_pipe error_log available_filter_functions"
).split())  # those that are known if a path has nothing else that tells
FOLDERS = ("events/", "options/", "instances/", "per_cpu/")
# What may stand in front of a command, each with its options that have a value.
FRONT = {"sudo": ("-u", "-g", "-h", "-p", "-C"), "doas": ("-u", "-C"), "nice": ("-n",), "env": ("-u",)}
FRONT.update(dict.fromkeys("command exec nohup time builtin".split(), ()))
SHELLS = {"sh", "bash", "dash", "ash", "ksh", "zsh"}
QUIET = set((
    "mount umount mkdir rmdir set unset umask trap [ [[ test echo printf true false : exit return shift ulimit modprobe "
    "insmod rmmod ls chmod chown source . tee which id break continue read"
).split())  # commands during which nothing is traced that a reader would look for
SHELLS_DEEP = 8  # within each other, as in sh -c
MODULES = {"modprobe", "insmod", "rmmod"}
LIST = "available_filter_functions"
GREPS = {"grep": [], "egrep": ["-E"], "fgrep": ["-F"]}
PLAIN = re.compile(r"(\^?)(\w+)(\$?)", re.ASCII)  # a pattern of grep that a glob can say
FIRST_WORDS = {"cut-d -f1", "cut-f1-d ", "awk{print$1}"}  # words that print the first word of each line, one after the other
PROMPT = re.compile(r"[ \t]*[#$] ")


class Place(NamedTuple):
    """A file of tracefs: the instance, empty for the top, and the path within it."""

    instance: str
    path: str


def shown(word):
    """A word as the shell's text has it."""
    return word.replace(UNKNOWN, "")


def place_of(path):
    """The place of an absolute path; None if it isn't in tracefs."""
    found = ROOTS.match(path)
    if not found:
        return None
    parts = path[found.end() :].strip("/").split("/")
    if parts[0] == "instances" and len(parts) > 1:
        return Place(parts[1], "/".join(parts[2:]))
    return Place("", "/".join(parts))


def modules_of(line, name, words):
    """What modprobe, insmod or rmmod with these words does, as writes: a module is loaded or unloaded."""
    is_loaded = name != "rmmod" and not {"-r", "--remove"} & set(words)
    for word in words:
        if not word.startswith("-") and "=" not in word:
            module = posixpath.basename(word).split(".")[0].replace("-", "_")
            yield Write(line, "", "modprobe" if is_loaded else "rmmod", module, False)


class Shell:
    """Where the shell is, and what its commands come to, given the list of functions."""

    def __init__(self, listed):
        self.folder, self.before, self.is_told = ROOT, ROOT, False  # a text that doesn't say where it is is in tracefs
        self.follower, self.depth, self.listed = shell_commands.Follower(), 0, listed
        self.globs = {}  # of names, one a line, that grep has printed: the glob that selects the same

    def place(self, word):
        """The place in tracefs that a word names, or None. What isn't known at its front is tracefs if a file of tracefs follows."""
        if word.startswith(UNKNOWN):
            rest = word.split(UNKNOWN, 2)[2].lstrip("/")
            known = place_of(f"{ROOT}/{rest}")
            is_known = known.path in FILES or rest.startswith(FOLDERS)
            return known if is_known else None
        whole = posixpath.normpath(posixpath.join(self.folder, word))
        found = place_of(whole)
        is_sure = self.is_told or word.startswith("/") or (found and (found.path in FILES or word.startswith(FOLDERS)))
        return found if is_sure else None

    def go(self, words):
        """cd: a folder that isn't known is taken for tracefs."""
        word = words[1] if len(words) > 1 else "~"
        if word == "-":
            self.folder, self.before = self.before, self.folder
            return
        self.before, self.is_told = self.folder, True
        if word.startswith(UNKNOWN):
            word = f"{ROOT}/{word.split(UNKNOWN, 2)[2]}"
        self.folder = posixpath.normpath(posixpath.join(self.folder, word))

    def events(self, text, first=1, doubt=None):
        """What the commands of a text come to."""
        for command in shell_commands.commands(text, first, self.follower):
            yield from self.command(command._replace(doubt=command.doubt or doubt))

    def command(self, command):
        """What one command comes to."""
        words = bare(command.words)
        name = posixpath.basename(words[0]) if words else ""
        if name in SHELLS and "-c" in words[:-1]:
            yield from self.inner(command, words)
        elif name in ("cd", "pushd") and len(words) > 1:
            self.go(words)
        elif name == "popd":
            self.go(["cd", "-"])
        elif name in ("trace-cmd", "perf"):
            yield from self.tool(command, name, words)
        elif name in ("mkdir", "rmdir"):
            yield from self.folders(command, name, words)
        else:
            yield from self.written(command, name, words)

    def inner(self, command, words):
        """The commands of a text that a shell is given as a word; what they print goes where the shell's streams go."""
        text = words[words.index("-c") + 1]
        self.depth += 1
        if self.depth > SHELLS_DEEP:
            raise Fault(f"line {command.line}: more than {SHELLS_DEEP} shells within each other")
        yield from self.events(shown(text), command.line, command.doubt)
        self.depth -= 1

    def tool(self, command, name, words):
        """What trace-cmd or perf is asked for."""
        read = tool_options.trace_cmd if name == "trace-cmd" else tool_options.perf
        found = list(read(command.line, words[1:]))
        if command.doubt and any(not isinstance(event, Pause) for event in found):
            yield Left(command.line, f"{name} is within {within(command.doubt)}, so whether it runs isn't known")
        else:
            yield from found

    def folders(self, command, name, words):
        """mkdir and rmdir: an instance that is removed."""
        for word in words[1:]:
            place = None if word.startswith("-") else self.place(word)
            if place and place.instance and not place.path and name == "rmdir":
                yield Write(command.line, place.instance, "rmdir", "", False)

    def written(self, command, name, words):
        """What a command writes, and that it runs."""
        if name in MODULES and command.doubt:
            yield Left(command.line, f"{name} is within {within(command.doubt)}, so whether it runs isn't known")
        elif name in MODULES:
            yield from modules_of(command.line, name, words[1:])
        targets, is_found = self.targets(command, name, words), False
        for place, is_appended in targets:
            is_found = True
            file = place.path
            if command.doubt:
                yield Left(command.line, f"the write to {shown(file)} is within {within(command.doubt)}, so whether it happens isn't known")
                continue
            text = self.text_of(command, name, words)
            if text is None:
                yield Left(command.line, f"what `{shown(name)}` writes to {shown(file)} isn't known")
            elif UNKNOWN in place.instance or UNKNOWN in file:
                yield Left(command.line, f"the file {shown(file)} isn't known")
            else:
                yield Write(command.line, place.instance, file, self.globs.get(text, text), is_appended)
        if not is_found and name and name not in QUIET:
            yield from self.others(command, name, words)

    def others(self, command, name, words):
        """A command that writes nothing to tracefs."""
        if name == "sysctl" and any("ftrace_enabled=0" in word for word in words):
            yield Left(command.line, "kernel.ftrace_enabled: nothing in a script switches all of ftrace off")
        yield Pause(command.line)

    def targets(self, command, name, words):
        """The places that a command writes to, each with whether what it writes is appended."""
        found = []
        for redirect in command.redirects:
            if redirect.how in (">", ">>") and redirect.stream == "1":
                found.append((redirect.word, redirect.how == ">>"))
        found = found[-1:]  # the last one has the stream
        if name == "tee":
            is_appended = any(word in ("-a", "--append") for word in words)
            found = [(word, is_appended) for word in words[1:] if not word.startswith("-")] + found
        if any("ftrace_enabled" in word for word, _ in found):
            return [(Place("", "ftrace_enabled"), False)]
        places = [(self.place(word), is_appended) for word, is_appended in found]
        return [(place, is_appended) for place, is_appended in places if place and place.path]

    # What commands print; None if that isn't known.

    def text_of(self, command, name, words):
        """What a command prints."""
        if name == "echo":
            return echoed(words[1:])
        if name == "printf":
            return printed(words[1:])
        if name in ("", ":", "true", "cd"):
            return ""
        if name == "tee" or name == "cat" and words[1:] in ([], ["-"]):
            return self.fed_text(command)
        if name == "cat" and len(words) == 2:
            return self.file_text(words[1])
        if name in GREPS:
            return self.grepped(command, name, words[1:])
        if name in ("cut", "awk") and "".join([name, *words[1:]]).replace("{print ", "{print") in FIRST_WORDS:
            return first_words(self.fed_text(command))
        return None

    def fed_text(self, command):
        """What a command reads: a here-document, a file, or what the command before it in a pipe prints."""
        for redirect in reversed(command.redirects):
            if redirect.how in ("<<", "<<<"):
                return redirect.word
            if redirect.how == "<" and redirect.stream == "0":
                return self.file_text(redirect.word)
        if command.fed is None:
            return None
        words = bare(command.fed.words)
        return self.text_of(command.fed, posixpath.basename(words[0]) if words else "", words)

    def file_text(self, word):
        """The text of a file: of the list of functions, or of one that is there where the tool runs and isn't a large one."""
        place = self.place(word)
        if place and place.path == LIST:
            return "".join(f"{name} [{module}]\n" if module else f"{name}\n" for name, module in self.listed.functions)
        path = posixpath.join(self.folder, word) if self.is_told else os.path.expanduser(word)
        if word == "/dev/null":
            return ""
        if UNKNOWN in path or place_of(path) or not os.path.isfile(path) or os.path.getsize(path) > BYTES:
            return None
        with open(path, encoding="latin-1", newline="") as file:
            return file.read().replace(UNKNOWN, "")

    def grepped(self, command, name, words):
        """What grep prints, which is asked itself."""
        try:
            options, others = getopt.gnu_getopt(words, "EFGivwxe:")
        except getopt.GetoptError:
            return None
        patterns = [value for option, value in options if option == "-e"]
        patterns, files = (patterns, others) if patterns else (others[:1], others[1:])
        text = self.file_text(files[0]) if files else self.fed_text(command)
        if len(files) > 1 or not patterns or text is None or UNKNOWN in "".join(patterns):
            return None
        given = GREPS[name] + [option for option, _ in options if option != "-e"]
        came = runs.answer(["grep", *given, *(word for pattern in patterns for word in ("-e", pattern))], text.encode("latin-1"))
        found = came.out.decode("latin-1") if came.status in (0, 1) else None
        plain = PLAIN.fullmatch("".join(patterns)) if found else None
        if plain:
            names, glob = first_words(found), f"{'' if plain[1] else '*'}{plain[2]}{'' if plain[3] else '*'}"
            if {self.listed.functions[number].name for number in self.listed.named(glob)} == set(names.split("\n")[:-1]):
                self.globs[names] = glob
        return found


def bare(words):
    """The words of a command without what may stand in front of it, as sudo with its options, or env with variables."""
    at, front = 0, None
    while at < len(words):
        name = posixpath.basename(words[at])
        if name in FRONT:
            front = name
        elif front is None or not (words[at].startswith("-") or re.match(r"\w+=", words[at])):
            break
        at += 2 if words[at] in FRONT.get(front, ()) else 1
    return words[at:]


def within(doubt):
    """What a command that may run or not is within, in words."""
    return {"||": "what comes after `||`", "&&": "what comes after a test with `&&`", "function": "a function"}.get(doubt, f"`{doubt}`")


def first_words(text):
    """The first word of each line of a text that may not be known."""
    return text and re.sub("[ \t].*", "", text)


def echoed(words):
    """What echo prints of these words."""
    is_escaped = False
    while words and re.fullmatch("-[neE]+", words[0]):
        is_escaped = "e" in words[0]
        words = words[1:]
    text = " ".join(words)
    return shell_commands.unescaped(text) if is_escaped else text


def printed(words):
    """What printf prints of these words: `%s`, `%d`, `%b` and `%%`."""
    if words[:1] == ["--"]:
        words = words[1:]
    if not words:
        return ""
    form, values, found = shell_commands.unescaped(words[0]), words[1:], []
    while True:
        count = 0
        for part in re.findall(r"%%|%[-0-9.]*[a-z]|[^%]+|%", form):
            if re.fullmatch("%[^%]+", part):
                value = values.pop(0) if values else ""
                found.append(shell_commands.unescaped(value) if part.endswith("b") else value)
                count += 1
            else:
                found.append("%" if part == "%%" else part)
        if not values or not count:
            return "".join(found)


def events(text, listed):
    """What a shell's text comes to, in the order of its lines. Zero bytes, which a shell leaves out, would be taken for marks."""
    lines = text.replace(UNKNOWN, "").split("\n")
    if all(PROMPT.match(line) for line in lines if line.strip()):
        lines = [PROMPT.sub("", line, count=1) for line in lines]
    return list(Shell(listed).events("\n".join(lines)))
