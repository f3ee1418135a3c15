"""The picture of a history: an SVG with a column for each item, in which control or each of its lanes, each task, tracing and each trigger, each
module that comes and goes, and each call site has a row. It is written piece by piece, so that a long one isn't in memory."""
import array
import bisect
import io
import math
import shutil
import tempfile

from ftlog import control_lines, log_boxes, log_desk, log_reader, rings_of_log
from ftlog.draw import log_style
from ftlog.draw.log_shapes import HATCHED, ICONS, SANS, across, command_lines, escaped, ghost_label, ghost_width, icon, label
from ftlog.draw.log_shapes import label_width, path, plain, rect, short, tag, text, wanted_width, width_of

CELL = 26  # the least width of a column
LEAD = 52  # before the first column: what was before, or is cut off
REST = 52  # after the last one: what stays, and how the log ends
LEAST = 560  # of all columns together, so that a short history has room
INSET = 1.5  # from a box to the edges of its columns
HEAD = 17  # the height of a box without others in it, and how far below its top those in it begin
FOOT = 4  # below them
GAP = 8  # between panels, and at their edges
COMMAND = 48  # the height of a command
SITE = 24  # that of a site's row
KEY_ROW = 20  # that of a row of the key
SITES = 12  # rows of sites; if there are more functions, those whose sites are meant to be the same share one
DIGIT = 5.6  # the width of a digit of a place number
APART = 3  # what is free at least between two of these numbers
WIDE = 2400  # a picture that is wider has its headings again, in a strip above each row
STRIP = 12  # the height of a strip
AGAIN = 800  # how far its headings are from each other: less than a window is wide
KEPT = 1_000_000  # characters of a picture that are kept in memory, and not in a file

HATCH = '<pattern id="hatch" width="6" height="6" patternUnits="userSpaceOnUse"><path class="hatch" d="M-1 1l2-2M0 6l6-6M5 7l2-2"/></pattern>'
DESCRIPTION = "Above are the commands of control, below them the calls of each task with the callbacks in them, "
DESCRIPTION += "and at the bottom what the call site of each function is meant to be."
OF_MODULES = " Above these is when each module that comes and goes is loaded."
OF_RINGS = " Below the tasks is when tracing is on, and which calls hit a trigger."
MODULES_SHOW = "modules: when each is loaded, by the commands that have returned"
TRACING_SHOWS = "tracing: when it is on, and which calls hit a trigger, if the history is gone through by place"
SITES_SHOW = "call sites: what each is meant to be, by the commands that have returned"
HERE = "here"  # said of sites that are alike in a section, and not in the whole history
HERE_SHOWS = "; others here: alike in this part of the log, not in all of it"

# What a module or tracing is, and as which shape of a site it is drawn.
OF_MODULE = {log_desk.LOADED: "normal", log_desk.AWAY: log_desk.NOP}
OF_TRACING = {rings_of_log.ON: "normal", rings_of_log.OFF: log_desk.NOP}
# The mark of a hit of a trigger, from its left corner: filled if it fires.
HIT = "l4.5-4.5l4.5 4.5l-4.5 4.5z"

RIM = ' rx="3"'  # of a box

# What the key explains if it is in the picture: the classes of its sample, the sample, and what it means.
SAMPLE = '<rect width="26" height="14"/>'
KEY = [
    ("call", "row call normal", SAMPLE, "call; its context, if not normal"),
    ("body", "row body", SAMPLE, "its body, and what its site called"),
    ("entry", "row entry u0", SAMPLE + icon("entry", 10, 2.5), "entry callback of a user"),
    ("exit", "row exit u0", SAMPLE + icon("exit", 9, 2.5), "exit callback"),
    ("held", "row entry u0 held", SAMPLE + icon("entry", 10, 2.5), "an entry that its ring holds in the end"),
    ("refusal", "row refusal u0", SAMPLE + icon("refusal", 8.5, 2.5), "callback refused, and why"),
    ("miss", "row miss u0", SAMPLE + icon("miss", 8.5, 2.5), "exit missed"),
    ("ghost", "row ghost u0", SAMPLE + icon("exit", 9, 2.5), "an exit that was lost: it didn't come"),
    ("refused", "row command refused u0", SAMPLE, "command that isn't accepted"),
    ("returns", "row", path("returns", "M13 0v14"), "a command has returned"),
    ("changing", "row changing", SAMPLE, "site while a command changes it"),
    ("loading", "row changing", SAMPLE, "module while it is loaded or unloaded"),
    ("fires", "row", path("fetch", f"M9 7{HIT}"), "a trigger is hit, and fires"),
    ("hit", "row", path("line", f"M9 7{HIT}"), "a trigger is hit, and doesn't fire"),
    ("fetch", "row", path("fetch", "M10 5h7l-3.5 5z"), "a call's body begins"),
    ("cut", "row call normal", '<rect width="26" height="14" stroke-dasharray="26 14 40 0"/>', "goes on outside, or wasn't over"),
]

class Columns:
    """The columns of some places, as wide as the texts over them need."""

    def __init__(self, choice, start, needs):
        """A need is a first and a last place, and how wide their columns are to be together; needs are met in their order."""
        self.first, self.last, self.places, self.start = choice.first, choice.last, choice.places, start
        self.widths = array.array("I", [CELL]) * len(self.places)
        for begin, end, wanted in needs:
            self.widen(*self.between(begin, end), wanted)
        self.widen(0, len(self.widths), LEAST)
        self.edges = array.array("Q", [start + LEAD])
        for width in self.widths:
            self.edges.append(self.edges[-1] + width)
        self.end = max(self.edges[-1], start + LEAD + LEAST) + REST

    def between(self, begin, end):
        """The columns of the places from one to another: the number of the first, and of the first after them."""
        return bisect.bisect_left(self.places, begin), bisect.bisect_right(self.places, end)

    def widen(self, begin, end, wanted):
        """Shares out among these columns what they lack."""
        count = end - begin
        lacking = wanted - sum(self.widths[begin:end]) if 0 < count * CELL < wanted else 0
        for turn in range(count if lacking > 0 else 0):
            self.widths[begin + turn] += (lacking + turn) // count

    def left(self, place):
        """The left edge of what begins at this place; the start, if that is before the first one."""
        return self.start if place is None or place < self.first else self.edges[bisect.bisect_left(self.places, place)]

    def right(self, place):
        """The right edge of what ends with this place; the end, if that is after the last one."""
        return self.end if place is None or place > self.last else self.edges[bisect.bisect_right(self.places, place)]


class Part:
    """A part of a picture's text: lines, which are kept in a file once they are many."""

    def __init__(self):
        self.file = tempfile.SpooledTemporaryFile(KEPT, "w+", encoding="utf-8", newline="")

    def __enter__(self):
        return self

    def __exit__(self, *_):
        self.file.close()

    def add(self, *lines):
        """Some lines; those that are empty aren't there."""
        for line in lines:
            if line:
                self.file.write(f"  {line}\n")

    def copy_to(self, file):
        """Writes the whole part into a file."""
        self.file.seek(0)
        shutil.copyfileobj(self.file, file)


class Picture:
    """The picture of a part of a history, drawn from above; `y` is where the next thing goes."""

    def __init__(self, script, history, name, choice, call=None):
        """Of what is chosen, and with the window of this call."""
        self.script, self.history, self.name, self.call, self.choice = script, history, name, call, choice
        self.first, self.last = choice.first, choice.last
        self.window = log_reader.window(history, call) if call else None
        self.hues = {user: f"u{number % len(log_style.HUES)}" for number, user in enumerate(script.users)}
        self.commands = [box for box in history.commands if box.begin <= self.last and (box.end is None or box.end >= self.first)]
        self.tasks = {pid: log_boxes.OfTask(history.boxes, numbers) for pid, numbers in choice.boxes.items()}
        self.modules = {module: self.shown(log_desk.module_spans(script, history.commands, module)) for module in self.modules_of()}
        self.is_ringed = rings_of_log.says_something(script)
        if self.is_ringed:
            self.traced, self.rings = rings_of_log.traced(script, self.items()), rings_of_log.by_place(script, self.items())
        self.held = {place for held in self.rings.held for place in held} if self.is_ringed else set()
        self.lost = self.lost_exits()
        self.sites = self.site_rows()
        self.columns = Columns(choice, self.gutter(), self.needs())
        self.strip = STRIP if self.columns.end > WIDE else 0
        self.again, self.uses, self.y = [], set(), 0  # the headings of a wide picture, and the classes of shapes that there are

    def items(self):
        """The words of each item."""
        return (line.split(" ")[1:] for line in self.history.lines)

    def modules_of(self):
        """The modules that come and go; if only some functions are called, those of these."""
        of_functions = self.choice.functions
        owners = {self.script.functions[number].module for number in of_functions} if of_functions is not None else None
        return [module for module in control_lines.changing(self.script) if owners is None or module in owners]

    def lost_exits(self):
        """The entries whose exits were lost, by the boxes of their calls: those calls that return in the picture."""
        found, boxes = {}, self.history.boxes
        shown = {boxes.call_of(box) for box in boxes.lost()}.intersection(box for numbers in self.choice.boxes.values() for box in numbers)
        for box in boxes.lost():
            call = boxes.call_of(box)
            if call in shown and self.first <= boxes.end[call] <= self.last:
                found.setdefault(call, []).append(box)
        return found

    def needs(self):
        """What columns have to be as wide as, in the order in which it is met: the shortest boxes first."""
        boxes, of_commands, of_boxes = self.history.boxes, {}, {}
        for box in self.commands:
            of_commands.setdefault((self.last if box.end is None else box.end) - box.begin, []).append(box)
        for numbers in self.choice.boxes.values():
            for box in numbers:
                length = (self.last if boxes.end[box] == log_boxes.NONE else boxes.end[box]) - boxes.begin[box]
                of_boxes.setdefault(length, log_boxes.numbers()).append(box)
        for length in sorted(of_commands.keys() | of_boxes.keys()):
            for box in [*of_commands.get(length, []), *log_boxes.OfTask(boxes, of_boxes.get(length, log_boxes.numbers()))]:
                yield box.begin, self.last if box.end is None else box.end, wanted_width(box)
        for call, entries in self.lost.items():
            yield boxes.end[call], boxes.end[call], sum(ghost_width(boxes.name_of(entry)) + 2 for entry in entries) + 4

    def shown(self, spans):
        """Those of some spans that are in the section, wholly or in part."""
        return [span for span in spans if (span.begin or 0) <= self.last + 1 and (span.end is None or span.end >= self.first)]

    def cut(self, span):
        """A span as far as it is in the section."""
        begin = None if span.begin is None or span.begin < self.first else span.begin
        end = None if span.end is None or span.end > self.last + 1 else span.end
        return span._replace(begin=begin, end=end)

    def site_rows(self):
        """Of each row of sites the spans, the numbers of its functions, and whether these are alike in the section alone."""
        chosen = range(len(self.script.functions)) if self.choice.functions is None else self.choice.functions
        rows = {}  # by how their sites look, or by the function if there are few: the spans, and lists of functions that are alike throughout
        for alike, targets in log_desk.alike(self.script, self.history.commands):
            spans, numbers = self.shown(log_desk.spans(self.history.commands, targets)), [number for number in alike if number in chosen]
            if len(chosen) <= SITES:
                rows.update((number, (spans, [[number]])) for number in numbers)
            elif numbers:
                rows.setdefault(tuple(map(self.cut, spans)), (spans, []))[1].append(numbers)
        found = [(spans, sorted(number for numbers in lists for number in numbers), len(lists) > 1) for spans, lists in rows.values()]
        return sorted(found, key=lambda row: row[1][0])

    def gutter(self):
        """Where the rows begin, after their headings."""
        headings = ["lane 0 control" if self.script.lanes else "control"]
        headings += [f"task {pid} CPU {self.script.tasks[pid]}" for pid in self.tasks]
        headings += [f"{short(module, 20)} module" for module in self.modules]
        headings += [" ".join(part for _, part in self.trigger_heading(number)) for number in range(len(self.script.triggers))]
        headings += [" ".join(part for _, part in self.site_heading(numbers, is_part)) for _, numbers, is_part in self.sites]
        return max(map(width_of, headings)) + 3 * GAP

    def trigger_heading(self, number):
        """The number of a trigger, and its text."""
        trigger = self.script.triggers[number]
        limit = "" if trigger.limit is None else f":{trigger.limit}"
        return [("name", f"trigger {number}"), ("muted", f"{short(trigger.glob, 20)}:trace{'on' if trigger.is_on else 'off'}{limit}")]

    def site_heading(self, numbers, is_part=False):
        """The function, or the first one, of a row of sites. If the others are like it in the section alone, that is said."""
        function, others = self.script.functions[numbers[0]], len(numbers) - 1
        more = f"and {others} other{'s' if others > 1 else ''}" if others else short(function.module or "", 12)
        more += f" {HERE}" if is_part else ""
        return [("name", short(function.name, 20))] + ([("muted", more)] if more else [])

    def add(self, *parts):
        """Some more of the picture."""
        self.parts.add(*parts)

    def head(self, heading):
        """The strip above a row of a wide picture, in which its heading comes again and again."""
        if self.strip:
            self.again.append(text(0, self.y + STRIP - 3, " ".join(part for _, part in heading), "muted"))
            self.y += self.strip

    def panel(self, height, above=0, has_returns=True):
        """The ground of some rows. Below what is above them are an edge for each column, and one for each command that has returned."""
        upright = lambda x: f"M{plain(x)} {plain(self.y + above)}V{plain(self.y + height)}"
        returns = [self.columns.right(box.end) for box in self.commands if has_returns and box.end is not None and box.end <= self.last]
        self.ground.add(rect(GAP, self.y, self.columns.end, height, ' class="panel" rx="4"'))
        self.ground.file.write('  <path class="columns" d="')
        self.ground.file.writelines(map(upright, self.columns.edges))
        self.ground.file.write('"/>\n')
        if returns:
            self.uses.add("returns")
            self.ground.add(path("returns", "".join(map(upright, returns))))

    # Boxes.

    def rect(self, box, y, height):
        """Where a box begins, and its rectangle. An edge outside the picture isn't drawn: it is a gap between dashes."""
        is_cut, goes_on = box.begin < self.first, box.end is None or box.end > self.last
        left = self.columns.left(box.begin) + (0 if is_cut else INSET)
        width = self.columns.right(box.end) - (0 if goes_on else INSET) - left
        if not is_cut and not goes_on:
            return left, rect(left, y, width, height, ' rx="3"')
        self.uses.add("cut")
        dashes = [width, height, width, height] if goes_on else [2 * width + height, height]
        dashes = dashes if is_cut else [width, height, width + height, 0]
        return left, rect(left, y, width, height, f' stroke-dasharray="{" ".join(map(plain, dashes))}"')

    def said(self, box):
        """The log's lines of a box, which a browser shows if the pointer is on it."""
        places = [box.begin] if box.end in (None, box.begin) else [box.begin, box.end]
        return "\n".join(self.history.lines[place] for place in places)

    def command_classes(self, box):
        """The classes of a command's box."""
        yield "command"
        yield from [self.hues[word] for word in box.words[1:2] if word in self.hues]
        if box.note not in (None, "ok"):
            yield "refused"
        if self.window and max(1, self.window[0]) <= int(box.key) <= self.window[1]:
            yield "in-window"

    def command(self, box, y):
        """The box of a command."""
        classes, (left, edges) = list(self.command_classes(box)), self.rect(box, y, COMMAND)
        word, rest, answer = command_lines(box)
        self.uses.update(classes)
        self.add(f'<g class="{" ".join(classes)}" id="command-{box.key}"><title>{escaped(box.name)}\n{escaped(self.said(box))}</title>{edges}',
                 text(left + 6, y - 4, box.key, "muted"), text(left + 6, y + 14, word, "name"), text(left + 6, y + 28, rest) if rest else "",
                 text(self.columns.right(box.end) - 7, y + 42, answer, "answer") if answer else "", "</g>")

    def box(self, box, y, height):
        """A box of a task."""
        classes = [box.what] + ([self.hues[box.name]] if box.what in ICONS else [box.note] if box.what == "call" else [])
        classes += ["held"] * (box.what == "entry" and box.begin in self.held)
        left, edges = self.rect(box, y, height)
        x = left + 6 + (13 if box.what in ICONS else 0)
        self.uses.update(classes)
        name = f' id="call-{box.key}"' if box.what == "call" else ""
        self.add(f'<g class="{" ".join(classes)}"{name}><title>{escaped(self.said(box))}</title>{edges}',
                 icon(box.what, left + 6, y + 4) if box.what in ICONS else "", text(x, y + 12.5, label(box)))
        if tag(box):
            x += label_width(box) + 6
            self.add(rect(x, y + 3, width_of(tag(box)) + 6, 12, ' class="tag" rx="2"'), text(x + 3, y + 12.5, tag(box), "tagged"))
        self.add("</g>")

    def ghosts(self, call, y):
        """The exits of a call that didn't come: where its return is, for lack of a place of their own."""
        boxes = self.history.boxes
        left = self.columns.left(boxes.end[call]) + INSET
        for entry in self.lost[call]:
            name = boxes.name_of(entry)
            said = f"{self.history.lines[boxes.begin[entry]]}\nits exit didn't come"
            self.uses.add("ghost")
            self.add(f'<g class="ghost {self.hues[name]}"><title>{escaped(said)}</title>{rect(left, y, ghost_width(name), HEAD, RIM)}',
                     icon("exit", left + 6, y + 4), text(left + 19, y + 12.5, ghost_label(name)), "</g>")
            left += ghost_width(name) + 2

    # Rows.

    def control(self):
        """The row of control or, in a script with lanes, those of its lanes, on one ground."""
        lanes = range(len(self.script.lanes)) if self.script.lanes else [None]
        self.panel(len(lanes) * (COMMAND + 14 + GAP + self.strip) + GAP, has_returns=False)
        for lane in lanes:
            name, heading = "", "control"
            if lane is not None:
                name, heading = f' id="lane-{lane}"', [("name", f"lane {lane}"), ("muted", "control")]
            self.head([("", "control")] if lane is None else heading)
            self.add(f'<g class="row control"{name}>', text(2 * GAP, self.y + GAP + 27, heading, "name" if lane is None else ""))
            for box in self.commands:
                if box.lane == lane:
                    self.command(box, self.y + GAP + 14)
            self.add("</g>")
            self.y += COMMAND + 14 + GAP
        self.y += GAP

    def cpu(self, cpu, pids):
        """The rows of a CPU's tasks, on one ground."""
        levels = self.levels(pids)
        depths = {pid: max((levels[box] for box in self.tasks[pid].numbers), default=0) for pid in pids}
        heights = {pid: 2 * GAP + HEAD + depths[pid] * (HEAD + FOOT) for pid in pids}
        self.panel(sum(heights.values()) + len(pids) * self.strip)
        for pid in pids:
            heading = [("name", f"task {pid}"), ("muted", f"CPU {cpu}")]
            self.head(heading)
            self.add(f'<g class="row task" id="task-{pid}">', text(2 * GAP, self.y + GAP + 12.5, heading))
            for box in self.tasks[pid]:
                y = self.y + GAP + (box.depth - self.choice.depth) * HEAD
                self.box(box, y, HEAD + levels[box.at] * (HEAD + FOOT))
                if box.at in self.lost:
                    self.ghosts(box.at, y + HEAD)
            self.add("</g>")
            self.y += heights[pid]

    def levels(self, pids):
        """How deep the boxes in each one of these tasks lie in one another, by the number of the box. Those in a box come after it."""
        parents, levels = self.history.boxes.parent, log_boxes.numbers()
        levels.frombytes(bytes(levels.itemsize * len(parents)))
        for box in (box for pid in pids for box in reversed(self.tasks[pid].numbers)):
            if parents[box] != log_boxes.NONE:
                levels[parents[box]] = max(levels[parents[box]], levels[box] + 1)
        return levels

    def tracing_rows(self):
        """When tracing is on, and below it a row for each trigger, on one ground."""
        self.panel(2 * GAP + 16 + (SITE + self.strip) * (1 + len(self.script.triggers)), above=GAP + 16, has_returns=False)
        self.add(text(2 * GAP, self.y + GAP + 11, TRACING_SHOWS, "words muted"))
        self.y += GAP + 18
        self.head([("name", "tracing")])
        self.add('<g class="row tracing"><title>tracing</title>', text(2 * GAP, self.y + 15, "tracing", "name"))
        for span in self.shown(rings_of_log.spans(self.script, self.rings)):
            self.span(span, self.y + 3)
        self.add("</g>")
        for number, fired in enumerate(map(set, self.rings.fired)):
            self.y += SITE
            self.head(self.trigger_heading(number))
            self.add(f'<g class="row trigger" id="trigger-{number}">', text(2 * GAP, self.y + 15, self.trigger_heading(number)))
            for place in [place for place, hit in self.traced.hits.items() if number in hit and self.has_column(place)]:
                self.hit(place, place in fired)
            self.add("</g>")
        self.y += SITE + GAP - 2

    def has_column(self, place):
        """Whether a place is in the picture."""
        begin, end = self.columns.between(place, place)
        return begin < end

    def hit(self, place, fires):
        """A call that hits a trigger."""
        self.uses.add("fires" if fires else "hit")
        mark = path("fetch" if fires else "line", f"M{plain(self.columns.left(place) + INSET)} {plain(self.y + 11.5)}{HIT}")
        self.add(f"<g><title>{escaped(self.history.lines[place])}</title>{mark}</g>")

    def module_rows(self):
        """The rows of the modules that come and go, on one ground."""
        self.panel(2 * GAP + 16 + (SITE + self.strip) * len(self.modules), above=GAP + 16)
        self.add(text(2 * GAP, self.y + GAP + 11, MODULES_SHOW, "words muted"))
        self.y += GAP + 18
        for module, spans in self.modules.items():
            heading = [("name", short(module, 20)), ("muted", "module")]
            self.head(heading)
            self.add(f'<g class="row module" id="module-{module}"><title>{module}</title>', text(2 * GAP, self.y + 15, heading))
            for span in spans:
                self.span(span, self.y + 3)
            self.add("</g>")
            self.y += SITE
        self.y += GAP - 2

    def call_sites(self):
        """The rows of the call sites, on one ground."""
        self.panel(2 * GAP + 16 + (SITE + self.strip) * len(self.sites), above=GAP + 16)
        shows = SITES_SHOW + HERE_SHOWS * any(is_part for _, _, is_part in self.sites)
        self.add(text(2 * GAP, self.y + GAP + 11, shows, "words muted"))
        self.y += GAP + 18
        fetches = self.fetches()
        for spans, numbers, is_part in self.sites:
            self.head(self.site_heading(numbers, is_part))
            self.site(spans, numbers, self.site_heading(numbers, is_part), fetches)
            self.y += SITE
        self.y += GAP - 2

    def site(self, spans, numbers, heading, fetches):
        """The row of the sites of these functions."""
        names = [self.script.functions[number].name for number in numbers]
        self.add(f'<g class="row site" id="site-{numbers[0] + 1}"><title>{", ".join(names)}</title>', text(2 * GAP, self.y + 15, heading))
        for span in spans:
            self.span(span, self.y + 3)
        for place in sorted(place for number in numbers for place in fetches.get(number, [])):
            self.uses.add("fetch")
            self.add(path("fetch", f"M{plain(self.columns.left(place) + INSET - 3.5)} {plain(self.y - 2)}h7l-3.5 5z"))
        self.add("</g>")

    def fetches(self):
        """Where the bodies of each function's calls begin, after what they fetched, by the number of the function."""
        boxes, places = self.history.boxes, {}
        for box in (box for numbers in self.choice.boxes.values() for box in numbers):
            if boxes.what[box] == log_boxes.BODY and self.first <= boxes.begin[box]:
                places.setdefault(boxes.name[boxes.call_of(box)], log_boxes.numbers()).append(boxes.begin[box])
        return places

    def span(self, span, y):
        """A site as it is meant to be for a while, or while it is changed; or a module, or tracing, drawn as sites are."""
        left = self.columns.left(span.begin)
        right = self.columns.end if span.end is None or span.end > self.last + 1 else self.columns.left(span.end)
        is_module = span.target in OF_MODULE
        kind = "changing" if span.later else {**OF_MODULE, **OF_TRACING}.get(span.target) or span.target.split(" ")[0]
        words = short(f"{span.target} → {span.later}" if span.later else span.target)
        words = words if width_of(words) + (HATCHED if span.later else 10) <= right - left else ""
        self.uses.add("loading" if span.later and is_module else kind)
        if left < right:
            classes = f"own {self.hues[span.target[4:]]}" if kind == "own" else kind
            self.add(f'<g class="{classes}">', *self.span_shapes(kind, left, right, y, words))
            self.add(text(left + (3 if kind == "nop" else 6), y + 12.5, words) if words else "", "</g>")

    @staticmethod
    def span_shapes(kind, left, right, y, words):
        """A nop is a line, the list caller a box with two lines, and the text in a hatched box has a ground."""
        if kind == "nop":
            return [across(left + (width_of(words) + 7 if words else 0), right, y + 8.5)]
        left, right = left + INSET, right - INSET
        shapes = [rect(left, y, right - left, HEAD)]
        if kind == "list":
            shapes += [across(left, right, y + 2.5), across(left, right, y + HEAD - 2.5)]
        if kind == "changing" and words:
            shapes.append(rect(left + 2.5, y + 1, width_of(words) + 4, HEAD - 2, ' class="page"'))
        return shapes

    # What is above the rows, across them and below.

    def heading(self):
        """What is drawn, in words."""
        count = len(self.history.lines)
        places = f"places {self.first} to {self.last}" if count else "no items"
        places += f" of 0 to {count - 1}" if self.last - self.first + 1 < count else ""
        places += "" if self.history.is_ended else "; the schedule was used up before the end"
        self.add(text(2 * GAP, 26, self.name, "title"))
        colours = "a colour for each user" if len(self.script.users) <= len(log_style.HUES) else f"users in {len(log_style.HUES)} colours"
        whose = f"control and of {self.choice.whose}" if self.choice.whose else "the log"
        self.add(text(2 * GAP, 44, f"a column for each item of {whose}, {colours}; {places}", "words muted"))

    def axis(self, y):
        """The number of each place, as far as there is room for it, and how the log ends."""
        edges = self.columns.edges
        ends = "…" if self.last + 1 < len(self.history.lines) else "end" if self.history.is_ended else "stopped"
        self.add(text(2 * GAP, y, "place", "muted"), text(self.columns.start + 10, y, "…", "muted") if self.first else "")
        for place, middle in self.numbered():
            self.add(text(middle, y, str(place), "place muted"))
        self.add(text(edges[-1] + 4, y, ends, "muted"))

    def numbered(self):
        """The places that have room for their numbers, from the left, and the middles of these."""
        edges, free = self.columns.edges, self.columns.edges[0] - LEAD / 2
        for place, left, right in zip(self.columns.places, edges, edges[1:]):
            middle, half = (left + right) / 2, len(str(place)) * DIGIT / 2
            if free <= middle - half and middle + half <= edges[-1] + 1:
                yield place, middle
                free = middle + half + APART

    def shade(self, top):
        """The window of a call: from its `enter` to its `body`, over all rows."""
        body = self.history.bodies.get(self.call)
        left, right = self.columns.left(self.history.calls[self.call].begin), self.columns.right(body.begin if body else None)
        done, begun = self.window
        words = f"window of {self.call}: " + (f"commands {done} to {begun}" if done < begun else f"command {done}")
        words += " (0: before any)" if done == 0 else ""
        x = max(2 * GAP, min(left, self.columns.end - width_of(words)))
        self.add(text(x, top - 5, words, "name"), f'<g class="window">{rect(left, top, right - left, self.y - top)}</g>')

    def key(self):
        """What the shapes mean that are in the picture, in rows of as many as there is room for."""
        rows = [row for row in KEY if row[0] in self.uses]
        width = max((46 + len(words) * SANS for _, _, _, words in rows), default=1)
        count = max(1, int((self.columns.end - GAP) // width))
        self.add('<g class="key">')
        for number, (_, classes, sample, words) in enumerate(rows):
            x, y = 2 * GAP + number % count * width, self.y + number // count * KEY_ROW
            self.add(f'<g class="{classes}" transform="translate({plain(x)} {plain(y)})">{sample}</g>', text(x + 32, y + 11, words, "words"))
        self.add("</g>")
        self.y += math.ceil(len(rows) / count) * KEY_ROW

    def rows(self):
        """All rows, from where `y` is."""
        self.control()
        for cpu in sorted({self.script.tasks[pid] for pid in self.tasks}):
            self.y += GAP
            self.cpu(cpu, [pid for pid in self.tasks if self.script.tasks[pid] == cpu])
        self.y += GAP
        if self.is_ringed:
            self.tracing_rows()
            self.y += GAP
        if self.modules:
            self.module_rows()
            self.y += GAP
        if self.sites or self.choice.functions is None:
            self.call_sites()

    def draw(self):
        """Draws all parts. Gives the width and the height of the picture."""
        self.heading()
        self.axis(66)
        self.y = top = 92 if self.call else 74
        self.rows()
        if self.call:
            self.shade(top)
        self.y += 2 * GAP
        self.key()
        self.headings_again()
        return self.columns.end + 2 * GAP, self.y + GAP

    def headings_again(self):
        """In a wide picture, the headings of all rows once more, and where they are shown: so often that some are always in sight."""
        if self.strip:
            self.uses.add("again")
            self.add("<defs>", '<g id="headings" class="again">', *self.again, "</g>", "</defs>")
            for x in range(self.columns.start + AGAIN, self.columns.end - self.columns.start, AGAIN):
                self.add(f'<use xlink:href="#headings" x="{x}"/>')

    def write(self, file):
        """Writes the text of the SVG. Gives the width and the height of the picture."""
        with Part() as self.ground, Part() as self.parts:
            size = self.draw()
            file.write(self.beginning(*map(plain, size)))
            self.ground.copy_to(file)
            self.parts.copy_to(file)
        file.write("</svg>\n")
        return size

    def beginning(self, width, height):
        """What is before the ground and the parts."""
        names = 'xmlns="http://www.w3.org/2000/svg"' + ' xmlns:xlink="http://www.w3.org/1999/xlink"' * bool(self.strip)
        said = DESCRIPTION + (OF_MODULES if self.modules else "") + (OF_RINGS if self.is_ringed else "")
        lines = [f"<title>{escaped(self.name)}</title>", f"<desc>{said}</desc>", log_style.style(len(self.script.users), self.uses)]
        lines += [f"<defs>{HATCH}</defs>", f'<rect class="page" width="{width}" height="{height}"/>']
        head = f'<svg {names} width="{width}" height="{height}" viewBox="0 0 {width} {height}" role="img">\n'
        return head + "".join(f"  {line}\n" for line in lines)

    def whole(self):
        """The text of the SVG."""
        file = io.StringIO()
        self.write(file)
        return file.getvalue()
