"""The shapes and labels of a picture: texts, rectangles, paths and icons of SVG, and what stands in the boxes."""
import html
import math

LETTER = 6.75  # the width of a letter of the labels, whose font has letters of one width
SANS = 6  # about that of a letter of the other texts
HATCHED = 46  # the width of a hatched box that isn't for the text in it
LONGEST = 28  # letters of a name that are shown

# Paths from the upper left corner of an icon.
ICONS = {"entry": "l7 4.5l-7 4.5z", "exit": "m7 0l-7 4.5l7 4.5z", "miss": "m1 1l7 7m0-7l-7 7",
         "refusal": "m0 4.5a4.5 4.5 0 1 0 9 0a4.5 4.5 0 1 0-9 0m1.4-3.2l6.3 6.3"}


def width_of(words):
    """How wide a label is, or a little less."""
    return math.ceil(len(words) * LETTER)


def short(words, longest=LONGEST):
    """A text of at most this many letters."""
    return words if len(words) <= longest else words[:longest - 1] + "…"


def escaped(words):
    """A text as it stands in an SVG."""
    return html.escape(words, quote=False)


# The parts of an SVG. A length has one digit after the point, if that isn't 0.

def plain(value):
    """A length."""
    return f"{value:.1f}".rstrip("0").rstrip(".")


def text(x, y, words, classes=""):
    """A text, or several one after the other: (class, text)."""
    parts = [("", words)] if isinstance(words, str) else words
    said = " ".join(f'<tspan class="{kind}">{escaped(part)}</tspan>' if kind else escaped(part) for kind, part in parts)
    return f'<text x="{plain(x)}" y="{plain(y)}"' + (f' class="{classes}"' if classes else "") + f">{said}</text>"


def rect(x, y, width, height, more=""):
    """A rectangle."""
    return f'<rect x="{plain(x)}" y="{plain(y)}" width="{plain(width)}" height="{plain(height)}"{more}/>'


def path(classes, steps):
    """A path."""
    return f'<path class="{classes}" d="{steps}"/>'


def across(left, right, y):
    """A level line."""
    return path("line", f"M{plain(left)} {plain(y)}H{plain(right)}")


def icon(what, x, y):
    """The icon of a kind of box."""
    return path("icon", f"M{plain(x)} {plain(y)}{ICONS[what]}")


# What boxes say.

def label(box):
    """The text of a box of a task: parts with their classes, as `text` takes them."""
    if box.what == "call":
        return [("name", short(box.name)), ("muted", box.key)]
    if box.what == "body":
        whose = [("muted", "body:")] if box.name == box.parent.name else [("muted", "body of"), ("", short(box.name) + ":")]
        return whose + [("", short(box.note))]
    reason = {"refusal": box.note, "miss": "no frame"}.get(box.what)
    return [("", short(box.name) + (f": {reason}" if reason else ""))]


def label_width(box):
    """How wide the text of a box is."""
    return width_of(" ".join(part for _, part in label(box)))


def tag(box):
    """The context of a call, if it isn't normal."""
    return box.note if box.what == "call" and box.note != "normal" else ""


def command_lines(box):
    """The three lines of a command: its word, the others, the answer."""
    word, _, rest = box.name.partition(" ")
    return word, short(rest), short(box.note or "")


def wanted_width(box):
    """How wide the columns of a box have to be for its text."""
    if box.what == "command":
        return max(map(width_of, command_lines(box))) + 16
    return label_width(box) + (13 if box.what in ICONS else 0) + (width_of(tag(box)) + 12 if tag(box) else 0) + 14


def ghost_label(name):
    """What the box of an exit says that didn't come."""
    return f"{short(name)}: no exit"


def ghost_width(name):
    """How wide that box is."""
    return width_of(ghost_label(name)) + 27
