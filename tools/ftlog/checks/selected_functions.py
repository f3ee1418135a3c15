"""Which functions a user traces or a trigger is hit by, as the form `enabled`, or that of rings, shows of the built program: patterns and filter
texts. What the other program, which was written from the same rules by other hands, prints is the same.
"""
from ftlog.checks import refused_scripts, script_texts
from ftlog.make import script_forms as forms

NAMES = "sched_fork spin_lock_irq ab abc ac bx b aab ba ab1_2_c ax abz zzb _ vfs_read.isra.0".split()

# Patterns, and the names above that fit.
PATTERNS = """
sched*: sched_fork
*lock*: spin_lock_irq
a*b: ab aab
a?c: abc
[a-c]x: bx ax
[!a-c]x:
[c-a]:
*ab: ab aab
*ab*b:
*?b: ab aab zzb
**a: ba
*[0-9]_*c: ab1_2_c
*[0-9]x*c:
[!]x]*: sched_fork spin_lock_irq ab abc ac bx b aab ba ab1_2_c ax abz zzb _ vfs_read.isra.0
*[!a-y]: abz _ vfs_read.isra.0
[!a]: b _
??: ab ac bx ba ax
_: _
*.*: vfs_read.isra.0
"""

# What a pattern has before some letters, the letter, and what comes after; what a name has after as many `a`; and whether it fits.
SHAPES = [("", "a", "", "", True), ("", "a", "", "a", False), ("", "a", "a", "", False), ("", "a", "a", "b", False), ("b", "a", "", "a", False), ("", "?", "?", "b", True),
          ("*", "a", "a", "aa", True), ("*", "a", "a", "", False), ("*", "a", "b", "a", False), ("", "a", "*b", "b", True), ("*", "*a", "", "", True), ("", "*a", "*a", "", False)]
COUNTS = [1, 2, 30, 31, 32, 33, 60, 61]

# Patterns that are made of a text so many times, after a `*` and before a `b`. A search that goes back to a `*` would make many tries on a name
# of one letter, for some more than there is time for.
HOSTILE = [("*a", 126), ("a", 253), ("?", 253), ("[!b]", 63), ("[bcdefghijklmnopa]", 14)]

THREE = "ftrace 1; func read; func ext3_read ext3; func snd_play snd; "
# Texts that are appended to a filter, and the functions that are traced then. One that takes away is appended to one of all functions.
TEXTS = [("!*:mod:!ext3", "ext3_read"), (":mod:!*", "read"), ("*:mod:s?d", "snd_play"), ("3", "snd_play"), ("0000000000001", "read"), ("*_*", "ext3_read snd_play"),
         ("!2", "read snd_play")]
# And these match nothing, or are refused.
UNMATCHED, REFUSED = ["zz*", "read:mod:ext3"], ["0", "4", "99999999999999999999999", "a:b", ":mod:", "a:mod:!", "a:mod:b:c", "a\\b:c", "!", "a\\b", "a:mod:b\\c"]

# Triggers, how often each fires as each of the three is called once, and texts of triggers that are refused.
TRIGGERS = [("a:traceon", 0), ("read:traceon", 1), ("*:traceoff:3", 3), ("*_*:traceoff:0000001", 1), ("a:traceon:1000000", 0), ("[rs]*:traceoff", 2), ("3:traceon", 0),
            ("!read:traceon", 0)]
NO_TRIGGERS = ["a:b", "a:traceo", "a:traceons", "a::traceon", "a:traceon:+1", "a:traceon:1:2", "a:traceon:12345678", "a\\b:traceoff:1"]


def enabled(what, script, lines):
    """A row of the form `enabled`: a script, and the lines before the last one."""
    return what, ["replay", "--print", "enabled"], script_texts.text(script), "".join(line + "\n" for line in [*lines, "end"]).encode()


def own(names):
    """The lines of functions that one user traces, which has a trampoline."""
    return [f"{name} (1)     own t" for name in names]


def pattern_rows():
    """What a pattern selects is appended to a filter that has one function, which nothing but a pattern of all fits."""
    declared = "ftrace 1; " + "; ".join(f"func {name}" for name in [*NAMES, "Q"]) + "; user t function; ctl filter t > Q; ctl filter t >> "
    for line in refused_scripts.lines_of(PATTERNS):
        pattern, _, names = line.rpartition(":")
        fits = [name for name in NAMES if name in names.split()]
        yield enabled(f"pattern {pattern}", f"{declared}{pattern}; ctl register t", own([*fits, "Q"]))
    for count in COUNTS:
        for before, letter, after, more, is_fit in SHAPES:
            name = "a" * count + more
            script = f"ftrace 1; func {name}; func Q; user t function; ctl filter t > Q; ctl filter t >> {before}{letter * count}{after}; ctl register t"
            yield enabled(f"pattern {before}, {count} times {letter}, {after}", script, own([name] * is_fit + ["Q"]))
    longest = "a" * forms.NAME_BYTES
    for text, count in HOSTILE:
        script = f"ftrace 1; func {longest}; func Q; user t function; ctl filter t > Q; ctl filter t >> *{text * count}b; ctl register t"
        yield enabled(f"pattern *, {count} times {text}, b", script, own(["Q"]))


def text_rows():
    """Filter texts over three functions, and triggers that are hit by calls of them."""
    for text, names in TEXTS:
        first = "ctl filter t > *; " if text.startswith("!") else ""
        yield enabled(f"filter text {text}", f"{THREE}user t function; {first}ctl filter t >> {text}; ctl register t", own(names.split()))
    for text in UNMATCHED:
        script = f"{THREE}user t function; ctl filter t >> {text}"
        yield f"filter text {text}", ["replay"], script_texts.text(script), b"0 begin 1\n1 return 1 no-match\nend\n"
    for text in REFUSED:
        yield f"filter text {text}", ["replay"], script_texts.text(f"{THREE}user t function; ctl filter t >> {text}"), b"line 6: pattern\n"
    calls = "cpu 0 quantum 100; task 10 cpu 0; " + "; ".join(f"call {name}; ret" for name in ("read", "ext3_read", "snd_play"))
    for text, times in TRIGGERS:
        printed = f"# cpu 0 entries 0/0\n# trigger 0 fired {times}\nend\n".encode()
        yield f"trigger {text}", ["replay", "--print", "rings"], script_texts.text(f"{THREE}trigger {text}; {calls}"), printed
    for text in NO_TRIGGERS:
        yield f"trigger {text}", ["replay"], script_texts.text(f"{THREE}trigger {text}"), b"line 5: pattern\n"


def check(rows, program):
    """A row for each."""
    script_texts.check_each(rows, program, [*pattern_rows(), *text_rows()])
