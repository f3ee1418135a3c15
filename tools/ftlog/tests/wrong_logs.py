"""Wrong scripts and logs, each of which a tool that reads both has to answer by one line."""
from ftlog.tests.called import lines

SCRIPT = lines("ftrace 1; func a; user tr function; cpu 0 quantum 100; task 10 cpu 0; after 1; call a; ret; ctl register tr")
ITEMS = ("0 begin 1; 1 return 1 ok; 2 enter 10.1 normal a -; 3 back 10.1 tr; 4 back-end 10.1 tr; 5 body 10.1 a own tr; 6 leave 10.1; "
         "7 ret 10.1 -")
LOG = lines(ITEMS + "; end")

# What is wrong, the script, and the log; None is a file that isn't there.
WRONG = [
    ("no script", None, LOG),
    ("no log", SCRIPT, None),
    ("an empty script", b"", LOG),
    ("an empty log", SCRIPT, b""),
    ("a script that is cut", SCRIPT[:-1], LOG),
    ("a log that is cut in a line", SCRIPT, LOG[:-6]),
    ("a log without its last line", SCRIPT, lines(ITEMS)),
    ("a line after the last one", SCRIPT, LOG + b"8 begin 2\n"),
    ("another version", SCRIPT.replace(b"ftrace 1", b"ftrace 4"), LOG),
    ("a log in place of the script", LOG, LOG),
    ("a script in place of the log", SCRIPT, SCRIPT),
    ("bytes that aren't UTF-8 in a script", b"ftrace 1\nfunc \xff\xfe\n", LOG),
    ("bytes that aren't UTF-8 in a log", SCRIPT, b"\xff\xfe\x00\n"),
    ("a line that nothing begins with", SCRIPT + b"frob\n", LOG),
    ("a user that isn't declared", SCRIPT + b"ctl register other\n", LOG),
    ("a command without words", SCRIPT + b"ctl\n", LOG),
    ("a huge number in a script", SCRIPT.replace(b"after 1", b"after " + b"9" * 9000), LOG),
    ("a huge number in a log", SCRIPT, LOG.replace(b"3 back", b"3" * 9000 + b" back")),
    ("a refused script", SCRIPT, b"line 3: duplicate\n"),
    ("the log of another script", SCRIPT.replace(b"func a", b"func b"), LOG),
    ("another task's log", SCRIPT.replace(b"task 10", b"task 11"), LOG),
    ("a place left out", SCRIPT, LOG.replace(b"4 back-end", b"5 back-end")),
    ("an answer that there isn't", SCRIPT, LOG.replace(b"1 ok", b"1 fine")),
    ("a command too many", SCRIPT, lines("0 begin 1; 1 return 1 ok; 2 begin 2; 3 return 2 ok; end")),
    ("a callback that ends twice", SCRIPT, LOG.replace(b"5 body 10.1 a own tr", b"5 back-end 10.1 tr")),
    ("a module's line that names no user", b"ftrace 1\nfunc e ext3\nabsent ext3\nctl filter x > e\n", LOG),
    ("a task on a CPU that isn't there", SCRIPT.replace(b"10 cpu 0", b"10 cpu 7"), LOG),
]


def check(case, *words, but=None):
    """Each of them is answered by one line, by a tool with these words before the script and the log and after them; one may be left out."""
    for number, (what, script, log) in enumerate(row for row in WRONG if row[0] != but):
        name, *others = words
        came = case.answer(name, case.write(f"{number}.ft", script), case.write(f"{number}.log", log), *others)
        case.assert_told(what, came)
    case.assert_told("a folder", case.answer(words[0], case.folder, case.folder, *words[1:]))
    case.assert_told("no words", case.answer(words[0]))
