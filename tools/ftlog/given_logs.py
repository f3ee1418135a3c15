"""Scripts and logs that a tool is given, checked as far as the tools read them, so that what is wrong with one is said in one line."""
from ftlog import files, script_reader
from ftlog.fault import Fault
from ftlog.limits import LIMITS


def add_words(parser):
    """Adds the words that name a script and a log."""
    parser.add_argument("script", metavar="SCRIPT", help="the script; - is standard input")
    parser.add_argument("log", metavar="LOG", help="what the program printed for it in the form log; - is standard input")


def read_script(name):
    """The bytes of a script, and what script_reader.py reads in them."""
    text = files.read(name)
    if len(text) > LIMITS["INPUT_BYTES"]:
        raise Fault(f"{name}: it has more bytes than a script may have, {LIMITS['INPUT_BYTES']}")
    if text.split(b"\n", 1)[0].split() not in ([b"ftrace", b"1"], [b"ftrace", b"2"], [b"ftrace", b"3"]):
        raise Fault(f"{name}: it isn't a script: its first line is none of `ftrace 1`, `ftrace 2` and `ftrace 3`")
    if not text.endswith(b"\n"):
        raise Fault(f"{name}: its last line isn't ended by a line feed, so it may have been cut")
    try:
        script = script_reader.read_script(text)
        script_reader.check(script)
    except Fault as fault:
        raise Fault(f"{name}: {fault}") from None
    return text, script


def shown(text):
    """The first characters of what somebody wrote, fit to be said in one line."""
    return repr(text[:40])[1:-1] + (".." if len(text) > 40 else "")
