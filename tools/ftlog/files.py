"""Texts that a tool is given: of a file, or of standard input."""
import sys

from ftlog.fault import Fault

STANDARD = "-"  # the name of standard input


def read(name):
    """The bytes of a file, or of standard input."""
    try:
        if name == STANDARD:
            return sys.stdin.buffer.read()
        with open(name, "rb") as file:
            return file.read()
    except OSError as error:
        raise Fault(f"{name}: {error.strerror or error}") from None


def add_script(parser):
    """Adds the word that names the script."""
    parser.add_argument("script", nargs="?", default=STANDARD, metavar="FILE", help="the script; - or none: standard input")


def write(text):
    """Writes these bytes to standard output."""
    sys.stdout.buffer.write(text)
    sys.stdout.flush()
