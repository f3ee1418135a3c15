"""The one way in which a tool says that it can't do what it was asked."""


class Fault(Exception):
    """Why a tool ends without an answer, in words for who called it: one line."""
