"""Writes a random script to standard output, or the manual pages to docs/man."""

PARTS = {
    "plain": "ftlog.make.script_forms",
    "broken": "ftlog.make.broken_scripts",
    "viewed": "ftlog.make.viewed_scripts",
    "manuals": "ftlog.make.manuals",
}
