"""Checks the repository: its pages, programs, pictures, recordings and tools, how they start, and ftjudge on runs."""

PARTS = {
    "starting": "ftlog.checks.check_starting",
    "docs": "ftlog.checks.check_docs",
    "program": "ftlog.checks.check_program",
    "pictures": "ftlog.checks.check_pictures",
    "recorded": "ftlog.checks.check_recorded",
    "tools": "ftlog.checks.check_tools",
    "runs": "ftlog.checks.check_runs",
}
