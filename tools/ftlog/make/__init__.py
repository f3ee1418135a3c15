"""Random scripts, and changed logs, for checks."""
