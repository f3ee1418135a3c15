"""Checks of the repository: its programs, pages, pictures and tools."""
