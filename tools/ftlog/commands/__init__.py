"""The tools, a module each: a docstring whose first line says what it does, `add_words(parser)` and `run(options)`, whose answer is the status."""
