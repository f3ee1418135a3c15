"""The tools for who works on the repository, a module each like those of ftlog/commands/, or with `PARTS`: the modules of its parts, by their words."""
