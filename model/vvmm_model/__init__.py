"""What the program `vvmm` must say, read from its rules a second time and written in Python.

Each guest steps alone on a private virtual VAX. Nothing here is taken from the program's own code.
"""
