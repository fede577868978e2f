"""Texts in which people bring puzzles: how they are read, the names in them, and the problem that is made of one, as
large as the program reads it.

It stands on `command_line` and `files`.
"""
