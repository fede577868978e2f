"""The makers of problems: each kind of puzzle in the module of its theme, the one table of all kinds with their command
lines, and the larger examples.

It stands on `programs`, `command_line`, `files`, `boards`, `texts`, `search` and `timetables`.
"""
