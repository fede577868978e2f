"""Answers, plans and reasons as text in a terminal, on a sheet in SVG, and as tables. A problem is drawn by the names
of its items, whatever made it.

It stands on `command_line`, `files`, `boards`, `reasons` and `timetables`.
"""
