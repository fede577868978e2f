"""Schools: tables of lessons and of rules, the ways to give lessons, the problem of a timetable, how a plan is kept,
and why there is none.

It stands on `programs`, `command_line`, `files` and `texts`.
"""
