"""The search tree of a problem, taken apart: its parts, the covers that they have, the certificates that they make
together, and the covers beside known ones.

It stands on `errors`, `programs`, `check_certificate`, `command_line` and `files`.
"""
