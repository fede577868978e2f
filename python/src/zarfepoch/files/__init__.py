"""Problem files and answers as docs/FORMAT.md describes them: read to their end and written whole, and what their
faults and numbers mean, in words.

It stands on `command_line`.
"""
