"""Why a problem has no cover, in numbers that add up: the reasons that the program gives, and those by counting what is
alike.

It stands on `errors`, `programs` and `files`.
"""
