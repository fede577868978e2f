"""How the commands of the package are called and how they end: the words of their command lines, their exit status, and
what they say on standard error.

It stands on nothing else of the package.
"""
