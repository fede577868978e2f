"""What boards are, whoever lays pieces on them or draws them: cells and their names, the turns of pieces, and the boxes
of sudokus.

It stands on nothing else of the package.
"""
