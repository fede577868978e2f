"""The boxes of sudokus, and the marks for their digits."""
from __future__ import annotations

# rows and columns of a box, by the size of the sudoku
BOXES = {4: (2, 2), 6: (2, 3), 8: (2, 4), 9: (3, 3), 10: (2, 5), 12: (3, 4), 14: (2, 7), 15: (3, 5), 16: (4, 4), 20: (4, 5), 25: (5, 5)}
# digits, and numbers of regions, above nine
MARKS = "123456789ABCDEFGHIJKLMNOP"
