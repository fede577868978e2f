"""What a trial expects: how much of it came, and how much didn't. For the scripts that end with 'N passed, M
failed'."""
from __future__ import annotations


class Trial:
    def __init__(self) -> None:
        self.passed = self.failed = 0

    def expect(self, what: object, is_so: object) -> None:
        """Counts whether it is so, and names what isn't."""
        self.passed, self.failed = self.passed + bool(is_so), self.failed + (not is_so)
        if not is_so:
            print("failed:", what)

    def end(self) -> int:
        """Prints the last line, and answers the exit status: 1 where something failed, else 0."""
        print(f"{self.passed} passed, {self.failed} failed")
        return 1 if self.failed else 0
