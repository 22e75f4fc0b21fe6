"""What is checked, counted."""

from __future__ import annotations


class Checks:
    """Counts what holds, and tells what does not."""

    def __init__(self) -> None:
        self.passed = 0
        self.failed = 0

    def check(self, what: str, holds: object) -> bool:
        if holds:
            self.passed += 1
        else:
            self.failed += 1
            print(f"WRONG {what}")
        return bool(holds)

    def skipped(self, what: str) -> None:
        print(f"skipped: {what}")
