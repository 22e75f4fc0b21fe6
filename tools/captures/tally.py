"""What became of each record of a capture: the counts that a tool reports at its end."""

from __future__ import annotations

from collections import Counter
from enum import Enum
from typing import Iterator, List, Optional


class Written(Enum):
    """What a record is written as, in the order in which the report has them."""

    BUS_RESET = "bus resets"
    SELF_ID_PACKET = "self-ID packets"
    PACKET = "packets"
    ISOCHRONOUS_PACKET = "isochronous packets"
    ENTRY = "entries"


class LeftOut(Exception):
    """A record is not written; the text is the name under which it is counted."""


class Tally:
    """Each record that was read is written as one thing or left out under one name. What was changed in records that
    are written is counted beside that; `unsure` has what nobody can know of the whole capture, and `damage` where it
    ended before its end."""

    def __init__(self) -> None:
        self.read = 0
        self.wrote: Counter = Counter()
        self.left: Counter = Counter()
        self.changed: Counter = Counter()
        self.unsure: List[str] = []
        self.damage: Optional[str] = None

    def write(self, what: Written, records: int = 1) -> None:
        self.wrote[what] += records

    def leave(self, why: str, records: int = 1) -> None:
        if records:
            self.left[why] += records

    def change(self, what: str, times: int = 1) -> None:
        self.changed[what] += times

    def is_balanced(self) -> bool:
        return self.read == sum(self.wrote.values()) + sum(self.left.values())

    def lines(self, name: str, records: Optional[str]) -> Iterator[str]:
        """The report of the tool with this name, which counts such records, or nothing."""
        if records is not None:
            yield from self._counts(name, records)
        if self.damage is not None:
            yield f"{name}: damaged: {self.damage}"

    def _counts(self, name: str, records: str) -> Iterator[str]:
        wrote = ", ".join(f"{self.wrote[what]} {what.value}" for what in Written if self.wrote[what])
        left = sum(self.left.values())
        yield f"{name}: read {self.read} {records}, wrote {wrote or 'nothing'}, left out {left}"
        for why, count in sorted(self.left.items()):
            yield f"{name}: left out {count}: {why}"
        for what, count in sorted(self.changed.items()):
            yield f"{name}: changed {count}: {what}"
        for what in self.unsure:
            yield f"{name}: unsure: {what}"
