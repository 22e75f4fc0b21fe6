"""Writes logs of `fire`, of version 2 (docs/LOG.md)."""

from __future__ import annotations

import struct
from enum import IntEnum
from typing import List, NamedTuple, Optional, Protocol, Sequence

from .times import SECOND

MAGIC = b"1394"
VERSION = 2
NOBODY = 255
# How long the second in which reservations are reclaimed is said to be, in cycles. A host that waits a second by its
# own clock may be 10 ms early, and time stamps come late.
RECLAIM = SECOND - 80
LONGEST = 268_435_456  # bytes of a log that `fire` reads


class EntryKind(IntEnum):
    """Kinds of entries."""

    RESET = 1
    PACKET = 2
    ISOCHRONOUS = 3
    EVENT = 4
    OUTCOME = 5
    SHOWN = 6
    END = 7


SECOND_OVER = 1  # the code of that event


class NodeRow(NamedTuple):
    """What the entry of a bus reset says of a node: its device, its plugs, and the code of its kind."""

    device: int
    output_plugs: int
    input_plugs: int
    kind: int


class ResetEntry(NamedTuple):
    """A bus reset; `self_ids` has the first quadlets of all self-ID packets."""

    root: int
    manager: Optional[int]
    initiator: int
    rows: Sequence[NodeRow]
    self_ids: Sequence[int]


class Sink(Protocol):
    """What takes bytes."""

    def write(self, data: bytes) -> object: ...


class LogWriter:
    """Each entry is written at once. No cycle falls, and each reclaim second is ended in its own cycle."""

    def __init__(self, output: Sink):
        self._output = output
        self._epoch = 0
        self._second_ends: Optional[int] = None
        self.cycle = 0
        self.size = 0
        self._write(MAGIC + struct.pack(">III", VERSION, 0, 0))

    def _write(self, data: bytes) -> None:
        self._output.write(data)
        self.size += len(data)

    def _entry(self, kind: EntryKind, cycle: int, body: bytes) -> None:
        self.cycle = max(self.cycle, cycle)
        head = struct.pack(">BBHIQ", kind, 0, len(body) // 4, self._epoch, self.cycle)
        self._write(head + body)

    def _pass_to(self, cycle: int) -> None:
        """A reclaim second that is over by this cycle gets its event."""
        if self._second_ends is not None and cycle >= self._second_ends:
            over, self._second_ends = self._second_ends, None
            self._entry(EntryKind.EVENT, over, bytes((SECOND_OVER, NOBODY, 0, 0)))

    def put_reset(self, cycle: int, reset: ResetEntry, timed: bool) -> None:
        """If cycles cannot be trusted (not `timed`), no reclaim second is claimed: its event follows at once."""
        self._pass_to(cycle)
        self._epoch += 1
        manager = NOBODY if reset.manager is None else reset.manager
        body = struct.pack(">IBBBB", self._epoch, reset.root, manager, reset.initiator, len(reset.rows))
        body += b"".join(bytes(row) for row in reset.rows)
        body += b"".join(struct.pack(">II", self_id, self_id ^ 0xFFFFFFFF) for self_id in reset.self_ids)
        self._entry(EntryKind.RESET, cycle, body)
        if self._epoch > 1:  # after the first there is nothing to be reclaimed
            self._second_ends = self.cycle + (RECLAIM if timed else 0)
            self._pass_to(self.cycle)

    def put_quadlets(self, kind: EntryKind, cycle: int, words: List[int]) -> None:
        self._pass_to(cycle)
        self._entry(kind, cycle, struct.pack(f">{len(words)}I", *words))

    def put_end(self, cycle: int) -> None:
        self._pass_to(cycle)
        self._entry(EntryKind.END, cycle, b"")
