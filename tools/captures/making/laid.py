"""Logs of a chain of nodes, laid by hand: registers answer what they are told to."""

from __future__ import annotations

import io
from typing import List, Optional

from ..log_writer import EntryKind, LogWriter, NodeRow, ResetEntry
from ..packets import REGISTERS, Tcode
from ..self_ids import Port

EUI_64_HIGH, EUI_64_LOW = 0x40C, 0x410
COMPARE_SWAP = 2
ROOT = -1  # the root as resource manager


class Laid:
    """A log that is written entry by entry. Nodes are numbered along the chain, and the last one is the root."""

    def __init__(self) -> None:
        self._bytes = io.BytesIO()
        self._log = LogWriter(self._bytes)
        self._label = 5

    def reset(self, cycle: int, count: int, manager: Optional[int] = ROOT) -> None:
        manager = count - 1 if manager == ROOT else manager
        rows = [NodeRow(node, 1, 1, 1) for node in range(count)]
        self_ids = [self_id(node, count) for node in range(count)]
        self._log.put_reset(cycle, ResetEntry(count - 1, manager, 0, rows, self_ids), timed=True)

    def _pair(self, cycle: int, asker: int, node: int, at: int, request: List[int], response: List[int]) -> None:
        """A request and its response: each its transaction code, and what follows its third quadlet."""
        self._label = (self._label + 1) % 64
        rest = self._label << 10 | 0x100
        to, of = (0xFFC0 + node) << 16, (0xFFC0 + asker) << 16
        asks = [to | rest | request[0] << 4, of | REGISTERS >> 32, REGISTERS & 0xFFFFFFFF | at]
        answers = [of | rest | response[0] << 4, to, 0]
        self._log.put_quadlets(EntryKind.PACKET, cycle, asks + request[1:])
        self._log.put_quadlets(EntryKind.PACKET, cycle, answers + response[1:])

    def read(self, cycle: int, asker: int, node: int, at: int, word: int) -> None:
        self._pair(cycle, asker, node, at, [Tcode.READ_QUADLET], [Tcode.READ_QUADLET_RESPONSE, word])

    def swap(self, cycle: int, asker: int, node: int, at: int, old: int, new: int, found: Optional[int] = None) -> None:
        """A compare_swap, which finds `old` if nothing else is said."""
        request = [Tcode.LOCK, 8 << 16 | COMPARE_SWAP, old, new]
        found = old if found is None else found
        self._pair(cycle, asker, node, at, request, [Tcode.LOCK_RESPONSE, 4 << 16 | COMPARE_SWAP, found])

    def stream(self, cycle: int, channel: int, sender: int) -> None:
        """An isochronous packet without a block."""
        words = [8 << 16 | 1 << 14 | channel << 8 | 0xA0, sender << 24 | 0x78 << 16, 0x8000FFFF]
        self._log.put_quadlets(EntryKind.ISOCHRONOUS, cycle, words)

    def end(self, cycle: int) -> bytes:
        self._log.put_end(cycle)
        return self._bytes.getvalue()


def self_id(node: int, count: int) -> int:
    """A node with a link in a chain: a contender, of S400, that joins the one below and the one above."""
    joined = ([Port.CHILD] if node else []) + ([Port.PARENT] if node < count - 1 else [])
    ports = (joined + [Port.OPEN] * 3)[:3]
    first = 0x80000000 | node << 24 | 1 << 22 | 63 << 16 | 2 << 14 | 1 << 11 | (2 if node == 0 else 0)
    return first | ports[0] << 6 | ports[1] << 4 | ports[2] << 2


def two_that_change_places() -> bytes:
    """Nodes 0 and 1 show their EUI-64s, and change numbers at the second bus reset."""
    log = Laid()
    one, other = 0x00A0B00000000001, 0x00A0B00000000002
    for cycle, euis in ((0, (one, other)), (9000, (other, one))):
        log.reset(cycle, 3)
        for node, eui in enumerate(euis):
            log.read(cycle + 10, 2, node, EUI_64_HIGH, eui >> 32)
            log.read(cycle + 20, 2, node, EUI_64_LOW, eui & 0xFFFFFFFF)
    return log.end(9100)
