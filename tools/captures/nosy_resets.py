"""The bus resets of a capture of nosy-dump: each is a record of its own, and its self-ID packets are those that
follow."""

from __future__ import annotations

from typing import Iterator, List, Optional

from .happenings import BROKEN_RESET, BusReset
from .mending import mended
from .self_ids import ByNode, are_whole, by_node, count, in_order, is_complete
from .tally import Tally, Written


class Opened:
    """A bus reset whose self-ID packets come."""

    def __init__(self, cycle: int, timed: bool):
        self.cycle = cycle
        self.timed = timed
        self.self_ids: List[int] = []


class BusResets:
    """Gives each bus reset once its self-ID packets are there, and tells the tally of those that it cannot give."""

    def __init__(self, tally: Tally):
        self._tally = tally
        self._opened: Optional[Opened] = None
        self._latest: ByNode = {}  # of the latest bus reset that was given
        self.are_nodes_unknown = False

    def is_told_again(self) -> bool:
        """Whether a bus reset that comes now is the one that is open: the interrupt may come more than once."""
        return self._opened is not None and not self._opened.self_ids

    def open(self, cycle: int, timed: bool) -> None:
        self._opened = Opened(cycle, timed)

    def take(self, self_id: int) -> bool:
        """Whether a bus reset is open, to which the self-ID packet belongs."""
        if self._opened is None:
            return False
        self._opened.self_ids.append(self_id)
        return True

    def close(self, cut_off: bool) -> Iterator[BusReset]:
        """Gives the bus reset that is open, if its self-ID packets are whole or can be mended. Those that are cut off
        by the next bus reset, or by the end of the capture, are not mended."""
        reset, self._opened = self._opened, None
        if reset is None:
            return
        if not reset.self_ids:
            self._tally.leave("bus reset without self-ID packets")
            return
        there = by_node(reset.self_ids)
        nodes = there if are_whole(there) else None if cut_off else self._mended(there)
        if nodes is None:
            self._leave(reset)
            return
        self._tell(reset, there, nodes)
        self._latest, self.are_nodes_unknown = nodes, False
        yield BusReset(reset.cycle, in_order(nodes), None, reset.timed)

    def _mended(self, there: ByNode) -> Optional[ByNode]:
        complete = {node: packets for node, packets in there.items() if is_complete(packets)}
        found = mended(complete, self._latest)
        if found is None:
            return None
        nodes, how = found
        self._tally.change(how)
        return nodes

    def _leave(self, reset: Opened) -> None:
        self._tally.leave(BROKEN_RESET)
        self._tally.leave("self-ID packet of such a bus reset", len(reset.self_ids))
        self.are_nodes_unknown = True

    def _tell(self, reset: Opened, there: ByNode, nodes: ByNode) -> None:
        """Of the packets that were there those are written that are whole nodes'."""
        parts = {node: packets for node, packets in there.items() if not is_complete(packets)}
        self._tally.write(Written.SELF_ID_PACKET, count(there) - count(parts))
        self._tally.leave("self-ID packet of a node whose others are missing", count(parts))
        self._tally.leave("self-ID packet behind those of a bus reset", len(reset.self_ids) - count(there))
