"""What the readers of captures give, in the order of the capture, and the tools put into a log."""

from __future__ import annotations

from typing import List, NamedTuple, Optional, Union


class BusReset(NamedTuple):
    """A bus reset with all of its self-ID packets, each as its first quadlet. `local` is the node that captures, if
    it is known; `timed` says whether cycles are right up to here, so that the second after it can be told."""

    cycle: int
    self_ids: List[int]
    local: Optional[int]
    timed: bool


class Packet(NamedTuple):
    """An asynchronous packet that somebody took, without CRCs."""

    cycle: int
    words: List[int]


class IsochronousPacket(NamedTuple):
    """An isochronous packet, without CRCs."""

    cycle: int
    words: List[int]


Happening = Union[BusReset, Packet, IsochronousPacket]
TIME_GOES_BACK = "time stamp that goes back: the one before is taken"
UNKNOWN_NODES = "behind a bus reset whose self-ID packets are not whole"
BROKEN_RESET = "bus reset whose self-ID packets are not whole"
