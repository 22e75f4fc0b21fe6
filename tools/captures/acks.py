"""What a capture says of the acknowledgement of a packet, and what was not taken."""

from __future__ import annotations

from enum import IntEnum

from .packets import ALL_NODES, Words, destination, physical_id
from .tally import LeftOut


class Ack(IntEnum):
    """None, or an ack code (IEEE 1394-1995, 6.2.5.2.2); those that are not here are reserved."""

    NONE = 0
    COMPLETE = 1
    PENDING = 2
    BUSY_X = 4
    BUSY_A = 5
    BUSY_B = 6
    TARDY = 11
    CONFLICT_ERROR = 12
    DATA_ERROR = 13
    TYPE_ERROR = 14
    ADDRESS_ERROR = 15


TAKEN = (Ack.COMPLETE, Ack.PENDING)
BUSY = "busy: the retry counts"
NOT_TAKEN = {
    Ack.NONE: "no ack: nobody took it",
    Ack.BUSY_X: BUSY,
    Ack.BUSY_A: BUSY,
    Ack.BUSY_B: BUSY,
    Ack.TARDY: "ack_tardy",
    Ack.CONFLICT_ERROR: "ack_conflict_error",
    Ack.DATA_ERROR: "ack_data_error",
    Ack.TYPE_ERROR: "ack_type_error",
    Ack.ADDRESS_ERROR: "ack_address_error",
}


def check_taken(packet: Words, ack: int) -> None:
    """What goes to all nodes has no ack; of the rest only what was taken is a packet of the log."""
    if ack in TAKEN or (ack == Ack.NONE and physical_id(destination(packet)) == ALL_NODES):
        return
    raise LeftOut(NOT_TAKEN.get(ack, f"ack {ack:x}, which is reserved"))
