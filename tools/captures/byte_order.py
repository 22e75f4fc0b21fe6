"""The byte order of the host that made a capture, by the first length in it."""

from __future__ import annotations

from typing import Optional

LITTLE_ENDIAN, BIG_ENDIAN = "<", ">"
BYTE_ORDERS = {"little": LITTLE_ENDIAN, "big": BIG_ENDIAN}


def likely_order(length: bytes, longest: int) -> Optional[str]:
    """The byte order in which a record, of so many bytes at most, has this length; None for 0, which says nothing."""
    little, big = (int.from_bytes(length, order) for order in BYTE_ORDERS)
    if little == 0:
        return None
    return BIG_ENDIAN if little > longest >= big else LITTLE_ENDIAN
