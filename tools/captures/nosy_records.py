"""The records of a capture of nosy-dump -o FILE, and the packets in them."""

from __future__ import annotations

import struct
from typing import Iterator, List, Optional

from .byte_order import LITTLE_ENDIAN, likely_order
from .packets import HEADER_QUADLETS, WITH_BLOCK, Tcode, Words, data_length, quadlets_of
from .streams import Input
from .tally import LeftOut, Tally

LONGEST = 16384  # bytes; the records of the driver have at most 8195
HOLE = 128  # empty records on end: 512 bytes of zeros are no bus resets, but a part of the file that was never written
PHY_PACKET_QUADLETS = 4
TOO_SHORT = "record that is shorter than its packet"


def records(capture: Input, order: Optional[str], tally: Tally) -> Iterator[List[int]]:
    """The records as lists of quadlets. A capture that goes on to none is damaged there, and ends there. Without an
    order the first length that is not 0 decides it."""
    at = empty = 0
    while True:
        head = capture.read(4)
        if not head:
            return
        if len(head) < 4:
            tally.damage = f"byte {at}: cut"
            return
        order = order or likely_order(head, LONGEST)
        (length,) = struct.unpack((order or LITTLE_ENDIAN) + "I", head)
        if length > LONGEST or length % 4:
            tally.damage = f"byte {at}: a record of {length} bytes"
            return
        empty = 0 if length else empty + 1
        if empty == HOLE:
            tally.damage = f"byte {at + 4 - 4 * HOLE}: {HOLE} empty records on end"
            return
        body = capture.read(length) if length else b""
        if len(body) < length:
            tally.damage = f"byte {at}: cut"
            return
        tally.read += 1
        at += 4 + length
        yield list(struct.unpack(f"{order or LITTLE_ENDIAN}{length // 4}I", body))


def is_bus_reset(record: List[int]) -> bool:
    """The other views of nosy-dump write bus resets without a time."""
    return len(record) <= 1


def is_phy_packet(record: List[int]) -> bool:
    return len(record) == PHY_PACKET_QUADLETS and record[2] == record[1] ^ 0xFFFFFFFF


def link_words(record: List[int]) -> Words:
    """The quadlets of a link packet with its CRCs, without the time before it and the ack after it."""
    if len(record) < 3:
        raise LeftOut("record without a packet")
    return record[1:-1]


def stream_without_crcs(words: Words) -> Words:
    """The header and the data, after each of which stands a CRC; the last may be missing, and quadlets may follow."""
    length = quadlets_of(words[0] >> 16)
    if len(words) < 2 + length:
        raise LeftOut(TOO_SHORT)
    return words[:1] + words[2 : 2 + length]


def packet_without_crcs(words: Words, code: Tcode) -> Words:
    header = HEADER_QUADLETS[code]
    if len(words) < header:
        raise LeftOut(TOO_SHORT)
    packet = words[:header]
    if code in WITH_BLOCK:
        length = quadlets_of(data_length(packet))
        data = words[header + 1 : header + 1 + length]
        if len(data) < length:
            raise LeftOut(TOO_SHORT)
        packet = packet + data
    return packet
