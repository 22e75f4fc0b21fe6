"""The records of a capture of dumpiso (libraw1394): of version 2, which its programs write and read, and of version 1,
which its manual page describes."""

from __future__ import annotations

import struct
from typing import Iterator, NamedTuple, Optional

from .byte_order import LITTLE_ENDIAN, likely_order
from .packets import Tcode, Words, quadlets_of
from .tally import Tally

VERSION_1, VERSION_2 = b"1394 isodump v1\0", b"1394 isodump v2\0"
HEADER = 32  # bytes: the version, a mask of the channels, and 8 that are not used
HEAD = "I4B"  # of a record of version 2, before its data: their length, channel, tag, sy, and a byte that is 0
HEAD_LENGTH = struct.calcsize("=" + HEAD)
LONGEST = 4096  # bytes of data in a packet; dumpiso asks for no more


class Head(NamedTuple):
    """What a record of version 2 begins with."""

    length: int
    channel: int
    tag: int
    sy: int
    zero: int

    def is_of_a_packet(self) -> bool:
        return self.length <= LONGEST and self.channel < 64 and self.tag < 4 and self.sy < 16 and self.zero == 0

    def quadlet(self) -> int:
        """The header of the packet, as on the bus."""
        return self.length << 16 | self.tag << 14 | self.channel << 8 | Tcode.STREAM << 4 | self.sy


def packets(capture: bytes, tally: Tally) -> Iterator[Words]:
    """The packets: each its header and its data, padded to quadlets. What goes on to none is damaged there."""
    if len(capture) >= HEADER and capture.startswith(VERSION_1):
        yield from packets_of_version_1(capture, tally)
    elif len(capture) >= HEADER and capture.startswith(VERSION_2):
        yield from packets_of_version_2(capture, tally)
    else:
        tally.damage = "byte 0: not a capture of dumpiso"


def packets_of_version_1(capture: bytes, tally: Tally) -> Iterator[Words]:
    """Each packet is as on the bus, without its CRCs."""
    at = HEADER
    while at < len(capture):
        quadlets = 1 + quadlets_of(int.from_bytes(capture[at : at + 2], "big"))
        if at + 4 > len(capture) or at + 4 * quadlets > len(capture):
            tally.damage = f"byte {at}: cut"
            return
        tally.read += 1
        yield list(struct.unpack_from(f">{quadlets}I", capture, at))
        at += 4 * quadlets


def packets_of_version_2(capture: bytes, tally: Tally) -> Iterator[Words]:
    """Each packet has a head of its own form, and its data without padding. Lengths have the byte order of the host."""
    at, order = HEADER, None
    while at < len(capture):
        order = order or likely_order(capture[at : at + 4], LONGEST)
        data_at = at + HEAD_LENGTH
        if data_at > len(capture):
            tally.damage = f"byte {at}: cut"
            return
        head = head_at(capture, at, order)
        if not head.is_of_a_packet():
            tally.damage = f"byte {at}: no head of a packet"
            return
        if data_at + head.length > len(capture):
            tally.damage = f"byte {at}: cut"
            return
        tally.read += 1
        at = data_at + head.length
        yield [head.quadlet(), *padded_words(capture[data_at:at])]


def head_at(capture: bytes, at: int, order: Optional[str]) -> Head:
    return Head(*struct.unpack_from((order or LITTLE_ENDIAN) + HEAD, capture, at))


def padded_words(data: bytes) -> Words:
    quadlets = quadlets_of(len(data))
    return list(struct.unpack(f">{quadlets}I", data.ljust(4 * quadlets, b"\0")))


def record_of(body: bytes) -> bytes:
    """The record of version 2, as a little-endian host has it, of a packet as on the bus."""
    (header,) = struct.unpack_from(">I", body)
    length, channel, tag, sy = header >> 16, header >> 8 & 63, header >> 14 & 3, header & 15
    return struct.pack(LITTLE_ENDIAN + HEAD, length, channel, tag, sy, 0) + body[4 : 4 + length]
