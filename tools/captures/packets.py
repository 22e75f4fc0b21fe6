"""Packets as lists of quadlets without CRCs: their fields, and the form in which a log holds them."""

from __future__ import annotations

from enum import IntEnum
from typing import List, Optional, Tuple

from .tally import LeftOut

Words = List[int]


class Tcode(IntEnum):
    """Transaction codes (IEEE 1394-1995, 6.2.4); those that are not here are reserved."""

    WRITE_QUADLET = 0
    WRITE_BLOCK = 1
    WRITE_RESPONSE = 2
    READ_QUADLET = 4
    READ_BLOCK = 5
    READ_QUADLET_RESPONSE = 6
    READ_BLOCK_RESPONSE = 7
    CYCLE_START = 8
    LOCK = 9
    STREAM = 10
    LOCK_RESPONSE = 11


# How many quadlets the header of an asynchronous packet has.
HEADER_QUADLETS = {
    Tcode.WRITE_QUADLET: 4,
    Tcode.WRITE_BLOCK: 4,
    Tcode.WRITE_RESPONSE: 3,
    Tcode.READ_QUADLET: 3,
    Tcode.READ_BLOCK: 4,
    Tcode.READ_QUADLET_RESPONSE: 4,
    Tcode.READ_BLOCK_RESPONSE: 4,
    Tcode.CYCLE_START: 4,
    Tcode.LOCK: 4,
    Tcode.LOCK_RESPONSE: 4,
}
REQUESTS = frozenset((Tcode.WRITE_QUADLET, Tcode.WRITE_BLOCK, Tcode.READ_QUADLET, Tcode.READ_BLOCK, Tcode.LOCK))
RESPONSES = frozenset(
    (Tcode.WRITE_RESPONSE, Tcode.READ_QUADLET_RESPONSE, Tcode.READ_BLOCK_RESPONSE, Tcode.LOCK_RESPONSE)
)
LOCKS = frozenset((Tcode.LOCK, Tcode.LOCK_RESPONSE))
WITH_BLOCK = frozenset((Tcode.WRITE_BLOCK, Tcode.READ_BLOCK_RESPONSE)) | LOCKS
WITH_LENGTH = WITH_BLOCK | {Tcode.READ_BLOCK}
ALL_NODES = 63  # the physical ID of a packet to all
REGISTERS = 0xFFFFF0000000  # where the registers of a node begin
LARGEST_BLOCK = 512  # bytes; what S100 carries, and the most that a log holds

# The lengths in bytes that a lock request of a function may have: an argument and a data value, or the value alone.
LOCK_LENGTHS = {
    1: (8, 16),  # mask_swap
    2: (8, 16),  # compare_swap
    3: (4, 8),  # fetch_add
    4: (4, 8),  # little_add
    5: (8, 16),  # bounded_add
    6: (8, 16),  # wrap_add
    7: (4, 8, 16),  # vendor_dependent
}
OLD_VALUE_LENGTHS = (0, 4, 8)
SD_DVCR_LENGTHS = (8, 488)  # of the CIP header alone, and with one source packet
COMMON_CIP_TAG = 1


def tcode(words: Words) -> int:
    return words[0] >> 4 & 15


def destination(words: Words) -> int:
    return words[0] >> 16


def source(words: Words) -> int:
    return words[1] >> 16


def label(words: Words) -> int:
    return words[0] >> 10 & 63


def rcode(words: Words) -> int:
    return words[1] >> 12 & 15


def register(words: Words) -> int:
    """The offset of a request, counted from where the registers begin."""
    return ((words[1] & 0xFFFF) << 32 | words[2]) - REGISTERS


def data_length(words: Words) -> int:
    """Of a packet with a block, or of a read request for one, in bytes."""
    return words[3] >> 16


def physical_id(node_id: int) -> int:
    return node_id & 63


def quadlets_of(length: int) -> int:
    """How many quadlets so many bytes take with their padding."""
    return (length + 3) // 4


def packet_bytes(packet: bytes) -> Optional[int]:
    """How many bytes the asynchronous packet that begins so has by its header, without which it is None, or if it is no
    such packet."""
    code = packet[3] >> 4
    header = HEADER_QUADLETS.get(code)
    if header is None or len(packet) < 4 * header:
        return None
    return 4 * (header + quadlets_of(packet[12] << 8 | packet[13]) if code in WITH_BLOCK else header)


def log_form(words: Words) -> Tuple[Words, bool]:
    """An asynchronous packet, whole, as a log holds it, and whether bits were cleared in it."""
    code = tcode(words)
    if code in LOCKS:
        check_lock(words)
    elif code in WITH_LENGTH and data_length(words) > LARGEST_BLOCK:
        raise LeftOut("block of more than 512 bytes")
    form = list(words)
    if code in WITH_LENGTH and code not in LOCKS:
        form[3] &= 0xFFFF0000
    if code in WITH_BLOCK:
        form[-1] &= padding_mask(data_length(words))
    if code in RESPONSES:
        form[1] &= 0xFFFFF000
        form[2] = 0
    return form, form != words


def check_lock(words: Words) -> None:
    function = words[3] & 0xFFFF
    if function not in LOCK_LENGTHS:
        raise LeftOut("lock of an unknown function")
    allowed = LOCK_LENGTHS[function] if tcode(words) == Tcode.LOCK else OLD_VALUE_LENGTHS
    if data_length(words) not in allowed:
        raise LeftOut("lock of a length that its function does not have")


def padding_mask(length: int) -> int:
    """What is data in the last quadlet of a packet with a block of so many bytes."""
    return 0xFFFFFFFF << 8 * (-length % 4) & 0xFFFFFFFF


def log_form_of_stream(words: Words) -> Tuple[Words, bool]:
    """The same of an isochronous packet: a log holds those of SD-DVCR, with one source packet of 480 bytes or none."""
    length, tag = words[0] >> 16, words[0] >> 14 & 3
    if tag != COMMON_CIP_TAG:
        raise LeftOut(f"isochronous packet without a CIP header (tag {tag})")
    if length not in SD_DVCR_LENGTHS or len(words) != 1 + length // 4 or words[1] >> 30 != 0 or words[2] >> 30 != 2:
        raise LeftOut("isochronous packet that is no SD-DVCR source packet")
    form = list(words)
    form[1] &= 0xFFFFFCFF
    return form, form != words
