"""Captures that are cut, are not whole, or have what a log does not hold."""

from __future__ import annotations

import struct
from typing import Dict, List

from .habits import Habits
from .nosy_capture import as_captured

FIRST, SECOND, ROOT = 0x807F8856, 0x81458C96, 0x82458CF4  # the self-ID packets of a bus of three nodes
READ_OF_ROM = (0xFFC20100, 0xFFC0FFFF, 0xF0000404)
CRC = 9
PENDING, COMPLETE = 2, 1


def record(*words: int) -> bytes:
    return struct.pack(f"<{1 + len(words)}I", 4 * len(words), *words)


def phy(stamp: int, quadlet: int) -> bytes:
    return record(stamp, quadlet, quadlet ^ 0xFFFFFFFF, 0)


def self_ids(*packets: int) -> bytes:
    return b"".join(phy(7, packet) for packet in packets)


def write_at(stamp: int, data: int) -> bytes:
    """A write of a quadlet."""
    return record(stamp, *READ_OF_ROM, data, CRC, COMPLETE)


def ends_of_records(capture: bytes) -> List[int]:
    ends = [0]
    while ends[-1] < len(capture):
        ends.append(ends[-1] + 4 + struct.unpack_from("<I", capture, ends[-1])[0])
    return ends


def shapes() -> bytes:
    """A record of each sort that is left out, and of each that is changed."""
    stream = (0x004840A0, CRC, 0x00020000, 0x9002FFFF, *[0x40000000] * 16, CRC, 0)  # audio
    return record(6) + self_ids(FIRST, SECOND, ROOT) + b"".join([
        record(10),  # a bus reset without self-ID packets
        record(11, 0xFFC21510, 0xFFC0FFFF, 0xF0000B00, 0x08000000, CRC, *[1] * 512, CRC, PENDING),  # 2048 bytes
        # padding that is set
        record(12, 0xFFC21910, 0xFFC0FFFF, 0xF0000B00, 0x00070000, CRC, 0x01FF30FF, 0xFFFFFFAB, CRC, COMPLETE),
        record(13, 0xFFC21D90, 0xFFC0FFFF, 0xF0000220, 0x00080009, CRC, 1, 2, CRC, PENDING),  # an unknown function
        record(14, 0xFFC22190, 0xFFC0FFFF, 0xF0000220, 0x00040002, CRC, 1, CRC, PENDING),  # a length it does not have
        record(15, 0xFFC225B0, 0xFFC0FFFF, 0xFFFFFFFF, 0x00040002, CRC, 1),  # too short
        record(16, 0xFFC22930, 0xFFC0FFFF, 1, CRC, PENDING),
        record(17, 0xFFC22DC0, 0xFFC0FFFF, 1, CRC, PENDING),
        record(18, 0x00820E80),
        record(19, 0xFFC23140, 0xFFC0FFFF, 0xF0000904, CRC, 0xD),
        record(20, 0xFFC23140, 0xFFC0FFFF, 0xF0000904, CRC, 3),
        record(21, 0xFFC23140, 0xFFC0FFFF, 0xF0000904, CRC, 0xB),
        record(22, 0xFFC23540, 0xFFC0FFFF, 0xF0000904, CRC, PENDING),
        record(23, 0xFFC03560, 0xFFC20FFF, 0x12345678, 0x803F007A, CRC, COMPLETE),  # reserved bits of a response
        record(24, *stream),
        record(25, 0x000800A0, CRC, 0x00780000, 0x8000FFFF, CRC, 0),  # tag 0
        record(26, 0x000840A0, CRC, 0x00780300, 0x8000FFFF, CRC, 0),  # reserved bits of a CIP header
        record(27, 0x01E840A0, CRC, 0x00780000, 0x8000FFFF, CRC, 0),  # shorter than it says
        record(28, 1, 2, 3),
        record(29, 1),
        record(30, 1, 0xFFFFFFFE),
        phy(31, 0x03800000),
        phy(32, 0x41000000),
        phy(33, 0xC0000000),
        self_ids(SECOND),
        record(34, 0xFFFF0180, 0xFFC2FFFF, 0xF0000200, 0xFFFFFFFF, CRC, 0),  # a cycle that there is not
        record(35, 0xFFFF0900, 0xFFC2FFFF, 0xF0000234, 0xC000003F, CRC, 0),  # a write to all
    ])


def told_twice() -> bytes:
    """A bus reset in the self-ID packets of another."""
    return record(1) + self_ids(FIRST) + record(2) + self_ids(FIRST, SECOND, ROOT) + write_at(3, 1)


def lost() -> bytes:
    """Bus resets of which self-ID packets are missing: one that is as before, one that is not, and a whole one."""
    capture = told_twice() + record(4) + self_ids(SECOND, ROOT) + write_at(5, 2)
    capture += record(6) + self_ids(FIRST) + phy(7, 0x84458C80) + write_at(8, 3)
    return capture + record(9) + self_ids(FIRST, SECOND, ROOT) + write_at(10, 4)


def hostile_captures(play: bytes) -> Dict[str, bytes]:
    """By the names of their vectors; some are damaged captures of the log of a bus on which something plays."""
    good = as_captured(play, Habits(seed=4, busy=True, cycle_starts=400))
    ends = ends_of_records(good)
    middle = ends[len(ends) // 2]
    not_timed = record() + self_ids(FIRST, SECOND, ROOT) + write_at(3, 1)
    return {
        "hostile_cut_in_a_record": good[: middle + 9],
        "hostile_cut_in_a_length": good[: middle + 2],
        "hostile_garbage_behind": good[:middle] + b"garbage is what stands here now",
        "hostile_length_not_of_quadlets": good[: ends[9]] + struct.pack("<I", 22) + good[ends[9] + 4 : ends[14]],
        "hostile_no_capture": b"1394 isodump v2\0" + bytes(40),
        "hostile_empty": b"",
        "hostile_shapes": shapes(),
        "hostile_self_ids": told_twice(),
        "hostile_self_ids_lost": lost(),
        "hostile_bus_resets_without_time": not_timed * 2,
    }


def hostile_trace(text: bytes) -> bytes:
    """A trace with an event whose header is odd, lost events, events of another card and of none, and a cut last
    line."""
    lines = text.decode().splitlines(True)
    packets = [number for number, line in enumerate(lines) if "async_request_outbound_initiate" in line]
    odd = packets[len(packets) // 2]
    lines[odd] = lines[odd].replace("header={", "header={zz,")
    start = "     kworker/u8:1-77 [000] .....   900.000100: isoc_inbound_single_completions:"
    lines.insert(odd, "CPU:2 [LOST 17 EVENTS]\n")
    lines.insert(2, lines[1].replace("card_index=0", "card_index=1"))
    lines.insert(5, f"{start} context=0x1 card_index=0 channel=1\n")
    lines.insert(6, "     bash-1234 [000] .....   900.000101: sched_switch: prev_comm=bash\n")
    lines.append(lines[-1][:90])
    return "".join(lines).encode()
