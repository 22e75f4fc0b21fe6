"""The inputs of the vectors, by tool."""

from __future__ import annotations

import struct
from typing import Callable, Dict

from ..log_reader import read_log
from ..log_writer import EntryKind
from . import scripts
from .habits import Habits
from .hostile import hostile_captures, hostile_trace
from .laid import two_that_change_places
from .nosy_capture import as_captured
from .trace_capture import as_traced

RELAY = 0  # the code of its kind
Inputs = Dict[str, bytes]

# A file that dumpiso 2.1.2 wrote: packets of 5, 0 and 3 bytes.
DUMPISO_2_THREE = bytes.fromhex("""
    31333934 2069736f 64756d70 20763200  ffffffff ffffffff 00000000 00000000
    05000000 05010300 01020304 05
    00000000 3f000f00
    03000000 07020100 aabbcc""")


class Logs:
    """The logs of the scripts. `run` makes a log of a script."""

    def __init__(self, run: Callable[[str], bytes]):
        self.play = run(scripts.PLAY)
        self.play_with_reads = run(scripts.PLAY_WITH_READS)
        self.rivals = run(scripts.RIVALS)
        self.leak = run(scripts.LEAK)

    def relay(self) -> int:
        """The device of the log that plays that is a relay."""
        resets = [entry for entry in read_log([self.play]) if entry.kind == EntryKind.RESET]
        rows = [reset.body[8 + 4 * node : 12 + 4 * node] for reset in resets for node in range(reset.node_count())]
        return next(row[0] for row in rows if row[3] == RELAY)


def nosy_inputs(logs: Logs) -> Inputs:
    real = Habits(1, busy=True, no_ack=True, reserved=True, real_plugs=True, twice=True, phy=True, cycle_starts=100)
    lossy = Habits(5, cycle_starts=100, busy=True, real_plugs=True, lose=7)
    muted = Habits(7, cycle_starts=400, busy=True, mute=logs.relay())
    self_id_lost = Habits(8, cycle_starts=400, busy=True, lose_self_id=True)
    return {
        "nosy_play": as_captured(logs.play_with_reads, real),
        "nosy_rivals": as_captured(logs.rivals, real._replace(seed=2)),
        "nosy_leak": as_captured(logs.leak, Habits(3, cycle_starts=100)),
        "nosy_eui_64": as_captured(two_that_change_places(), Habits(11, cycle_starts=200)),
        "nosy_lost_packets": as_captured(logs.play, lossy),
        "nosy_no_cycle_starts": as_captured(logs.rivals, Habits(6, busy=True)),
        "nosy_sniffer_not_told": as_captured(logs.play, muted),
        "nosy_self_id_lost": as_captured(logs.rivals, self_id_lost),
        "nosy_from_the_middle": as_captured(logs.play, Habits(9, cycle_starts=200, busy=True, start=90)),
        "nosy_big_endian": as_captured(logs.rivals, Habits(10, cycle_starts=800, busy=True, big_endian=True)),
        **hostile_captures(logs.play),
    }


def trace_inputs(logs: Logs) -> Inputs:
    return {
        "trace_pipe": as_traced(logs.play_with_reads, 0, Habits(1, busy=True)),
        "trace_report": as_traced(logs.play, 1, Habits(2, busy=True, real_plugs=True, style="report")),
        "trace_perf": as_traced(logs.rivals, 0, Habits(3, reserved=True, style="perf")),
        "trace_manager": as_traced(logs.rivals, 2, Habits(4)),
        "trace_big_endian": as_traced(logs.play, 0, Habits(5, big_endian=True)),
        "hostile_trace": hostile_trace(as_traced(logs.rivals, 1, Habits(6, busy=True))),
        "hostile_trace_of_nothing": b"one line\nand another\n",
    }


def isodump_record(packet: bytes, order: str = "<") -> bytes:
    """What dumpiso 2.1.2 writes of a packet, on a host of this byte order."""
    length, tag_and_channel, sy = struct.unpack_from(">HBB", packet)
    head = struct.pack(order + "I4B", length, tag_and_channel & 63, tag_and_channel >> 6, sy & 15, 0)
    return head + packet[4 : 4 + length]


def isodump_inputs(logs: Logs) -> Inputs:
    streams = [entry.body for entry in read_log([logs.play]) if entry.kind == EntryKind.ISOCHRONOUS]
    channel_0 = struct.pack(">QQ", 1, 0)
    head = b"1394 isodump v1\0" + channel_0
    head_2 = b"1394 isodump v2\0" + channel_0
    records = [isodump_record(packet) for packet in streams]
    audio = struct.pack(">3I", 72 << 16 | 1 << 14 | 0xA0, 0x00020000, 0x9002FFFF) + bytes(64)
    on_channel_1 = streams[2].replace(b"\x40\xa0", b"\x41\xa0", 1)
    return {
        "isodump_play": head + b"".join(streams),
        "isodump_lost": head + b"".join(streams[:7] + streams[10:]),
        "isodump_mixed": head + b"".join([streams[1], audio, on_channel_1, streams[3]]),
        "isodump_2_play": head_2 + b"".join(records),
        "isodump_2_big_endian": head_2 + b"".join(isodump_record(packet, ">") for packet in streams),
        "isodump_2_mixed": head_2 + b"".join(map(isodump_record, [streams[1], audio, on_channel_1, streams[3]])),
        "isodump_2_three": DUMPISO_2_THREE,
        "hostile_isodump_cut": head + b"".join(streams)[:-7],
        "hostile_isodump_none": b"1394 isodum",
        "hostile_isodump_2_cut": head_2 + b"".join(records)[:-7],
        "hostile_isodump_2_no_head": head_2 + b"".join(records[:3]) + streams[3] + b"".join(records[4:]),
    }


def inputs(logs: Logs) -> Inputs:
    """The files of the inputs."""
    files = {"out_play.log": logs.play}
    for ending, made in (("cap", nosy_inputs(logs)), ("trace", trace_inputs(logs)), ("iso", isodump_inputs(logs))):
        files.update({f"{name}.{ending}": data for name, data in made.items()})
    return files
