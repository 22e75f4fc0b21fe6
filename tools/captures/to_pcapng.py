"""Makes a pcapng file of a log, each of its entries a packet, for Wireshark and
tshark with the dissector of tools/wireshark.

examples:
  to_pcapng.py < bus.log > bus.pcapng
  tshark -X lua_script:tools/wireshark/fire1394.lua -r bus.pcapng

  cat /sys/kernel/tracing/trace_pipe | from_trace.py --live |
    to_pcapng.py --live | wireshark -k -i -

A packet has the bytes of its entry, head and body, and the time of its cycle.
Its link type is USER13 (160). What is damaged in a log is one packet more, of
link type USER14 (161), with the fault as its comment.
docs/WIRESHARK.md has the rest.
"""

from __future__ import annotations

import argparse
import struct

from . import frame, from_log, streams
from .log_reader import Entry, LogFault, read_log
from .tally import Tally, Written
from .times import CYCLE_MICROSECONDS

ENTRIES, DAMAGE = 160, 161  # link types of the range that is left to users
SECTION_BLOCK, INTERFACE_BLOCK, PACKET_BLOCK = 0x0A0D0D0A, 1, 6
BYTE_ORDER, VERSION, LENGTH_NOT_TOLD = 0x1A2B3C4D, (1, 0), -1
COMMENT, INTERFACE_NAME = 1, 2  # codes of options
ALL_OF_A_PACKET = 0  # bytes of it that are kept
PACKET_HEAD, PACKET_END = struct.Struct("<7I"), struct.Struct("<I")
AROUND_PACKET = PACKET_HEAD.size + PACKET_END.size  # bytes of a packet's block beside the packet
LATE = "time of more microseconds than a pcapng file holds: the low 64 bits are written"


def block(kind: int, body: bytes) -> bytes:
    size = struct.pack("<I", 12 + len(body))
    return struct.pack("<I", kind) + size + body + size


def padded(data: bytes) -> bytes:
    return data + bytes(-len(data) % 4)


def option(code: int, text: bytes) -> bytes:
    """An option, and the end of the options."""
    return struct.pack("<HH", code, len(text)) + padded(text) + bytes(4)


def interface(link_type: int, name: bytes) -> bytes:
    """The time of its packets is in microseconds, since nothing else is said."""
    return block(INTERFACE_BLOCK, struct.pack("<HHI", link_type, 0, ALL_OF_A_PACKET) + option(INTERFACE_NAME, name))


SECTION = block(SECTION_BLOCK, struct.pack("<IHHq", BYTE_ORDER, *VERSION, LENGTH_NOT_TOLD))
HEADER = SECTION + interface(ENTRIES, b"IEEE 1394")


def packet(entry: Entry, tally: Tally) -> bytes:
    size, time = len(entry.whole), entry.cycle * CYCLE_MICROSECONDS
    if time >> 64:
        tally.change(LATE)
    high, low = time >> 32 & 0xFFFFFFFF, time & 0xFFFFFFFF
    around = AROUND_PACKET + size
    return PACKET_HEAD.pack(PACKET_BLOCK, around, 0, high, low, size, size) + entry.whole + PACKET_END.pack(around)


def damage(fault: LogFault, cycle: int) -> bytes:
    """What is damaged, at the time of the entry before it: a packet of an interface of its own, with a comment."""
    time = cycle * CYCLE_MICROSECONDS
    words, size = str(fault).encode(), len(fault.entry)
    start = struct.pack("<5I", 1, time >> 32 & 0xFFFFFFFF, time & 0xFFFFFFFF, size, size)
    body = start + padded(fault.entry) + option(COMMENT, words)
    return interface(DAMAGE, b"damage") + block(PACKET_BLOCK, body)


def work(options: argparse.Namespace) -> Tally:
    tally = Tally()
    log = streams.standard_input(grows=options.live).pieces()
    output = streams.standard_output(at_once=options.live)
    output.write(HEADER)
    cycle = 0
    try:
        for entry in read_log(log):
            output.write(packet(entry, tally))
            tally.read += 1
            cycle = entry.cycle
    except LogFault as fault:
        tally.damage = str(fault)
        output.write(damage(fault, cycle))
    tally.write(Written.ENTRY, tally.read)
    return tally


def parser() -> frame.Parser:
    words = from_log.parser("to_pcapng", __doc__)
    words.add_argument(
        "--live",
        action="store_true",
        help="each packet is written as its entry comes. Ctrl-C is the end of the log",
    )
    return words


TOOL = frame.Tool("to_pcapng", "entries", parser(), work)
