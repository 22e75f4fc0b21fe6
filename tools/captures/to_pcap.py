"""Makes a pcap file of the isochronous packets of a log, as IEC 61883 over AVTP
(IEEE 1722), for Wireshark and tshark.

examples:
  to_pcap.py < bus.log > bus.pcap
  tshark -r bus.pcap -O iec61883

Each packet is an Ethernet frame to all, of type 22F0: an AVTP header of 24
bytes (subtype 0, 61883), whose last four are the isochronous header as on the
bus, and then the packet from its CIP header on. The time is that of the cycle.
Wireshark has no dissector for asynchronous packets of IEEE 1394: they are left
out, as all other entries are, and a report on standard error counts them.
docs/CAPTURES.md has the rest.
"""

from __future__ import annotations

import argparse
import struct

from . import frame, from_log, streams
from .log_reader import Entry, counted_entries
from .log_writer import EntryKind
from .tally import Tally, Written
from .times import CYCLE_MICROSECONDS, SECOND

MAGIC = 0xA1B2C3D4  # times in microseconds
VERSION = (2, 4)
LONGEST_FRAME = 65535
ETHERNET = 1
FILE_HEADER = struct.pack("<IHHiIII", MAGIC, *VERSION, 0, 0, LONGEST_FRAME, ETHERNET)
TO_ALL = b"\xff" * 6
FROM = b"\x02\0\0\0\0\1"  # an address that is given locally
AVTP_TYPE = b"\x22\xf0"
SUBTYPE_61883 = b"\0"
STREAM_ID_IS_VALID = b"\x80"
# Sequence number, stream ID, time stamp and gateway are 0.
FRAME_HEADER = TO_ALL + FROM + AVTP_TYPE + SUBTYPE_61883 + STREAM_ID_IS_VALID + bytes(18)
LATE = "time of more seconds than a pcap file holds: the low 32 bits are written"


def frame_of(entry: Entry, tally: Tally) -> bytes:
    seconds, cycles = divmod(entry.cycle, SECOND)
    if seconds >> 32:
        tally.change(LATE)
    data = FRAME_HEADER + entry.body
    return struct.pack("<IIII", seconds & 0xFFFFFFFF, cycles * CYCLE_MICROSECONDS, len(data), len(data)) + data


def work(_options: argparse.Namespace) -> Tally:
    tally = Tally()
    output = streams.standard_output()
    output.write(FILE_HEADER)
    for entry in counted_entries(streams.standard_input().pieces(), tally):
        if entry.kind == EntryKind.ISOCHRONOUS:
            output.write(frame_of(entry, tally))
            tally.write(Written.ISOCHRONOUS_PACKET)
        else:
            tally.leave(from_log.name_of(entry))
    return tally


TOOL = frame.Tool("to_pcap", "entries", from_log.parser("to_pcap", __doc__), work)
