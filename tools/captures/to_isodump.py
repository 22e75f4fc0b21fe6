"""Makes a capture of dumpiso of the isochronous packets of a log, which sendiso
(libraw1394) can send.

examples:
  to_isodump.py < bus.log > bus.iso
  sendiso bus.iso

The capture is of version 2, little-endian. Times and cycles without a packet
are not in it, and sendiso sends all packets on the channel of the first. All
other entries are left out, and a report on standard error counts them.
docs/CAPTURES.md has the rest.
"""

from __future__ import annotations

import argparse
import struct
from typing import List

from . import frame, from_log, streams
from .isodump_records import VERSION_2, record_of
from .log_reader import counted_entries
from .log_writer import EntryKind
from .tally import Tally, Written

CHANNEL_AT = 2  # the byte of an isochronous header with tag and channel


def work(_options: argparse.Namespace) -> Tally:
    tally = Tally()
    packets: List[bytes] = []
    channels = 0
    for entry in counted_entries(streams.standard_input().pieces(), tally):
        if entry.kind == EntryKind.ISOCHRONOUS:
            packets.append(record_of(entry.body))
            channels |= 1 << (entry.body[CHANNEL_AT] & 63)
            tally.write(Written.ISOCHRONOUS_PACKET)
        else:
            tally.leave(from_log.name_of(entry))
    streams.standard_output().write(VERSION_2 + struct.pack(">QQ", channels, 0) + b"".join(packets))
    return tally


TOOL = frame.Tool("to_isodump", "entries", from_log.parser("to_isodump", __doc__), work)
