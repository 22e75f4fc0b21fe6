"""Makes a log of a capture of dumpiso (libraw1394): isochronous packets.

examples:
  dumpiso -c 63 dv.iso
  from_isodump.py < dv.iso > dv.log
  fire dv < dv.log

Captures of versions 1 and 2 are read. They have no times: a cycle is counted on
when a channel comes again that the cycle has already. So with one channel each
packet has a cycle of its own, and cycles without a packet do not show. Each
packet becomes an entry of the log, or is left out; a report on standard error
counts both, by what it was. docs/CAPTURES.md has the rest.
"""

from __future__ import annotations

import argparse
from typing import Iterator, Set

from . import frame, streams
from .happenings import IsochronousPacket
from .isodump_records import packets
from .packets import Tcode, tcode
from .survey import LiveSurvey
from .tally import Tally
from .to_log import LogMaker


def happenings(capture: bytes, tally: Tally) -> Iterator[IsochronousPacket]:
    cycle = 0
    seen: Set[int] = set()
    for words in packets(capture, tally):
        channel = words[0] >> 8 & 63
        if channel in seen:
            cycle += 1
            seen.clear()
        seen.add(channel)
        if tcode(words) == Tcode.STREAM:
            yield IsochronousPacket(cycle, words)
        else:
            tally.leave(f"packet of tcode {tcode(words):x}")


def work(_options: argparse.Namespace) -> Tally:
    tally = Tally()
    capture = streams.standard_input().read()
    LogMaker(streams.standard_output(), tally).write(happenings(capture, tally), LiveSurvey({}))
    if tally.read:
        tally.unsure.append("the capture has no times: cycles are counted by channels that come again")
    return tally


def parser() -> frame.Parser:
    return frame.Parser("from_isodump", __doc__, "damaged: the log has what stands before, and its end")


TOOL = frame.Tool("from_isodump", "packets", parser(), work)
