"""Makes a capture of nosy-dump of a log, for nosy-dump -i and for what else reads
such captures.

examples:
  to_nosy.py < bus.log > bus.cap
  nosy-dump -i bus.cap --view packet

  to_nosy.py --transaction < bus.log > bus.cap
  nosy-dump -i bus.cap --view transaction

What a log does not have is written so: each CRC is 0; the ack of a request is
ack_pending, that of a response ack_complete, and there is none of what goes to
all nodes. Events, outcomes and shown words have no packet: they are left out,
and a report on standard error counts them. docs/CAPTURES.md has the rest.
"""

from __future__ import annotations

import argparse
import struct
from typing import Iterable, Iterator, List

from . import frame, from_log, streams
from .acks import Ack
from .byte_order import BYTE_ORDERS
from .log_reader import Entry, counted_entries
from .log_writer import EntryKind
from .packets import ALL_NODES, HEADER_QUADLETS, RESPONSES, Tcode, Words, destination, physical_id, tcode
from .tally import Tally, Written
from .times import CYCLE_MICROSECONDS, MICROSECONDS

NO_CRC = 0


def ack_of(words: Words) -> Ack:
    if tcode(words) == Tcode.CYCLE_START or physical_id(destination(words)) == ALL_NODES:
        return Ack.NONE
    return Ack.COMPLETE if tcode(words) in RESPONSES else Ack.PENDING


def reset_records(entry: Entry, stamp: int, is_timed: bool) -> Iterator[List[int]]:
    yield [stamp] if is_timed else []
    for self_id in entry.self_ids():
        yield [stamp, self_id, self_id ^ 0xFFFFFFFF, Ack.NONE]


def packet_record(words: Words, stamp: int) -> List[int]:
    header, data = words[: HEADER_QUADLETS[Tcode(tcode(words))]], words[HEADER_QUADLETS[Tcode(tcode(words))] :]
    return [stamp, *header, NO_CRC, *(data + [NO_CRC] if data else []), ack_of(words)]


def stream_record(words: Words, stamp: int) -> List[int]:
    return [stamp, words[0], NO_CRC, *words[1:], NO_CRC, Ack.NONE]


def records(log: Iterable[bytes], are_resets_timed: bool, tally: Tally) -> Iterator[List[int]]:
    """The records of the capture as lists of quadlets."""
    for entry in counted_entries(log, tally):
        stamp = entry.cycle * CYCLE_MICROSECONDS % MICROSECONDS
        if entry.kind == EntryKind.RESET:
            tally.write(Written.BUS_RESET)
            yield from reset_records(entry, stamp, are_resets_timed)
        elif entry.kind == EntryKind.PACKET:
            tally.write(Written.PACKET)
            yield packet_record(entry.quadlets(), stamp)
        elif entry.kind == EntryKind.ISOCHRONOUS:
            tally.write(Written.ISOCHRONOUS_PACKET)
            yield stream_record(entry.quadlets(), stamp)
        else:
            tally.leave(from_log.name_of(entry))


def work(options: argparse.Namespace) -> Tally:
    tally = Tally()
    log, output = streams.standard_input().pieces(), streams.standard_output()
    order = BYTE_ORDERS[options.byte_order]
    for record in records(log, not options.transaction, tally):
        output.write(struct.pack(f"{order}{1 + len(record)}I", 4 * len(record), *record))
    return tally


def parser() -> frame.Parser:
    words = from_log.parser("to_nosy", __doc__)
    words.add_argument(
        "--transaction",
        action="store_true",
        help="bus resets as the views transaction and stats of nosy-dump want them: of length 0, without a time",
    )
    words.add_argument("--byte-order", choices=BYTE_ORDERS, default="little", help="of the host that reads the capture")
    return words


TOOL = frame.Tool("to_nosy", "entries", parser(), work)
