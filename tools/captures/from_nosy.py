"""Makes a log of a capture of nosy-dump -o FILE: every packet of a bus, as a
sniffer sees it that is no node.

examples:
  nosy-dump --iso --cycle-start -o bus.cap
  from_nosy.py < bus.cap > bus.log

  mkfifo bus.fifo
  nosy-dump --iso --cycle-start -o bus.fifo > /dev/null &
  from_nosy.py --live < bus.fifo | fire explain

Without cycle starts in the capture a silence of a second or more does not show.
Each record of the capture becomes an entry of the log, or is left out; a report
on standard error counts both, by what it was. docs/CAPTURES.md has the rest.
"""

from __future__ import annotations

import argparse
import io

from . import frame, streams
from .byte_order import BYTE_ORDERS
from .nosy_reader import NosyReader
from .survey import LiveSurvey, Survey
from .tally import Tally
from .to_log import LogMaker, add_kinds


def work(options: argparse.Namespace) -> Tally:
    tally = Tally()
    order = BYTE_ORDERS.get(options.byte_order)
    kinds = dict(options.kinds)
    capture = streams.standard_input(grows=options.live)
    maker = LogMaker(streams.standard_output(at_once=options.live), tally, options.cycle_starts)
    if options.live:
        maker.write(NosyReader(capture, order, tally).happenings(), LiveSurvey(kinds))
        return tally
    data = capture.read()
    survey = Survey(NosyReader(streams.Input(io.BytesIO(data)), order, Tally()).happenings(), kinds)
    maker.write(NosyReader(streams.Input(io.BytesIO(data)), order, tally).happenings(), survey)
    return tally


def parser() -> frame.Parser:
    words = frame.Parser("from_nosy", __doc__, "damaged: the log has what stands before, and its end")
    words.add_argument(
        "--live",
        action="store_true",
        help="one pass: each entry is written as its record comes. Devices are told by self-ID packets alone, nodes "
        "with a link have 31 plugs of each kind, and there are no decks. Ctrl-C is the end of the capture",
    )
    words.add_argument("--cycle-starts", action="store_true", help="cycle starts become entries too, 8000 a second")
    words.add_argument("--byte-order", choices=BYTE_ORDERS, help="of the capture; else as its first length says")
    add_kinds(words)
    return words


TOOL = frame.Tool("from_nosy", "records", parser(), work)
