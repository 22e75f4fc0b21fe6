"""Makes a log of the kernel's firewire trace events (6.10 and later), from text of
trace_pipe, `trace-cmd report` or `perf script`: what one host sends and is
sent, and every bus reset.

examples:
  echo 1 > /sys/kernel/tracing/events/firewire/enable
  cat /sys/kernel/tracing/trace_pipe > bus.txt
  from_trace.py < bus.txt > bus.log

  cat /sys/kernel/tracing/trace_pipe | from_trace.py --live | fire explain

What other nodes do among themselves is not in the events, nor what they do at
this host's own BUS_MANAGER_ID, BANDWIDTH_AVAILABLE and CHANNELS_AVAILABLE,
which its link answers without the driver. Each event becomes an entry of the
log, or is left out; a report on standard error counts both, by what it was.
docs/CAPTURES.md has the rest.
"""

from __future__ import annotations

import argparse
import io
from typing import Iterator

from . import frame, streams
from .happenings import Happening
from .survey import LiveSurvey, Survey
from .tally import Tally
from .to_log import LogMaker, add_kinds
from .trace_reader import TraceReader, not_taken
from .trace_text import EventReader, card_of_first_reset, lines_of


def work(options: argparse.Namespace) -> Tally:
    tally = Tally()
    text = streams.standard_input(grows=options.live)
    maker = LogMaker(streams.standard_output(at_once=options.live), tally)
    if options.live:
        events = EventReader(lines_of(text), options.card, tally)
        reader = TraceReader(events, options.big_endian, tally, {})
        maker.write(reader.happenings(), LiveSurvey(dict(options.kinds)))
    else:
        write_in_two_passes(text.read(), options, maker, tally)
    if not tally.read:
        tally.damage = "no firewire event in this text"
    return tally


def write_in_two_passes(text: bytes, options: argparse.Namespace, maker: LogMaker, tally: Tally) -> None:
    def again() -> streams.Input:
        return streams.Input(io.BytesIO(text))

    card = card_of_first_reset(again()) if options.card is None else options.card
    refused = not_taken(EventReader(lines_of(again()), card, Tally()))

    def happenings(told: Tally) -> Iterator[Happening]:
        events = EventReader(lines_of(again()), card, told)
        return TraceReader(events, options.big_endian, told, refused).happenings()

    maker.write(happenings(tally), Survey(happenings(Tally()), dict(options.kinds)))


def parser() -> frame.Parser:
    words = frame.Parser("from_trace", __doc__, "a text without such an event")
    words.add_argument(
        "--live",
        action="store_true",
        help="one pass: each entry is written as its line comes. Devices are told by self-ID packets alone, nodes "
        "with a link have 31 plugs of each kind, there are no decks, and packets are kept that nobody took. "
        "Ctrl-C is the end of the text",
    )
    words.add_argument(
        "--card",
        type=frame.number_below(1000),
        metavar="N",
        help="the events of this card; else of the first bus reset's",
    )
    words.add_argument("--big-endian", action="store_true", help="the text comes from a big-endian host")
    add_kinds(words)
    return words


TOOL = frame.Tool("from_trace", "events", parser(), work)
