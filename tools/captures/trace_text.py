"""The kernel's firewire trace events, from text of trace_pipe, `trace-cmd report` or `perf script`."""

from __future__ import annotations

import re
from typing import Dict, Iterator, List, NamedTuple, Optional, Set

from .streams import Input
from .tally import LeftOut, Tally
from .times import CYCLE_MICROSECONDS, SECOND

REQUEST_SENT = "async_request_outbound_initiate"
REQUEST_DONE = "async_request_outbound_complete"
REQUEST_RECEIVED = "async_request_inbound"
RESPONSE_SENT = "async_response_outbound_initiate"
RESPONSE_DONE = "async_response_outbound_complete"
RESPONSE_RECEIVED = "async_response_inbound"
BUS_RESET = "bus_reset_handle"
ISOCHRONOUS = "isoc_"  # what the names of the events of isochronous contexts begin with
PACKETS = frozenset((REQUEST_SENT, REQUEST_RECEIVED, RESPONSE_SENT, RESPONSE_RECEIVED))
EVENTS = PACKETS | {
    REQUEST_DONE,
    RESPONSE_DONE,
    BUS_RESET,
    "bus_reset_initiate",
    "bus_reset_schedule",
    "bus_reset_postpone",
    "self_id_sequence",
    "async_phy_outbound_initiate",
    "async_phy_outbound_complete",
    "async_phy_inbound",
}

# The kernel prints an event into one page, so no line of one is longer. Of a line that is, the rest is passed by.
LONGEST_LINE = 65536
LINE = re.compile(r"(?:^|\s)(\d{1,12})\.(\d{6})\d*:\s+(?:firewire:)?([a-z_]+):\s(.*)$", re.ASCII)
FIELD = re.compile(r"(?<!\w)(\w+)=(\{[^{}]*\}|\S+)", re.ASCII)
HEXADECIMAL = re.compile(r"0x([0-9a-fA-F]+)", re.ASCII)
QUADLET = re.compile(r"0x([0-9a-fA-F]{1,8})", re.ASCII)
COUNT = r"(?<!\d)(\d{1,12})"
LOST = re.compile(rf"LOST {COUNT} EVENTS|{COUNT} EVENTS? DROPPED|{COUNT} EVENTS LOST", re.ASCII | re.IGNORECASE)
LOST_UNCOUNTED = re.compile(r"\[(?:LOST EVENTS|EVENTS DROPPED)\]")
LOST_EVENTS = "events that the kernel could not keep"
UNREADABLE = "event that cannot be read"


class Event(NamedTuple):
    """An event of the card: its place among those of the text, its cycle since the first, its name and its fields."""

    index: int
    cycle: int
    name: str
    fields: Dict[str, str]

    def field(self, name: str) -> str:
        if name not in self.fields:
            raise LeftOut(UNREADABLE)
        return self.fields[name]

    def number(self, name: str) -> int:
        """A field in decimal."""
        if not re.fullmatch("[0-9]{1,9}", self.field(name)):
            raise LeftOut(UNREADABLE)
        return int(self.field(name))

    def quadlet(self, name: str) -> int:
        """A field in hexadecimal."""
        found = QUADLET.fullmatch(self.field(name))
        if not found:
            raise LeftOut(UNREADABLE)
        return int(found[1], 16)

    def array(self, name: str) -> List[int]:
        """A field of quadlets as {0x1,0x2}. What is no number in it is passed by."""
        words = HEXADECIMAL.findall(self.field(name))
        if not re.fullmatch(r"\{.*\}", self.field(name)) or any(len(word) > 8 for word in words):
            raise LeftOut(UNREADABLE)
        return [int(word, 16) for word in words]


def fields_of(text: str) -> Dict[str, str]:
    """The fields of an event. None if one stands there twice: then the line is of two events, each in part."""
    pairs = FIELD.findall(text)
    fields = dict(pairs)
    return fields if len(fields) == len(pairs) else {}


def lines_of(text: Input) -> Iterator[str]:
    """The lines of a text, each as soon as it is there."""
    while True:
        line = text.read_line(LONGEST_LINE)
        if not line:
            return
        yield line.decode("ascii", "replace")
        while line and len(line) == LONGEST_LINE and not line.endswith(b"\n"):
            line = text.read_line(LONGEST_LINE)


class EventReader:
    """Gives the events of one card that a text has, and tells the tally of those of others, and of what was lost.
    Without a card it is that of the first bus reset; up to there the events of all cards are given."""

    def __init__(self, lines: Iterator[str], card: Optional[int], tally: Tally):
        self._lines = lines
        self._card = card
        self._tally = tally
        self._first_cycle: Optional[int] = None
        self._early_cards: Set[int] = set()
        self._lost_uncounted = False

    def __iter__(self) -> Iterator[Event]:
        for line in self._lines:
            found = LINE.search(line)
            if not found or not (found[3] in EVENTS or found[3].startswith(ISOCHRONOUS)):
                self._note_lost(line)
                continue
            cycle = int(found[1]) * SECOND + int(found[2]) // CYCLE_MICROSECONDS
            event = Event(self._tally.read, cycle, found[3], fields_of(found[4]))
            self._tally.read += 1
            try:
                self._check_card(event)
            except LeftOut as why:
                self._tally.leave(str(why))
                continue
            if self._first_cycle is None:
                self._first_cycle = cycle
            yield event._replace(cycle=cycle - self._first_cycle)

    def _check_card(self, event: Event) -> None:
        number = event.number("card_index")
        if self._card is None and event.name == BUS_RESET:
            self._card = number
            if self._early_cards - {number}:
                self._tally.unsure.append("before the first bus reset events of several cards are told as one's")
        if self._card is None:
            self._early_cards.add(number)
        elif number != self._card:
            raise LeftOut("event of another card")

    def _note_lost(self, line: str) -> None:
        for counts in LOST.findall(line):
            self._tally.change(LOST_EVENTS, int("".join(counts)))
        if LOST_UNCOUNTED.search(line) and not self._lost_uncounted:
            self._lost_uncounted = True
            self._tally.unsure.append("the kernel could not keep all events, and does not say how many it lost")


def card_of_first_reset(text: Input) -> Optional[int]:
    """The card whose bus reset is the first that can be read; None if there is none."""
    for event in EventReader(lines_of(text), None, Tally()):
        if event.name == BUS_RESET:
            return event.number("card_index")
    return None
