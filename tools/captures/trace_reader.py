"""Reads trace events: what each of them is."""

from __future__ import annotations

from typing import Dict, Iterable, Iterator, List, Tuple

from .acks import TAKEN
from .happenings import BROKEN_RESET, UNKNOWN_NODES, BusReset, Happening, Packet
from .packets import (
    HEADER_QUADLETS,
    WITH_BLOCK,
    Tcode,
    Words,
    data_length,
    destination,
    physical_id,
    quadlets_of,
    source,
    tcode,
)
from .self_ids import are_whole, by_node, count, in_order
from .tally import LeftOut, Tally
from .trace_text import (
    BUS_RESET,
    EVENTS,
    PACKETS,
    REQUEST_DONE,
    REQUEST_RECEIVED,
    REQUEST_SENT,
    RESPONSE_DONE,
    RESPONSE_SENT,
    UNREADABLE,
    Event,
    EventReader,
)

HEADER_IN_EVENT = 4  # quadlets, whatever the packet has
QUADLET_IN_HEADER = (Tcode.WRITE_QUADLET, Tcode.READ_QUADLET_RESPONSE)
SENT_BY_DONE = {REQUEST_DONE: REQUEST_SENT, RESPONSE_DONE: RESPONSE_SENT}
# What a host sends to itself is told as sent and as received. Requests that its link answers are told as sent alone,
# and the responses to those as received alone: these two are kept.
TOLD_TWICE = (REQUEST_RECEIVED, RESPONSE_SENT)
NO_LAST_BYTES = "last bytes of a block that the event does not have: 0 is written"


def not_taken(events: Iterable[Event]) -> Dict[int, int]:
    """The status of each packet that was sent and not taken, by the event's index. It is told by an event that comes
    later; numbers of transactions are used again."""
    refused: Dict[int, int] = {}
    waiting: Dict[Tuple[str, str], List[int]] = {}
    for event in events:
        key = SENT_BY_DONE.get(event.name, event.name), event.fields.get("transaction", "")
        if event.name in SENT_BY_DONE.values():
            waiting.setdefault(key, []).append(event.index)
        elif event.name in SENT_BY_DONE and waiting.get(key):
            sent = waiting[key].pop()
            status = event.fields.get("status", "")
            if status.isdecimal() and len(status) < 10 and int(status) not in TAKEN:
                refused[sent] = int(status)
    return refused


class TraceReader:
    """Gives what the events are, and tells the tally of those that it does not give. `refused` has what was not
    taken, if that is known ahead."""

    def __init__(self, events: EventReader, big_endian: bool, tally: Tally, refused: Dict[int, int]):
        self._events = events
        self._big_endian = big_endian
        self._tally = tally
        self._refused = refused
        self._are_nodes_unknown = False

    def happenings(self) -> Iterator[Happening]:
        for event in self._events:
            try:
                yield self._happening(event)
            except LeftOut as why:
                self._tally.leave(str(why))

    def _happening(self, event: Event) -> Happening:
        if event.name == BUS_RESET:
            return self._bus_reset(event)
        if event.name not in PACKETS:
            raise LeftOut(f"event {event.name if event.name in EVENTS else 'of isochronous contexts'}")
        words, lacks_bytes = self._packet(event)
        if event.name in TOLD_TWICE and destination(words) == source(words):
            raise LeftOut("the host's own packet to itself, told a second time")
        if event.index in self._refused:
            raise LeftOut(f"not taken (status {self._refused[event.index]})")
        if self._are_nodes_unknown:
            raise LeftOut(UNKNOWN_NODES)
        if lacks_bytes:
            self._tally.change(NO_LAST_BYTES)
        return Packet(event.cycle, words)

    def _bus_reset(self, event: Event) -> BusReset:
        local, self_ids = physical_id(event.quadlet("node_id")), event.array("self_ids")
        nodes = by_node(self_ids)
        self._are_nodes_unknown = not are_whole(nodes) or count(nodes) != len(self_ids)
        if self._are_nodes_unknown:
            raise LeftOut(BROKEN_RESET)
        return BusReset(event.cycle, in_order(nodes), local, timed=True)

    def _packet(self, event: Event) -> Tuple[Words, bool]:
        """The packet without CRCs, and whether the event lacks the last bytes of its block. Header quadlets stand in
        the text by value, but for data among them; these and blocks stand as the host loads bytes of the bus."""
        header, data = event.array("header"), event.array("data")
        if len(header) != HEADER_IN_EVENT:
            raise LeftOut(UNREADABLE)
        if tcode(header) not in HEADER_QUADLETS:
            raise LeftOut(f"packet of tcode {tcode(header):x}")
        code = Tcode(tcode(header))
        if code in QUADLET_IN_HEADER:
            header[3] = self._as_on_the_bus(header[3])
        words = header[: HEADER_QUADLETS[code]]
        if code not in WITH_BLOCK:
            return words, False
        whole, all_of_it = data_length(words) // 4, quadlets_of(data_length(words))
        if not whole <= len(data) <= all_of_it:
            raise LeftOut("event whose data are not as long as its packet says")
        block = [self._as_on_the_bus(quadlet) for quadlet in data]
        return words + block + [0] * (all_of_it - len(data)), len(data) < all_of_it

    def _as_on_the_bus(self, quadlet: int) -> int:
        return quadlet if self._big_endian else int.from_bytes(quadlet.to_bytes(4, "little"), "big")
