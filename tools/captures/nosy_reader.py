"""Reads a capture of nosy-dump: what each of its records is."""

from __future__ import annotations

from typing import Iterator, List, Optional

from .acks import check_taken
from .happenings import UNKNOWN_NODES, Happening, IsochronousPacket, Packet
from .nosy_clock import Clock
from .nosy_records import is_bus_reset, is_phy_packet, link_words, packet_without_crcs, records, stream_without_crcs
from .nosy_resets import BusResets
from .packets import HEADER_QUADLETS, Tcode, tcode
from .self_ids import is_self_id
from .streams import Input
from .tally import LeftOut, Tally

NO_CYCLE_STARTS = (
    "no cycle start was captured: a silence of a second or more does not show, and no reclaim second is claimed"
)


class NosyReader:
    """Gives what the records of a capture are, and tells the tally of those that it does not give."""

    def __init__(self, capture: Input, order: Optional[str], tally: Tally):
        self._records = records(capture, order, tally)
        self._tally = tally
        self._clock = Clock(tally)
        self._resets = BusResets(tally)

    def happenings(self) -> Iterator[Happening]:
        for record in self._records:
            cycle = self._clock.stamp(record[0]) if record else self._clock.now()
            if is_bus_reset(record):
                yield from self._bus_reset(cycle)
            elif is_phy_packet(record):
                yield from self._phy_packet(record[1])
            else:
                yield from self._link_packet(record)
        yield from self._resets.close(cut_off=True)
        if self._tally.read and not self._clock.has_cycle_starts:
            self._tally.unsure.append(NO_CYCLE_STARTS)

    def _bus_reset(self, cycle: int) -> Iterator[Happening]:
        if self._resets.is_told_again():
            self._tally.leave("bus reset told again")
            return
        yield from self._resets.close(cut_off=True)
        self._clock.bus_reset()
        self._resets.open(cycle, timed=self._clock.has_cycle_starts)

    def _phy_packet(self, quadlet: int) -> Iterator[Happening]:
        if is_self_id(quadlet) and self._resets.take(quadlet):
            return
        yield from self._resets.close(cut_off=False)
        alone = "self-ID packet without a bus reset"
        self._tally.leave(alone if is_self_id(quadlet) else "PHY packet that is no self-ID packet")

    def _link_packet(self, record: List[int]) -> Iterator[Happening]:
        yield from self._resets.close(cut_off=False)
        try:
            packet = self._packet(record)
            if self._resets.are_nodes_unknown:
                raise LeftOut(UNKNOWN_NODES)
        except LeftOut as why:
            self._tally.leave(str(why))
        else:
            yield packet

    def _packet(self, record: List[int]) -> Happening:
        words, ack = link_words(record), record[-1] & 15
        code = tcode(words)
        if code == Tcode.STREAM:
            return IsochronousPacket(self._clock.now(), stream_without_crcs(words))
        if code not in HEADER_QUADLETS:
            raise LeftOut(f"packet of tcode {code:x}")
        packet = packet_without_crcs(words, Tcode(code))
        if code == Tcode.CYCLE_START:
            self._clock.cycle_start(packet[3])
        else:
            check_taken(packet, ack)
        return Packet(self._clock.now(), packet)
