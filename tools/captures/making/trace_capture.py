"""Makes of a log the trace that a host of its bus would write."""

from __future__ import annotations

import random
from typing import Dict, Iterable, Optional, Tuple

from ..log_reader import Entry, read_log
from ..log_writer import EntryKind
from ..packets import (
    HEADER_QUADLETS,
    REGISTERS,
    REQUESTS,
    WITH_BLOCK,
    Tcode,
    Words,
    data_length,
    destination,
    label,
    rcode,
    register,
    source,
    tcode,
)
from ..times import CYCLE_MICROSECONDS, SECOND
from .habits import Habits, RealBus
from .nosy_capture import node_of_device

STYLES = {
    "pipe": "          dvgrab-4711    [002] .....  %5d.%06d: %s: %s\n",
    "report": "          dvgrab-4711  [002]  %5d.%06d: %s: %s\n",
    "perf": "dvgrab  4711 [002]  %5d.%06d: firewire:%s: %s\n",
}
BY_LINK = (0x21C, 0x220, 0x224, 0x228)  # BUS_MANAGER_ID, BANDWIDTH_AVAILABLE and CHANNELS_AVAILABLE
JITTER = 100  # microseconds
STARTED = 900  # the second in which the trace begins
FILLING = 0xDEAD  # what stands in a header beyond the packet's


def array(words: Iterable[int]) -> str:
    return "{" + ",".join(f"0x{word:x}" for word in words) + "}"


class Host:
    """What a host traces: its own requests and their responses, and requests to it but for those that its link
    answers."""

    def __init__(self, device: int, rng: random.Random, habits: Habits):
        self._device = device
        self._rng = rng
        self._habits = habits
        self._bus = RealBus(rng, habits)
        self._node_id: Optional[int] = None
        self._transaction = 0xFFFF888001230000
        self._generation = 0
        self._asked: Dict[Tuple[int, int, int], Tuple[int, int]] = {}
        self.text = ""

    def see(self, log: bytes) -> None:
        for entry in read_log([log]):
            if entry.kind == EntryKind.RESET:
                self._reset(entry)
            elif entry.kind == EntryKind.PACKET and self._node_id is not None:
                words = self._bus.packet(entry.quadlets())
                if tcode(words) != Tcode.CYCLE_START and self._node_id in (destination(words), source(words)):
                    self._packet(entry.cycle, words)

    def _line(self, cycle: int, event: str, fields: str) -> None:
        microseconds = cycle % SECOND * CYCLE_MICROSECONDS + self._rng.randrange(JITTER)
        self.text += STYLES[self._habits.style] % (STARTED + cycle // SECOND, microseconds, event, fields)

    def _reset(self, entry: Entry) -> None:
        self._bus.reset()
        self._asked.clear()
        node = node_of_device(entry, self._device)
        self._node_id = None if node is None else 0xFFC0 + node
        self._generation = (self._generation + 1) & 255
        if self._node_id is not None:
            start = f"card_index=0 generation={self._generation} node_id=0x{self._node_id & 255:04x} bm_abdicate=false"
            self._line(entry.cycle, "bus_reset_handle", f"{start} self_ids={array(entry.self_ids())}")

    def _packet(self, cycle: int, words: Words) -> None:
        to, of = destination(words), source(words)
        names = f"dst_id=0x{to:04x} tlabel={label(words)} tcode={tcode(words)} src_id=0x{of:04x}"
        if tcode(words) in REQUESTS:
            self._request(cycle, words, names)
        else:
            self._response(cycle, words, names)

    def _common(self) -> str:
        return f"card_index=0 generation={self._generation} scode=2 "

    def _quadlets(self, words: Words) -> str:
        """Header and data. Data stand as the host loads them, and bytes after the last whole quadlet do not."""
        code = Tcode(tcode(words))
        header, data = (words[: HEADER_QUADLETS[code]] + [FILLING])[:4], words[4:] if code in WITH_BLOCK else []
        if code in WITH_BLOCK and data_length(words) % 4:
            data = data[:-1]
        if code in (Tcode.WRITE_QUADLET, Tcode.READ_QUADLET_RESPONSE):
            header[3] = self._loaded(header[3])
            data = words[3:4]
        return f"header={array(header)} data={array(map(self._loaded, data))}"

    def _loaded(self, word: int) -> int:
        return word if self._habits.big_endian else int.from_bytes(word.to_bytes(4, "big"), "little")

    def _request(self, cycle: int, words: Words, names: str) -> None:
        offset = REGISTERS + register(words)
        self._transaction += 0x100
        self._asked[source(words), destination(words), label(words)] = self._transaction, register(words)
        start = f"transaction=0x{self._transaction:x} {self._common()}"
        said = f"{names} offset=0x{offset:012x} {self._quadlets(words)}"
        stamp = time_stamp(cycle)
        if source(words) == self._node_id:
            is_busy = self._habits.busy and self._rng.random() < 0.2
            for status in (18, 2) if is_busy else (2,):
                self._line(cycle, "async_request_outbound_initiate", start + said)
                self._line(cycle, "async_request_outbound_complete", f"{start}status={status} {stamp}")
        if destination(words) == self._node_id and register(words) not in BY_LINK:
            self._line(cycle, "async_request_inbound", f"{start}status=2 {stamp}{said}")

    def _response(self, cycle: int, words: Words, names: str) -> None:
        key = destination(words), source(words), label(words)
        transaction, at = self._asked.pop(key, (0, 0))
        start = f"transaction=0x{transaction:x} {self._common()}"
        said = f"{names} rcode={rcode(words)} {self._quadlets(words)}"
        stamp = time_stamp(cycle)
        if source(words) == self._node_id and at not in BY_LINK:
            self._line(cycle, "async_response_outbound_initiate", start + said)
            self._line(cycle, "async_response_outbound_complete", f"{start}status=1 {stamp}")
        if destination(words) == self._node_id:
            self._line(cycle, "async_response_inbound", f"{start}status=1 {stamp}{said}")


def time_stamp(cycle: int) -> str:
    return f"timestamp=0x{(cycle // SECOND % 8) << 13 | cycle % SECOND:04x} "


def as_traced(log: bytes, device: int, habits: Habits) -> bytes:
    """The text that the host with this device number would write."""
    host = Host(device, random.Random(habits.seed), habits)
    host.see(log)
    return host.text.encode()
