"""Makes of a log the capture that nosy-dump would write of a real bus."""

from __future__ import annotations

import random
import struct
from typing import Iterator, List, Optional, Tuple

from ..log_reader import Entry, read_log
from ..log_writer import EntryKind
from ..packets import HEADER_QUADLETS, REQUESTS, RESPONSES, WITH_BLOCK, Tcode, Words, tcode
from ..self_ids import EXTENDED
from ..times import CYCLE_MICROSECONDS, MICROSECONDS, SECOND
from .habits import Habits, RealBus, self_ids_without

JITTER = 60  # microseconds
Record = List[int]


class Sniffer:
    """The records of a log, each with whether it may be lost."""

    def __init__(self, rng: random.Random, habits: Habits):
        self._rng = rng
        self._habits = habits
        self._bus = RealBus(rng, habits)
        self._origin = rng.randrange(MICROSECONDS)
        self._clock = 0
        self._cycle = 0
        self._resets = 0

    def records(self, log: bytes) -> Iterator[Tuple[Record, bool]]:
        for entry in read_log([log]):
            for record in self._cycle_starts(entry.cycle):
                yield record, True
            self._cycle = entry.cycle
            if entry.kind == EntryKind.RESET:
                for record in self._reset(entry):
                    yield record, False
            elif entry.kind == EntryKind.PACKET:
                for record in self._packet(entry.cycle, self._bus.packet(entry.quadlets())):
                    yield record, True
            elif entry.kind == EntryKind.ISOCHRONOUS:
                yield self._stream(entry), True

    def _stamp(self, cycle: int) -> int:
        self._clock = max(self._clock + 1, cycle * CYCLE_MICROSECONDS + self._rng.randrange(JITTER))
        return (self._origin + self._clock) % MICROSECONDS

    def _crc(self) -> int:
        """Nobody looks at it."""
        return self._rng.randrange(1 << 32)

    def _cycle_starts(self, cycle: int) -> Iterator[Record]:
        every = self._habits.cycle_starts
        for at in range((self._cycle // every + 1) * every, cycle + 1, every) if every else ():
            time = at // SECOND % 128 << 25 | at % SECOND << 12 | self._rng.randrange(64)
            yield [self._stamp(at), 0xFFFF0080, 0xFFC0FFFF, 0xF0000200, time, self._crc(), 0]

    def _reset(self, entry: Entry) -> Iterator[Record]:
        self._bus.reset()
        self._resets += 1
        for _ in range(2 if self._habits.twice else 1):
            yield [self._stamp(entry.cycle)]
        self_ids = self_ids_without(entry.self_ids(), node_of_device(entry, self._habits.mute))
        is_first_lost = self._habits.lose_self_id and self._resets % 2 == 0
        for self_id in self_ids[1 if is_first_lost else 0 :]:
            yield self._phy_packet(entry.cycle, self_id)
        if self._habits.phy:
            yield self._phy_packet(entry.cycle, self._rng.randrange(64) << 24 | EXTENDED)
            yield self._phy_packet(entry.cycle, self._rng.choice(self_ids))

    def _phy_packet(self, cycle: int, quadlet: int) -> Record:
        return [self._stamp(cycle), quadlet, quadlet ^ 0xFFFFFFFF, 0]

    def _packet(self, cycle: int, words: Words) -> Iterator[Record]:
        code = tcode(words)
        header = HEADER_QUADLETS[Tcode(code)]
        packet = words[:header] + [self._crc()]
        if code in WITH_BLOCK and len(words) > header:
            packet += words[header:] + [self._crc()]
        if code in REQUESTS and self._habits.busy and self._rng.random() < 0.33:
            for _ in range(self._rng.randrange(1, 3)):
                yield [self._stamp(cycle)] + packet + [self._rng.choice((4, 5, 6))]
        if code in REQUESTS and self._habits.no_ack and self._rng.random() < 0.1:
            yield [self._stamp(cycle)] + packet + [0]
        ack = 0 if code == Tcode.CYCLE_START else 1 if code in RESPONSES else 2
        yield [self._stamp(cycle)] + packet + [ack]

    def _stream(self, entry: Entry) -> Record:
        words = entry.quadlets()
        return [self._stamp(entry.cycle), words[0], self._crc()] + words[1:] + [self._crc(), 0]


def node_of_device(entry: Entry, device: Optional[int]) -> Optional[int]:
    """The node of a bus reset that is this device."""
    devices = [entry.body[8 + 4 * node] for node in range(entry.node_count())]
    return devices.index(device) if device in devices else None


def as_captured(log: bytes, habits: Habits) -> bytes:
    """The capture that nosy-dump would write of the bus of this log."""
    capture = b""
    order = ">" if habits.big_endian else "<"
    for number, (record, may_be_lost) in enumerate(Sniffer(random.Random(habits.seed), habits).records(log)):
        is_lost = habits.lose and may_be_lost and number % habits.lose == 0
        if number >= habits.start and not is_lost:
            capture += struct.pack(f"{order}{1 + len(record)}I", 4 * len(record), *record)
    return capture
