"""What a real bus does that a simulated one does not, as far as vectors have it."""

from __future__ import annotations

import random
from typing import Dict, List, NamedTuple, Optional, Tuple

from ..packets import REQUESTS, RESPONSES, Tcode, Words, destination, label, rcode, register, source, tcode
from ..survey import IMPR

PLUGS = range(0x904, 0xA00, 4)
LABEL = 0xFC00
# Bits in which an output plug of a real device differs: off-line, another payload, overhead or rate.
OUTPUT_PLUG_CHANGES = (0, 0x80000000, 0x00000012, 0x000000FA, 0x00008000)
IS_ONLINE = 0x80000000
RESERVED_IN_PLUG = 0x00800180


class Habits(NamedTuple):
    """`seed` decides what is random; each other field is a habit, which is absent if it is left out."""

    seed: int
    busy: bool = False  # a third of the requests is busy once or twice before it is taken
    no_ack: bool = False  # some requests go to nobody first
    reserved: bool = False  # reserved bits of responses and plug words are set
    real_plugs: bool = False  # plug words as real devices have them
    twice: bool = False  # bus resets are told twice
    phy: bool = False  # PHY configuration packets and answers to pings follow bus resets
    cycle_starts: int = 0  # a cycle start in each cycle that this divides
    lose: int = 0  # each record of this number is lost, but for bus resets and self-ID packets
    lose_self_id: bool = False  # the first self-ID packet of each second bus reset is lost
    mute: Optional[int] = None  # the device whose self-ID packets are never captured
    start: int = 0  # so many records pass before the capture begins
    big_endian: bool = False  # of the host
    style: str = "pipe"  # of a trace


class RealBus:
    """The packets of a log with labels that rotate by node, and with plug words and reserved bits of real devices."""

    def __init__(self, rng: random.Random, habits: Habits):
        self._rng = rng
        self._habits = habits
        self._next_label: Dict[int, int] = {}
        self._plug_change: Dict[Tuple[int, int], int] = {}
        self.reset()

    def reset(self) -> None:
        self._labels: Dict[Tuple[int, int, int], int] = {}
        self._asked: Dict[Tuple[int, int, int], Tuple[int, int]] = {}

    def packet(self, words: Words) -> Words:
        words = list(words)
        if tcode(words) in REQUESTS:
            self._request(words)
        elif tcode(words) in RESPONSES:
            self._response(words)
        return words

    def _request(self, words: Words) -> None:
        asker, asked = source(words), destination(words)
        rotated = self._next_label.get(asker, self._rng.randrange(64))
        self._next_label[asker] = (rotated + 1) % 64
        self._labels[asker, asked, label(words)] = rotated
        self._asked[asker, asked, rotated] = asked, register(words)
        words[0] = words[0] & ~LABEL | rotated << 10
        if tcode(words) == Tcode.LOCK and register(words) in PLUGS:
            words[4:6] = [word ^ self._change(asked, register(words)) for word in words[4:6]]

    def _response(self, words: Words) -> None:
        asker, asked = destination(words), source(words)
        rotated = self._labels.pop((asker, asked, label(words)), label(words))
        node, at = self._asked.pop((asker, asked, rotated), (0, 0))
        words[0] = words[0] & ~LABEL | rotated << 10
        if at in PLUGS and rcode(words) == 0:
            if tcode(words) == Tcode.READ_QUADLET_RESPONSE:
                words[3] ^= self._change(node, at)
            elif tcode(words) == Tcode.LOCK_RESPONSE and len(words) == 5:
                words[4] ^= self._change(node, at)
        if self._habits.reserved:
            words[1] |= self._rng.randrange(0x1000)
            words[2] = self._rng.randrange(1 << 32)

    def _change(self, node: int, at: int) -> int:
        """The bits in which a device's plug word is not the simulated one. They stay: no connection changes them."""
        if not self._habits.real_plugs:
            return 0
        if (node, at) not in self._plug_change:
            bits = self._rng.choice(OUTPUT_PLUG_CHANGES)
            bits = bits if at < IMPR else bits & IS_ONLINE
            self._plug_change[node, at] = bits | (RESERVED_IN_PLUG if self._habits.reserved else 0)
        return self._plug_change[node, at]


def self_ids_without(self_ids: List[int], node: Optional[int]) -> List[int]:
    return [self_id for self_id in self_ids if self_id >> 24 & 63 != node]
