"""What the nodes of a bus show of themselves: which devices they are, how many plugs they have, and of what kind they
are."""

from __future__ import annotations

from collections import defaultdict
from enum import IntEnum
from typing import DefaultDict, Dict, Iterable, List, NamedTuple, Tuple

from .happenings import BusReset, Happening, Packet
from .identity import DeviceNumbers
from .log_writer import NodeRow
from .packets import (
    REQUESTS,
    RESPONSES,
    Tcode,
    Words,
    data_length,
    destination,
    label,
    physical_id,
    rcode,
    register,
    source,
    tcode,
)
from .self_ids import by_node, has_link, is_contender

MOST_PLUGS = 31
CONFIGURATION_ROM = 0x400
EUI_64_HIGH, EUI_64_LOW = 0x40C, 0x410
EUI_64_AT = 7  # the quadlet of a response with the ROM's beginning in which the EUI-64 begins
ROM_WITH_EUI_64 = 20  # bytes
OMPR, FIRST_OPCR = 0x900, 0x904  # output master plug, output plugs (IEC 61883-1)
IMPR, FIRST_IPCR = 0x980, 0x984
FCP_COMMAND = 0xB00


class NodeKind(IntEnum):
    """Kinds of nodes in a log."""

    RELAY = 0
    DECK = 1
    CAMCORDER = 2
    COMPUTER = 3


class Shown(NamedTuple):
    """What a device shows: its plugs, and that somebody sends it commands."""

    output_plugs: int = 0
    input_plugs: int = 0
    commanded: bool = False

    def joined(self, other: Shown) -> Shown:
        """What both together show."""
        return Shown(*map(max, zip(self, other)))


class Epoch:
    """A bus reset, and what its nodes show until the next."""

    def __init__(self, reset: BusReset):
        self.reset = reset
        self.euis: Dict[int, int] = {}
        self.shown: DefaultDict[int, Shown] = defaultdict(Shown)
        self._asked: Dict[Tuple[int, int, int], int] = {}  # (requester, responder, label): the register
        self._halves: Dict[Tuple[int, int], int] = {}  # (node, register): a half of its EUI-64

    def see(self, words: Words) -> None:
        if tcode(words) in REQUESTS:
            self._see_request(words)
        elif tcode(words) in RESPONSES:
            key = destination(words), source(words), label(words)
            at = self._asked.pop(key, None)
            if at is not None and rcode(words) == 0:
                self._see_answer(physical_id(source(words)), at, words)

    def _show(self, node: int, shows: Shown) -> None:
        self.shown[node] = self.shown[node].joined(shows)

    def _see_request(self, words: Words) -> None:
        at, node = register(words), physical_id(destination(words))
        self._asked[source(words), destination(words), label(words)] = at
        if at == FCP_COMMAND and tcode(words) in (Tcode.WRITE_QUADLET, Tcode.WRITE_BLOCK):
            self._show(node, Shown(commanded=True))

    def _see_answer(self, node: int, at: int, words: Words) -> None:
        """A complete answer of a register."""
        code = tcode(words)
        if code in (Tcode.READ_QUADLET_RESPONSE, Tcode.LOCK_RESPONSE):
            self._show(node, Shown(plugs_up_to(at, FIRST_OPCR), plugs_up_to(at, FIRST_IPCR)))
        if code == Tcode.READ_QUADLET_RESPONSE:
            self._see_quadlet(node, at, words[3])
        elif code == Tcode.READ_BLOCK_RESPONSE and at == CONFIGURATION_ROM and data_length(words) >= ROM_WITH_EUI_64:
            self.euis[node] = words[EUI_64_AT] << 32 | words[EUI_64_AT + 1]

    def _see_quadlet(self, node: int, at: int, value: int) -> None:
        if at == OMPR:
            self._show(node, Shown(output_plugs=value & MOST_PLUGS))
        elif at == IMPR:
            self._show(node, Shown(input_plugs=value & MOST_PLUGS))
        elif at in (EUI_64_HIGH, EUI_64_LOW):
            self._halves[node, at] = value
            if (node, EUI_64_HIGH) in self._halves and (node, EUI_64_LOW) in self._halves:
                self.euis[node] = self._halves[node, EUI_64_HIGH] << 32 | self._halves[node, EUI_64_LOW]


def plugs_up_to(at: int, first: int) -> int:
    """How many plugs a device has at least that answers at this register; 0 if that is no plug from `first` on."""
    number, rest = divmod(at - first, 4)
    return number + 1 if 0 <= number < MOST_PLUGS and rest == 0 else 0


def row(device: int, first_self_id: int, shown: Shown, kinds: Dict[int, NodeKind]) -> NodeRow:
    """What a log says of a node; `kinds` has what the user says of devices."""
    return NodeRow(device, shown.output_plugs, shown.input_plugs, kinds.get(device, kind(first_self_id, shown)))


def kind(first_self_id: int, shown: Shown) -> NodeKind:
    if not has_link(first_self_id):
        return NodeKind.RELAY
    if not shown.commanded:
        return NodeKind.COMPUTER
    return NodeKind.DECK if is_contender(first_self_id) else NodeKind.CAMCORDER


def first_self_ids(reset: BusReset) -> List[int]:
    return [packets[0] for packets in by_node(reset.self_ids).values()]


class Survey:
    """The first of two passes: what all of a capture shows of each device."""

    def __init__(self, happenings: Iterable[Happening], kinds: Dict[int, NodeKind]):
        epochs: List[Epoch] = []
        for happening in happenings:
            if isinstance(happening, BusReset):
                epochs.append(Epoch(happening))
            elif isinstance(happening, Packet) and epochs:
                epochs[-1].see(happening.words)
        numbers = DeviceNumbers()
        devices = [numbers.name(epoch.reset, epoch.euis) for epoch in epochs]
        shown: DefaultDict[int, Shown] = defaultdict(Shown)
        for epoch, named in zip(epochs, devices):
            for node, shows in epoch.shown.items():
                if node < len(named):
                    shown[named[node]] = shown[named[node]].joined(shows)
        self._rows = iter(
            [row(device, first, shown[device], kinds) for first, device in zip(first_self_ids(epoch.reset), named)]
            for epoch, named in zip(epochs, devices)
        )

    def rows(self, _reset: BusReset) -> List[NodeRow]:
        """What the log says of the nodes of the next bus reset."""
        return next(self._rows)


class LiveSurvey:
    """What is said in one pass, of a bus reset alone: a node with a link may have all plugs."""

    def __init__(self, kinds: Dict[int, NodeKind]):
        self._numbers = DeviceNumbers()
        self._kinds = kinds

    def rows(self, reset: BusReset) -> List[NodeRow]:
        devices = self._numbers.name(reset, {})
        return [self._row(device, first) for first, device in zip(first_self_ids(reset), devices)]

    def _row(self, device: int, first_self_id: int) -> NodeRow:
        plugs = MOST_PLUGS if has_link(first_self_id) else 0
        return row(device, first_self_id, Shown(plugs, plugs), self._kinds)
