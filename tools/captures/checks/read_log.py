"""A reader of logs of its own, by docs/LOG.md and the standards: nothing in it comes from the tools. It refuses what
`fire decode` refuses."""

from __future__ import annotations

from typing import List, NamedTuple, Optional

RESET, ASYNCHRONOUS, ISOCHRONOUS, EVENT, OUTCOME, SHOWN, END = range(1, 8)
LENGTHS = {  # of bodies, in quadlets
    RESET: range(5, 570),
    ASYNCHRONOUS: range(3, 133),
    ISOCHRONOUS: (3, 123),
    EVENT: (1, 2),
    OUTCOME: (2,),
    SHOWN: (2,),
    END: (0,),
}
NOBODY = 255
EVENTS_WITHOUT_DEVICE = (1, 6, 8)
INSERTED, LAST_EVENT, LAST_OUTCOME = 4, 11, 12
SYSTEMS = (525, 625)
OUTCOMES_WITHOUT_VALUE = (2, 9)
RESPONSES = (2, 6, 7, 11)
WITHOUT_FOURTH = (2, 4)
TCODES = (0, 1, 2, 4, 5, 6, 7, 8, 9, 11)


class NotALog(Exception):
    """Why bytes are no log."""


class Read(NamedTuple):
    kind: int
    epoch: int
    cycle: int
    body: bytes

    def word(self, number: int) -> int:
        return int.from_bytes(self.body[4 * number : 4 * number + 4], "big")

    def words(self) -> List[int]:
        return [self.word(number) for number in range(len(self.body) // 4)]

    def self_ids(self) -> List[int]:
        return self.words()[2 + self.body[7] :: 2]


def due(holds: object, why: str) -> None:
    if not holds:
        raise NotALog(why)


def read(log: bytes) -> List[Read]:
    """All entries of a whole log."""
    due(log[:4] == b"1394" and log[4:7] == bytes(3) and log[8:16] == bytes(8), "header")
    due(log[7] in (1, 2), "version")
    rest, entries = log[16:], []
    latest: Optional[Read] = None
    while rest:
        due(latest is None or latest.kind != END, "bytes follow the end")
        latest, size = entry(rest, log[7], latest)
        entries.append(latest)
        rest = rest[size:]
    due(latest is not None and latest.kind == END, "no end")
    return entries


def entry(data: bytes, version: int, latest: Optional[Read]):
    size = 12 if version == 1 else 16
    due(len(data) >= size, "a head is cut")
    kind, zero, length = data[0], data[1], 4 * int.from_bytes(data[2:4], "big")
    due(kind in LENGTHS and zero == 0, "kind")
    due(length // 4 in LENGTHS[kind], "length")
    due(len(data) >= size + length, "a body is cut")
    body = data[size : size + length]
    epoch = int.from_bytes(body[:4], "big") if kind == RESET else latest.epoch if latest else 0
    due(version == 1 or int.from_bytes(data[4:8], "big") == epoch, "epoch")
    made = Read(kind, epoch, int.from_bytes(data[size - 8 : size], "big"), body)
    due(latest is None or made.cycle >= latest.cycle, "time goes back")
    JUDGES.get(kind, lambda _: None)(made)
    return made, size + length


def judge_reset(it: Read) -> None:
    root, manager, initiator, count = it.body[4:8]
    due(1 <= count <= 63 and len(it.body) >= 8 + 4 * count, "number of nodes")
    due(root < count and initiator < count and (manager < count or manager == NOBODY), "root, manager or initiator")
    rows = [it.body[8 + 4 * node : 12 + 4 * node] for node in range(count)]
    due(len({row[0] for row in rows}) == count, "a device is there twice")
    due(all(row[0] < 63 and row[1] <= 31 and row[2] <= 31 and row[3] <= 3 for row in rows), "a node's row")
    quadlets = it.words()[2 + count :]
    due(len(quadlets) % 2 == 0 and len(quadlets) <= 504, "number of self-ID packets")
    due(all(a + b == 0xFFFFFFFF for a, b in zip(quadlets[::2], quadlets[1::2])), "an inverse")
    judge_self_ids(quadlets[::2], count)


def judge_self_ids(packets: List[int], count: int) -> None:
    """Each node from 0 on has its first packet, and further ones, numbered from 0, as long as the last bit is set."""
    node, further = 0, None
    for packet in packets:
        due(packet >> 30 == 2 and packet >> 24 & 63 == node, "a self-ID packet's node")
        if further is None:
            due(not packet >> 23 & 1, "an extended packet comes first")
        else:
            due(packet >> 23 & 1 and packet >> 20 & 7 == further <= 2 and not packet & 0xC0002, "an extended packet")
        if packet & 1:
            further = 0 if further is None else further + 1
        else:
            node, further = node + 1, None
    due(node == count and further is None, "self-ID packets are missing")


def judge_asynchronous(it: Read) -> None:
    code = it.word(0) >> 4 & 15
    due(code in TCODES, "tcode")
    if code in RESPONSES:
        due(it.word(1) & 0xFFF == 0 and it.word(2) == 0, "reserved bits of a response")
    if code in WITHOUT_FOURTH:
        due(len(it.body) == 12, "length of a packet")
        return
    due(len(it.body) >= 16, "length of a packet")
    size, function = it.word(3) >> 16, it.word(3) & 0xFFFF
    if code in (1, 5, 7):
        due(function == 0 and size <= 512, "a block")
    elif code == 9:
        due(function in (1, 2, 5, 6) and size in (8, 16) or function in (3, 4) and size in (4, 8)
            or function == 7 and size in (4, 8, 16), "a lock")
    elif code == 11:
        due(1 <= function <= 7 and size in (0, 4, 8), "a lock response")
    data = it.body[16:] if code in (1, 7, 9, 11) else b""
    due(len(it.body) == 16 + len(data), "bytes follow a packet")
    if code in (1, 7, 9, 11):
        due(size <= len(data) < size + 4 and not any(data[size:]), "data and padding")


def judge_isochronous(it: Read) -> None:
    due(it.word(0) & 0xC0F0 == 0x40A0, "tag and tcode")
    due(it.word(1) & 0xC0000300 == 0 and it.word(2) >> 30 == 2, "CIP header")
    due(it.word(0) >> 16 == len(it.body) - 4, "data_length")


def judge_event(it: Read) -> None:
    code, device = it.body[0], it.body[1]
    due(1 <= code <= LAST_EVENT and it.body[2:4] == b"\0\0", "an event")
    due(device == NOBODY or code not in EVENTS_WITHOUT_DEVICE, "an event's device")
    due(len(it.body) == (8 if code == INSERTED else 4), "an event's length")
    due(code != INSERTED or it.word(1) & 0xFFFF in SYSTEMS, "a tape's system")


def judge_outcome(it: Read) -> None:
    due(1 <= it.body[0] <= LAST_OUTCOME and it.body[3] == 0, "an outcome")
    due(it.word(1) == 0 or it.body[0] not in OUTCOMES_WITHOUT_VALUE, "an outcome's value")


def judge_shown(it: Read) -> None:
    due(it.body[1] == 0 and it.word(0) & 0xF000 == 0, "a shown word")


JUDGES = {
    RESET: judge_reset,
    ASYNCHRONOUS: judge_asynchronous,
    ISOCHRONOUS: judge_isochronous,
    EVENT: judge_event,
    OUTCOME: judge_outcome,
    SHOWN: judge_shown,
}
