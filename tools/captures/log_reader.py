"""Reads logs of `fire`, of both versions (docs/LOG.md), piece by piece and as far as a tool rests on it: `fire decode`
tells each fault."""

from __future__ import annotations

import struct
from typing import Iterable, Iterator, List, NamedTuple, Tuple

from .log_writer import MAGIC, EntryKind
from .packets import COMMON_CIP_TAG, SD_DVCR_LENGTHS, Tcode, packet_bytes
from .self_ids import HIGHEST_NODE
from .tally import Tally

HEADER = 16  # bytes
# The head of an entry, by the version: kind, a byte 0 and the length, in version 2 the epoch, and the cycle.
HEADS = {1: struct.Struct(">BBHQ"), 2: struct.Struct(">BBHIQ")}
SIZE_WITH_EPOCH = HEADS[2].size
LONGEST_ENTRY = 2292  # bytes
ROWS_AT = 8  # the byte of a bus reset's body at which the rows of its nodes begin
KINDS = {int(kind): kind for kind in EntryKind}
RESET, PACKET, ISOCHRONOUS, END = EntryKind.RESET, EntryKind.PACKET, EntryKind.ISOCHRONOUS, EntryKind.END
BODY_LENGTHS = {EntryKind.EVENT: (4, 8), EntryKind.OUTCOME: (8,), EntryKind.SHOWN: (8,), EntryKind.END: (0,)}


class LogFault(Exception):
    """Bytes are no log; the text is the place and the fault by the name that it has in docs/LOG.md. `entry` has the
    bytes from the beginning of the entry that is damaged, of one entry at most."""

    def __init__(self, place: int, why: str, entry: bytes):
        super().__init__(f"byte {place}: {why}")
        self.entry = entry


class Entry(NamedTuple):
    """An entry, with all of its bytes and those of its body."""

    kind: EntryKind
    epoch: int
    cycle: int
    whole: bytes
    body: bytes

    def quadlets(self) -> List[int]:
        return list(quadlets_of(self.body))

    def node_count(self) -> int:
        """Of a bus reset."""
        return self.body[ROWS_AT - 1]

    def self_ids(self) -> List[int]:
        """Of a bus reset, the first quadlet of each self-ID packet."""
        return self.quadlets()[ROWS_AT // 4 + self.node_count() :: 2]


class Rest:
    """What is left of a log that comes in pieces: the bytes of `data` from `at` on, and the pieces that come."""

    def __init__(self, pieces: Iterable[bytes]):
        self._pieces = iter(pieces)
        self._passed = 0  # bytes of the log before `data`
        self.data = b""
        self.at = 0

    def has(self, size: int) -> bool:
        """Whether so many bytes are left; it takes the pieces that this needs, and no more."""
        while len(self.data) < self.at + size:
            piece = next(self._pieces, b"")
            if not piece:
                return False
            self.data = self.data[self.at :] + piece
            self._passed, self.at = self._passed + self.at, 0
        return True

    def fault(self, why: str, distance: int = 0) -> LogFault:
        """The fault so many bytes after the beginning of what is left."""
        entry = self.data[self.at : self.at + LONGEST_ENTRY]
        return LogFault(self._passed + self.at + distance, why, entry)

    def cut(self) -> LogFault:
        return self.fault("Cut", len(self.data) - self.at)


def read_log(pieces: Iterable[bytes]) -> Iterator[Entry]:
    """The entries of a log, each once its bytes are there. A fault comes after those before it."""
    rest = Rest(pieces)
    head = HEADS[version_of(rest)]
    epoch, cycle, ended = 0, 0, False
    while not ended and rest.has(head.size):
        entry = next_entry(rest, head, epoch)
        kind, epoch, time, whole, _ = entry
        if time < cycle:
            raise rest.fault("TimeBack", head.size - 8)
        rest.at += len(whole)
        cycle, ended = time, kind is END
        yield entry
    if rest.has(1):
        raise rest.fault("AfterEnd") if ended else fault_in_head(rest)
    if not ended:
        raise rest.fault("NoEnd")


def version_of(rest: Rest) -> int:
    """The version of the log, whose header is passed over."""
    is_whole = rest.has(HEADER)
    if not rest.data.startswith(MAGIC[: len(rest.data)]):
        raise rest.fault("BadHeader")
    if not is_whole:
        raise rest.cut()
    version, *zeros = struct.unpack_from(">3I", rest.data, len(MAGIC))
    if version not in HEADS:
        raise rest.fault("BadHeader", 4)
    if any(zeros):
        raise rest.fault("BadHeader", 8 if zeros[0] else 12)
    rest.at = HEADER
    return version


def next_entry(rest: Rest, head: struct.Struct, epoch: int) -> Entry:
    """The entry that is next, after a bus reset of this epoch; its head is there, and `rest` keeps it."""
    fields = head.unpack_from(rest.data, rest.at)
    kind, size = KINDS.get(fields[0]), head.size
    if kind is None or fields[1]:
        raise rest.fault("BadKind")
    if not rest.has(size + 4 * fields[2]):
        raise rest.cut()
    at = rest.at
    whole = rest.data[at : at + size + 4 * fields[2]]
    body = whole[size:]
    if not is_shaped(kind, body):
        raise rest.fault("BadBody", size)
    if kind is RESET:
        epoch = int.from_bytes(body[:4], "big")
    if size == SIZE_WITH_EPOCH and fields[3] != epoch:
        raise rest.fault("BadEpoch", 4)
    return Entry(kind, epoch, fields[-1], whole, body)


def fault_in_head(rest: Rest) -> LogFault:
    """The fault of the bytes that are left, which are fewer than a head has."""
    code, zero = rest.data[rest.at], rest.data[rest.at + 1 : rest.at + 2]
    return rest.cut() if code in KINDS and zero in (b"", b"\0") else rest.fault("BadKind")


def quadlets_of(body: bytes) -> Tuple[int, ...]:
    return struct.unpack(f">{len(body) // 4}I", body)


def is_shaped(kind: EntryKind, body: bytes) -> bool:
    """Whether the body is as long as what it begins with says, and of a packet that a log holds."""
    if kind is PACKET:
        return bool(body) and packet_bytes(body) == len(body)
    if kind is RESET:
        return are_nodes(body)
    if kind is ISOCHRONOUS:
        length = int.from_bytes(body[:2], "big")
        is_stream = length in SD_DVCR_LENGTHS and len(body) == 4 + length
        return is_stream and body[2] >> 6 == COMMON_CIP_TAG and body[3] >> 4 == Tcode.STREAM
    return len(body) in BODY_LENGTHS[kind]


def are_nodes(body: bytes) -> bool:
    """Whether the rows of the nodes of a bus reset are there, and then self-ID packets, each with its inverse."""
    if len(body) < ROWS_AT or not 1 <= body[ROWS_AT - 1] <= HIGHEST_NODE + 1:
        return False
    nodes = body[ROWS_AT - 1]
    rest = quadlets_of(body[ROWS_AT + 4 * nodes :])
    enough = len(rest) % 2 == 0 and len(rest) >= 2 * nodes
    return enough and all(first ^ second == 0xFFFFFFFF for first, second in zip(rest[::2], rest[1::2]))


def counted_entries(pieces: Iterable[bytes], tally: Tally) -> Iterator[Entry]:
    """The entries of a log, counted; a fault ends them and is the damage."""
    try:
        for entry in read_log(pieces):
            tally.read += 1
            yield entry
    except LogFault as fault:
        tally.damage = str(fault)
