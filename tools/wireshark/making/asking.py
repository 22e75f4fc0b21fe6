"""Asks the program what entries are called: each question is an entry of a log that is made here."""

from __future__ import annotations

import json
import struct
import subprocess
from typing import Iterable, List, Sequence, Tuple

RESET, PACKET, STREAM, EVENT, OUTCOME, SHOWN, END = range(1, 8)
MAGIC = b"1394" + struct.pack(">3I", 1, 0, 0)  # of version 1
NODES = 0xFFC00000, 0xFFC10000  # the first node asks the second one
REGISTERS = 0xFFFFF0000000
UNIT = 0xFF  # the address of all of a unit in an AV/C frame
CONTROL, FCP_COMMAND = 0, 0xB00
Entry = Tuple[int, bytes]


def quadlets(*words: int) -> bytes:
    return struct.pack(f">{len(words)}I", *words)


def packet(tcode: int, second: int, third: int, *rest: int) -> Entry:
    """A packet of the first node to the second, of label 0, tried once."""
    return PACKET, quadlets(NODES[1] | tcode << 4, NODES[0] | second, third, *rest)


def request(tcode: int, offset: int, *rest: int) -> Entry:
    """A request at an offset from where the registers begin."""
    place = REGISTERS + offset
    return packet(tcode, place >> 32, place & 0xFFFFFFFF, *rest)


def write(offset: int, word: int) -> Entry:
    return request(0, offset, word)


def swap(offset: int, old: int, new: int) -> Entry:
    return request(9, offset, 8 << 16 | 2, old, new)


def frame(*data: int) -> Entry:
    """An AV/C frame that is written as a block."""
    padded = bytes(data) + bytes(-len(data) % 4)
    kind, head = request(1, FCP_COMMAND, len(data) << 16)
    return kind, head + padded


def log_of(entries: Iterable[Entry]) -> bytes:
    return MAGIC + b"".join(
        struct.pack(">BBHQ", kind, 0, len(body) // 4, 0) + body for kind, body in (*entries, (END, b""))
    )


class Program:
    """The program `fire`."""

    def __init__(self, path: str):
        self._path = path

    def _lines(self, word: str, entries: List[Entry]) -> List[str]:
        """A line for each entry, and one for the end of the log."""
        told = subprocess.run([self._path, word], input=log_of(entries), capture_output=True, check=True)
        return told.stdout.decode().splitlines()

    def words(self, entries: List[Entry]) -> List[str]:
        """What `explain` says of each entry, without its cycle."""
        return [line.split(" ", 1)[1] for line in self._lines("explain", entries)]

    def objects(self, entries: List[Entry]) -> List[dict]:
        return [json.loads(line) for line in self._lines("json", entries)]
