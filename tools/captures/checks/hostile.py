"""Captures and logs that are cut, damaged or made up at random, from a fixed seed. Each is (what it is, its bytes)."""

from __future__ import annotations

import random
import struct
from typing import Iterator, Tuple

from .tools import VECTORS
from .vectors import vectors

Hostile = Iterator[Tuple[str, bytes]]
SEED = 1394


def prefixes(name: str, step: int = 1) -> Hostile:
    capture = (VECTORS / name).read_bytes()
    for length in range(0, len(capture), step):
        yield f"{name} cut at byte {length}", capture[:length]


def noise(rng: random.Random, count: int) -> Hostile:
    for number in range(count):
        yield f"noise {number}", bytes(rng.randrange(256) for _ in range(rng.randrange(400)))


def random_words(rng: random.Random, count: int):
    """Quadlets as a bus has them more often than others."""
    likely = (0, 0xFFFFFFFF, 0xFFC00000, 0xFFFF0000, 0x00080002, 0x01E840A0, 0x000840A0, 0x00780000, 0x8000FFFF)
    for _ in range(count):
        word = rng.choice(likely) if rng.random() < 0.5 else rng.randrange(1 << 32)
        if rng.random() < 0.4:
            word = word & 0xFFFFFF0F | rng.randrange(16) << 4
        yield word


def random_record(rng: random.Random) -> bytes:
    words = list(random_words(rng, rng.choice((0, 1, 2, 3, 4, 5, 6, 7, 8, 9, 12, 125, 128))))
    draw = rng.random()
    if draw < 0.3:  # a self-ID packet of a low node
        self_id = 2 << 30 | rng.randrange(4) << 24 | rng.randrange(1 << 24)
        self_id = self_id if rng.random() < 0.2 else self_id & ~0x800001
        words = [rng.randrange(1 << 32), self_id, self_id ^ 0xFFFFFFFF, 0]
    elif draw < 0.4:
        words = [rng.randrange(1 << 32)]
    length = 4 * len(words)
    if rng.random() < 0.01:
        length = rng.choice((length + 1, length + 2, length + 4, max(length - 4, 0), 16384, 16388, 0xFFFFFFFF))
    return struct.pack(f"<{1 + len(words)}I", length, *words)


def random_records(rng: random.Random, count: int) -> Hostile:
    """Captures of records with any quadlets, some of them of wrong lengths."""
    for number in range(count):
        yield f"random records {number}", b"".join(random_record(rng) for _ in range(rng.randrange(1, 60)))


def record_lengths() -> Hostile:
    """A record of each tcode and each length, after a bus reset."""
    self_ids = (0x807F8856, 0x81458C96, 0x82458CF4)
    start = struct.pack("<2I", 4, 1)
    start += b"".join(struct.pack("<5I", 16, 2, self_id, self_id ^ 0xFFFFFFFF, 0) for self_id in self_ids)
    for tcode in range(16):
        capture = start
        for quadlets in range(12):
            words = (3, 0xFFC00100 | tcode << 4, 0xFFC10000, 0, 0x00080002, 5, 6, 7, 8, 9, 10, 11)[:quadlets]
            for ack in (0, 1, 2, 13):
                capture += struct.pack(f"<{quadlets + 2}I", 4 * quadlets + 4, *words, ack)
        yield f"records of tcode {tcode:x}", capture


def damaged(rng: random.Random, data: bytes) -> bytes:
    """A few bits turned, bytes put in or taken out, a piece told twice, or the end cut off."""
    data = bytearray(data)
    for _ in range(rng.randrange(1, 6)):
        at = rng.randrange(len(data) + 1)
        how = rng.randrange(5)
        if how == 0 and at < len(data):
            data[at] ^= 1 << rng.randrange(8)
        elif how == 1:
            data[at:at] = bytes(rng.randrange(256) for _ in range(rng.randrange(1, 9)))
        elif how == 2:
            del data[at : at + rng.randrange(1, 9)]
        elif how == 3:
            data[at:at] = data[at : at + rng.randrange(1, 200)]
        elif rng.random() < 0.2:
            del data[at:]
    return bytes(data)


def damaged_inputs(rng: random.Random, tool: str, count: int) -> Hostile:
    """The inputs of a tool's vectors, damaged."""
    names = sorted({vector.input for vector in vectors() if vector.tool == tool})
    for number in range(count):
        name = rng.choice(names)
        yield f"{name} damaged {number}", damaged(rng, (VECTORS / name).read_bytes())


def long_lines() -> Hostile:
    """Lines of a trace that a reader of patterns might take for ever on."""
    start = b"a-1 [0] ..... 1.000001: async_request_inbound: "
    many = 200_000
    yield "a long word", start + b"a" * many + b"\n"
    yield "braces that do not end", start + b"a={ " * (many // 4) + b"\n"
    yield "a long number", b"LOST " + b"9" * many + b" EVENTS\n" + b"1" * many + b"\n"
    yield "a long time", b" 1." + b"1" * many + b"\n" + b" 1.000000" * (many // 9) + b": a\n"
    yield "a long card", start + b"card_index=" + b"1" * 9000 + b" header={0x" + b"f" * 9000 + b"}\n"
    yield "blanks", b" " * many + b"1.000001:" + b" " * many + b"\n"
    yield "no line feed", b"\0" * many
