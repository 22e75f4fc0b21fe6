"""Damaged logs, and packets of any bytes: the dissector shows something of each, and no fault of its own."""

from __future__ import annotations

import random
import struct
from typing import Iterator, List

from captures import to_pcapng
from captures.checks.counted import Checks
from captures.checks.hostile import damaged

from . import tshark
from .logs import Logs

SEED = 1394
NOTE = "_ws.expert.message"
# How notes begin that may be there: those of the dissector, of Wireshark's own of IEC 61883, and comments. A fault of Lua, or an exception,
# would be one more.
NOTES = (
    "The answer is not complete",
    "The swap was not made",
    "No answer in 800 cycles",
    "A bus reset came before an answer",
    "The log is damaged here",
    "IEC 61883 format not dissected yet",
    "1394 Packet Channel and Source ID",
    "Incorrect quadlet ",
    "byte ",
)
HEADS = (12, 16)


def with_any_bytes(rng: random.Random, entries: List[bytes]) -> bytes:
    """A packet of an entry in which some bytes are others, or which is cut or longer, whatever its head says."""
    data = bytearray(rng.choice(entries))
    for _ in range(rng.randrange(1, 4)):
        at = rng.randrange(len(data))
        data[at] = rng.choice((0, 255, rng.randrange(256)))
    if rng.random() < 0.3:
        data = data[: rng.randrange(len(data) + 1)]
    elif rng.random() < 0.3:
        data += bytes(rng.randrange(256) for _ in range(rng.randrange(1, 40)))
    if rng.random() < 0.8 and len(data) >= 16:  # a length that fits
        head = rng.choice(HEADS)
        data[2:4] = ((len(data) - head) // 4).to_bytes(2, "big")
        data = data[: head + (len(data) - head) // 4 * 4]
    body = struct.pack("<5I", 0, 0, 0, len(data), len(data)) + to_pcapng.padded(bytes(data))
    return to_pcapng.block(to_pcapng.PACKET_BLOCK, body)


def hostile_packets(logs: Logs, count: int) -> Iterator[bytes]:
    """So many damaged logs, and five times as many packets."""
    rng = random.Random(SEED)
    kept = list(logs.values())
    for _ in range(count):
        yield tshark.packets_of(damaged(rng, rng.choice(kept)))
    entries = [entry for log in kept for entry in tshark.entries_of(log)]
    for _ in range(5 * count):
        yield with_any_bytes(rng, entries)


def check_hostile(checks: Checks, logs: Logs, count: int) -> None:
    """Twice over, as Wireshark does."""
    packets = b"".join(hostile_packets(logs, count))
    rows = tshark.rows(to_pcapng.HEADER + packets, ["frame.number", NOTE, "_ws.col.Info", "_ws.malformed"], "-2")
    notes = {note for row in rows for note in row[NOTE]}
    odd = sorted(note for note in notes if not note.startswith(NOTES))
    checks.check(f"{len(rows)} packets of damaged logs: notes {odd[:5]}", rows and not odd)
    checks.check("none of these is malformed to Wireshark", not any(row["_ws.malformed"] for row in rows))
    checks.check("each has an Info", all(row["_ws.col.Info"] for row in rows))
