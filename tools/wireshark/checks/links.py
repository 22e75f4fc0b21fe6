"""Which request a response answers, and the notes, of a log that is laid here; in Wireshark's second pass, since only
then is it known what came later."""

from __future__ import annotations

import struct
from typing import Dict, List, Tuple

from captures.checks.counted import Checks
from making import asking, codes

from . import tshark

HIGH, OUT = 0x224, 0x904
FREE, TAKEN, PLUG = 0xFFFFFFFF, 0x7FFFFFFF, 0x803F007A
NOTE = "_ws.expert.message"
LATE, DROPPED = "No answer in 800 cycles", "A bus reset came before an answer"
FIELDS = ["response_in", "request_in", "response_cycles", "swap_made", "register"]

READ = asking.request(4, OUT)
READ_OF_ALL = (asking.PACKET, asking.quadlets(0xFFFF0000 | 4 << 4, asking.NODES[0] | 0xFFFF, 0xF0000904))
SWAP = asking.swap(HIGH, FREE, TAKEN)
RESET = codes.reset()


def answer(tcode: int, rcode: int, *rest: int) -> asking.Entry:
    """A response of the second node."""
    return asking.PACKET, asking.quadlets(asking.NODES[0] | tcode << 4, asking.NODES[1] | rcode << 12, 0, *rest)


# The cycle of each entry, the entry, what is due of these fields, and the note.
Step = Tuple[int, asking.Entry, Dict[str, str], str]
STEPS: List[Step] = [
    (0, RESET, {}, ""),
    (10, SWAP, {"response_in": "3", "response_cycles": "2", "register": "CHANNELS_AVAILABLE_HI"}, ""),
    (12, answer(11, 0, 4 << 16 | 2, FREE), {"request_in": "2", "response_cycles": "2", "swap_made": "1"}, ""),
    (20, SWAP, {"response_in": "5", "response_cycles": "5"}, ""),
    (25, answer(11, 0, 4 << 16 | 2, TAKEN), {"request_in": "4", "swap_made": "0"}, "The swap was not made"),
    (30, READ, {"response_in": "7", "response_cycles": "870", "register": "oPCR[0]"}, LATE),
    (900, answer(6, 0, PLUG), {"request_in": "6", "response_cycles": "870", "register": "oPCR[0]"}, ""),
    (1000, READ, {"response_in": "", "response_cycles": ""}, DROPPED),
    (1001, RESET, {}, ""),
    (1002, answer(6, 0, PLUG), {"request_in": "", "register": ""}, ""),
    (1003, READ, {"response_in": "12"}, ""),
    (1004, answer(6, 7, 0), {"request_in": "11", "register": "oPCR[0]"}, "The answer is not complete"),
    (1005, READ_OF_ALL, {"response_in": ""}, ""),
    (1100, READ, {"response_in": ""}, LATE),
    (1101, SWAP, {"response_in": ""}, ""),
    (1901, (asking.END, b""), {}, ""),
]


def log() -> bytes:
    entries = ((cycle, *entry) for cycle, entry, _, _ in STEPS)
    heads = (struct.pack(">BBHQ", kind, 0, len(body) // 4, cycle) + body for cycle, kind, body in entries)
    return asking.MAGIC + b"".join(heads)


def check_links(checks: Checks) -> None:
    names = [f"ieee1394.{field}" for field in FIELDS]
    rows = tshark.rows(tshark.capture_of([log()]), [*names, NOTE], "-2")
    checks.check(f"links: {len(rows)} packets", len(rows) == len(STEPS))
    for number, ((_, _, due, note), row) in enumerate(zip(STEPS, rows), 1):
        wrong = {field: row[f"ieee1394.{field}"] for field, text in due.items() if row[f"ieee1394.{field}"] != ([text] if text else [])}
        checks.check(f"links, packet {number}: {wrong}, {row[NOTE]}", not wrong and row[NOTE] == ([note] if note else []))
