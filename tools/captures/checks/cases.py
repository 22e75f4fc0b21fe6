"""Small captures that are laid by hand, each with the lines that its report must have: what the vectors do not show."""

from __future__ import annotations

from typing import Iterator, List, NamedTuple, Tuple

from ..making.hostile import FIRST, ROOT, SECOND, phy, record, self_ids, told_twice, write_at
from ..self_ids import EXTENDED, MORE, Port
from . import read_log
from .counted import Checks
from .tools import run_here

LEAF = 2 << 30 | 0 << 24 | 1 << 22 | 63 << 16 | 2 << 14  # node 0, with a link, of S400
HUB = 2 << 30 | 1 << 24 | 63 << 16 | 2 << 14
LEAF_OF_HUB = LEAF | Port.PARENT << 6 | 2  # joined by its first port; it began the bus reset
HUB_FIRST = HUB | MORE
HUB_MORE = 2 << 30 | 1 << 24 | EXTENDED | Port.CHILD << 16  # the leaf is at its fourth port
PC = "dvgrab-1 [000] ..... "


class Case(NamedTuple):
    what: str
    tool: str
    words: List[str]
    capture: bytes
    lines: Tuple[str, ...]  # of the report, without the tool's name


def nosy(what: str, capture: bytes, *lines: str) -> Case:
    return Case(what, "from_nosy", [], capture, lines)


def nosy_cases() -> Iterator[Case]:
    whole = record(1) + self_ids(LEAF_OF_HUB, HUB_FIRST, HUB_MORE) + write_at(2, 1)
    three = "read 5 records, wrote 1 bus resets, 3 self-ID packets, 1 packets, left out 0"
    yield nosy("extended packets", whole, three)
    yield nosy(
        "an extended packet is missing, as before",
        whole + record(3) + self_ids(LEAF_OF_HUB, HUB_FIRST) + write_at(4, 1),
        "read 9 records, wrote 2 bus resets, 4 self-ID packets, 2 packets, left out 1",
        "left out 1: self-ID packet of a node whose others are missing",
        "changed 1: self-ID packets missing: as at the bus reset before",
    )
    yield nosy(
        "another port of an extended packet",
        whole + record(3) + self_ids(HUB_FIRST, HUB_MORE >> 2 & 0x3FFFF | HUB_MORE & ~0x3FFFF) + write_at(4, 1),
        "changed 1: one node's self-ID packet missing: made of the others",
    )
    yield nosy(
        "an extended packet without its child",
        whole + record(3) + self_ids(HUB_FIRST, HUB_MORE & ~(3 << 16) | Port.OPEN << 16) + write_at(4, 1),
        "left out 1: bus reset whose self-ID packets are not whole",
    )
    fifth = HUB_MORE | MORE
    many = [fifth & ~(7 << 20) | number << 20 for number in range(3)] + [HUB_MORE | 3 << 20]
    yield nosy(
        "a fourth extended packet",
        record(1) + self_ids(LEAF_OF_HUB, HUB_FIRST, *many) + write_at(2, 1),
        "left out 4: self-ID packet of a node whose others are missing",
        "left out 1: self-ID packet behind those of a bus reset",
        "changed 1: one node's self-ID packet missing: made of the others",
    )
    yield nosy(
        "a node is missing, and no node makes a tree of the others",
        record(1) + self_ids(FIRST, ROOT) + write_at(2, 1),
        "left out 2: self-ID packet of such a bus reset",
    )
    both = "read 7 records, wrote 2 bus resets, 4 self-ID packets, 1 packets, left out 0"
    yield nosy("a bus reset in another", told_twice(), both)
    hole = whole + bytes(4 * 127)
    yield nosy("empty records", hole + write_at(4, 1), "left out 126: bus reset told again")
    yield nosy("a hole", hole + bytes(1 << 25), f"damaged: byte {len(whole)}: 128 empty records on end")
    alone = record(1) + phy(2, SECOND) + write_at(3, 1)
    yield nosy("a node whose number is not 0", alone, "left out 1: self-ID packet of such a bus reset")


def event(time: str, name: str, fields: str) -> str:
    return f"{PC} {time}: {name}: {fields}\n"


def bus_reset(time: str, ids: List[int], card: int = 0) -> str:
    listed = ",".join(f"0x{self_id:x}" for self_id in ids)
    return event(time, "bus_reset_handle", f"card_index={card} generation=1 node_id=0x00c0 self_ids={{{listed}}}")


def read_sent(time: str, header: str = "0xffc10140,0xffc0ffff,0xf0000404,0x0", data: str = "", card: int = 0) -> str:
    fields = f"transaction=0x1 card_index={card} header={{{header}}} data={{{data}}}"
    return event(time, "async_request_outbound_initiate", fields)


def trace(what: str, text: str, *lines: str, live: bool = False) -> Case:
    return Case(what, "from_trace", ["--live"] if live else [], text.encode(), lines)


def trace_cases() -> Iterator[Case]:
    whole = bus_reset("1.000000", [LEAF_OF_HUB, HUB_FIRST, HUB_MORE])
    broken = bus_reset("2.000000", [HUB_FIRST]) + read_sent("2.000100")
    yield trace(
        "packets after a bus reset that is not whole",
        whole + broken + whole.replace(" 1.", " 3.") + read_sent("3.000100"),
        "read 5 events, wrote 2 bus resets, 1 packets, left out 2",
        "left out 1: behind a bus reset whose self-ID packets are not whole",
    )
    back = "changed 1: time stamp that goes back: the one before is taken"
    yield trace("time goes back", whole + read_sent("1.100000") + read_sent("1.050000"), back)
    other = read_sent("0.900000", card=1) + whole + read_sent("1.100000", card=1)
    yield trace("another card", other, "left out 2: event of another card")
    unsure = "unsure: before the first bus reset events of several cards are told as one's"
    yield trace("another card, in one pass", other, "left out 1: event of another card", unsure, live=True)
    lost = "unsure: the kernel could not keep all events, and does not say how many it lost"
    counted = "changed 5: events that the kernel could not keep"
    told = "CPU:1 [LOST EVENTS]\nCPU:0 [LOST 2 EVENTS]\nCPU:0 [3 EVENTS DROPPED]\n"
    yield trace("lost events", whole + told, lost, counted)
    block = "0xffc10110,0xffc0ffff,0xf0000b00,0x00070000"
    filled = "changed 1: last bytes of a block that the event does not have: 0 is written"
    yield trace("seven bytes", whole + read_sent("1.1000001", block, "0x1"), filled)
    short = "left out 1: event whose data are not as long as its packet says"
    yield trace("a block without data", whole + read_sent("1.100000", block), short)
    yield trace("a block of too much data", whole + read_sent("1.100000", block, "0x1,0x2,0x3"), short)
    reserved = read_sent("1.100000", block.replace("110", "1f0", 1))
    yield trace("a reserved code", whole + reserved, "left out 1: packet of tcode f")
    twice = read_sent("1.100000").replace("data={}", "data={} header={0x1}")
    yield trace("an event with a field twice", whole + twice, "left out 1: event that cannot be read")


def check_cases(checks: Checks) -> None:
    for case in (*nosy_cases(), *trace_cases()):
        ended = run_here(case.tool, case.words, case.capture)
        told = [line.partition(": ")[2] for line in ended.report.splitlines()]
        for line in case.lines:
            checks.check(f"{case.what}: {line}; told is {told}", line in told)
        read_log.read(ended.output)
