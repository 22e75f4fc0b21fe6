"""What the tools promise of any input: balance, order, and that each log is read. The captures are read here anew."""

from __future__ import annotations

import re
import struct
from typing import Callable, Dict, Iterator, List, Sequence, Tuple

from . import read_log
from .counted import Checks
from .tools import Ended, Report, run_here

Words = List[int]
CLEARED = "reserved bits and padding that were set: cleared"
HEADER_LENGTHS = {0: 4, 1: 4, 2: 3, 4: 3, 5: 4, 6: 4, 7: 4, 8: 4, 9: 4, 10: 1, 11: 4}
LONGEST_RECORD = 16384
HEADER_OF_LOG = 16
ENTRIES, DAMAGE = 160, 161  # link types of a pcapng file


def nosy_records(capture: bytes) -> List[Words]:
    """The records that stand before what is damaged."""
    found, at, order = [], 0, "little"
    first = next((capture[k : k + 4] for k in range(0, len(capture) - 3, 4) if any(capture[k : k + 4])), bytes(4))
    if int.from_bytes(first, "little") > LONGEST_RECORD >= int.from_bytes(first, "big"):
        order = "big"
    while at + 4 <= len(capture):
        length = int.from_bytes(capture[at : at + 4], order)
        if length > LONGEST_RECORD or length % 4 or at + 4 + length > len(capture):
            break
        body = capture[at + 4 : at + 4 + length]
        found.append([int.from_bytes(body[k : k + 4], order) for k in range(0, length, 4)])
        at += 4 + length
    return found


def nosy_packets(capture: bytes) -> Iterator[Words]:
    """The quadlets of records between time and ack, without the CRC after the header."""
    for record in nosy_records(capture):
        words = record[1:-1]
        if words and not (len(record) == 4 and record[1] ^ record[2] == 0xFFFFFFFF):
            header = HEADER_LENGTHS.get(words[0] >> 4 & 15, 4)
            yield words[:header] + words[header + 1 :]


def isodump_packets(capture: bytes) -> Iterator[Words]:
    at, is_version_2 = 32, capture[14:15] == b"2"
    lengths = [int.from_bytes(capture[at : at + 4], order) for order in ("little", "big")]
    order = "big" if lengths[0] > 4096 >= lengths[1] else "little"
    while at + 4 <= len(capture):
        if is_version_2:
            length, data_at = int.from_bytes(capture[at : at + 4], order), at + 8
            channel, tag, sy = [*capture[at + 4 : at + 7], 0, 0, 0][:3]
            header, end = length << 16 | tag << 14 | channel << 8 | 10 << 4 | sy, data_at + length
        else:
            header, data_at = int.from_bytes(capture[at : at + 4], "big"), at + 4
            end = data_at + ((header >> 16) + 3) // 4 * 4
        data = capture[data_at:end] + bytes((data_at - end) % 4)
        if end <= len(capture):
            yield [header, *(int.from_bytes(data[k : k + 4], "big") for k in range(0, len(data), 4))]
        at = end


def traced_packets(text: bytes) -> Iterator[Words]:
    """The headers of the packets, of which the first two quadlets stand by value."""
    for line in text.decode("ascii", "replace").split("\n"):
        header = re.search(r"header=\{([^{}]*)\}", line)
        words = [int(word, 16) for word in re.findall(r"0x([0-9a-fA-F]{1,8})\b", header[1])] if header else []
        if words:
            yield words[:2]


PACKETS: Dict[str, Callable[[bytes], Iterator[Words]]] = {
    "from_nosy": nosy_packets,
    "from_trace": traced_packets,
    "from_isodump": isodump_packets,
}


def came_of(written: Words, captured: Words) -> bool:
    """Whether a packet of the log may be this one of the capture: no bit is set in it that was not."""
    fits = all(not ours & ~theirs for ours, theirs in zip(written, captured))
    return fits and written[0] == captured[0]


def are_in_order(written: Sequence[Words], captured: Iterator[Words]) -> bool:
    """Whether each packet of the log is one of the capture, in its order."""
    return all(any(came_of(words, theirs) for theirs in captured) for words in written)


def packets_of(entries: Sequence[read_log.Read]) -> List[Words]:
    return [entry.words() for entry in entries if entry.kind in (read_log.ASYNCHRONOUS, read_log.ISOCHRONOUS)]


def count(entries: Sequence[read_log.Read], kind: int) -> int:
    return sum(entry.kind == kind for entry in entries)


def check_counts(checks: Checks, what: str, report: Report, entries: Sequence[read_log.Read]) -> None:
    """The report counts what stands in the log."""
    resets = [entry for entry in entries if entry.kind == read_log.RESET]
    self_ids = sum(len(entry.self_ids()) for entry in resets)
    checks.check(f"{what}: bus resets", report.wrote.get("bus resets", 0) == len(resets))
    checks.check(f"{what}: packets", report.wrote.get("packets", 0) == count(entries, read_log.ASYNCHRONOUS))
    streams = report.wrote.get("isochronous packets", 0)
    checks.check(f"{what}: isochronous packets", streams == count(entries, read_log.ISOCHRONOUS))
    was_mended = any("missing" in name for name in report.changed)
    told = report.wrote.get("self-ID packets", self_ids)
    checks.check(f"{what}: self-ID packets", told <= self_ids if was_mended else told == self_ids)


def check_log(checks: Checks, what: str, tool: str, words: Sequence[str], capture: bytes) -> bytes:
    """Makes a log of a capture, and checks what the tool promises of any."""
    try:
        ended = run_here(tool, words, capture)
        entries = read_log.read(ended.output)
    except Exception as fault:  # whatever it is: the tools promise that there is none
        checks.check(f"{what}: {type(fault).__name__}: {fault}", False)
        return b""
    report = Report(ended.report)
    checks.check(f"{what}: balance", report.is_balanced())
    check_counts(checks, what, report, entries)
    if "--byte-order" not in words:
        checks.check(f"{what}: order", are_in_order(packets_of(entries), PACKETS[tool](capture)))
    if tool == "from_nosy" and "--byte-order" not in words:
        checks.check(f"{what}: records read", report.read == len(nosy_records(capture)))
        checks.check(f"{what}: status", ended.status == (4 if "damaged: " in ended.report else 0))
    return ended.output


def check_made(checks: Checks, what: str, tool: str, log: bytes) -> Ended:
    """Makes something of what may be no log, and checks the report."""
    try:
        ended = run_here(tool, [], log)
    except Exception as fault:
        checks.check(f"{what}: {type(fault).__name__}: {fault}", False)
        return Ended(-1, b"", "")
    checks.check(f"{what}: balance", Report(ended.report).is_balanced())
    try:
        entries = read_log.read(log)
    except read_log.NotALog:
        return ended
    checks.check(f"{what}: a whole log is read", ended.status == 0 and Report(ended.report).read == len(entries))
    return ended


def pcapng_packets(file: bytes) -> Iterator[Tuple[int, int, bytes]]:
    """Link type, time in microseconds, and bytes of each packet of a pcapng file."""
    at, link_types = 0, []
    while at < len(file):
        kind, size = struct.unpack_from("<II", file, at)
        if kind == 1:
            link_types.append(struct.unpack_from("<H", file, at + 8)[0])
        if kind == 6:
            interface, high, low, length = struct.unpack_from("<4I", file, at + 8)
            yield link_types[interface], high << 32 | low, file[at + 28 : at + 28 + length]
        at += size


def cycle_of(entry: bytes) -> int:
    head = len(entry) - 4 * int.from_bytes(entry[2:4], "big")
    return int.from_bytes(entry[head - 8 : head], "big")


def check_pcapng(checks: Checks, what: str, ended: Ended, log: bytes) -> None:
    """After its header the log is the packets, one after the other, up to where it is damaged; each has its cycle's
    time."""
    packets = list(pcapng_packets(ended.output))
    whole = [(time, data) for link_type, time, data in packets if link_type == ENTRIES]
    begun = b"".join(data for _, data in whole)
    rest = b"".join(data for link_type, _, data in packets if link_type == DAMAGE)
    after = log[HEADER_OF_LOG + len(begun) :]
    begins_so = log[HEADER_OF_LOG:].startswith(begun) and (after.startswith(rest) or log.startswith(rest))
    checks.check(f"{what}: its bytes", begins_so and (after == b"" or ended.status == 4))
    checks.check(f"{what}: its times", all(time == cycle_of(data) * 125 % 2**64 for time, data in whole))
