"""The laws on hostile captures and logs, and that what is made of a log and read again is the same."""

from __future__ import annotations

import random
import struct
from typing import Dict, List, Tuple

from . import hostile, read_log
from .counted import Checks
from .laws import check_log, check_made, check_pcapng, packets_of
from .tools import EXAMPLES, FROM, TO, VECTORS, run_here

Bus = List[Tuple[int, List[int]]]


def on_the_bus(log: bytes) -> Bus:
    """Bus resets as their self-ID packets, and packets as they are."""
    seen: Bus = []
    for entry in read_log.read(log):
        if entry.kind == read_log.RESET:
            seen.append((entry.kind, entry.self_ids()))
        elif entry.kind in (read_log.ASYNCHRONOUS, read_log.ISOCHRONOUS):
            seen.append((entry.kind, entry.words()))
    return seen


def check_captures(checks: Checks, logs: Dict[bytes, str]) -> None:
    rng = random.Random(hostile.SEED)
    inputs = {
        "from_nosy": [
            *hostile.noise(rng, 60),
            *hostile.random_records(rng, 200),
            *hostile.record_lengths(),
            *hostile.damaged_inputs(rng, "from_nosy", 200),
        ],
        "from_trace": [*hostile.noise(rng, 20), *hostile.damaged_inputs(rng, "from_trace", 80), *hostile.long_lines()],
        "from_isodump": [*hostile.noise(rng, 20), *hostile.damaged_inputs(rng, "from_isodump", 80)],
    }
    for tool in FROM:
        for number, (what, capture) in enumerate(inputs[tool]):
            words = ["--live"] if number % 3 == 0 and tool != "from_isodump" else []
            words += ["--cycle-starts"] if number % 2 == 0 and tool == "from_nosy" else []
            log = check_log(checks, f"{tool} of {what}", tool, words, capture)
            logs.setdefault(log, f"{tool} of {what}")


def check_prefixes(checks: Checks, logs: Dict[bytes, str]) -> None:
    """Of a capture that is cut the log has a beginning of what the whole one gives: but for its last bus reset, which
    may seem whole without the self-ID packets that were cut off, and for packets of a trace whose completion was."""
    wholes = [
        ("from_nosy", "hostile_self_ids.cap", 1),
        ("from_nosy", "hostile_self_ids_lost.cap", 1),
        ("from_nosy", "hostile_shapes.cap", 7),
        ("from_nosy", "nosy_leak.cap", 61),
        ("from_nosy", "nosy_big_endian.cap", 59),
        ("from_isodump", "isodump_mixed.iso", 5),
        ("from_isodump", "isodump_2_mixed.iso", 5),
        ("from_trace", "trace_manager.trace", 97),
    ]
    for tool, name, step in wholes:
        whole = on_the_bus(run_here(tool, [], (VECTORS / name).read_bytes()).output)
        for what, capture in hostile.prefixes(name, step):
            log = check_log(checks, what, tool, [], capture)
            logs.setdefault(log, what)
            begun = on_the_bus(log) if log else []
            if begun and begun[-1][0] == read_log.RESET:
                begun.pop()
            if tool != "from_trace":
                checks.check(f"{what}: a beginning of the whole", begun == whole[: len(begun)])


def check_logs_out(checks: Checks) -> None:
    """Logs that are damaged; and those of version 1."""
    rng = random.Random(hostile.SEED)
    inputs = [*hostile.noise(rng, 20), *hostile.damaged_inputs(rng, "to_nosy", 60)]
    inputs += hostile.prefixes("out_play.log", 97)
    for vector in ("watch_held.log", "hostile_shapes.log"):
        log = (VECTORS / vector).read_bytes()
        inputs += [(f"{vector} damaged {number}", hostile.damaged(rng, log)) for number in range(40)]
        inputs.append((f"{vector} in version 1", in_version_1(log)))
    for what, log in inputs:
        for tool in TO:
            ended = check_made(checks, f"{tool} of {what}", tool, log)
            if tool == "to_pcapng":
                check_pcapng(checks, f"{tool} of {what}", ended, log)


def in_version_1(log: bytes) -> bytes:
    made = b"1394" + struct.pack(">3I", 1, 0, 0)
    for entry in read_log.read(log):
        made += struct.pack(">BBHQ", entry.kind, 0, len(entry.body) // 4, entry.cycle) + entry.body
    return made


def check_there_and_back(checks: Checks) -> None:
    """What goes out comes in again: of each log among the vectors and the examples."""
    paths = sorted({*VECTORS.glob("*.log"), *EXAMPLES.glob("*.log")})
    for path in paths:
        log = path.read_bytes()
        try:
            there = on_the_bus(log)
        except read_log.NotALog:  # an example whose script is refused has a log that is cut
            continue
        for words in ([], ["--byte-order", "big"], ["--transaction"]):
            capture = run_here("to_nosy", words, log).output
            options = ["--cycle-starts"] + (words if words[:1] == ["--byte-order"] else [])
            back = on_the_bus(run_here("from_nosy", options, capture).output)
            checks.check(f"{path.name} to nosy-dump {' '.join(words)} and back", back == there)
        streams = [words for kind, words in there if kind == read_log.ISOCHRONOUS]
        dump = run_here("to_isodump", [], log).output
        back = packets_of(read_log.read(run_here("from_isodump", [], dump).output))
        checks.check(f"{path.name} to dumpiso and back", back == streams)
        pcap = run_here("to_pcap", [], log).output
        checks.check(f"{path.name} to pcap", frames_of(pcap) == streams)


def frames_of(pcap: bytes) -> List[List[int]]:
    """The isochronous packets of a pcap file: what follows 14 bytes of Ethernet and 20 of AVTP in each frame."""
    at, packets = 24, []
    while at < len(pcap):
        (length,) = struct.unpack_from("<I", pcap, at + 8)
        packet = pcap[at + 16 + 34 : at + 16 + length]
        packets.append(list(struct.unpack(f">{len(packet) // 4}I", packet)))
        at += 16 + length
    return packets


def check_laws(checks: Checks, logs: Dict[bytes, str]) -> None:
    """Each log that came out is put among `logs`, with what it is of."""
    check_captures(checks, logs)
    check_prefixes(checks, logs)
    check_logs_out(checks)
    check_there_and_back(checks)
