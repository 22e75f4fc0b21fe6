"""What other people's decoders say of captures, where they are installed: nosy-dump of what from_nosy.py reads, and
tshark of what to_pcap.py writes."""

from __future__ import annotations

import re
import shutil
import subprocess
import tempfile
from typing import Dict, Iterator, List, NamedTuple, Optional

from . import read_log
from .counted import Checks
from .tools import VECTORS, run_here
from .vectors import vectors

TCODES = {
    "write_quadlet_request": 0,
    "write_block_request": 1,
    "write_response": 2,
    "read_quadlet_request": 4,
    "read_block_request": 5,
    "read_quadlet_response": 6,
    "read_block_response": 7,
    "cycle_start": 8,
    "lock_request": 9,
    "iso_data": 10,
    "lock_response": 11,
}
TAKEN = ("ack_complete", "ack_pending")
WITHOUT_ACK = (8, 10)
RESPONSES = (2, 6, 7, 11)
WITH_QUADLET = (0, 6, 8)
WITH_LENGTH = (1, 5, 7, 9, 11)
WITH_BLOCK = (1, 7, 9, 11)
PRINTED_DIGITS = 256  # of the block of a packet, at most
# What nosy-dump cannot read on a little-endian host, and captures of which self-ID packets are missing.
NOT_COMPARED = {"nosy_big_endian.cap", "nosy_sniffer_not_told.cap", "nosy_self_id_lost.cap"}
SPEEDS = ("S100", "S200", "S400", "BETA")


class Printed(NamedTuple):
    """A line of nosy-dump --view packet."""

    tcode: int
    numbers: Dict[str, int]
    data: str  # of a block, in hexadecimal
    was_taken: bool = True


def printed(line: str) -> Optional[Printed]:
    """A packet, if the line has one: fields as name=0xNUMBER, names of tcode, ack and rcode alone."""
    data = re.search(r"data=\[([0-9a-f ]*)", line)
    plain = re.sub(r"data=\[[^\]]*\]", "", line)
    numbers = {name: int(value, 16) for name, value in re.findall(r"(\w+)=0x([0-9a-f]+)", plain)}
    names = [part.strip() for part in re.sub(r"^ *\d+ ", "", plain).split(",") if "=" not in part]
    tcode = next((TCODES[name] for name in names if name in TCODES), None)
    if tcode is None:
        return None
    to_all = numbers.get("dest", 0) & 63 == 63
    block = data[1].replace(" ", "") if data else ""
    return Printed(tcode, numbers, block, tcode in WITHOUT_ACK or to_all or names[-1] in TAKEN)


def in_log(entry: read_log.Read) -> Printed:
    """What nosy-dump should print of an entry."""
    words = entry.words()
    if entry.kind == read_log.ISOCHRONOUS:
        head = words[0]
        fields = {"data_length": head >> 16, "tag": head >> 14 & 3, "channel": head >> 8 & 63, "sy": head & 15}
        return Printed(10, fields, entry.body[4:].hex()[:PRINTED_DIGITS])
    tcode = words[0] >> 4 & 15
    fields = {"dest": words[0] >> 16, "tl": words[0] >> 10 & 63, "src": words[1] >> 16, "pri": words[0] & 15}
    if tcode not in RESPONSES:
        fields["offs"] = (words[1] & 0xFFFF) << 32 | words[2]
    if tcode in WITH_QUADLET:
        fields["data"] = words[3]
    if tcode in WITH_LENGTH:
        fields["data_length"] = words[3] >> 16
    block = entry.body[16:] if tcode in WITH_BLOCK else b""
    return Printed(tcode, fields, block.hex()[:PRINTED_DIGITS])


def agree(ours: Printed, theirs: Printed) -> bool:
    """nosy-dump may print more numbers than are compared."""
    same = all(theirs.numbers.get(field) == value for field, value in ours.numbers.items())
    return ours.tcode == theirs.tcode and same and theirs.data.ljust(len(ours.data), "0")[: len(ours.data)] == ours.data


def self_id_line(self_id: int) -> str:
    node = self_id >> 24 & 63
    if self_id >> 23 & 1:
        return f"extended self id: phy_id={node:02x}, seq={self_id >> 20 & 7}"
    link = "active" if self_id >> 22 & 1 else "not active"
    ends = (", irm contender" if self_id >> 11 & 1 else "") + (", initiator" if self_id >> 1 & 1 else "")
    gap_count, speed = self_id >> 16 & 63, SPEEDS[self_id >> 14 & 3]
    return f"self id: phy_id={node:02x}, link {link}, gap_count={gap_count}, speed={speed}{ends}"


def lines_of_nosy_dump(capture: str) -> List[str]:
    words = ["nosy-dump", "-i", capture, "--view", "packet", "-v"]
    ended = subprocess.run(words, capture_output=True, stdin=subprocess.DEVNULL, check=False)
    return ended.stdout.decode("latin-1").replace("\r", "").splitlines()


def runs_of_self_ids(lines: List[str]) -> Iterator[List[str]]:
    """Those after each bus reset."""
    run: List[str] = []
    for line in lines:
        text = re.sub(r"^ *\d+  ", "", line)
        if "self id:" in text:
            run.append(text)
        elif text == "bus reset" and run:
            yield run
            run = []
    if run:
        yield run


def check_nosy_dump(checks: Checks) -> None:
    """Of each whole capture from little-endian hosts: the packets that were taken, and the self-ID packets, are the
    log's."""
    if not shutil.which("nosy-dump"):
        checks.skipped("nosy-dump, which is not installed")
        return
    names = {it.input for it in vectors() if it.tool == "from_nosy" and it.name.startswith("nosy")}
    for name in sorted(names - NOT_COMPARED):
        entries = read_log.read(run_here("from_nosy", ["--cycle-starts"], (VECTORS / name).read_bytes()).output)
        lines = lines_of_nosy_dump(str(VECTORS / name))
        theirs = [it for it in map(printed, lines) if it is not None and it.was_taken]
        ours = [in_log(entry) for entry in entries if entry.kind in (read_log.ASYNCHRONOUS, read_log.ISOCHRONOUS)]
        checks.check(f"nosy-dump on {name}: packets", len(ours) == len(theirs) and all(map(agree, ours, theirs)))
        resets = [list(map(self_id_line, entry.self_ids())) for entry in entries if entry.kind == read_log.RESET]
        runs = [run[: len(ids)] for run, ids in zip(runs_of_self_ids(lines), resets)]
        checks.check(f"nosy-dump on {name}: self-ID packets", runs == resets)


def check_tshark(checks: Checks) -> None:
    """tshark finds channel and data block counter of each packet of the stream."""
    if not shutil.which("tshark"):
        checks.skipped("tshark, which is not installed")
        return
    log = (VECTORS / "out_play.log").read_bytes()
    streams = [entry.words() for entry in read_log.read(log) if entry.kind == read_log.ISOCHRONOUS]
    with tempfile.NamedTemporaryFile(suffix=".pcap") as pcap:
        pcap.write(run_here("to_pcap", [], log).output)
        pcap.flush()
        fields = ["-T", "fields", "-e", "iec61883.channel", "-e", "iec61883.sid", "-e", "iec61883.dbc"]
        ended = subprocess.run(["tshark", "-r", pcap.name, *fields], capture_output=True, text=True, check=False)
    told = [[int(number, 0) for number in line.split()] for line in ended.stdout.splitlines()]
    due = [[words[0] >> 8 & 63, words[1] >> 24 & 63, words[1] & 255] for words in streams]
    checks.check("tshark on out_play.pcap", told == due)


def check_outside(checks: Checks) -> None:
    check_nosy_dump(checks)
    check_tshark(checks)
