"""Runs tshark with the dissector, without anything of the user's own."""

from __future__ import annotations

import os
import pathlib
import subprocess
import tempfile
from typing import Dict, Iterable, List

from captures import log_reader, to_pcapng
from captures.tally import Tally

HERE = pathlib.Path(__file__).resolve().parent.parent
DISSECTOR = HERE / "fire1394.lua"
ALL = "|"  # between the values of a field that a packet has several times
MAY_BE_SAID = ("Running as user",)  # by tshark to root
Row = Dict[str, List[str]]


class TsharkFault(Exception):
    """tshark ended otherwise than well, or said something."""


def capture_of(logs: Iterable[bytes]) -> bytes:
    """The packets of some logs, one log after the other."""
    return to_pcapng.HEADER + b"".join(map(packets_of, logs))


def entries_of(log: bytes) -> List[bytes]:
    """The entries before what is damaged."""
    found = []
    try:
        for entry in log_reader.read_log([log]):
            found.append(entry.whole)
    except log_reader.LogFault:
        pass
    return found


def packets_of(log: bytes) -> bytes:
    """The packets of a log, as to_pcapng.py has them."""
    packets, tally, cycle = [], Tally(), 0
    try:
        for entry in log_reader.read_log([log]):
            packets.append(to_pcapng.packet(entry, tally))
            cycle = entry.cycle
    except log_reader.LogFault as fault:
        packets.append(to_pcapng.damage(fault, cycle))
    return b"".join(packets)


def run(capture: bytes, *options: str, dissector: pathlib.Path = DISSECTOR) -> str:
    """What tshark writes of a capture."""
    with tempfile.TemporaryDirectory() as home, tempfile.NamedTemporaryFile(suffix=".pcapng") as file:
        file.write(capture)
        file.flush()
        surroundings = {**os.environ, "HOME": home, "XDG_CONFIG_HOME": home, "TZ": "UTC"}
        words = ["tshark", "-n", "-X", f"lua_script:{dissector}", "-r", file.name, *options]
        ended = subprocess.run(words, capture_output=True, env=surroundings, check=False)
    said = [line for line in ended.stderr.decode().splitlines() if not line.startswith(MAY_BE_SAID)]
    if ended.returncode or said:
        raise TsharkFault(f"status {ended.returncode}: {said[:3]}")
    return ended.stdout.decode()


def rows(capture: bytes, fields: List[str], *options: str) -> List[Row]:
    """The values of these fields of each packet."""
    asked = [word for field in fields for word in ("-e", field)]
    text = run(capture, *options, "-T", "fields", "-E", f"aggregator={ALL}", *asked)
    return [dict(zip(fields, map(values, line.split("\t")))) for line in text.splitlines()]


def values(text: str) -> List[str]:
    return text.split(ALL) if text else []
