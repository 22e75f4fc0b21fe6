"""Runs the tools: as a user does, or in this process, which takes a hundredth of the time."""

from __future__ import annotations

import io
import pathlib
import re
import signal
import subprocess
import sys
from typing import Dict, List, NamedTuple, Sequence

from .. import frame, from_isodump, from_nosy, from_trace, to_isodump, to_nosy, to_pcap, to_pcapng

HERE = pathlib.Path(__file__).resolve().parent.parent
SCRIPTS = HERE.parent
VECTORS = HERE / "vectors"
EXAMPLES = SCRIPTS.parent / "examples"
TOOLS: Dict[str, frame.Tool] = {
    tool.name: tool
    for tool in (
        *(from_nosy.TOOL, from_trace.TOOL, from_isodump.TOOL),
        *(to_nosy.TOOL, to_pcap.TOOL, to_pcapng.TOOL, to_isodump.TOOL),
    )
}
FROM = [name for name in TOOLS if name.startswith("from_")]
TO = [name for name in TOOLS if name.startswith("to_")]


class Ended(NamedTuple):
    status: int
    output: bytes
    report: str


def command(tool: str, *words: str) -> List[str]:
    """Without what this machine's Python loads at each start, which takes longer than a tool."""
    return [sys.executable, "-S", "-E", str(SCRIPTS / f"{tool}.py"), *words]


def run(tool: str, words: Sequence[str], data: bytes) -> Ended:
    """As a user does."""
    ended = subprocess.run(command(tool, *words), input=data, capture_output=True, check=False)
    return Ended(ended.returncode, ended.stdout, ended.stderr.decode())


def run_here(tool: str, words: Sequence[str], data: bytes) -> Ended:
    """The same of input that can be read and output that can be written. What a tool raises is raised."""
    streams = sys.stdin, sys.stdout
    interrupt = signal.getsignal(signal.SIGINT)
    output = io.BytesIO()
    try:
        sys.stdin, sys.stdout = io.TextIOWrapper(io.BytesIO(data)), io.TextIOWrapper(output)
        tally = frame.worked(TOOLS[tool], list(words))
        written = output.getvalue()
    finally:
        sys.stdin, sys.stdout = streams
        signal.signal(signal.SIGINT, interrupt)
    lines = tally.lines(tool, TOOLS[tool].records)
    status = frame.Status.DONE if tally.damage is None else frame.Status.DAMAGED
    return Ended(status, written, "".join(f"{line}\n" for line in lines))


def counts(what: str, lines: Sequence[str]) -> Dict[str, int]:
    """The counts of what was left out, or of what was changed, by its name."""
    found = (re.search(rf": {what} (\d+): (.*)", line) for line in lines)
    return {it[2]: int(it[1]) for it in found if it}


class Report:
    """The numbers of a report, read from its lines."""

    def __init__(self, text: str):
        first, *rest = text.splitlines()
        self.read = int(re.search(r": read (\d+) ", first)[1])
        written = first.partition(", wrote ")[2].rpartition(", left out ")
        self.left = int(written[2])
        self.wrote = {what: int(number) for number, what in re.findall(r"(\d+) ([^,]+)", written[0])}
        self.left_by_name = counts("left out", rest)
        self.changed = counts("changed", rest)

    def is_balanced(self) -> bool:
        left = sum(self.left_by_name.values())
        return left == self.left and self.read == sum(self.wrote.values()) + left
