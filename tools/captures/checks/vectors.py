"""The vectors: what a tool makes of a capture or a log, and its report, byte for byte."""

from __future__ import annotations

from typing import Dict, Iterator, List, NamedTuple

from .counted import Checks
from .tools import VECTORS, run, run_here

OUTPUT = {"to_nosy": "cap", "to_pcap": "pcap", "to_isodump": "iso"}  # of the others a log


class Vector(NamedTuple):
    name: str
    tool: str
    input: str
    status: int
    words: List[str]

    def given(self) -> bytes:
        return (VECTORS / self.input).read_bytes()

    def output(self) -> bytes:
        return (VECTORS / f"{self.name}.{OUTPUT.get(self.tool, 'log')}").read_bytes()

    def report(self) -> str:
        return (VECTORS / f"{self.name}.report").read_text()


def vectors() -> Iterator[Vector]:
    for line in (VECTORS / "list.txt").read_text().splitlines():
        if not line.startswith("#"):
            name, tool, source, status, *words = line.split()
            yield Vector(name, tool, source, int(status), words)


def logs_of_vectors() -> Dict[bytes, str]:
    """All logs among the vectors, also those that no tool made."""
    return {path.read_bytes(): path.name for path in sorted(VECTORS.glob("*.log"))}


def check_vectors(checks: Checks) -> None:
    """Each as a user has it, and here, so that the other checks may run tools here."""
    for vector in vectors():
        due = (vector.status, vector.output(), vector.report())
        for how in (run, run_here):
            ended = how(vector.tool, vector.words, vector.given())
            for what, found, expected in zip(ended._fields, ended, due):
                checks.check(f"{vector.name}: {what}", found == expected)
