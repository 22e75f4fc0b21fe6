"""What the tools that make something of a log have in common."""

from __future__ import annotations

from . import frame
from .log_reader import Entry
from .log_writer import EntryKind

NO_LOG = "no whole log: what stands before is written"
NAMES = {
    EntryKind.RESET: "bus reset",
    EntryKind.PACKET: "asynchronous packet",
    EntryKind.ISOCHRONOUS: "isochronous packet",
    EntryKind.EVENT: "event",
    EntryKind.OUTCOME: "outcome",
    EntryKind.SHOWN: "shown word",
    EntryKind.END: "end",
}


def name_of(entry: Entry) -> str:
    """The name under which an entry is left out."""
    return NAMES[entry.kind]


def parser(name: str, page: str) -> frame.Parser:
    return frame.Parser(name, page, NO_LOG)
