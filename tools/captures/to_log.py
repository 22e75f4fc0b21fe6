"""Puts what a capture shows into a log; what the tools that make logs have in common."""

from __future__ import annotations

import argparse
import re
from typing import Dict, Iterable, List, Tuple, Union

from .happenings import TIME_GOES_BACK, BusReset, Happening, IsochronousPacket, Packet
from .log_writer import LONGEST, EntryKind, LogWriter, NodeRow, ResetEntry
from .packets import Tcode, log_form, log_form_of_stream, tcode
from .self_ids import has_link, is_contender, is_extended, is_initiator
from .streams import Output
from .survey import LiveSurvey, NodeKind, Survey
from .tally import LeftOut, Tally, Written

KINDS = {kind.name.lower(): kind for kind in NodeKind}
Kinds = Dict[int, NodeKind]


def kind_of_device(word: str) -> Tuple[int, NodeKind]:
    """Reads a word like 1=camcorder."""
    found = re.fullmatch("([0-9]|[1-5][0-9]|6[0-2])=(" + "|".join(KINDS) + ")", word)
    if not found:
        raise argparse.ArgumentTypeError(f"{word!r} is not DEVICE=KIND")
    return int(found[1]), KINDS[found[2]]


def add_kinds(parser: argparse.ArgumentParser) -> None:
    parser.add_argument(
        "--kind",
        type=kind_of_device,
        action="append",
        default=[],
        metavar="DEVICE=KIND",
        dest="kinds",
        help="the kind of the device with this number in the log: relay, deck, camcorder or computer; once a device",
    )


class LogMaker:
    """Writes the log of the happenings that it is given, and tells the tally of each."""

    def __init__(self, output: Output, tally: Tally, keep_cycle_starts: bool = False):
        self._log = LogWriter(output)
        self._tally = tally
        self._keep_cycle_starts = keep_cycle_starts

    def write(self, happenings: Iterable[Happening], survey: Union[Survey, LiveSurvey]) -> None:
        cycle = 0
        for happening in happenings:
            cycle = happening.cycle
            if isinstance(happening, BusReset):
                self._put_reset(happening, survey.rows(happening))
            else:
                self._put_packet(happening)
        self._log.put_end(cycle)
        if self._log.size > LONGEST:
            self._tally.unsure.append(f"the log has {self._log.size} bytes, and fire reads {LONGEST}")

    def _put_reset(self, reset: BusReset, rows: List[NodeRow]) -> None:
        self._note_time(reset.cycle)
        firsts = [self_id for self_id in reset.self_ids if not is_extended(self_id)]
        root = len(firsts) - 1
        managers = [node for node, first in enumerate(firsts) if has_link(first) and is_contender(first)]
        manager = managers[-1] if managers else None
        entry = ResetEntry(root, manager, self._initiator(firsts), rows, reset.self_ids)
        self._log.put_reset(reset.cycle, entry, reset.timed)
        self._tally.write(Written.BUS_RESET)

    def _initiator(self, firsts: List[int]) -> int:
        initiators = [node for node, first in enumerate(firsts) if is_initiator(first)]
        if not initiators:
            self._tally.change("no initiator of a bus reset: the root is written")
            return len(firsts) - 1
        if len(initiators) > 1:
            self._tally.change("several initiators of a bus reset: the first is written")
        return initiators[0]

    def _put_packet(self, packet: Union[Packet, IsochronousPacket]) -> None:
        try:
            kind, written, (words, cleared) = self._form(packet)
        except LeftOut as why:
            self._tally.leave(str(why))
            return
        if cleared:
            self._tally.change("reserved bits and padding that were set: cleared")
        self._note_time(packet.cycle)
        self._log.put_quadlets(kind, packet.cycle, words)
        self._tally.write(written)

    def _form(self, packet: Union[Packet, IsochronousPacket]) -> Tuple[EntryKind, Written, Tuple[List[int], bool]]:
        if isinstance(packet, IsochronousPacket):
            return EntryKind.ISOCHRONOUS, Written.ISOCHRONOUS_PACKET, log_form_of_stream(packet.words)
        if tcode(packet.words) == Tcode.CYCLE_START and not self._keep_cycle_starts:
            raise LeftOut("cycle start")
        return EntryKind.PACKET, Written.PACKET, log_form(packet.words)

    def _note_time(self, cycle: int) -> None:
        """No cycle of a log falls, so one that would is changed."""
        if cycle < self._log.cycle:
            self._tally.change(TIME_GOES_BACK)
