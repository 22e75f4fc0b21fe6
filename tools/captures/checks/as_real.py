"""Logs made captures as a real bus would give them, and read again: the bus is the same, but for labels."""

from __future__ import annotations

from typing import Dict, Iterator, List, Tuple

from ..making import odd_logs
from ..making.habits import Habits
from ..making.nosy_capture import as_captured
from ..making.trace_capture import as_traced
from . import read_log
from .counted import Checks
from .tools import EXAMPLES, VECTORS, run_here

LABEL = 0xFC00
REQUESTS = (0, 1, 4, 5, 9)
CYCLE_START = 8
BY_LINK = (0x21C, 0x220, 0x224, 0x228)  # registers that a host's link answers alone
REGISTERS = 0xFFFFF0000000
EACH = Habits(seed=0, busy=True, no_ack=True, reserved=True, phy=True, cycle_starts=800)
Bus = List[Tuple[int, List[int]]]


def seen(entry: read_log.Read) -> Tuple[int, List[int]]:
    """An entry without labels, and a bus reset as its self-ID packets."""
    if entry.kind == read_log.RESET:
        return entry.kind, entry.self_ids()
    words = entry.words()
    mask = LABEL if entry.kind == read_log.ASYNCHRONOUS else 0
    return entry.kind, [words[0] & ~mask] + words[1:]


def whole_bus(log: bytes) -> Bus:
    """Bus resets and packets but for cycle starts, which the tools leave out."""
    kinds = (read_log.RESET, read_log.ASYNCHRONOUS, read_log.ISOCHRONOUS)
    bus = [seen(entry) for entry in read_log.read(log) if entry.kind in kinds]
    return [(kind, words) for kind, words in bus if kind != read_log.ASYNCHRONOUS or words[0] >> 4 & 15 != CYCLE_START]


def of_host(log: bytes, device: int) -> Iterator[Tuple[int, List[int]]]:
    """What the host with this device number sees: what it sends and is sent, but for what its link answers to
    others."""
    node = None
    by_link: Dict[Tuple[int, int, int], bool] = {}
    for entry in read_log.read(log):
        if entry.kind == read_log.RESET:
            devices = [entry.body[8 + 4 * number] for number in range(entry.body[7])]
            node = 0xFFC0 + devices.index(device) if device in devices else None
            if node is not None:
                yield seen(entry)
        elif entry.kind == read_log.ASYNCHRONOUS and node is not None:
            words = entry.words()
            to, of, label, code = words[0] >> 16, words[1] >> 16, words[0] >> 10 & 63, words[0] >> 4 & 15
            if code in REQUESTS:
                offset = (words[1] & 0xFFFF) << 32 | words[2]
                by_link[of, to, label] = offset - REGISTERS in BY_LINK
                is_seen = of == node or (to == node and not by_link[of, to, label])
            else:
                is_seen = to == node or (of == node and not by_link.pop((to, of, label), False))
            if is_seen and code != CYCLE_START:
                yield seen(entry)


def devices_of(log: bytes) -> List[int]:
    resets = [entry for entry in read_log.read(log) if entry.kind == read_log.RESET]
    return sorted({device for reset in resets for device in reset.body[8::4][: reset.body[7]]})


def logs() -> Iterator[Tuple[str, bytes]]:
    for path in (*sorted(EXAMPLES.glob("*.log")), VECTORS / "out_play.log"):
        if path.name != "refusal.log":  # which has no end
            yield path.name, path.read_bytes()


def check_as_real(checks: Checks) -> None:
    for seed, (name, log) in enumerate(logs()):
        habits = EACH._replace(seed=seed, twice=seed % 2 == 0, big_endian=seed % 3 == 0)
        for words in ([], ["--live"]):
            back = whole_bus(run_here("from_nosy", words, as_captured(log, habits)).output)
            checks.check(f"{name} as a sniffer sees it {words}", back == whole_bus(log))
        for device in devices_of(log):
            words = ["--big-endian"] if habits.big_endian else []
            text = as_traced(log, device, habits._replace(style=("pipe", "report", "perf")[seed % 3]))
            back = whole_bus(run_here("from_trace", words, text).output)
            checks.check(f"{name} as device {device} traces it", back == list(of_host(log, device)))


def check_laid(checks: Checks) -> None:
    """The logs that are laid by hand are those among the vectors."""
    for name, log in odd_logs.LOGS.items():
        checks.check(f"{name}.log is what is laid", log() == (VECTORS / f"{name}.log").read_bytes())
