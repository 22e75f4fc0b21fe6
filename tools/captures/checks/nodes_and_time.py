"""Which device is which, how many plugs it has, and what time it is: small captures laid by hand."""

from __future__ import annotations

from typing import List

from ..making.hostile import CRC, phy, record, self_ids, write_at
from ..making.laid import EUI_64_HIGH, EUI_64_LOW, Laid
from ..self_ids import Port
from . import read_log
from .counted import Checks
from .tools import run_here

LEAF = 2 << 30 | 1 << 22 | 63 << 16 | 2 << 14  # node 0, with a link, of S400
OMPR, IMPR = 0x900, 0x980
UP, DOWN, NONE = Port.PARENT, Port.CHILD, Port.OPEN


def rows_of(capture: bytes, *words: str) -> List[List[bytes]]:
    """The rows of the nodes of each bus reset: device, output plugs, input plugs, kind."""
    entries = read_log.read(run_here("from_nosy", words, capture).output)
    resets = [entry for entry in entries if entry.kind == read_log.RESET]
    return [[reset.body[at : at + 4] for at in range(8, 8 + 4 * reset.body[7], 4)] for reset in resets]


def devices_of(capture: bytes, *words: str) -> List[List[int]]:
    return [[row[0] for row in rows] for rows in rows_of(capture, *words)]


def captured(log: bytes) -> bytes:
    return run_here("to_nosy", [], log).output


def node(number: int, *states: Port) -> int:
    """The self-ID packet of a node with a link, of S400, with these states of its first ports."""
    self_id = LEAF | number << 24 | (2 if number == 0 else 0)
    for shift, state in zip((6, 4, 2), states):
        self_id |= state << shift
    return self_id


def check_devices(checks: Checks) -> None:
    """Three like nodes in a chain, of which one end has its cable in its second port: the root is the other end after
    the second bus reset. Only a walk from the right pair meets all."""
    before = (node(0, UP, NONE, NONE), node(1, DOWN, UP, NONE), node(2, NONE, DOWN, NONE))
    after = (node(0, NONE, UP, NONE), node(1, UP, DOWN, NONE), node(2, DOWN, NONE, NONE))
    capture = record(1) + self_ids(*before) + write_at(2, 1) + record(3) + self_ids(*after) + write_at(4, 1)
    for words in ([], ["--live"]):
        devices = devices_of(capture, *words)
        checks.check(f"devices after the root has changed: {devices}", devices == [[0, 1, 2], [2, 1, 0]])


def check_another_eui(checks: Checks) -> None:
    """A node that the walk leads to is another device if it shows another EUI-64."""
    log = Laid()
    for cycle, eui in ((0, 0x00A0B00000000001), (9000, 0x00A0B00000000002)):
        log.reset(cycle, 2)
        log.read(cycle + 10, 1, 0, EUI_64_HIGH, eui >> 32)
        log.read(cycle + 20, 1, 0, EUI_64_LOW, eui & 0xFFFFFFFF)
    devices = devices_of(captured(log.end(9100)))
    checks.check(f"devices after one was exchanged: {devices}", devices == [[0, 1], [2, 1]])


def check_block_of_rom(checks: Checks) -> None:
    """Two nodes change places, and show their EUI-64s by a read of the ROM's first 20 bytes."""
    capture = b""
    for low in ((1, 2), (2, 1)):
        capture += record(1) + self_ids(node(0, UP, NONE, NONE), node(1, UP, NONE, NONE), node(2, DOWN, DOWN, NONE))
        for number, eui in enumerate(low):
            capture += record(2, (0xFFC0 + number) << 16 | 0x150, 0xFFC2FFFF, 0xF0000400, 20 << 16, CRC, 2)
            rom = (0x0404ABCD, 0x31333934, 0, 0x00A0B000, eui)
            capture += record(3, 0xFFC20170, (0xFFC0 + number) << 16, 0, 20 << 16, CRC, *rom, CRC, 1)
    devices = devices_of(capture)
    checks.check(f"devices by a block of the ROM: {devices}", devices == [[0, 1, 2], [1, 0, 2]])


def check_many_devices(checks: Checks) -> None:
    """Three devices come with each bus reset, and those before go: after 62 the numbers are given again."""
    capture = b""
    for number in range(30):
        speed = (number % 2) << 14
        ids = [self_id & ~(3 << 14) | speed for self_id in (node(0, UP), node(1, DOWN, UP), node(2, DOWN))]
        capture += record(1) + self_ids(*ids) + write_at(2, 1)
    devices = devices_of(capture)
    first = [number for named in devices for number in named][:63]
    checks.check(f"many devices: {devices}", first == list(range(63)) and devices[21:] == [[0, 1, 2]] * 9)


def check_plugs(checks: Checks) -> None:
    """The master plug registers say how many plugs a device has; else the highest that answered does."""
    log = Laid()
    log.reset(0, 3)
    log.read(10, 2, 0, OMPR, 0x80FFFF03)
    log.read(20, 2, 0, IMPR, 0x80FF0002)
    log.read(30, 2, 1, OMPR + 8, 0x803F007A)
    log.read(40, 2, 1, IMPR + 4 * 31, 0x80000000)
    rows = [list(row) for row in rows_of(captured(log.end(100)))[0]]
    checks.check(f"plugs: {rows}", [row[1:3] for row in rows] == [[3, 2], [2, 31], [0, 0]])


def cycle_start(stamp: int, seconds: int, cycles: int) -> bytes:
    return record(stamp, 0xFFFF0080, 0xFFC2FFFF, 0xF0000200, seconds << 25 | cycles << 12, CRC, 0)


def check_time(checks: Checks) -> None:
    """Cycle starts give whole seconds of silence back: not what is no whole second, and not over a bus reset."""
    ids = phy(2500, node(0, UP)) + phy(2500, node(1, DOWN))
    capture = cycle_start(0, 5, 0) + write_at(125, 1) + cycle_start(1000, 8, 8) + write_at(1250, 1)
    capture += cycle_start(2000, 9, 4016) + write_at(2250, 1)
    capture += record(2500) + ids + cycle_start(3000, 50, 4024) + write_at(3250, 1)
    entries = read_log.read(run_here("from_nosy", [], capture).output)
    cycles = [entry.cycle for entry in entries if entry.kind == read_log.ASYNCHRONOUS]
    checks.check(f"cycles: {cycles}", cycles == [1, 24010, 24018, 24026])


def check_nodes_and_time(checks: Checks) -> None:
    for group in (check_devices, check_another_eui, check_block_of_rom, check_many_devices, check_plugs, check_time):
        group(checks)
