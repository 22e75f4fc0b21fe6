"""Logs that are laid by hand, of buses on which something is odd: what nobody took is sent on, changes unseen, is
held by nobody who uses it. The word over logs that they are for does not exist yet."""

from __future__ import annotations

from typing import Callable, Dict

from .laid import Laid

BANDWIDTH, HIGH, LOW, OUT, IN = 0x220, 0x224, 0x228, 0x904, 0x984


def in_order() -> bytes:
    """All in order: nothing is told but what goes on."""
    log = Laid()
    log.reset(0, 3)
    log.swap(100, 0, 2, HIGH, 0xFFFFFFFF, 0x7FFFFFFF)
    log.swap(101, 0, 2, BANDWIDTH, 4915, 2403)
    log.read(102, 0, 1, OUT, 0x803F807A)  # a plug at S400 that the self-ID does not tell
    log.swap(103, 0, 1, OUT, 0x803F807A, 0x8100807A)
    log.stream(110, 0, 1)
    log.stream(111, 0, 1)
    log.swap(200, 2, 1, OUT, 0x8100807A, 0x8200807A)  # overlaid by another
    log.swap(300, 0, 1, OUT, 0x8200807A, 0x8100807A)
    log.swap(301, 2, 1, OUT, 0x8100807A, 0x8000807A)  # and the last one gives back
    log.swap(302, 2, 2, BANDWIDTH, 2403, 4915)
    log.swap(303, 2, 2, HIGH, 0x7FFFFFFF, 0xFFFFFFFF)
    return log.end(20000)


def real_plugs() -> bytes:
    """Plug words as real devices have them at first."""
    log = Laid()
    log.reset(0, 3)
    log.read(50, 0, 0, OUT, 0x00C001FA)  # off-line, reserved bits, another payload
    log.read(51, 0, 1, IN, 0x00000180)
    log.read(52, 0, 1, OUT, 0x80C5C07A)  # rate 3, a channel of before
    log.read(53, 0, 2, HIGH, 0xFFFFFFFE)  # channel 31 is taken by the manager itself
    log.read(54, 0, 2, BANDWIDTH, 4915)
    log.swap(60, 2, 1, IN, 0x00000180, 0x01070180)
    log.swap(61, 1, 0, OUT, 0x00C001FA, 0x01C715FA)
    return log.end(9000)


def unseen() -> bytes:
    """What changed while nobody looked."""
    log = Laid()
    log.reset(0, 3)
    log.read(10, 0, 2, HIGH, 0xBFFFFFFF)
    log.read(11, 0, 2, BANDWIDTH, 3903)
    log.read(12, 0, 2, LOW, 0xFFFFFFFE)
    log.read(13, 0, 1, OUT, 0x8101807A)  # connected, though a bus reset clears that
    log.swap(14, 0, 1, OUT, 0x8101807A, 0x8201807A, found=0x8001807A)
    log.read(15, 0, 2, HIGH, 0xFFFFFFFE)
    log.swap(16, 0, 2, BANDWIDTH, 4915, 4000, found=4915)
    return log.end(9000)


def new_in_the_second() -> bytes:
    """The second after a bus reset."""
    log = Laid()
    log.reset(0, 3)
    log.swap(100, 0, 2, HIGH, 0xFFFFFFFF, 0x7FFFFFFF)
    log.swap(101, 0, 2, BANDWIDTH, 4915, 3903)
    log.read(102, 0, 0, OUT, 0x803F807A)
    log.swap(103, 0, 0, OUT, 0x803F807A, 0x8100807A)
    log.reset(9000, 3)
    log.swap(9100, 0, 2, HIGH, 0xFFFFFFFF, 0x7FFFFFFF)  # what was before
    log.swap(9101, 0, 2, BANDWIDTH, 4915, 3903)
    log.read(9102, 0, 0, OUT, 0x8000807A)
    log.swap(9103, 0, 0, OUT, 0x8000807A, 0x8100807A)
    log.swap(9200, 1, 2, HIGH, 0x7FFFFFFF, 0x7EFFFFFF)  # and what was not
    log.swap(9201, 1, 2, BANDWIDTH, 3903, 2891)
    log.swap(9300, 2, 2, HIGH, 0x7EFFFFFF, 0x7EFFFFFE)  # the broadcast channel of IEEE 1394a: no finding
    log.swap(18000, 1, 2, LOW, 0xFFFFFFFF, 0x7FFFFFFF)  # the second is over
    return log.end(18001)


def dark_second() -> bytes:
    """A second that the log ends before its time is dark, and the next one in it."""
    log = Laid()
    log.reset(0, 3)
    log.reset(9000, 3)
    log.swap(9001, 0, 2, HIGH, 0xFFFFFFFF, 0x7FFFFFFF)  # new
    log.reset(9000 + 7950, 3)  # in that second, or after it
    log.swap(16951, 0, 2, HIGH, 0xFFFFFFFF, 0x7FFFFFFF)
    log.reset(17000, 3)
    log.swap(17001, 0, 2, HIGH, 0xFFFFFFFF, 0x7EFFFFFF)  # two at once, and nothing of what was before
    log.reset(25000, 3)
    log.swap(25001, 0, 2, HIGH, 0xFFFFFFFF, 0x3FFFFFFF)  # of these channel 1 is new
    return log.end(25002)


def more_than_a_move() -> bytes:
    """Swaps that change more than a move may."""
    log = Laid()
    log.reset(0, 3)
    log.swap(10, 0, 2, HIGH, 0xFFFFFFFF, 0x3FFFFFFF)
    log.swap(11, 0, 2, HIGH, 0x3FFFFFFF, 0xBFFFFFFF)  # one back: fine
    log.swap(12, 0, 2, HIGH, 0xBFFFFFFF, 0x7FFFFFFF)  # one back and one taken at once
    log.swap(13, 0, 2, BANDWIDTH, 4915, 5000)
    log.swap(14, 0, 2, BANDWIDTH, 5000, 4915)
    log.read(20, 0, 1, OUT, 0x803F007A)
    log.swap(21, 0, 1, OUT, 0x803F007A, 0x8200007A)  # two connections at once
    log.swap(22, 0, 1, OUT, 0x8200007A, 0x8101007A)  # another channel while one stands
    log.swap(23, 0, 1, OUT, 0x8101007A, 0x80010079)  # the payload
    log.swap(24, 0, 1, OUT, 0x80010079, 0x00010079)  # no connection: on-line
    log.swap(25, 0, 0, HIGH, 0xFFFFFFFF, 0x7FFFFFFF)  # not the resource manager
    return log.end(8009)


def streams() -> bytes:
    """Streams."""
    log = Laid()
    log.reset(0, 4)
    log.stream(5, 9, 2)  # the second after the reset: it may go on
    log.stream(8005, 9, 2)  # now nobody holds it
    log.stream(8006, 9, 2)
    log.stream(8006, 9, 3)  # and another sends on it
    log.stream(8007, 9, 2)
    log.swap(8100, 0, 3, HIGH, 0xFFFFFFFF, 0xFFBFFFFF)
    log.stream(8101, 9, 3)  # anew, since the channel was taken
    log.swap(8200, 1, 3, HIGH, 0xFFBFFFFF, 0xFF9FFFFF)
    log.read(8201, 1, 1, OUT, 0x803F807A)
    log.swap(8202, 1, 1, OUT, 0x803F807A, 0x810A807A)
    log.stream(8203, 10, 1)
    log.stream(8204, 10, 0)  # not the plug's node, and a second sender
    return log.end(8300)


def held() -> bytes:
    """Channels that are held, with nothing on them."""
    log = Laid()
    log.reset(0, 3)
    log.swap(100, 0, 2, HIGH, 0xFFFFFFFF, 0x7FFFFFFF)  # nothing
    log.swap(200, 0, 2, HIGH, 0x7FFFFFFF, 0x3FFFFFFF)  # a packet
    log.stream(300, 1, 0)
    log.swap(400, 1, 2, HIGH, 0x3FFFFFFF, 0x1FFFFFFF)  # an input plug
    log.read(401, 1, 1, IN, 0x80020000)
    log.swap(402, 1, 1, IN, 0x80020000, 0x81020000)
    log.swap(500, 1, 2, HIGH, 0x1FFFFFFF, 0x1FFFFFFE)  # channel 31
    log.swap(600, 1, 2, LOW, 0xFFFFFFFF, 0x7FFFFFFF)  # given back in time
    log.swap(700, 1, 2, LOW, 0x7FFFFFFF, 0xFFFFFFFF)
    log.swap(800, 1, 2, LOW, 0xFFFFFFFF, 0xFFFFFFFE)  # nothing, but a bus reset comes
    log.reset(8799, 3)
    return log.end(30000)


def no_reset() -> bytes:
    """No bus reset: nothing is known before it was shown."""
    log = Laid()
    log.read(0, 0, 2, HIGH, 0x7FFFFFFF)
    log.stream(1, 0, 1)
    log.stream(2, 5, 1)
    log.swap(3, 1, 2, HIGH, 0x7FFFFFFF, 0x3FFFFFFF)
    log.swap(4, 1, 1, HIGH, 0xFFFFFFFF, 0x7FFFFFFF)
    log.stream(5, 5, 0)
    return log.end(6)


def no_manager() -> bytes:
    """Neither resource manager nor nodes that are there."""
    log = Laid()
    log.reset(0, 2, None)
    log.swap(1, 0, 1, HIGH, 0xFFFFFFFF, 0x7FFFFFFF)
    log.read(2, 0, 7, OUT, 0x803F007A)
    log.stream(9000, 3, 1)
    return log.end(9001)


LOGS: Dict[str, Callable[[], bytes]] = {
    "watch_in_order": in_order,
    "watch_real_plugs": real_plugs,
    "watch_unseen": unseen,
    "watch_new_in_the_second": new_in_the_second,
    "watch_dark_second": dark_second,
    "watch_more_than_a_move": more_than_a_move,
    "watch_streams": streams,
    "watch_held": held,
    "watch_no_reset": no_reset,
    "watch_no_manager": no_manager,
}
