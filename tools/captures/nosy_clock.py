"""The time of a capture of nosy-dump. Its stamps have microseconds without seconds; cycle starts give the seconds
back."""

from __future__ import annotations

from typing import NamedTuple, Optional

from .happenings import TIME_GOES_BACK
from .tally import Tally
from .times import CYCLE_MICROSECONDS, MICROSECONDS, SECOND

# A stamp that is less than a millisecond before the one before it: the clock was set back.
LEAST_STEP_BACK = MICROSECONDS - 1000
CYCLE_TIME_PERIOD = 128 * SECOND  # cycles after which CYCLE_TIME begins anew
NEAR = 800  # cycles by which a silence may differ from whole seconds


class Started(NamedTuple):
    """A cycle start: CYCLE_TIME, in cycles, and the cycle of the log."""

    cycle_time: int
    cycle: int


class Clock:
    """Cycles since the first record."""

    def __init__(self, tally: Tally):
        self._tally = tally
        self._stamp: Optional[int] = None
        self._passed = 0  # microseconds by the stamps
        self._silent = 0  # cycles of silence that no stamp shows
        self._latest: Optional[Started] = None
        self.has_cycle_starts = False

    def now(self) -> int:
        return self._silent + self._passed // CYCLE_MICROSECONDS

    def stamp(self, stamp: int) -> int:
        """The cycle of a record with this time stamp."""
        stamp %= MICROSECONDS
        passed = 0 if self._stamp is None else (stamp - self._stamp) % MICROSECONDS
        if passed > LEAST_STEP_BACK:
            self._tally.change(TIME_GOES_BACK)
        else:
            self._stamp = stamp
            self._passed += passed
        return self.now()

    def bus_reset(self) -> None:
        """The next cycle start may be another cycle master's, with another time."""
        self._latest = None

    def cycle_start(self, cycle_time: int) -> None:
        """A cycle start came, with CYCLE_TIME as its quadlet is: seconds 7, cycles 13, offset 12. Whole seconds that
        it shows and the stamps do not were a silence."""
        seconds, cycles = cycle_time >> 25, cycle_time >> 12 & 0x1FFF
        if cycles >= SECOND:  # there is no such time
            return
        self.has_cycle_starts = True
        time = seconds * SECOND + cycles
        if self._latest is not None:
            self._silent += self._silence(self._latest, time)
        self._latest = Started(time, self.now())

    def _silence(self, before: Started, time: int) -> int:
        missed = (time - before.cycle_time) % CYCLE_TIME_PERIOD - (self.now() - before.cycle)
        whole_seconds = (missed + SECOND // 2) // SECOND * SECOND
        return whole_seconds if whole_seconds > 0 and abs(missed - whole_seconds) <= NEAR else 0
