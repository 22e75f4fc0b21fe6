"""Units of time."""

CYCLE_MICROSECONDS = 125  # of an isochronous cycle
MICROSECONDS = 1_000_000  # of a second
SECOND = 8000  # cycles
