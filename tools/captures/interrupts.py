"""What Ctrl-C does to a tool. A shell that starts a job with SIGINT ignored has it its way."""

import signal
from typing import Callable


def end_quietly() -> None:
    """Ctrl-C ends the tool as it ends a program in C: at once, and without a trace of Python."""
    if signal.getsignal(signal.SIGINT) is signal.default_int_handler:
        signal.signal(signal.SIGINT, signal.SIG_DFL)


def call_once(act: Callable[[], None]) -> None:
    """The first Ctrl-C calls `act`, and a second one ends the tool."""

    def first_one(_number, _frame):
        signal.signal(signal.SIGINT, signal.SIG_DFL)
        act()

    if signal.getsignal(signal.SIGINT) is not signal.SIG_IGN:
        signal.signal(signal.SIGINT, first_one)


def end_now() -> None:
    """Ends the tool as Ctrl-C does."""
    signal.signal(signal.SIGINT, signal.SIG_DFL)
    signal.raise_signal(signal.SIGINT)
