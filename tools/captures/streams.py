"""The standard streams of the tools. What fails says whether it was reading or writing."""

from __future__ import annotations

import os
import sys
from typing import BinaryIO, Callable, Iterator

from . import interrupts

STANDARD_OUTPUT, STANDARD_ERROR = 1, 2
PIECE = 1 << 16  # bytes


class TerminalInput(Exception):
    """Standard input is a terminal: nobody types a capture."""


class ReadFault(Exception):
    """Standard input could not be read."""


class WriteFault(Exception):
    """Standard output could not be written."""


class Input:
    """Bytes of a stream: as many as are asked for, or fewer at its end."""

    def __init__(self, stream: BinaryIO):
        self._stream = stream

    def read(self, size: int = -1) -> bytes:
        return self._ask(lambda: self._stream.read(size))

    def read_line(self, longest: int) -> bytes:
        """A line with its line feed, of at most so many bytes: a longer one comes in pieces."""
        return self._ask(lambda: self._stream.readline(longest))

    def pieces(self) -> Iterator[bytes]:
        """What is there, as it comes."""
        while True:
            piece = self._ask(lambda: self._stream.read1(PIECE))
            if not piece:
                return
            yield piece

    def _ask(self, read: Callable[[], bytes]) -> bytes:
        try:
            data = read()
        except OSError as fault:
            raise ReadFault() from fault
        if data is None:  # a stream that does not wait has nothing now, which is not its end
            raise ReadFault()
        return data


class GrowingInput(Input):
    """A capture that grows. Ctrl-C is its end, so that what is made of it gets its own end and its report."""

    def __init__(self, stream: BinaryIO):
        super().__init__(stream)
        self._ended = False
        self._waits = False
        interrupts.call_once(self._end)

    def _end(self) -> None:
        self._ended = True
        if self._waits:
            raise KeyboardInterrupt()

    def _ask(self, read: Callable[[], bytes]) -> bytes:
        try:
            self._waits = True  # first, so that no Ctrl-C falls between the look at `_ended` and the wait
            return b"" if self._ended else super()._ask(read)
        except KeyboardInterrupt:
            return b""
        finally:
            self._waits = False


class Output:
    """Standard output. If `at_once`, what is written at a time is handed on at once."""

    def __init__(self, stream: BinaryIO, at_once: bool = False):
        self._stream = stream
        self._at_once = at_once

    def write(self, data: bytes) -> None:
        rest = data
        try:
            while (taken := self._stream.write(rest)) != len(rest):
                if taken is None:  # a stream that does not wait takes nothing now
                    raise WriteFault()
                rest = memoryview(rest)[taken:]  # without a buffer, as a user may have it, a part may be taken
            if self._at_once:
                self._stream.flush()
        except OSError as fault:
            raise WriteFault() from fault

    def flush(self) -> None:
        try:
            self._stream.flush()
        except OSError as fault:
            raise WriteFault() from fault


def standard_input(grows: bool = False) -> Input:
    """Standard input, if it is there and is no terminal."""
    if sys.stdin is None:
        raise ReadFault()
    if sys.stdin.isatty():
        raise TerminalInput()
    return (GrowingInput if grows else Input)(sys.stdin.buffer)


def standard_output(at_once: bool = False) -> Output:
    if sys.stdout is None:
        raise WriteFault()
    return Output(sys.stdout.buffer, at_once)


def give_up_output() -> None:
    """What is still kept for standard output goes nowhere: the interpreter would try to write it at its end."""
    if sys.stdout is not None:
        os.dup2(os.open(os.devnull, os.O_WRONLY), STANDARD_OUTPUT)


def tell(line: str) -> bool:
    """Writes a line to standard error, without a buffer that could fail later. False if it cannot be written."""
    if sys.stderr is None:
        return False
    try:
        os.write(STANDARD_ERROR, (line + "\n").encode("ascii", "backslashreplace"))
        return True
    except OSError:
        return False
