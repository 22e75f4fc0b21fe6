"""A tool that is fed by and by: each entry comes as soon as its record is there, and Ctrl-C ends it."""

from __future__ import annotations

import array
import fcntl
import select
import signal
import subprocess
import termios
import time
from typing import List

from . import read_log
from .counted import Checks
from .tools import VECTORS, command, run

HEADER, END = 16, 16  # bytes of a log's header, and of its last entry
OF_BUS_RESETS = (8, 20)  # bytes of a record of a bus reset, and of one of a self-ID packet
LOG_HEADER, ENTRY_HEAD = 16, 16  # bytes of a log of version 2
PCAPNG_HEADER, AROUND_PACKET = 68, 32  # bytes before the first packet of a pcapng file, and beside each packet
PATIENCE = 60  # seconds


class Running:
    """A tool that is fed by and by."""

    def __init__(self, tool: str, *words: str):
        pipe = subprocess.PIPE
        self.process = subprocess.Popen(command(tool, *words), stdin=pipe, stdout=pipe, stderr=pipe, bufsize=0)

    def give(self, data: bytes) -> None:
        self.process.stdin.write(data)

    def take(self, size: int) -> bytes:
        """So many bytes of output, as soon as they are there."""
        data = b""
        while len(data) < size and select.select([self.process.stdout], [], [], PATIENCE)[0]:
            more = self.process.stdout.read(size - len(data))
            if not more:
                break
            data += more
        return data

    def interrupt(self) -> None:
        self.process.send_signal(signal.SIGINT)

    def ends_by_itself(self) -> bool:
        """Whether it ends though its input has not."""
        try:
            self.process.wait(timeout=PATIENCE)
            return True
        except subprocess.TimeoutExpired:
            return False

    def end(self) -> List[bytes]:
        """What is left of the output, and the report."""
        try:
            return list(self.process.communicate(timeout=PATIENCE))
        except subprocess.TimeoutExpired:
            self.process.kill()
            return [b"", b"it does not end"]


def wait_until_read(running: Running) -> None:
    """Until the tool has taken what it was given, and so waits for more."""
    for _ in range(600):
        size = array.array("i", [0])
        fcntl.ioctl(running.process.stdin.fileno(), termios.FIONREAD, size)
        if size[0] == 0:
            return
        time.sleep(0.05)


def check_interrupt(checks: Checks) -> None:
    """Ctrl-C ends a tool as any program; with --live it is the end of the capture."""
    running = Running("from_nosy")
    running.give((VECTORS / "nosy_rivals.cap").read_bytes())
    wait_until_read(running)
    running.interrupt()
    _, report = running.end()
    status = running.process.returncode
    checks.check(f"Ctrl-C: {status}, {report!r:.200}", status == -signal.SIGINT and not report)
    check_live_interrupt(checks, "from_nosy", "nosy_rivals.cap", "nosy_rivals_live")
    check_live_interrupt(checks, "from_trace", "trace_pipe.trace", "trace_pipe_live")


def check_live_interrupt(checks: Checks, tool: str, capture: str, vector: str) -> None:
    due, report_due = ((VECTORS / f"{vector}.{end}").read_bytes() for end in ("log", "report"))
    running = Running(tool, "--live")
    running.give((VECTORS / capture).read_bytes())
    begun = running.take(len(due) - END)
    running.interrupt()
    has_ended = running.ends_by_itself()
    rest, report = running.end()
    status = running.process.returncode
    same = has_ended and (status, begun + rest, report) == (0, due, report_due)
    checks.check(f"{tool} --live and Ctrl-C: {status}, {report!r:.200}", same)


def pieces_of(tool: str, capture: bytes) -> List[bytes]:
    """The records of a little-endian capture of nosy-dump, or the lines of a trace."""
    if tool == "from_trace":
        return capture.splitlines(True)
    pieces: List[bytes] = []
    while capture:
        size = 4 + int.from_bytes(capture[:4], "little")
        pieces.append(capture[:size])
        capture = capture[size:]
    return pieces


def entries_so_far(tool: str, capture: bytes) -> int:
    """How many bytes of a log there are by now: those of the log of what there is of the capture, without its end."""
    return len(run(tool, ["--live"], capture).output) - END


def check_live(checks: Checks) -> None:
    """The entry of a record that was given is there before the next one is given."""
    for tool, name in (("from_nosy", "nosy_rivals.cap"), ("from_trace", "trace_pipe.trace")):
        capture = (VECTORS / name).read_bytes()
        due = run(tool, ["--live"], capture).output
        pieces = pieces_of(tool, capture)
        running, begun, given = Running(tool, "--live"), b"", 0
        for until in (1, 30, 31, 60, len(pieces)):
            while until < len(pieces) and len(pieces[until - 1]) in OF_BUS_RESETS:
                until += 1  # a bus reset is told when the record after its self-ID packets is there
            running.give(b"".join(pieces[given:until]))
            given = until
            begun += running.take(entries_so_far(tool, b"".join(pieces[:until])) - len(begun))
        rest, _ = running.end()
        same = begun + rest == due and len(read_log.read(due)) > 50
        checks.check(f"{tool} --live: the log as the capture grows", same)


def check_live_log(checks: Checks) -> None:
    """The packet of an entry is there before the next entry is given, and Ctrl-C is the end of the log."""
    log = (VECTORS / "out_play.log").read_bytes()
    due = run("to_pcapng", [], log).output
    packets = due[PCAPNG_HEADER:]
    running, given = Running("to_pcapng", "--live"), LOG_HEADER
    running.give(log[:given])
    same = running.take(PCAPNG_HEADER) == due[:PCAPNG_HEADER]
    for entry in read_log.read(log)[:60]:
        size = ENTRY_HEAD + len(entry.body)
        running.give(log[given : given + size])
        same &= running.take(AROUND_PACKET + size) == packets[: AROUND_PACKET + size]
        given, packets = given + size, packets[AROUND_PACKET + size :]
    running.interrupt()
    has_ended = running.ends_by_itself()
    _, report = running.end()
    told = (running.process.returncode, report.decode().splitlines()[-1:])
    due_end = (4, [f"to_pcapng: damaged: byte {given}: NoEnd"])
    checks.check(f"to_pcapng --live: {told}", same and has_ended and told == due_end)


def check_growing(checks: Checks) -> None:
    check_interrupt(checks)
    check_live(checks)
    check_live_log(checks)
