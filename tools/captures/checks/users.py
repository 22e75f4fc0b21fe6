"""What a user may do to a tool: wrong words, streams that are closed, full or a terminal, a pipe that is left,
Ctrl-C."""

from __future__ import annotations

import os
import pty
import subprocess
import sys

from .. import frame
from .counted import Checks
from .tools import SCRIPTS, TOOLS, VECTORS, command, run

LOG = "out_play.log"
INPUTS = {
    "from_nosy": "nosy_play.cap",
    "from_trace": "trace_pipe.trace",
    "from_isodump": "isodump_play.iso",
    "to_nosy": LOG,
    "to_pcap": LOG,
    "to_pcapng": LOG,
    "to_isodump": LOG,
}
WRONG_WORDS = {
    "from_nosy": (["--kind"], ["--kind", "63=deck"], ["--kind", "²=deck"], ["--kind", "1=vcr"], ["--byte-order", "pdp"]),
    "from_trace": (["--card", "²"], ["--card", "-1"], ["--card", "9" * 5000], ["--byte-order", "big"], ["--liv"]),
    "from_isodump": (["--live"], ["two\nlines"]),
    "to_nosy": (["--transaction", "--byte-order"],),
    "to_pcap": (["x"], ["--", "-x"]),
    "to_pcapng": (["--liv"], ["--live=1"]),
    "to_isodump": (["\udcff"],),
}


def given(tool: str) -> bytes:
    return (VECTORS / INPUTS[tool]).read_bytes()


def told_one_line(checks: Checks, what: str, ended: subprocess.CompletedProcess, status: int) -> None:
    lines = ended.stderr.decode("utf-8", "replace").splitlines()
    checks.check(f"{what}: status {ended.returncode}, {lines}", ended.returncode == status and len(lines) == 1)


def in_shell(tool: str, redirections: str, data: bytes = b"") -> subprocess.CompletedProcess:
    """A tool with redirections as a shell has them."""
    line = f'exec "$@" {redirections}'
    return subprocess.run(["sh", "-c", line, "sh", *command(tool)], input=data, capture_output=True, check=False)


def check_help(checks: Checks) -> None:
    for tool in TOOLS:
        ended = run(tool, ["--help"], b"")
        checks.check(f"{tool} --help", ended.status == 0 and ended.report == "" and b"exit status:" in ended.output)
        widest = max(map(len, ended.output.splitlines()))
        checks.check(f"{tool} --help has lines of {widest} columns", widest <= 80)
    told_one_line(checks, "--help > /dev/full", in_shell("from_nosy", "--help > /dev/full"), 6)


def check_words(checks: Checks) -> None:
    for tool, wrong in WRONG_WORDS.items():
        for words in wrong:
            try:
                TOOLS[tool].parser.parse_args(words)
                checks.check(f"{tool} {words!r:.60} is taken", False)
            except frame.Usage as why:
                checks.check(f"{tool} {words!r:.60}", str(why))
        ended = subprocess.run(command(tool, *words), input=given(tool), capture_output=True, check=False)
        told_one_line(checks, f"{tool} {words!r:.60}", ended, 2)
        checks.check(f"{tool} {words!r:.60} writes nothing", ended.stdout == b"")


def check_streams(checks: Checks) -> None:
    for tool in TOOLS:
        told_one_line(checks, f"{tool} into /dev/full", in_shell(tool, "> /dev/full", given(tool)), 6)
    for tool in ("from_trace", "to_isodump"):
        told_one_line(checks, f"{tool} without input", in_shell(tool, "<&-"), 5)
        told_one_line(checks, f"{tool} without output", in_shell(tool, ">&-", given(tool)), 6)
        bare = [sys.executable, "-u", "-I", *command(tool)[3:]]
        ended = subprocess.run(bare, input=given(tool), capture_output=True, check=False)
        same = ended.returncode == 0 and ended.stdout == run(tool, [], given(tool)).output
        checks.check(f"{tool} without buffer and path", same)
    told_one_line(checks, "input that cannot be read", in_shell("from_nosy", "0>/dev/null"), 5)
    told_one_line(checks, "output that cannot be written", in_shell("to_nosy", "1</dev/null", given("to_nosy")), 6)
    for where in ("/dev/full", "&-"):
        ended = in_shell("to_pcap", f"2>{where}", given("to_pcap"))
        checks.check(f"a report to {where}: {ended}", ended.returncode == 6 and ended.stderr == b"")
    check_terminal(checks)
    check_waiting_input(checks)
    check_left_pipe(checks)


def check_terminal(checks: Checks) -> None:
    master, terminal = pty.openpty()
    for tool in ("from_isodump", "to_nosy"):
        ended = subprocess.run(command(tool), stdin=terminal, capture_output=True, check=False)
        told_one_line(checks, f"{tool} at a terminal", ended, 2)
    os.close(terminal)
    os.close(master)


def check_waiting_input(checks: Checks) -> None:
    """A pipe that does not wait and has nothing: that is no end of the input."""
    reader, writer = os.pipe()
    os.set_blocking(reader, False)
    ended = subprocess.run(command("from_nosy"), stdin=reader, capture_output=True, check=False)
    told_one_line(checks, "input that does not wait", ended, 5)
    os.close(reader)
    os.close(writer)


def check_left_pipe(checks: Checks) -> None:
    """As `| head -1` leaves it, long before the end."""
    for tool in ("from_nosy", "to_nosy"):
        reader, writer = os.pipe()
        os.close(reader)
        ended = subprocess.run(command(tool), input=given(tool), stdout=writer, stderr=subprocess.PIPE, check=False)
        os.close(writer)
        told_one_line(checks, f"{tool} into a pipe that was left", ended, 6)


def check_scripts(checks: Checks) -> None:
    """The scripts run as they stand, from any folder."""
    for tool in ("from_isodump", "to_isodump"):
        script = str(SCRIPTS / f"{tool}.py")
        ended = subprocess.run([script], input=given(tool), capture_output=True, cwd="/", check=False)
        checks.check(f"{tool}.py as a command", ended.returncode == 0 and ended.stdout)


def check_log_of_json(checks: Checks) -> None:
    """The tool that makes a log of JSON ends by the same table, whatever comes in."""
    good = b'{"kind":6,"cycle":"0","device":0,"offset":"fffff0000220","word":"ffffffff"}\n'
    bad = (b"{", b"[]", b"7", b"{}", b'{"kind":9}', b'{"kind":1,"cycle":"0"}', b'{"kind":7,"cycle":"-1"}', b"\xff\xfe", b"\0")
    bad += (good[:40], good.replace(b"220", b"zzz"), good.replace(b"0,", b"256,"), b"[" * 100_000, b'{"kind":7,"cycle":' + b"9" * 6000 + b"}")
    for line in bad:
        ended = run("log_of_json", [], good + line)
        what = f"log_of_json of {line!r:.40}"
        checks.check(f"{what}: {ended.report}", ended.status == 4 and ended.report.startswith("log_of_json: damaged: line 2: "))
        checks.check(f"{what}: what is before", ended.output == run("log_of_json", [], good).output)
        checks.check(f"{what}: a line", ended.report.count("\n") == 1)
    checks.check("log_of_json of nothing", run("log_of_json", ["1"], b"") == (0, b"1394" + bytes((0, 0, 0, 1, *bytes(8))), ""))
    for redirections, status in (("<&-", 5), (">&-", 6), ("--help > /dev/full", 6), ("3", 2), ("1 2", 2)):
        told_one_line(checks, f"log_of_json {redirections}", in_shell("log_of_json", redirections, good), status)


def check_users(checks: Checks) -> None:
    check_help(checks)
    check_words(checks)
    check_streams(checks)
    check_scripts(checks)
    check_log_of_json(checks)
